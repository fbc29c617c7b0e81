//! Starts the logger `hut`, kills it (SIGKILL) at a random moment, and starts it again, so many times:
//! `crash HUT FOLDER TIMES`. After each kill it checks that no save that was announced is lost, that
//! the start did not fail, and that every snapshot in the folder is one for the independent model too.

use std::io::{BufRead, BufReader};
use std::path::Path;
use std::process::{Command, ExitCode, Stdio};
use std::thread::sleep;
use std::time::Duration;

use crash::{announced, check_files, last_saved, Saved};
use wallathi_model::rng::Rng;

/// Runs the logger until it is killed; what it wrote.
fn killed_after(hut: &str, folder: &Path, wait: Duration) -> Vec<String> {
    let mut child =
        Command::new(hut).arg(folder).stdout(Stdio::piped()).spawn().expect("the logger can be started");
    let output = BufReader::new(child.stdout.take().expect("a pipe"));
    sleep(wait);
    child.kill().expect("the logger still runs");
    child.wait().expect("the logger ends");
    output.lines().map_while(Result::ok).collect()
}

/// One line of the output tells of a start from at least what was saved, none of a failure.
fn check_start(lines: &[String], before: Saved) -> Result<(), String> {
    if let Some(failed) = lines.iter().find(|line| line.starts_with("failed")) {
        return Err(failed.clone());
    }
    match lines.first().map(String::as_str) {
        None => Ok(()), // killed before it had started
        Some("set up") if before == Saved::default() => Ok(()),
        Some(line) => match announced(line, "loaded") {
            Some(loaded) if before <= loaded => Ok(()),
            _ => Err(format!("{before:?} was saved, and the start says: {line}")),
        },
    }
}

fn run(hut: &str, folder: &Path, times: u32) -> Result<(), String> {
    let mut rng = Rng::new(11);
    let mut saved = Saved::default();
    for round in 0..times {
        let wait = Duration::from_micros(500 + rng.below(40_000));
        let lines = killed_after(hut, folder, wait);
        check_start(&lines, saved).map_err(|e| format!("round {round}: {e}"))?;
        saved = last_saved(&lines, saved);
        if folder.exists() {
            check_files(folder, saved).map_err(|e| format!("round {round}: {e}"))?;
        }
    }
    println!("{times} kills; the last save is {saved:?}");
    if saved == Saved::default() {
        return Err("nothing was ever saved".to_string());
    }
    Ok(())
}

fn main() -> ExitCode {
    let arguments: Vec<String> = std::env::args().skip(1).collect();
    let [hut, folder, times] = &arguments[..] else {
        eprintln!("usage: crash HUT FOLDER TIMES");
        return ExitCode::from(2);
    };
    let times = times.parse().expect("a number of times");
    match run(hut, Path::new(folder), times) {
        Ok(()) => ExitCode::SUCCESS,
        Err(why) => {
            eprintln!("crash: {why}");
            ExitCode::FAILURE
        }
    }
}
