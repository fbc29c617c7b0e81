//! Starts the logger `hut` where calls of the system fail, by a wrapper that is loaded before the C library,
//! and looks at what it says, how it ends and what its folder then has: `faults HUT PRELOAD FOLDER`.

use std::collections::BTreeMap;
use std::fmt::Debug;
use std::fs;
use std::io::{BufRead, BufReader, Lines};
use std::path::{Path, PathBuf};
use std::process::{Child, ChildStdout, Command, ExitCode, Stdio};

use crash::{announced, check_files, last_saved, Saved};
use wallathi_model::id::Id;
use wallathi_model::ledger::Ledger;
use wallathi_model::snapshot;

const NO_ACCESS: (u32, &str) = (13, "Permission denied");
const BAD_DISK: (u32, &str) = (5, "Input/output error");
const NO_FILE_LEFT: (u32, &str) = (24, "Too many open files");
const FULL_DISK: (u32, &str) = (28, "No space left on device");
const READ_ONLY: (u32, &str) = (30, "Read-only file system");
const ALWAYS: (u32, u32) = (1, 1_000_000);

type Outcome = Result<(), String>;

struct Place {
    hut: PathBuf,
    preload: PathBuf,
    folder: PathBuf,
}

/// What a run of the logger wrote, and whether it ended with status 0.
#[derive(Debug, PartialEq, Eq)]
struct Ran {
    lines: Vec<String>,
    well: bool,
}

impl Place {
    /// The logger for so many messages.
    fn command(&self, messages: u64) -> Command {
        let mut command = Command::new(&self.hut);
        command.arg(&self.folder).arg(messages.to_string());
        command
    }

    /// The same where calls of one kind on paths with an ending fail, from one to another.
    fn failing(&self, messages: u64, call: &str, error: u32, calls: (u32, u32), suffix: &str) -> Command {
        let mut command = self.command(messages);
        let fault = format!("{call} {error} {} {} {suffix}", calls.0, calls.1);
        command.env("LD_PRELOAD", &self.preload).env("FAULT", fault);
        command
    }

    fn file(&self, name: &str) -> PathBuf {
        self.folder.join(name)
    }

    fn snapshot(&self, number: u64) -> PathBuf {
        self.file(&format!("{number:020}.snapshot"))
    }

    /// Three saves: 1 up to 5000, 2 up to 10000, 3 up to 15000.
    fn three_saves(&self) -> Outcome {
        same("three saves", ran(&mut self.command(15)).well, true)
    }

    /// The files of the folder by name.
    fn files(&self) -> BTreeMap<String, Vec<u8>> {
        let entries = fs::read_dir(&self.folder).expect("the folder can be read");
        let paths = entries.map(|entry| entry.expect("an entry").path());
        paths.map(|path| (name_of(&path), fs::read(&path).expect("a file"))).collect()
    }
}

fn name_of(path: &Path) -> String {
    path.file_name().expect("a name").to_string_lossy().into_owned()
}

fn ran(command: &mut Command) -> Ran {
    let output = command.output().expect("the logger can be started");
    let lines = String::from_utf8_lossy(&output.stdout).lines().map(str::to_string).collect();
    Ran { lines, well: output.status.success() }
}

fn same<T: Debug + PartialEq>(what: &str, seen: T, wanted: T) -> Outcome {
    if seen == wanted {
        return Ok(());
    }
    Err(format!("{what}: {seen:?} instead of {wanted:?}"))
}

fn says(what: &str, seen: Ran, well: bool, lines: &[&str]) -> Outcome {
    same(what, seen, Ran { lines: lines.iter().map(|line| line.to_string()).collect(), well })
}

fn fault(step: &str, why: &str) -> String {
    format!("fault: cannot save: {step}: {why}; logging goes on in memory")
}

/// What the system does not let the start read ends it, and every file stays.
fn unreadable(place: &Place) -> Outcome {
    place.three_saves()?;
    let before = place.files();
    let each = |step: &str, why: &str| {
        let files: Vec<String> = (1..=3).map(|number| format!("{number}: {step}: {why}")).collect();
        files.join("; ")
    };
    let whole = |step: &str, why: &str| format!("{step}: {why}");
    let folder = name_of(&place.folder);
    let cases = [
        ("open", NO_ACCESS, 1, ".snapshot", each("open", NO_ACCESS.1)),
        ("open", NO_FILE_LEFT, 1, ".snapshot", each("open", NO_FILE_LEFT.1)),
        ("read", BAD_DISK, 1, ".snapshot", each("read", BAD_DISK.1)),
        ("opendir", NO_FILE_LEFT, 1, &folder, whole("opendir", NO_FILE_LEFT.1)),
        ("readdir", BAD_DISK, 1, &folder, whole("readdir", BAD_DISK.1)),
        ("readdir", BAD_DISK, 4, &folder, whole("readdir", BAD_DISK.1)),
        ("open", READ_ONLY, 1, "lock", whole("open lock", READ_ONLY.1)),
    ];
    for (call, error, from, suffix, message) in cases {
        let seen = ran(&mut place.failing(40, call, error.0, (from, ALWAYS.1), suffix));
        says(call, seen, false, &[&format!("failed start: {message}")])?;
        same(call, place.files(), before.clone())?;
    }
    Ok(())
}

/// The newest unreadable: an older one is not taken in its place. An older one unreadable: it stays.
fn one_unreadable(place: &Place) -> Outcome {
    place.three_saves()?;
    let before = place.files();
    let newest = ran(&mut place.failing(40, "open", NO_ACCESS.0, ALWAYS, "3.snapshot"));
    says("the newest", newest, false, &["failed start: 3: open: Permission denied"])?;
    same("the newest", place.files(), before)?;
    let oldest = ran(&mut place.failing(40, "open", NO_ACCESS.0, ALWAYS, "1.snapshot"));
    same("the oldest", oldest.well, true)?;
    let first = oldest.lines.first().map(String::as_str);
    same("the oldest", first, Some("1: open: Permission denied; loaded 3 up to 15000"))?;
    let kept: Vec<bool> = [1, 2, 3, 9, 10, 11].map(|number| place.snapshot(number).exists()).to_vec();
    same("files", kept, vec![true, false, false, true, true, true])
}

/// A file that load refuses is set aside and stays, and its number is not given again.
fn refused(place: &Place) -> Outcome {
    place.three_saves()?;
    let whole = fs::read(place.snapshot(3)).expect("the third save");
    fs::write(place.snapshot(3), &whole[..whole.len() - 1]).expect("a shorter file");
    let seen = ran(&mut place.command(7));
    let start = "3 is no snapshot (16), set aside; loaded 2 up to 10000";
    says("one", seen, true, &[start, "saved 4 up to 15000", "saved 5 up to 17000"])?;
    for number in [4, 5] {
        fs::write(place.snapshot(number), "no snapshot").expect("a file");
    }
    let seen = ran(&mut place.command(1));
    let start = "4 is no snapshot (16), set aside; 5 is no snapshot (16), set aside; loaded 2 up to 10000";
    says("two", seen, true, &[start, "saved 6 up to 11000"])?;
    same("many", ran(&mut place.command(100)).well, true)?;
    let aside = fs::read(place.file("00000000000000000003.snapshot.refused")).map_err(|e| e.to_string())?;
    same("set aside", aside, whole[..whole.len() - 1].to_vec())
}

/// More refused files than are listed at once: an older one is still found; where all are refused, set up.
fn many_refused(place: &Place) -> Outcome {
    place.three_saves()?;
    for number in 4..=70 {
        fs::write(place.snapshot(number), "no snapshot").expect("a file");
    }
    let seen = ran(&mut place.command(0));
    let line = seen.lines.first().map_or("", String::as_str);
    same("first", line.starts_with("39 is no snapshot (16), set aside; 40 is no snapshot"), true)?;
    same("loaded", (seen.well, line.ends_with("loaded 3 up to 15000")), (true, true))?;
    says("again", ran(&mut place.command(1)), true, &["loaded 3 up to 15000", "saved 71 up to 16000"])?;
    let before = place.files();
    for (name, file) in before.iter().filter(|(name, _)| name.ends_with(".snapshot")) {
        fs::write(place.file(name), &file[1..]).expect("a file");
    }
    let start = "2 is no snapshot (16), set aside; 3 is no snapshot (16), set aside; 71 is no snapshot (16), set aside; set up";
    says("all", ran(&mut place.command(1)), true, &[start, "saved 72 up to 1000"])?;
    same("files", place.files().len(), before.len() + 1)
}

/// Where a file cannot be set aside, the start ends and the file stays.
fn not_set_aside(place: &Place) -> Outcome {
    place.three_saves()?;
    fs::write(place.snapshot(3), "no snapshot").expect("a file");
    let before = place.files();
    let seen = ran(&mut place.failing(40, "rename", READ_ONLY.0, ALWAYS, ".refused"));
    says("a rename that fails", seen, false, &["failed start: 3: rename: Read-only file system"])?;
    same("files", place.files(), before)?;
    fs::write(place.file("00000000000000000003.snapshot.refused"), "another").expect("a file");
    let before = place.files();
    says("a name taken", ran(&mut place.command(40)), false, &["failed start: 3: rename: File exists"])?;
    same("files", place.files(), before)
}

/// Saves that fail: logging goes on, the fault is said when it begins and when it ends, nothing is left over.
fn saves_fail(place: &Place) -> Outcome {
    let folder = name_of(&place.folder);
    let cases = [
        ("write", FULL_DISK, "saving", "write"),
        ("fsync", BAD_DISK, "saving", "fsync"),
        ("open", READ_ONLY, "saving", "open"),
        ("rename", NO_ACCESS, ".snapshot", "rename"),
        ("fsync", BAD_DISK, &folder, "fsync folder"),
    ];
    for (call, error, suffix, step) in cases {
        place.three_saves()?;
        let seen = ran(&mut place.failing(25, call, error.0, (2, 3), suffix));
        let said = fault(step, error.1);
        let start = ["loaded 3 up to 15000", "saved 4 up to 20000", &said];
        let end = ["fault ended", "saved 5 up to 35000", "saved 6 up to 40000"];
        says(step, seen, true, &[&start[..], &end[..]].concat())?;
        let names: Vec<String> = place.files().into_keys().collect();
        let wanted = [4, 5, 6].map(|number| name_of(&place.snapshot(number)));
        same(step, names, [&wanted[..], &["lock".to_string()]].concat())?;
        check_files(&place.folder, Saved { number: 6, up_to: 40_000 })?;
        fs::remove_dir_all(&place.folder).expect("a new folder for each case");
    }
    Ok(())
}

/// A fault that lasts: the last accepted save is what the next start loads, and the end is no success.
fn disk_stays_full(place: &Place) -> Outcome {
    place.three_saves()?;
    let before = place.files();
    let seen = ran(&mut place.failing(50, "write", FULL_DISK.0, ALWAYS, "saving"));
    says("full", seen, false, &["loaded 3 up to 15000", &fault("write", FULL_DISK.1)])?;
    same("files", place.files(), before)?;
    says("the next start", ran(&mut place.command(0)), true, &["loaded 3 up to 15000"])
}

/// What a save that was cut off left behind goes at the start.
fn left_behind(place: &Place) -> Outcome {
    place.three_saves()?;
    fs::write(place.file("saving"), "half a snapshot").expect("a file");
    same("the start", ran(&mut place.command(0)).well, true)?;
    same("left behind", place.file("saving").exists(), false)
}

/// The folder's own name is on the disk before the first save: its parent is synced.
fn parent_synced(place: &Place) -> Outcome {
    let parent = name_of(place.folder.parent().expect("a parent"));
    let seen = ran(&mut place.failing(5, "fsync", BAD_DISK.0, ALWAYS, &parent));
    says("the parent", seen, false, &["failed start: fsync folder: Input/output error"])?;
    same("the folder", place.folder.exists(), false)
}

/// The clock behind the last message, and above it again.
fn clock_goes_back(place: &Place) -> Outcome {
    place.three_saves()?;
    let seen = ran(place.command(4).arg("13500"));
    let back = "clock 13500 is not above the last message: its ID is 15000-1";
    let again = "clock 15500 is above the last message again";
    says("back", seen, true, &["loaded 3 up to 15000", back, again, "saved 4 up to 16500"])
}

/// The last ms and the last number that there are: both are loaded, and above the number is none for a save.
fn greatest(place: &Place) -> Outcome {
    let mut ledger = Ledger::empty();
    ledger.last_id = Id::new(u64::MAX, 0);
    ledger.messages.insert(ledger.last_id, vec![(b"east".to_vec(), b"0".to_vec())]);
    fs::create_dir(&place.folder).expect("a folder");
    let file = snapshot::snapshot(&ledger).expect("a snapshot");
    fs::write(place.snapshot(1), &file).expect("a file");
    let last = u64::MAX;
    let clock = format!("clock 999 is not above the last message: its ID is {last}-1");
    let (loaded, saved) = (format!("loaded 1 up to {last}"), format!("saved 2 up to {last}"));
    says("the last ms", ran(&mut place.command(1)), true, &[&loaded, &clock, &saved])?;
    fs::write(place.snapshot(last), file).expect("a file");
    let loaded = format!("loaded {last} up to {last}");
    let none_left = fault("next number", "Value too large for defined data type");
    says("greatest", ran(&mut place.command(1)), false, &[&loaded, &clock, &none_left])
}

/// A logger that runs until it is ended.
struct Running {
    child: Child,
    lines: Lines<BufReader<ChildStdout>>,
}

impl Running {
    fn start(place: &Place) -> Running {
        let mut command = Command::new(&place.hut);
        let child = command.arg(&place.folder).stdout(Stdio::piped()).spawn();
        let mut child = child.expect("the logger can be started");
        let output = child.stdout.take().expect("a pipe");
        Running { child, lines: BufReader::new(output).lines() }
    }

    /// The lines up to the first that begins so.
    fn until(&mut self, start: &str) -> Result<Vec<String>, String> {
        let mut seen = Vec::new();
        for line in self.lines.by_ref().map_while(Result::ok) {
            seen.push(line);
            if seen.last().is_some_and(|line| line.starts_with(start)) {
                return Ok(seen);
            }
        }
        Err(format!("no line '{start}' after {:?}", seen.last()))
    }

    /// The remaining lines after a signal.
    fn end(mut self, signal: &str) -> Ran {
        let process = self.child.id().to_string();
        let sent = Command::new("sh").args(["-c", "kill \"$0\" \"$1\"", signal, &process]).status();
        assert!(sent.expect("a shell can be started").success());
        let lines = self.lines.by_ref().map_while(Result::ok).collect();
        Ran { lines, well: self.child.wait().expect("the logger ends").success() }
    }
}

impl Drop for Running {
    fn drop(&mut self) {
        let _ = self.child.kill();
        let _ = self.child.wait();
    }
}

/// A second logger is turned away as long as the first lives.
fn second(place: &Place) -> Outcome {
    let mut first = Running::start(place);
    first.until("saved 2")?;
    let away = format!("failed start: another logger has the folder {}", place.folder.display());
    says("the second", ran(&mut place.command(5)), false, &[&away])?;
    first.until("saved")?;
    same("the first", first.end("-KILL").well, false)?;
    same("after it", ran(&mut place.command(5)).well, true)
}

/// The signals that end a process save first: live, and with the save before it failed.
fn signals(place: &Place) -> Outcome {
    for (signal, number) in [("-TERM", 15), ("-INT", 2), ("-HUP", 1)] {
        let mut running = Running::start(place);
        running.until("saved")?;
        let rest = running.end(signal);
        let saved = last_saved(&rest.lines, Saved::default());
        let told = rest.lines.contains(&format!("ended by signal {number}"));
        same(signal, (rest.well, told), (true, true))?;
        let again = ran(&mut place.command(0));
        let loaded = again.lines.first().and_then(|line| announced(line, "loaded"));
        if loaded.is_none_or(|loaded| loaded < saved) {
            return Err(format!("{signal}: {saved:?} was saved, and {again:?}"));
        }
    }
    fs::remove_dir_all(&place.folder).expect("a new folder");
    let mut command = place.failing(50, "rename", BAD_DISK.0, (2, 2), ".snapshot 15");
    let lines =
        ["set up", "saved 1 up to 5000", &fault("rename", BAD_DISK.1), "ended by signal 15", "fault ended"];
    says("unsaved", ran(&mut command), true, &[&lines[..], &["saved 2 up to 10000"]].concat())
}

/// A folder that goes away and comes back: what was saved is in it, and saving goes on.
fn folder_goes(place: &Place) -> Outcome {
    let away = place.folder.with_extension("away");
    let mut running = Running::start(place);
    let mut lines = running.until("saved 3")?;
    fs::rename(&place.folder, &away).expect("the folder can be moved");
    lines.extend(running.until("fault: cannot save: open lock: No such file or directory;")?);
    check_files(&away, last_saved(&lines, Saved::default()))?;
    fs::rename(&away, &place.folder).expect("the folder can be moved back");
    lines.extend(running.until("fault ended")?);
    lines.extend(running.until("saved")?);
    let rest = running.end("-TERM");
    same("the end", rest.well, true)?;
    check_files(&place.folder, last_saved(&rest.lines, last_saved(&lines, Saved::default())))
}

type Case = (&'static str, fn(&Place) -> Outcome);

const CASES: [Case; 14] = [
    ("unreadable", unreadable),
    ("one unreadable", one_unreadable),
    ("refused", refused),
    ("many refused", many_refused),
    ("not set aside", not_set_aside),
    ("saves fail", saves_fail),
    ("disk stays full", disk_stays_full),
    ("left behind", left_behind),
    ("parent synced", parent_synced),
    ("clock goes back", clock_goes_back),
    ("greatest", greatest),
    ("second", second),
    ("signals", signals),
    ("folder goes", folder_goes),
];

fn main() -> ExitCode {
    let arguments: Vec<PathBuf> = std::env::args_os().skip(1).map(PathBuf::from).collect();
    let [hut, preload, folder] = &arguments[..] else {
        eprintln!("usage: faults HUT PRELOAD FOLDER");
        return ExitCode::from(2);
    };
    let absolute = |path: &PathBuf| path.canonicalize().expect("a path that is there");
    let _ = fs::remove_dir_all(folder);
    fs::create_dir_all(folder).expect("a folder for all cases");
    let mut failed = 0;
    for (name, case) in CASES {
        let own = absolute(folder).join(name.replace(' ', "_"));
        let place = Place { hut: absolute(hut), preload: absolute(preload), folder: own };
        if let Err(why) = case(&place) {
            eprintln!("faults: {name}: {why}");
            failed += 1;
        }
    }
    println!("{} cases of faults, {failed} failed", CASES.len());
    ExitCode::from(u8::from(failed != 0))
}
