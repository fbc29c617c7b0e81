//! The proved program `report`: what it has to print by the model, and how it is run.

use std::cell::RefCell;
use std::collections::BTreeMap;
use std::ffi::OsStr;
use std::fs;
use std::io::Write;
use std::os::unix::ffi::OsStrExt;
use std::path::{Path, PathBuf};
use std::process::{Command, Stdio};

use wallathi_model::id::Id;
use wallathi_model::ledger::{Ledger, Report};
use wallathi_model::message::{is_field, Message};
use wallathi_model::snapshot;

pub type Outcome = Result<(), String>;

/// What is printed of a file with these bytes and a name.
pub fn expected(file: &[u8], name: &[u8]) -> String {
    if !is_field(name) {
        return "3\n".to_string();
    }
    let Ok(ledger) = snapshot::read(file) else { return "16\n".to_string() };
    let report = Report::of(ledger.messages.values(), name);
    let word = |number: Option<i64>| number.map_or("none".to_string(), |number| number.to_string());
    let counts = [report.lacking, report.other, report.integers].map(|count| count.to_string());
    let sums = [report.sum.to_string(), word(report.smallest), word(report.largest)];
    counts.iter().chain(&sums).map(|text| format!("{text}\n")).collect()
}

/// A ledger of these messages, a second apart.
pub fn ledger_of(messages: impl IntoIterator<Item = Message>) -> Ledger {
    let mut ledger = Ledger::empty();
    for (pairs, second) in messages.into_iter().zip(1..) {
        ledger.last_id = Id::new(1_000 * second, 0);
        ledger.messages.insert(ledger.last_id, pairs);
    }
    ledger
}

/// A message of pairs such as `temp=215`.
pub fn message(pairs: &str) -> Message {
    let pair = |pair: &str| pair.split_once('=').map(|(name, value)| (name.into(), value.into()));
    pairs.split(' ').map(|text| pair(text).expect("name=value")).collect()
}

pub fn snapshot_of(ledger: &Ledger) -> Vec<u8> {
    snapshot::snapshot(ledger).expect("at most 64 nodes")
}

/// The program, run in a folder; it counts the kinds of answers that it gave.
pub struct Program {
    path: PathBuf,
    preload: PathBuf,
    folder: PathBuf,
    kinds: RefCell<BTreeMap<&'static str, u32>>,
}

impl Program {
    /// In a new folder. PRELOAD makes calls of the system fail, see ../crash/preload.c.
    pub fn new(path: &Path, preload: &Path, folder: &Path) -> Program {
        let _ = fs::remove_dir_all(folder);
        fs::create_dir_all(folder).expect("a folder");
        let [path, preload, folder] =
            [path, preload, folder].map(|path| path.canonicalize().expect("a path that is there"));
        Program { path, preload, folder, kinds: RefCell::default() }
    }

    pub fn kinds(&self) -> BTreeMap<&'static str, u32> {
        self.kinds.borrow().clone()
    }

    pub fn path(&self, name: &str) -> PathBuf {
        self.folder.join(name)
    }

    pub fn save(&self, name: &str, bytes: &[u8]) {
        fs::write(self.path(name), bytes).expect("a file");
    }

    fn command(&self, arguments: &[&[u8]]) -> Command {
        let mut command = Command::new(&self.path);
        command.current_dir(&self.folder).args(arguments.iter().map(|bytes| OsStr::from_bytes(bytes)));
        command.stdin(Stdio::null());
        command
    }

    /// It writes these lines and nothing else, and ends with status 0.
    fn ends(&self, command: &mut Command, lines: &str) -> Outcome {
        let output = command.output().map_err(|e| e.to_string())?;
        self.compare(command, &output, lines)
    }

    fn compare(&self, command: &Command, output: &std::process::Output, lines: &str) -> Outcome {
        let kind = match lines {
            "3\n" => "3",
            "16\n" => "16",
            _ if lines.ends_with("none\n") => "none",
            _ => "numbers",
        };
        *self.kinds.borrow_mut().entry(kind).or_default() += 1;
        if output.status.success() && output.stderr.is_empty() && output.stdout == lines.as_bytes() {
            return Ok(());
        }
        let shown = |word: &OsStr| word.to_string_lossy().chars().take(40).collect::<String>();
        let arguments: Vec<String> = command.get_args().map(shown).collect();
        Err(format!("{arguments:?}: {lines:?} is expected, {output:?}"))
    }

    pub fn prints(&self, arguments: &[&[u8]], lines: &str) -> Outcome {
        self.ends(&mut self.command(arguments), lines)
    }

    /// Of a file with these bytes, what the model says.
    pub fn agrees(&self, bytes: &[u8], name: &[u8]) -> Outcome {
        self.save("file", bytes);
        self.prints(&[b"file", name], &expected(bytes, name))
    }

    /// The same where the calls of one kind on the file fail, from one to another.
    pub fn fails(&self, bytes: &[u8], call: &str, error: u32, calls: (u32, u32), lines: &str) -> Outcome {
        self.save("file", bytes);
        let mut command = self.command(&[b"file", b"temp"]);
        let fault = format!("{call} {error} {} {} file", calls.0, calls.1);
        self.ends(command.env("LD_PRELOAD", &self.preload).env("FAULT", fault), lines)
    }

    /// The bytes come through a pipe, so many at a time.
    pub fn reads(&self, bytes: &[u8], name: &[u8], piece: usize) -> Outcome {
        let mut command = self.command(&[b"/dev/stdin", name]);
        command.stdin(Stdio::piped()).stdout(Stdio::piped()).stderr(Stdio::piped());
        let mut child = command.spawn().map_err(|e| e.to_string())?;
        let mut pipe = child.stdin.take().expect("a pipe");
        for part in bytes.chunks(piece) {
            // A file that is too long is not read to its end.
            if pipe.write_all(part).is_err() {
                break;
            }
        }
        drop(pipe);
        let output = child.wait_with_output().map_err(|e| e.to_string())?;
        self.compare(&command, &output, &expected(bytes, name))
    }
}
