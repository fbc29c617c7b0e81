//! What the logger `hut` says it has saved, and whether its folder has it.

use std::fs;
use std::path::Path;

use wallathi_model::snapshot;

/// What is on the disk for certain: the number of a snapshot, and the ms of its last message.
#[derive(Clone, Copy, Debug, Default, PartialEq, Eq, PartialOrd, Ord)]
pub struct Saved {
    pub number: u64,
    pub up_to: u64,
}

/// `saved N up to MS`, `loaded N up to MS`.
pub fn announced(line: &str, word: &str) -> Option<Saved> {
    let (number, up_to) = line.strip_prefix(word)?.split_once(" up to ")?;
    Some(Saved { number: number.trim().parse().ok()?, up_to: up_to.parse().ok()? })
}

/// The greatest save that lines tell of, or the one given.
pub fn last_saved(lines: &[String], before: Saved) -> Saved {
    lines.iter().filter_map(|line| announced(line, "saved")).fold(before, Saved::max)
}

/// Every file under its final name is a snapshot for the independent model too, and the newest is at
/// least what was saved.
pub fn check_files(folder: &Path, saved: Saved) -> Result<(), String> {
    let mut newest = Saved::default();
    for entry in fs::read_dir(folder).map_err(|e| e.to_string())? {
        let path = entry.map_err(|e| e.to_string())?.path();
        if path.extension().is_none_or(|suffix| suffix != "snapshot") {
            continue;
        }
        let file = fs::read(&path).map_err(|e| e.to_string())?;
        let ledger = snapshot::read(&file).map_err(|_| format!("{} is not a snapshot", path.display()))?;
        let number = path.file_stem().and_then(|stem| stem.to_str()).and_then(|stem| stem.parse().ok());
        let number = number.ok_or_else(|| format!("{}: no number", path.display()))?;
        newest = newest.max(Saved { number, up_to: ledger.last_id.ms });
    }
    if newest < saved {
        return Err(format!("{saved:?} was saved, and the newest file is {newest:?}"));
    }
    Ok(())
}
