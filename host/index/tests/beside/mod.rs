//! The library's functions beside the model: one operation, called on a record and on what it holds.

use crate::keys::Kind;
use wallathi_index::{raw, LONGEST_KEY};
use wallathi_model::index::record;
use wallathi_model::index::{Index, KeyValue};
use wallathi_model::refusal::{Refusal, NOT_AN_IMAGE};
use wallathi_model::rng::Rng;

/// An operation and its arguments.
#[derive(Clone, Debug)]
pub enum Operation {
    Put { key: Vec<u8>, value: u32 },
    Remove { key: Vec<u8> },
    Find { key: Vec<u8> },
    FirstAtOrAbove { key: Vec<u8> },
    LastAtOrBelow { key: Vec<u8> },
}

/// All that a call answers. What it leaves alone is as [`Answer::untouched`] made it.
#[derive(Clone, Debug, PartialEq, Eq)]
pub struct Answer {
    pub number: u32,
    /// The count of a remove.
    pub count: u64,
    pub value: u64,
    pub length: u64,
    pub output: [u8; LONGEST_KEY],
}

impl Answer {
    fn untouched() -> Answer {
        const MARK: u64 = 0xA5A5_A5A5_A5A5_A5A5;
        Answer { number: u32::MAX, count: MARK, value: MARK, length: MARK, output: [0xA5; LONGEST_KEY] }
    }
}

/// What the library answers.
pub fn call(record: &mut [u8], operation: &Operation) -> Answer {
    let mut answer = Answer::untouched();
    let Answer { number, count, value: found, length, output } = &mut answer;
    *number = match operation {
        Operation::Put { key, value } => raw::put(record, key, *value),
        Operation::Remove { key } => raw::remove(record, key, count),
        Operation::Find { key } => raw::find(record, key, found),
        Operation::FirstAtOrAbove { key } => raw::first_at_or_above(record, key, output, length, found),
        Operation::LastAtOrBelow { key } => raw::last_at_or_below(record, key, output, length, found),
    };
    answer
}

/// What it must answer by document 01. A record that holds no index is refused.
pub fn expected(index: &mut Option<Index>, operation: &Operation) -> Answer {
    let mut answer = Answer::untouched();
    answer.number = match index {
        Some(index) => answered(index, operation, &mut answer).unwrap_or_else(|refusal| refusal),
        None => NOT_AN_IMAGE,
    };
    answer
}

fn answered(index: &mut Index, operation: &Operation, answer: &mut Answer) -> Result<u32, Refusal> {
    match operation {
        Operation::Put { key, value } => index.put(key, *value)?,
        Operation::Remove { key } => answer.count = index.remove(key)?,
        Operation::Find { key } => match index.find(key)? {
            Some(value) => answer.value = u64::from(value),
            None => return Ok(raw::NONE),
        },
        Operation::FirstAtOrAbove { key } => return written(index.first_at_or_above(key)?, answer),
        Operation::LastAtOrBelow { key } => return written(index.last_at_or_below(key)?, answer),
    }
    Ok(raw::OK)
}

fn written(found: Option<KeyValue>, answer: &mut Answer) -> Result<u32, Refusal> {
    let Some((key, value)) = found else { return Ok(raw::NONE) };
    answer.output[..key.len()].copy_from_slice(&key);
    (answer.length, answer.value) = (key.len() as u64, u64::from(value));
    Ok(raw::OK)
}

/// Runs an operation on a record and on the index that it holds, and compares everything: the
/// answer, and the record's bytes afterwards. Answers the number.
pub fn step(record: &mut [u8], index: &mut Option<Index>, operation: &Operation) -> u32 {
    let before = record.to_vec();
    let answer = call(record, operation);
    assert_eq!(answer, expected(index, operation), "{operation:02x?} on {index:02x?}");
    let changes = match operation {
        Operation::Put { .. } => answer.number == raw::OK,
        Operation::Remove { .. } => answer.number == raw::OK && answer.count == 1,
        _ => false,
    };
    if changes {
        let held = record::read(record).ok().map(|(held, _)| held);
        assert_eq!(held, *index, "{operation:02x?}");
    } else {
        assert!(*record == before, "{operation:02x?} changed bytes; {index:02x?}");
    }
    answer.number
}

/// One of each operation, with keys of a kind.
pub fn one_of_each(rng: &mut Rng, kind: &Kind, index: &Index) -> [Operation; 5] {
    let mut key = || kind.asked(rng, index);
    let keys = [key(), key(), key(), key(), key()];
    let value = rng.next() as u32;
    let [a, b, c, d, e] = keys;
    [
        Operation::Find { key: a },
        Operation::FirstAtOrAbove { key: b },
        Operation::LastAtOrBelow { key: c },
        Operation::Remove { key: d },
        Operation::Put { key: e, value },
    ]
}
