//! What is measured: the proved index, the same in plain Rust, and two maps of plain Rust that answer the same and trust their memory.

use std::collections::BTreeMap;
use std::ops::Bound;

use wallathi_index::{raw, LONGEST_KEY, MOST_KEYS};

use crate::plain;

/// Where a neighbour's key is written.
pub type Output = [u8; LONGEST_KEY];

/// A map of up to 64 keys. Answers are numbers, so that none costs an allocation: the value of a key, or
/// the value and length of a neighbour; `NONE` where there is none.
pub trait Side: Clone {
    const NAME: &'static str;
    fn new() -> Self;
    fn put(&mut self, key: &[u8], value: u32);
    fn remove(&mut self, key: &[u8]) -> u64;
    fn find(&self, key: &[u8]) -> u64;
    fn first_at_or_above(&self, key: &[u8], output: &mut Output) -> (u64, u64);
    fn last_at_or_below(&self, key: &[u8], output: &mut Output) -> (u64, u64);
}

const NONE: u64 = u64::MAX;

fn check(key: &[u8]) {
    assert!((1..=LONGEST_KEY).contains(&key.len()));
}

/// The proved index in its record.
#[derive(Clone)]
pub struct Proved {
    pub record: Box<[u8]>,
}

impl Side for Proved {
    const NAME: &'static str = "proved";

    fn new() -> Proved {
        Proved { record: wallathi_index::Index::new().into_record() }
    }

    fn put(&mut self, key: &[u8], value: u32) {
        assert_eq!(raw::put(&mut self.record, key, value), raw::OK);
    }

    fn remove(&mut self, key: &[u8]) -> u64 {
        let mut count = 0;
        assert_eq!(raw::remove(&mut self.record, key, &mut count), raw::OK);
        count
    }

    fn find(&self, key: &[u8]) -> u64 {
        let mut value = NONE;
        let _ = raw::find(&self.record, key, &mut value);
        value
    }

    fn first_at_or_above(&self, key: &[u8], output: &mut Output) -> (u64, u64) {
        let (mut length, mut value) = (NONE, NONE);
        let _ = raw::first_at_or_above(&self.record, key, output, &mut length, &mut value);
        (value, length)
    }

    fn last_at_or_below(&self, key: &[u8], output: &mut Output) -> (u64, u64) {
        let (mut length, mut value) = (NONE, NONE);
        let _ = raw::last_at_or_below(&self.record, key, output, &mut length, &mut value);
        (value, length)
    }
}

impl Proved {
    /// A key without a byte is refused once the record is found to be sound.
    pub fn validate(&self) {
        assert_eq!(raw::find(&self.record, &[], &mut 0), raw::BAD_KEY);
    }
}

/// The same in plain Rust.
#[derive(Clone)]
pub struct Plain {
    record: Box<[u8; plain::RECORD]>,
}

fn near(found: plain::Near) -> (u64, u64) {
    found.map_or((NONE, NONE), |(length, value)| (u64::from(value), length as u64))
}

impl Side for Plain {
    const NAME: &'static str = "plain Rust";

    fn new() -> Plain {
        Plain { record: Box::new([0; plain::RECORD]) }
    }

    fn put(&mut self, key: &[u8], value: u32) {
        plain::put(&mut self.record, key, value).expect("put");
    }

    fn remove(&mut self, key: &[u8]) -> u64 {
        plain::remove(&mut self.record, key).expect("remove")
    }

    fn find(&self, key: &[u8]) -> u64 {
        plain::find(&self.record, key).expect("find").map_or(NONE, u64::from)
    }

    fn first_at_or_above(&self, key: &[u8], output: &mut Output) -> (u64, u64) {
        near(plain::first_at_or_above(&self.record, key, output).expect("a neighbour"))
    }

    fn last_at_or_below(&self, key: &[u8], output: &mut Output) -> (u64, u64) {
        near(plain::last_at_or_below(&self.record, key, output).expect("a neighbour"))
    }
}

impl Plain {
    pub fn validate(&self) {
        assert_eq!(plain::find(&self.record, &[]), Err(raw::BAD_KEY));
    }
}

/// The standard library's sorted map.
#[derive(Clone)]
pub struct Tree {
    map: BTreeMap<Vec<u8>, u32>,
}

fn written(key: &[u8], value: u32, output: &mut Output) -> (u64, u64) {
    output[..key.len()].copy_from_slice(key);
    (u64::from(value), key.len() as u64)
}

impl Side for Tree {
    const NAME: &'static str = "BTreeMap";

    fn new() -> Tree {
        Tree { map: BTreeMap::new() }
    }

    fn put(&mut self, key: &[u8], value: u32) {
        check(key);
        match self.map.get_mut(key) {
            Some(held) => *held = value,
            None => {
                assert!(self.map.len() < MOST_KEYS);
                self.map.insert(key.to_vec(), value);
            }
        }
    }

    fn remove(&mut self, key: &[u8]) -> u64 {
        check(key);
        self.map.remove(key).map_or(0, |_| 1)
    }

    fn find(&self, key: &[u8]) -> u64 {
        check(key);
        self.map.get(key).map_or(NONE, |&value| u64::from(value))
    }

    fn first_at_or_above(&self, key: &[u8], output: &mut Output) -> (u64, u64) {
        check(key);
        let entry = self.map.range::<[u8], _>((Bound::Included(key), Bound::Unbounded)).next();
        entry.map_or((NONE, NONE), |(key, &value)| written(key, value, output))
    }

    fn last_at_or_below(&self, key: &[u8], output: &mut Output) -> (u64, u64) {
        check(key);
        let entry = self.map.range::<[u8], _>((Bound::Unbounded, Bound::Included(key))).next_back();
        entry.map_or((NONE, NONE), |(key, &value)| written(key, value, output))
    }
}

#[derive(Clone, Copy)]
struct Row {
    bytes: [u8; LONGEST_KEY],
    length: u8,
    value: u32,
}

impl Row {
    fn key(&self) -> &[u8] {
        &self.bytes[..usize::from(self.length)]
    }
}

/// Keys and values in rising order, in one array.
#[derive(Clone)]
pub struct Sorted {
    count: usize,
    rows: Box<[Row; MOST_KEYS]>,
}

impl Sorted {
    fn place(&self, key: &[u8]) -> Result<usize, usize> {
        check(key);
        self.rows[..self.count].binary_search_by(|row| row.key().cmp(key))
    }

    fn written(&self, place: Option<usize>, output: &mut Output) -> (u64, u64) {
        match place.and_then(|place| self.rows[..self.count].get(place)) {
            Some(row) => written(row.key(), row.value, output),
            None => (NONE, NONE),
        }
    }
}

impl Side for Sorted {
    const NAME: &'static str = "sorted array";

    fn new() -> Sorted {
        Sorted { count: 0, rows: Box::new([Row { bytes: [0; LONGEST_KEY], length: 0, value: 0 }; MOST_KEYS]) }
    }

    fn put(&mut self, key: &[u8], value: u32) {
        match self.place(key) {
            Ok(place) => self.rows[place].value = value,
            Err(place) => {
                assert!(self.count < MOST_KEYS);
                self.rows.copy_within(place..self.count, place + 1);
                self.count += 1;
                let row = &mut self.rows[place];
                row.bytes[..key.len()].copy_from_slice(key);
                (row.length, row.value) = (key.len() as u8, value);
            }
        }
    }

    fn remove(&mut self, key: &[u8]) -> u64 {
        let Ok(place) = self.place(key) else { return 0 };
        self.rows.copy_within(place + 1..self.count, place);
        self.count -= 1;
        1
    }

    fn find(&self, key: &[u8]) -> u64 {
        self.place(key).map_or(NONE, |place| u64::from(self.rows[place].value))
    }

    fn first_at_or_above(&self, key: &[u8], output: &mut Output) -> (u64, u64) {
        let (Ok(place) | Err(place)) = self.place(key);
        self.written(Some(place), output)
    }

    fn last_at_or_below(&self, key: &[u8], output: &mut Output) -> (u64, u64) {
        let place = match self.place(key) {
            Ok(place) => Some(place),
            Err(place) => place.checked_sub(1),
        };
        self.written(place, output)
    }
}
