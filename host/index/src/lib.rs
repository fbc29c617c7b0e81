//! A radix index of up to 64 keys of 1 to 16 bytes, each with a 32-bit value.
//!
//! The code behind it is proved: each operation answers as a sorted map would, for any bytes of the
//! record. This crate is a safe Rust face of its C library (`host/include/wallathi_index.h`).
//!
//! ```
//! use wallathi_index::{Index, Refusal};
//!
//! let mut stations = Index::new();
//! stations.put(b"Hobart", 11)?;
//! stations.put(b"Honiara", 12)?;
//! assert_eq!(stations.find(b"Hobart")?, Some(11));
//! let found = stations.first_at_or_above(b"Hobb")?.expect("Honiara comes after Hobb");
//! assert_eq!((found.key(), found.value()), (&b"Honiara"[..], 12));
//! assert_eq!(stations.find(b""), Err(Refusal::BadKey));
//! # Ok::<(), Refusal>(())
//! ```
//!
//! The index is a record of bytes without pointers, which can be stored and read back:
//!
//! ```
//! # use wallathi_index::{Index, Refusal};
//! let mut index = Index::new();
//! index.put(b"Hobart", 11)?;
//! let mut bytes = index.into_record();
//! bytes[0] ^= 1;
//! let damaged = Index::from_record(bytes).expect("the length is a record's");
//! assert_eq!(damaged.find(b"Hobart"), Err(Refusal::Damaged));
//! # Ok::<(), Refusal>(())
//! ```
//!
//! The crate does without the standard library; without the feature `alloc`, on by default, there are the functions on lent records,
//! [`raw`]. The library is compiled for x86-64 Linux.

#![no_std]
#![deny(unsafe_code, missing_docs)]
#![warn(clippy::pedantic)]
// What the library writes fits: a value has 32 bits, a key at most 16 bytes.
#![allow(clippy::cast_possible_truncation)]

#[cfg(feature = "alloc")]
extern crate alloc;

use core::error::Error;
use core::fmt;

#[cfg(feature = "alloc")]
use alloc::{boxed::Box, vec};

#[allow(unsafe_code)]
pub mod raw;

/// A key has 1 to this many bytes.
pub const LONGEST_KEY: usize = 16;
/// An index holds up to this many keys.
pub const MOST_KEYS: usize = 64;

/// Why an operation was refused. The record is then as it was. Later versions may refuse for further reasons.
#[derive(Clone, Copy, Debug, PartialEq, Eq)]
#[non_exhaustive]
pub enum Refusal {
    /// The record is not the shape of any set of keys.
    Damaged,
    /// The key has no byte, or more than 16.
    BadKey,
    /// The key is new and 64 are held.
    Full,
}

impl Refusal {
    /// The library's number.
    #[must_use]
    pub fn number(self) -> u32 {
        match self {
            Refusal::Damaged => raw::DAMAGED,
            Refusal::BadKey => raw::BAD_KEY,
            Refusal::Full => raw::FULL,
        }
    }
}

impl fmt::Display for Refusal {
    fn fmt(&self, f: &mut fmt::Formatter<'_>) -> fmt::Result {
        f.write_str(match self {
            Refusal::Damaged => "the record is damaged",
            Refusal::BadKey => "the key does not have 1 to 16 bytes",
            Refusal::Full => "the index has 64 keys",
        })
    }
}

impl Error for Refusal {}

/// A key that was found, with its value.
#[cfg(feature = "alloc")]
#[derive(Clone, Copy, PartialEq, Eq)]
pub struct Entry {
    bytes: [u8; LONGEST_KEY],
    length: usize,
    value: u32,
}

#[cfg(feature = "alloc")]
impl Entry {
    /// The key.
    #[must_use]
    pub fn key(&self) -> &[u8] {
        &self.bytes[..self.length]
    }

    /// Its value.
    #[must_use]
    pub fn value(&self) -> u32 {
        self.value
    }
}

#[cfg(feature = "alloc")]
impl fmt::Debug for Entry {
    fn fmt(&self, f: &mut fmt::Formatter<'_>) -> fmt::Result {
        write!(f, "{} => {}", self.key().escape_ascii(), self.value)
    }
}

/// An index that owns its record.
///
/// Two are equal where their records are, byte for byte. Equal ones hold the same entries, but the
/// converse does not hold: the nodes of a stored record may stand at any places.
#[cfg(feature = "alloc")]
#[derive(Clone, PartialEq, Eq)]
pub struct Index {
    record: Box<[u8]>,
}

#[cfg(feature = "alloc")]
impl Index {
    /// An index without keys.
    #[must_use]
    #[allow(clippy::missing_panics_doc)] // set up is never refused
    pub fn new() -> Index {
        let mut record = vec![0; raw::record_bytes()].into_boxed_slice();
        let answer = raw::set_up(&mut record);
        assert_eq!(answer, raw::OK, "set up is never refused");
        Index { record }
    }

    /// The index of a stored record; none where the length is not a record's. Whether the record is
    /// sound is judged by each operation.
    #[must_use]
    pub fn from_record(record: impl Into<Box<[u8]>>) -> Option<Index> {
        let record = record.into();
        (record.len() == raw::record_bytes()).then_some(Index { record })
    }

    /// The bytes of the record.
    #[must_use]
    pub fn record(&self) -> &[u8] {
        &self.record
    }

    /// The bytes of the record, to keep.
    #[must_use]
    pub fn into_record(self) -> Box<[u8]> {
        self.record
    }

    /// Sets the value of a key, new or held.
    ///
    /// # Errors
    ///
    /// [`Refusal::Damaged`]; [`Refusal::BadKey`]; [`Refusal::Full`] where the key is new and 64 are held.
    pub fn put(&mut self, key: &[u8], value: u32) -> Result<(), Refusal> {
        answered(raw::put(&mut self.record, key, value)).map(|_| ())
    }

    /// Removes a key, and says whether it was held.
    ///
    /// # Errors
    ///
    /// [`Refusal::Damaged`]; [`Refusal::BadKey`].
    pub fn remove(&mut self, key: &[u8]) -> Result<bool, Refusal> {
        let mut count = 0;
        answered(raw::remove(&mut self.record, key, &mut count))?;
        Ok(count == 1)
    }

    /// The value of a key.
    ///
    /// # Errors
    ///
    /// [`Refusal::Damaged`]; [`Refusal::BadKey`].
    pub fn find(&self, key: &[u8]) -> Result<Option<u32>, Refusal> {
        let mut value = 0;
        let is_held = answered(raw::find(&self.record, key, &mut value))?;
        Ok(is_held.then_some(value as u32))
    }

    /// The first key that is the given one or comes after it.
    ///
    /// # Errors
    ///
    /// [`Refusal::Damaged`]; [`Refusal::BadKey`].
    pub fn first_at_or_above(&self, key: &[u8]) -> Result<Option<Entry>, Refusal> {
        let (mut bytes, mut length, mut value) = ([0; LONGEST_KEY], 0, 0);
        let answer = raw::first_at_or_above(&self.record, key, &mut bytes, &mut length, &mut value);
        let entry = Entry { bytes, length: length as usize, value: value as u32 };
        Ok(answered(answer)?.then_some(entry))
    }

    /// The last key that is the given one or comes before it.
    ///
    /// # Errors
    ///
    /// [`Refusal::Damaged`]; [`Refusal::BadKey`].
    pub fn last_at_or_below(&self, key: &[u8]) -> Result<Option<Entry>, Refusal> {
        let (mut bytes, mut length, mut value) = ([0; LONGEST_KEY], 0, 0);
        let answer = raw::last_at_or_below(&self.record, key, &mut bytes, &mut length, &mut value);
        let entry = Entry { bytes, length: length as usize, value: value as u32 };
        Ok(answered(answer)?.then_some(entry))
    }
}

#[cfg(feature = "alloc")]
impl Default for Index {
    fn default() -> Index {
        Index::new()
    }
}

#[cfg(feature = "alloc")]
impl fmt::Debug for Index {
    fn fmt(&self, f: &mut fmt::Formatter<'_>) -> fmt::Result {
        f.debug_struct("Index").finish_non_exhaustive()
    }
}

/// Whether there is an answer, or none.
#[cfg(feature = "alloc")]
fn answered(answer: u32) -> Result<bool, Refusal> {
    match answer {
        raw::OK => Ok(true),
        raw::NONE => Ok(false),
        raw::DAMAGED => Err(Refusal::Damaged),
        raw::BAD_KEY => Err(Refusal::BadKey),
        raw::FULL => Err(Refusal::Full),
        _ => unreachable!("the library answered {answer}"),
    }
}
