//! Slips (01, The ledger): how a message travels.

use wallathi_model::message::{LONGEST_FIELD, MOST_PAIRS};

/// A slip that keeps its rule.
#[derive(Clone, Copy)]
pub struct Slip<'a> {
    pub count: usize,
    strings: &'a [u8],
}

impl<'a> Slip<'a> {
    /// Field, value, field, value, ..
    #[inline]
    pub fn strings(self) -> Strings<'a> {
        Strings { rest: self.strings }
    }
}

/// Strings with their lengths before them, up to one that is too long or not all there.
pub struct Strings<'a> {
    rest: &'a [u8],
}

impl<'a> Iterator for Strings<'a> {
    type Item = &'a [u8];

    #[inline]
    fn next(&mut self) -> Option<&'a [u8]> {
        let (length, rest) = self.rest.split_first_chunk::<2>()?;
        let length = usize::from(u16::from_le_bytes(*length));
        let (string, rest) = rest.split_at_checked(length)?;
        self.rest = rest;
        (length <= LONGEST_FIELD).then_some(string)
    }
}

/// The slip that is the whole slice.
#[inline]
pub fn read(bytes: &[u8]) -> Option<Slip<'_>> {
    let (&count, strings) = bytes.split_first()?;
    let count = usize::from(count);
    let mut left = Strings { rest: strings };
    if !(1..=MOST_PAIRS).contains(&count) || left.by_ref().take(2 * count).count() != 2 * count {
        return None;
    }
    left.rest.is_empty().then_some(Slip { count, strings })
}
