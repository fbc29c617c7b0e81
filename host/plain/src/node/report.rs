//! What the live messages of a node that is in order hold in the first pair of a name.

use wallathi_model::id::Id;
use wallathi_model::ledger::LARGEST_REPORTED;

use super::walk::{fields_place, skip, Walk};
use super::{Sound, DELETED, SAME_FIELDS};
use crate::listpack::{integer_at, value_at};

/// Each message is in one of the three counts.
#[derive(Clone, Copy, Debug, PartialEq, Eq)]
pub struct Report {
    pub lacking: u64,
    pub other: u64,
    pub integers: u64,
    pub sum: i64,
    pub smallest: i64,
    pub largest: i64,
}

impl Report {
    /// Over no message; any integer becomes the smallest and the largest.
    pub const EMPTY: Report =
        Report { lacking: 0, other: 0, integers: 0, sum: 0, smallest: i64::MAX, largest: i64::MIN };

    /// With the live messages of a node from one ID to another. The name is given as its element.
    pub fn with_node(self, node: &[u8], sound: &Sound, key: Id, name: &[u8], first: Id, last: Id) -> Report {
        let id_and_body = |at: usize| {
            let (ms, seq_place) = integer_at(node, at);
            let (seq, body) = integer_at(node, seq_place);
            (key.with_difference(ms, seq), body)
        };
        if first <= key && sound.greatest <= last {
            return self.with_wanted(node, sound, name, |at| (true, id_and_body(at).1));
        }
        self.with_wanted(node, sound, name, |at| {
            let (id, body) = id_and_body(at);
            (first <= id && id <= last, body)
        })
    }

    /// With the live messages that are wanted: whether one is, its differences say, after which its body begins.
    #[inline(always)]
    fn with_wanted(
        mut self,
        node: &[u8],
        sound: &Sound,
        name: &[u8],
        wanted: impl Fn(usize) -> (bool, usize),
    ) -> Report {
        let mut walk = Walk::new(node, sound);
        let place = place_of(node, fields_place(sound.deleted) + 2, walk.fields, name);
        while walk.at < walk.end {
            let (flags, (is_wanted, body)) = (node[walk.at], wanted(walk.at + 2));
            let end = if flags & DELETED != 0 || !is_wanted {
                walk.body_end(node, flags, body)
            } else if flags & SAME_FIELDS != 0 {
                self.count_shared(node, body, walk.fields, place)
            } else {
                self.count_own(node, body, name)
            };
            walk.at = end + 2;
        }
        self
    }

    /// A message with the master's names, among which the asked one has this place; where its body ends.
    #[inline(always)]
    fn count_shared(&mut self, node: &[u8], body: usize, fields: usize, place: Option<usize>) -> usize {
        let Some(place) = place else {
            self.lacking += 1;
            return skip(node, body, fields);
        };
        let (value, after) = value_at(node, skip(node, body, place));
        self.count(value);
        skip(node, after, fields - 1 - place)
    }

    /// A message with names of its own; where its body ends.
    #[inline(always)]
    fn count_own(&mut self, node: &[u8], body: usize, name: &[u8]) -> usize {
        let (mut at, mut left) = (body + 2, usize::from(node[body]));
        while left > 0 {
            left -= 1;
            if is_element(node, at, name) {
                let (value, after) = value_at(node, at + name.len());
                self.count(value);
                return skip(node, after, 2 * left);
            }
            at = skip(node, at, 2);
        }
        self.lacking += 1;
        at
    }

    #[inline(always)]
    fn count(&mut self, value: Option<i64>) {
        match value {
            Some(integer) if (-LARGEST_REPORTED..=LARGEST_REPORTED).contains(&integer) => {
                self.integers += 1;
                self.sum += integer;
                self.smallest = self.smallest.min(integer);
                self.largest = self.largest.max(integer);
            }
            _ => self.other += 1,
        }
    }
}

/// Whether this element stands there. Equal strings have equal elements, and no element begins another.
#[inline(always)]
fn is_element(node: &[u8], at: usize, element: &[u8]) -> bool {
    node[at] == element[0] && node[at..].starts_with(element)
}

/// Which of so many elements is the first of these.
#[inline(always)]
fn place_of(node: &[u8], mut at: usize, count: usize, element: &[u8]) -> Option<usize> {
    for place in 0..count {
        if is_element(node, at, element) {
            return Some(place);
        }
        at = skip(node, at, 1);
    }
    None
}
