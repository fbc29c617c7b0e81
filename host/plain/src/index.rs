//! The index record of the store (01, The index): validated in one walk, and made from rising keys.
//!
//! ```text
//! root 2 | len 256 | key 256 | child 2 × 256 | next 2 × 256 | val 4 × 256 | label 16 × 256
//! ```
//!
//! At each place the length of the label that leads to a node, 1 for a key, links (0, or 1 + place) to
//! the first child and the next sibling, the value, the label. Every key has 16 bytes, so that just the
//! nodes at depth 16 are keys and leaves. A key is handled as one big-endian number.

use wallathi_model::index::record::{CHILD, KEY, LABEL, LEN, NEXT, RECORD_BYTES, VAL};
use wallathi_model::index::{LONGEST_KEY, MOST_KEYS, POOL_NODES};

pub type Record = [u8; RECORD_BYTES];

/// Keys and values, by rising key.
pub struct Entries {
    count: usize,
    rows: [(u128, u32); MOST_KEYS],
}

impl Entries {
    pub fn new() -> Entries {
        Entries { count: 0, rows: [(0, 0); MOST_KEYS] }
    }

    /// Adds a key above all others; none where 64 are held.
    pub fn push(&mut self, key: u128, value: u32) -> Option<()> {
        *self.rows.get_mut(self.count)? = (key, value);
        self.count += 1;
        Some(())
    }

    pub fn rows(&self) -> &[(u128, u32)] {
        &self.rows[..self.count]
    }
}

impl Default for Entries {
    fn default() -> Entries {
        Entries::new()
    }
}

#[inline]
fn number_at(record: &Record, at: usize) -> usize {
    usize::from(u16::from_le_bytes([record[at], record[at + 1]]))
}

#[inline]
fn value_at(record: &Record, place: usize) -> u32 {
    let at = VAL + 4 * place;
    u32::from_le_bytes([record[at], record[at + 1], record[at + 2], record[at + 3]])
}

#[inline]
fn label_at(record: &Record, place: usize) -> u128 {
    let at = LABEL + LONGEST_KEY * place;
    u128::from_be_bytes(record[at..at + LONGEST_KEY].try_into().expect("16 bytes"))
}

/// The first so many bytes of a key.
#[inline]
fn first_bytes(key: u128, count: usize) -> u128 {
    key & !(u128::MAX.checked_shr(8 * count as u32).unwrap_or(0))
}

/// A node to be visited: the link to it, the depth of its parent and the path to that, and the first byte of the label of the sibling
/// before it.
#[derive(Clone, Copy)]
struct Visit {
    link: usize,
    depth: usize,
    path: u128,
    after: Option<u8>,
}

/// A record, the places that no visit has come to, and the entries found.
struct Reader<'a> {
    record: &'a Record,
    free: [u8; POOL_NODES],
    entries: Entries,
}

impl Reader<'_> {
    /// Takes a place; none where it is taken.
    #[inline(always)]
    fn take(&mut self, place: usize) -> Option<()> {
        let free = self.free.get_mut(place)?;
        (std::mem::take(free) != 0).then_some(())
    }

    /// The root has no label, no value and no sibling.
    fn root(&mut self) -> Option<Visit> {
        let (record, place) = (self.record, number_at(self.record, 0));
        self.take(place)?;
        let next = number_at(record, NEXT + 2 * place);
        let is_bare = record[LEN + place] == 0 && record[KEY + place] == 0 && next == 0;
        let link = number_at(record, CHILD + 2 * place);
        let visit = Visit { link, depth: 0, path: 0, after: None };
        (is_bare && value_at(record, place) == 0 && label_at(record, place) == 0).then_some(visit)
    }

    /// The first child and the next sibling of a node, where there are such, and the node is one of the shape.
    #[inline(always)]
    fn visit(&mut self, visit: Visit) -> Option<(Option<Visit>, Option<Visit>)> {
        let (record, place) = (self.record, visit.link - 1);
        self.take(place)?;
        let (length, label) = (usize::from(record[LEN + place]), label_at(record, place));
        let (child, next) = (number_at(record, CHILD + 2 * place), number_at(record, NEXT + 2 * place));
        let (depth, first) = (visit.depth + length, (label >> 120) as u8);
        let is_only = visit.after.is_none() && next == 0;
        let rises = visit.after.is_none_or(|before| first > before);
        if length == 0 || depth > LONGEST_KEY || length > 1 && !is_only || !rises {
            return None;
        }
        if first_bytes(label, length) != label {
            return None;
        }
        let sibling = (next != 0).then_some(Visit { link: next, after: Some(first), ..visit });
        let path = visit.path | label >> (8 * visit.depth);
        if depth == LONGEST_KEY {
            self.entries.push(path, value_at(record, place))?;
            return (record[KEY + place] == 1 && child == 0).then_some((None, sibling));
        }
        // An only child that has one child itself would be one node with it.
        let is_key = record[KEY + place] != 0 || value_at(record, place) != 0;
        let is_split =
            is_only && (1..=POOL_NODES).contains(&child) && number_at(record, NEXT + 2 * (child - 1)) == 0;
        let visit = Visit { link: child, depth, path, after: None };
        (!is_key && child != 0 && !is_split).then_some((Some(visit), sibling))
    }
}

/// The entries of a record; none where it is not the shape of any set of keys of 16 bytes.
pub fn read(record: &Record) -> Option<Entries> {
    let mut reader = Reader { record, free: [0xFF; POOL_NODES], entries: Entries::new() };
    let first = reader.root()?;
    // One sibling waits at each depth.
    let mut waiting = [first; LONGEST_KEY];
    let mut left = 0;
    let mut next = (first.link != 0).then_some(first);
    while let Some(visit) = next {
        let (child, sibling) = reader.visit(visit)?;
        if let Some(sibling) = sibling {
            waiting[left] = sibling;
            left += 1;
        }
        next = child;
        if next.is_none() && left > 0 {
            left -= 1;
            next = Some(waiting[left]);
        }
    }
    is_clear(record, &reader.free).then_some(reader.entries)
}

/// Whether free places are all zero; each loop is one that the compiler can widen.
fn is_clear(record: &Record, free: &[u8; POOL_NODES]) -> bool {
    let (mut bytes, mut words, mut values, mut labels) = (0, 0, 0, 0);
    for (place, free) in free.iter().enumerate() {
        bytes |= (record[LEN + place] | record[KEY + place]) & free;
    }
    let wide = |place: usize| i32::from(free[place] as i8);
    for place in 0..POOL_NODES {
        let link = number_at(record, CHILD + 2 * place) | number_at(record, NEXT + 2 * place);
        words |= link as u16 & wide(place) as u16;
    }
    for place in 0..POOL_NODES {
        values |= value_at(record, place) & wide(place) as u32;
    }
    for (place, &free) in free.iter().enumerate() {
        labels |= label_at(record, place) & i128::from(free as i8) as u128;
    }
    bytes == 0 && words == 0 && values == 0 && labels == 0
}

/// Makes the record the one of these entries, with the nodes in order from place 0 on.
pub fn write(record: &mut Record, entries: &Entries) {
    record.fill(0);
    let mut writer = Writer { record, used: 1 };
    writer.children(entries.rows(), 0, 0);
}

struct Writer<'a> {
    record: &'a mut Record,
    used: usize,
}

impl Writer<'_> {
    /// Writes all below the node at a place, which these entries share so many bytes with.
    fn children(&mut self, entries: &[(u128, u32)], depth: usize, place: usize) {
        let (Some(&(first, value)), Some(&(last, _))) = (entries.first(), entries.last()) else { return };
        if depth == LONGEST_KEY {
            self.record[KEY + place] = 1;
            self.record[VAL + 4 * place..][..4].copy_from_slice(&value.to_le_bytes());
            return;
        }
        let shared = (first ^ last).leading_zeros() as usize / 8;
        if shared > depth {
            self.child(entries, depth, shared, CHILD + 2 * place);
            return;
        }
        let (mut rest, mut link) = (entries, CHILD + 2 * place);
        let byte = |key: u128| key >> (120 - 8 * depth) & 0xFF;
        while let Some(&(key, _)) = rest.first() {
            let (same, others) = rest.split_at(rest.partition_point(|&(other, _)| byte(other) == byte(key)));
            link = self.child(same, depth, depth + 1, link);
            rest = others;
        }
    }

    /// Writes a child, from one depth to another, and a link to it; answers where its own link to a sibling stands.
    fn child(&mut self, entries: &[(u128, u32)], from: usize, to: usize, link: usize) -> usize {
        let place = self.used;
        self.used += 1;
        self.record[link..link + 2].copy_from_slice(&(1 + place as u16).to_le_bytes());
        self.record[LEN + place] = (to - from) as u8;
        let label = first_bytes(entries[0].0 << (8 * from), to - from);
        self.record[LABEL + LONGEST_KEY * place..][..LONGEST_KEY].copy_from_slice(&label.to_be_bytes());
        self.children(entries, to, place);
        NEXT + 2 * place
    }
}
