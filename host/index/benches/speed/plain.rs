//! The same index in plain Rust, of the same strictness over the same bytes: what the proved one is measured by. Every call judges the
//! whole record first, in one walk over its tree and one look at the rest of the pool; entries are gathered only to change them.

pub const RECORD: usize = 6658;

const LEN: usize = 2;
const KEY: usize = 258;
const CHILD: usize = 514;
const NEXT: usize = 1026;
const VALUE: usize = 1538;
const LABEL: usize = 2562;

const MOST_KEYS: usize = 64;
const LONGEST_KEY: usize = 16;

pub const DAMAGED: u32 = 2;
pub const BAD_KEY: u32 = 3;
pub const FULL: u32 = 18;

type Record = [u8; RECORD];

fn link(record: &Record, at: usize, place: usize) -> usize {
    let at = at + 2 * place;
    usize::from(u16::from_le_bytes([record[at], record[at + 1]]))
}

fn value(record: &Record, place: usize) -> u32 {
    let at = VALUE + 4 * place;
    u32::from_le_bytes([record[at], record[at + 1], record[at + 2], record[at + 3]])
}

fn label(record: &Record, place: usize) -> &[u8; LONGEST_KEY] {
    let at = LABEL + LONGEST_KEY * place;
    record[at..at + LONGEST_KEY].try_into().expect("16 bytes")
}

/// A place in use: a label of at most 16 bytes with zeros after it, a key flag, and no value without it.
fn is_tidy(record: &Record, place: usize) -> bool {
    let length = record[LEN + place];
    if length > 16 {
        return false;
    }
    if length < 16 && u128::from_le_bytes(*label(record, place)) >> (8 * length) != 0 {
        return false;
    }
    match record[KEY + place] {
        0 => value(record, place) == 0,
        flag => flag == 1,
    }
}

struct Walk<'a> {
    record: &'a Record,
    marks: [bool; 256],
    keys: usize,
}

impl Walk<'_> {
    /// A node's children: one with a run of bytes, or several with one byte each, rising.
    fn children(&mut self, first: usize, depth: usize) -> bool {
        let record = self.record;
        let (mut at, mut least) = (first, 0);
        while at != 0 {
            if at > 256 || self.marks[at - 1] {
                return false;
            }
            let place = at - 1;
            self.marks[place] = true;
            let length = usize::from(record[LEN + place]);
            if !is_tidy(record, place) || depth + length > LONGEST_KEY {
                return false;
            }
            let is_key = record[KEY + place] == 1;
            let (below, later) = (link(record, CHILD, place), link(record, NEXT, place));
            let byte = usize::from(record[LABEL + LONGEST_KEY * place]);
            let fits = if at == first && later == 0 {
                length > 0 && (is_key || (1..=256).contains(&below) && link(record, NEXT, below - 1) != 0)
            } else {
                length == 1 && byte >= least && (is_key || below != 0)
            };
            self.keys += usize::from(is_key);
            if !fits || self.keys > MOST_KEYS || !self.children(below, depth + length) {
                return false;
            }
            (at, least) = (later, byte + 1);
        }
        true
    }

    fn is_free(&self, place: usize) -> bool {
        let record = self.record;
        record[LEN + place] == 0
            && record[KEY + place] == 0
            && link(record, CHILD, place) == 0
            && link(record, NEXT, place) == 0
            && value(record, place) == 0
            && u128::from_le_bytes(*label(record, place)) == 0
    }

    /// Every field of the places without a mark is zero: those at the end together, or else one by one.
    fn rest_is_free(&self) -> bool {
        let place = self.marks.iter().position(|mark| !mark).unwrap_or(256);
        let fields = [
            (LABEL, 16, RECORD),
            (VALUE, 4, LABEL),
            (NEXT, 2, VALUE),
            (CHILD, 2, NEXT),
            (KEY, 1, CHILD),
            (LEN, 1, KEY),
        ];
        let is_zero = |(at, width, end): (usize, usize, usize)| {
            self.record[at + width * place..end].iter().fold(0, |all, byte| all | byte) == 0
        };
        fields.into_iter().all(is_zero) || (place..256).all(|place| self.marks[place] || self.is_free(place))
    }
}

/// The root's first child, if the record is the shape of a set of keys.
fn judge(record: &Record) -> Option<usize> {
    let root = usize::from(u16::from_le_bytes([record[0], record[1]]));
    if root >= 256 || record[LEN + root] != 0 || record[KEY + root] != 0 || link(record, NEXT, root) != 0 {
        return None;
    }
    let first = link(record, CHILD, root);
    let mut walk = Walk { record, marks: [false; 256], keys: 0 };
    walk.marks[root] = true;
    (is_tidy(record, root) && walk.children(first, 0) && walk.rest_is_free()).then_some(first)
}

fn checked(record: &Record, key: &[u8]) -> Result<usize, u32> {
    let first = judge(record).ok_or(DAMAGED)?;
    if (1..=LONGEST_KEY).contains(&key.len()) {
        Ok(first)
    } else {
        Err(BAD_KEY)
    }
}

pub fn find(record: &Record, key: &[u8]) -> Result<Option<u32>, u32> {
    let mut at = checked(record, key)?;
    let mut rest = key;
    while at != 0 {
        let place = at - 1;
        match rest.strip_prefix(&label(record, place)[..usize::from(record[LEN + place])]) {
            Some([]) => return Ok((record[KEY + place] == 1).then(|| value(record, place))),
            Some(left) => (rest, at) = (left, link(record, CHILD, place)),
            None => at = link(record, NEXT, place),
        }
    }
    Ok(None)
}

/// A neighbour: its length and value; its bytes stand in the output.
pub type Near = Option<(usize, u32)>;
pub type Output = [u8; LONGEST_KEY];

fn written(record: &Record, place: usize, output: &mut Output, depth: usize) -> usize {
    let length = usize::from(record[LEN + place]);
    output[depth..depth + length].copy_from_slice(&label(record, place)[..length]);
    depth + length
}

fn least(record: &Record, first: usize, output: &mut Output, depth: usize) -> Near {
    let (mut at, mut depth) = (first, depth);
    while at != 0 {
        depth = written(record, at - 1, output, depth);
        if record[KEY + at - 1] == 1 {
            return Some((depth, value(record, at - 1)));
        }
        at = link(record, CHILD, at - 1);
    }
    None
}

/// The last key at a node or below it.
fn greatest(record: &Record, node: usize, output: &mut Output, depth: usize) -> Near {
    let (mut at, mut depth) = (node, depth);
    loop {
        depth = written(record, at - 1, output, depth);
        let mut last = link(record, CHILD, at - 1);
        if last == 0 {
            return Some((depth, value(record, at - 1)));
        }
        while link(record, NEXT, last - 1) != 0 {
            last = link(record, NEXT, last - 1);
        }
        at = last;
    }
}

/// A label beside as many bytes of what is left of a key.
fn side<'a>(record: &'a Record, place: usize, rest: &[u8]) -> (&'a [u8], std::cmp::Ordering) {
    let label = &label(record, place)[..usize::from(record[LEN + place])];
    (label, label.cmp(&rest[..rest.len().min(label.len())]))
}

pub fn first_at_or_above(record: &Record, key: &[u8], output: &mut Output) -> Result<Near, u32> {
    use std::cmp::Ordering::{Equal, Less};
    let mut at = checked(record, key)?;
    // what stands next above, and how many bytes lead there
    let (mut above, mut depth) = ((0, 0), 0);
    while at != 0 {
        let (label, order) = side(record, at - 1, &key[depth..]);
        let later = link(record, NEXT, at - 1);
        if order == Less {
            at = later;
        } else if order == Equal && depth + label.len() < key.len() {
            if later != 0 {
                above = (later, depth);
            }
            depth += label.len();
            at = link(record, CHILD, at - 1);
        } else {
            above = (at, depth);
            break;
        }
    }
    output[..above.1].copy_from_slice(&key[..above.1]);
    Ok(least(record, above.0, output, above.1))
}

pub fn last_at_or_below(record: &Record, key: &[u8], output: &mut Output) -> Result<Near, u32> {
    use std::cmp::Ordering::{Equal, Greater, Less};
    let mut at = checked(record, key)?;
    // the node that stands last before, how many bytes lead there, and whether by itself or with all below it
    let (mut before, mut depth) = (None, 0);
    while at != 0 {
        let (label, order) = side(record, at - 1, &key[depth..]);
        match order {
            Less => {
                before = Some((at, depth, false));
                at = link(record, NEXT, at - 1);
            }
            Equal => {
                if record[KEY + at - 1] == 1 {
                    before = Some((at, depth, true));
                }
                depth += label.len();
                at = link(record, CHILD, at - 1);
            }
            Greater => break,
        }
    }
    Ok(before.and_then(|(at, depth, alone)| {
        output[..depth].copy_from_slice(&key[..depth]);
        if alone {
            return Some((written(record, at - 1, output, depth), value(record, at - 1)));
        }
        greatest(record, at, output, depth)
    }))
}

#[derive(Clone, Copy)]
pub struct Row {
    key: [u8; LONGEST_KEY],
    length: usize,
    value: u32,
}

impl Row {
    fn bytes(&self) -> &[u8] {
        &self.key[..self.length]
    }
}

pub struct Rows {
    count: usize,
    rows: [Row; MOST_KEYS],
}

impl Rows {
    fn gather(&mut self, record: &Record, first: usize, path: &mut [u8; LONGEST_KEY], depth: usize) {
        let mut at = first;
        while at != 0 {
            let place = at - 1;
            let end = depth + usize::from(record[LEN + place]);
            path[depth..end].copy_from_slice(&label(record, place)[..end - depth]);
            if record[KEY + place] == 1 {
                let row = &mut self.rows[self.count];
                row.key[..end].copy_from_slice(&path[..end]);
                (row.length, row.value) = (end, value(record, place));
                self.count += 1;
            }
            self.gather(record, link(record, CHILD, place), path, end);
            at = link(record, NEXT, place);
        }
    }

    fn of(record: &Record, first: usize) -> Rows {
        let mut rows =
            Rows { count: 0, rows: [Row { key: [0; LONGEST_KEY], length: 0, value: 0 }; MOST_KEYS] };
        rows.gather(record, first, &mut [0; LONGEST_KEY], 0);
        rows
    }

    fn place(&self, key: &[u8]) -> Result<usize, usize> {
        self.rows[..self.count].binary_search_by(|row| row.bytes().cmp(key))
    }

    fn build(&self, record: &mut Record) {
        record.fill(0);
        let end = laid(&self.rows[..self.count], 0, true, 1, record);
        put_link(record, CHILD, 0, if end == 1 { 0 } else { end });
    }
}

fn put_link(record: &mut Record, at: usize, place: usize, link: usize) {
    let at = at + 2 * place;
    record[at..at + 2].copy_from_slice(&(link as u16).to_le_bytes());
}

/// Rows that share their first `depth` bytes, laid from place `at` on: later siblings, what lies below, the node. The answer is the next
/// free place.
fn laid(rows: &[Row], depth: usize, first: bool, at: usize, record: &mut Record) -> usize {
    let Some(row) = rows.first() else { return at };
    let byte = row.key[depth];
    let group = rows.iter().take_while(|row| row.key[depth] == byte).count();
    let length = if first && group == rows.len() {
        let last = rows[group - 1].bytes();
        row.bytes()[depth..].iter().zip(&last[depth..]).take_while(|(a, b)| a == b).count()
    } else {
        1
    };
    let is_key = row.length == depth + length;
    let below = laid(&rows[group..], depth, false, at, record);
    let place = laid(&rows[usize::from(is_key)..group], depth + length, true, below, record);
    record[LEN + place] = length as u8;
    record[LABEL + LONGEST_KEY * place..][..length].copy_from_slice(&row.key[depth..depth + length]);
    if is_key {
        record[KEY + place] = 1;
        record[VALUE + 4 * place..][..4].copy_from_slice(&row.value.to_le_bytes());
    }
    put_link(record, CHILD, place, if place == below { 0 } else { place });
    put_link(record, NEXT, place, if below == at { 0 } else { below });
    place + 1
}

pub fn put(record: &mut Record, key: &[u8], value: u32) -> Result<(), u32> {
    let first = checked(record, key)?;
    let mut rows = Rows::of(record, first);
    match rows.place(key) {
        Ok(place) => rows.rows[place].value = value,
        Err(_) if rows.count == MOST_KEYS => return Err(FULL),
        Err(place) => {
            rows.rows.copy_within(place..rows.count, place + 1);
            rows.count += 1;
            let row = &mut rows.rows[place];
            row.key[..key.len()].copy_from_slice(key);
            (row.length, row.value) = (key.len(), value);
        }
    }
    rows.build(record);
    Ok(())
}

/// How many keys went: 1 or 0.
pub fn remove(record: &mut Record, key: &[u8]) -> Result<u64, u32> {
    let first = checked(record, key)?;
    let mut rows = Rows::of(record, first);
    let Ok(place) = rows.place(key) else { return Ok(0) };
    rows.rows.copy_within(place + 1..rows.count, place);
    rows.count -= 1;
    rows.build(record);
    Ok(1)
}
