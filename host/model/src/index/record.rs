//! The record of an index: its shape, laid into a pool of 256 places, as bytes.
//!
//! ```text
//! root 2 | len 256 | key 256 | child 2 × 256 | next 2 × 256 | val 4 × 256 | label 16 × 256
//! ```
//!
//! Numbers are little-endian; a link is 0 for none, or 1 + place. `root` is the root's place. At
//! each place: the length of the label that leads to the node, 1 for a key node, links to the first
//! child and to the next sibling, the value, the label with zeros after it. Fields that are not in
//! use, and free places, are zero. The places are a free choice.

use super::{Children, Index, Shape, LONGEST_KEY, POOL_NODES};
use crate::refusal::Refused;

pub const LEN: usize = 2;
pub const KEY: usize = LEN + POOL_NODES;
pub const CHILD: usize = KEY + POOL_NODES;
pub const NEXT: usize = CHILD + 2 * POOL_NODES;
pub const VAL: usize = NEXT + 2 * POOL_NODES;
pub const LABEL: usize = VAL + 4 * POOL_NODES;
pub const RECORD_BYTES: usize = LABEL + LONGEST_KEY * POOL_NODES;

/// A field of a place: where its array begins, and the width of an element.
#[derive(Clone, Copy, Debug)]
pub struct Field {
    start: usize,
    width: usize,
}

impl Field {
    pub const ROOT: Field = Field { start: 0, width: 2 };
    pub const LEN: Field = Field { start: LEN, width: 1 };
    pub const KEY: Field = Field { start: KEY, width: 1 };
    pub const CHILD: Field = Field { start: CHILD, width: 2 };
    pub const NEXT: Field = Field { start: NEXT, width: 2 };
    pub const VAL: Field = Field { start: VAL, width: 4 };
    pub const LABEL: Field = Field { start: LABEL, width: LONGEST_KEY };

    /// The bytes of this field at a place.
    pub fn at(self, place: usize) -> std::ops::Range<usize> {
        let start = self.start + self.width * place;
        start..start + self.width
    }

    /// The number at a place; of no use for a label.
    pub fn get(self, bytes: &[u8], place: usize) -> usize {
        let mut wide = [0; 8];
        wide[..self.width].copy_from_slice(&bytes[self.at(place)]);
        u64::from_le_bytes(wide) as usize
    }

    pub fn set(self, bytes: &mut [u8], place: usize, number: usize) {
        bytes[self.at(place)].copy_from_slice(&(number as u64).to_le_bytes()[..self.width]);
    }
}

/// The bytes of an index with its nodes at these places, one for each node and no two alike: the
/// root's, then for each child its own and those below it.
pub fn write(index: &Index, places: &[usize]) -> Vec<u8> {
    let mut writer = Writer { index, places: places.iter(), bytes: vec![0; RECORD_BYTES] };
    let root = writer.node(&index.shape(), &[], 0);
    assert!(writer.places.next().is_none(), "one place for each node");
    Field::ROOT.set(&mut writer.bytes, 0, root);
    writer.bytes
}

struct Writer<'a> {
    index: &'a Index,
    places: std::slice::Iter<'a, usize>,
    bytes: Vec<u8>,
}

impl Writer<'_> {
    /// Writes a node that `path` leads to, `label` bytes of it from the parent; answers its place.
    fn node(&mut self, shape: &Shape, path: &[u8], label: usize) -> usize {
        let place = *self.places.next().expect("one place for each node");
        Field::LEN.set(&mut self.bytes, place, label);
        self.bytes[Field::LABEL.at(place)][..label].copy_from_slice(&path[path.len() - label..]);
        if shape.is_key {
            let value = self.index.entries[path];
            Field::KEY.set(&mut self.bytes, place, 1);
            Field::VAL.set(&mut self.bytes, place, value as usize);
        }
        let mut link = (Field::CHILD, place);
        for (label, child) in labelled(&shape.children) {
            let child = self.node(child, &[path, label].concat(), label.len());
            link.0.set(&mut self.bytes, link.1, 1 + child);
            link = (Field::NEXT, child);
        }
        place
    }
}

/// The children of a node in order, each with the bytes that lead to it.
fn labelled(children: &Children) -> Vec<(&[u8], &Shape)> {
    match children {
        Children::Leaf => vec![],
        Children::Run(run, child) => vec![(run, child)],
        Children::Branch(children) => {
            children.iter().map(|(byte, child)| (std::slice::from_ref(byte), child)).collect()
        }
    }
}

/// The index whose record these bytes are, and the places of its nodes in the order of [`write`].
pub fn read(bytes: &[u8]) -> Result<(Index, Vec<usize>), Refused> {
    if bytes.len() != RECORD_BYTES {
        return Err(Refused);
    }
    let mut walk = Walk { bytes, index: Index::new(), places: vec![], seen: [false; POOL_NODES] };
    walk.visit(Field::ROOT.get(bytes, 0), &[])?;
    let Walk { index, places, .. } = walk;
    if index.shape().node_count() == places.len() && write(&index, &places) == bytes {
        Ok((index, places))
    } else {
        Err(Refused)
    }
}

/// What the links lead to. It is judged afterwards, by writing it again.
struct Walk<'a> {
    bytes: &'a [u8],
    index: Index,
    places: Vec<usize>,
    seen: [bool; POOL_NODES],
}

impl Walk<'_> {
    /// Visits a node and all below it. `path` leads to its parent.
    fn visit(&mut self, place: usize, path: &[u8]) -> Result<(), Refused> {
        if place >= POOL_NODES || self.seen[place] {
            return Err(Refused);
        }
        self.seen[place] = true;
        self.places.push(place);
        let label = Field::LEN.get(self.bytes, place).min(LONGEST_KEY);
        let path = [path, &self.bytes[Field::LABEL.at(place)][..label]].concat();
        if Field::KEY.get(self.bytes, place) != 0 {
            let value = Field::VAL.get(self.bytes, place) as u32;
            self.index.put(&path, value).map_err(|_| Refused)?;
        }
        let mut link = Field::CHILD.get(self.bytes, place);
        while link != 0 {
            self.visit(link - 1, &path)?;
            link = Field::NEXT.get(self.bytes, link - 1);
        }
        Ok(())
    }
}

#[cfg(test)]
mod tests {
    use super::*;
    use crate::index::{is_key, MOST_KEYS};
    use crate::rng::Rng;

    fn index_of(entries: &[(&[u8], u32)]) -> Index {
        let mut index = Index::new();
        for (key, value) in entries {
            index.put(key, *value).unwrap();
        }
        index
    }

    #[test]
    fn the_bytes_of_foo_and_foobar() {
        let index = index_of(&[(b"foo", 7), (b"foobar", 9)]);
        let bytes = write(&index, &[0, 2, 1]);
        let mut expected = vec![0; 6_658];
        expected[2 + 1..2 + 3].copy_from_slice(&[3, 3]);
        expected[258 + 1..258 + 3].copy_from_slice(&[1, 1]);
        (expected[514], expected[514 + 4]) = (3, 2);
        (expected[1_538 + 4], expected[1_538 + 8]) = (9, 7);
        expected[2_562 + 16..][..3].copy_from_slice(b"bar");
        expected[2_562 + 32..][..3].copy_from_slice(b"foo");
        assert!(bytes == expected);
        assert_eq!(read(&bytes), Ok((index, vec![0, 2, 1])));
    }

    #[test]
    fn the_empty_index() {
        assert!(write(&Index::new(), &[0]) == [0; RECORD_BYTES]);
        assert_eq!(read(&write(&Index::new(), &[255])), Ok((Index::new(), vec![255])));
    }

    #[test]
    fn siblings_are_linked_in_rising_order() {
        let index = index_of(&[(b"a", 1), (b"c", 3), (b"b", 2)]);
        let bytes = write(&index, &[9, 5, 6, 7]);
        assert_eq!(Field::ROOT.get(&bytes, 0), 9);
        assert_eq!(Field::CHILD.get(&bytes, 9), 1 + 5);
        assert_eq!([5, 6, 7].map(|place| Field::NEXT.get(&bytes, place)), [1 + 6, 1 + 7, 0]);
        let mut swapped = bytes.clone();
        Field::LABEL.at(5).zip(Field::LABEL.at(6)).for_each(|(a, b)| swapped.swap(a, b));
        assert_eq!(read(&swapped), Err(Refused));
    }

    #[test]
    fn what_is_refused() {
        let bytes = write(&index_of(&[(b"foo", 7), (b"foobar", 9)]), &[0, 2, 1]);
        let refused = |field: Field, place, number| {
            let mut bytes = bytes.clone();
            field.set(&mut bytes, place, number);
            assert_eq!(read(&bytes), Err(Refused), "{field:?} {place} {number}");
        };
        refused(Field::ROOT, 0, 1);
        refused(Field::ROOT, 0, 256);
        refused(Field::KEY, 0, 1);
        refused(Field::KEY, 1, 0);
        refused(Field::KEY, 1, 2);
        refused(Field::LEN, 1, 2);
        refused(Field::LEN, 1, 4 + 13);
        refused(Field::CHILD, 1, 257);
        refused(Field::CHILD, 1, 3);
        refused(Field::CHILD, 1, 4);
        refused(Field::NEXT, 1, 2);
        refused(Field::VAL, 0, 1);
        refused(Field::VAL, 200, 1);
        assert_eq!(read(&bytes[1..]), Err(Refused));
        // A run of one node too many: foo without its key flag has one child.
        refused(Field::KEY, 2, 0);
    }

    #[test]
    fn any_placement_is_read_back() {
        let mut rng = Rng::new(6);
        for _ in 0..300 {
            let mut index = Index::new();
            for value in 0..rng.size_below(MOST_KEYS + 1) {
                let length = 1 + rng.size_below(LONGEST_KEY);
                let key: Vec<u8> = (0..length).map(|_| *rng.pick(b"ab\0\xff")).collect();
                assert!(is_key(&key));
                index.put(&key, value as u32).unwrap();
            }
            let mut places: Vec<usize> = (0..POOL_NODES).collect();
            (0..POOL_NODES).for_each(|i| places.swap(i, rng.size_below(POOL_NODES)));
            places.truncate(index.shape().node_count());
            assert_eq!(read(&write(&index, &places)), Ok((index, places)));
        }
    }
}
