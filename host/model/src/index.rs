//! The index (01, The index): a sorted map, and the shape that follows from its keys.

use std::collections::BTreeMap;

use crate::refusal::{Refusal, BREAKS_ITS_RULE, TOO_MANY_KEYS};

pub mod record;

pub const LONGEST_KEY: usize = 16;
pub const MOST_KEYS: usize = 64;
pub const POOL_NODES: usize = 256;

/// The rule of a key: 1 to 16 bytes.
pub fn is_key(key: &[u8]) -> bool {
    (1..=LONGEST_KEY).contains(&key.len())
}

fn check(key: &[u8]) -> Result<(), Refusal> {
    if is_key(key) {
        Ok(())
    } else {
        Err(BREAKS_ITS_RULE)
    }
}

/// A key and its value.
pub type KeyValue = (Vec<u8>, u32);

/// Up to 64 keys with their values, in bytewise order, a prefix first.
#[derive(Clone, Debug, Default, PartialEq, Eq)]
pub struct Index {
    entries: BTreeMap<Vec<u8>, u32>,
}

impl Index {
    pub fn new() -> Index {
        Index::default()
    }

    /// Sets the value of a key, new or held.
    pub fn put(&mut self, key: &[u8], value: u32) -> Result<(), Refusal> {
        check(key)?;
        if !self.entries.contains_key(key) && self.entries.len() >= MOST_KEYS {
            return Err(TOO_MANY_KEYS);
        }
        self.entries.insert(key.to_vec(), value);
        Ok(())
    }

    /// The number of keys removed, 1 or 0.
    pub fn remove(&mut self, key: &[u8]) -> Result<u64, Refusal> {
        check(key)?;
        Ok(self.entries.remove(key).map_or(0, |_| 1))
    }

    pub fn find(&self, key: &[u8]) -> Result<Option<u32>, Refusal> {
        check(key)?;
        Ok(self.entries.get(key).copied())
    }

    pub fn first_at_or_above(&self, key: &[u8]) -> Result<Option<KeyValue>, Refusal> {
        check(key)?;
        let entry = self.entries.range(key.to_vec()..).next();
        Ok(entry.map(|(key, &value)| (key.clone(), value)))
    }

    pub fn last_at_or_below(&self, key: &[u8]) -> Result<Option<KeyValue>, Refusal> {
        check(key)?;
        let entry = self.entries.range(..=key.to_vec()).next_back();
        Ok(entry.map(|(key, &value)| (key.clone(), value)))
    }

    /// Keys and values in order.
    pub fn entries(&self) -> impl DoubleEndedIterator<Item = (&[u8], u32)> {
        self.entries.iter().map(|(key, &value)| (key.as_slice(), value))
    }

    pub fn len(&self) -> usize {
        self.entries.len()
    }

    pub fn is_empty(&self) -> bool {
        self.entries.is_empty()
    }

    pub fn shape(&self) -> Shape {
        let keys: Vec<&[u8]> = self.entries.keys().map(Vec::as_slice).collect();
        Shape::of(&keys)
    }
}

/// A node of the index with all below it.
#[derive(Clone, Debug, PartialEq, Eq)]
pub struct Shape {
    /// The path to this node is a key.
    pub is_key: bool,
    pub children: Children,
}

#[derive(Clone, Debug, PartialEq, Eq)]
pub enum Children {
    Leaf,
    /// Two bytes or more, and the one child after them.
    Run(Vec<u8>, Box<Shape>),
    /// One child for each first byte, rising.
    Branch(Vec<(u8, Shape)>),
}

impl Shape {
    /// The shape of a set of remainders, given in rising order.
    pub fn of(remainders: &[&[u8]]) -> Shape {
        let is_key = remainders.iter().any(|remainder| remainder.is_empty());
        let rest: Vec<&[u8]> = remainders.iter().copied().filter(|r| !r.is_empty()).collect();
        let prefix = common_prefix(&rest);
        let children = if rest.is_empty() {
            Children::Leaf
        } else if prefix.len() >= 2 {
            Children::Run(prefix.to_vec(), Box::new(Shape::after(&rest, prefix)))
        } else {
            Children::Branch(first_bytes(&rest).map(|byte| (byte, Shape::after(&rest, &[byte]))).collect())
        };
        Shape { is_key, children }
    }

    /// The shape of what follows a prefix.
    fn after(remainders: &[&[u8]], prefix: &[u8]) -> Shape {
        let rest: Vec<&[u8]> = remainders.iter().filter_map(|r| r.strip_prefix(prefix)).collect();
        Shape::of(&rest)
    }

    pub fn node_count(&self) -> usize {
        1 + match &self.children {
            Children::Leaf => 0,
            Children::Run(_, child) => child.node_count(),
            Children::Branch(children) => children.iter().map(|(_, child)| child.node_count()).sum(),
        }
    }

    /// The number of nodes on the path that a key follows, the root included. The path ends where
    /// the key ends, or at the node that has no child for the rest of the key.
    pub fn path_length(&self, key: &[u8]) -> usize {
        1 + match self.child_for(key) {
            Some((child, rest)) => child.path_length(rest),
            None => 0,
        }
    }

    /// The child that a key enters, and the rest of the key.
    fn child_for<'k>(&self, key: &'k [u8]) -> Option<(&Shape, &'k [u8])> {
        match &self.children {
            Children::Leaf => None,
            Children::Run(run, child) => Some((child, key.strip_prefix(run.as_slice())?)),
            Children::Branch(children) => {
                let (first, rest) = key.split_first()?;
                let (_, child) = children.iter().find(|(byte, _)| byte == first)?;
                Some((child, rest))
            }
        }
    }
}

/// The longest common prefix; empty where there are no strings.
fn common_prefix<'a>(strings: &[&'a [u8]]) -> &'a [u8] {
    let Some(first) = strings.first() else {
        return &[];
    };
    let shared = |length: &usize| strings.iter().all(|string| string.starts_with(&first[..*length]));
    let length = (0..=first.len()).rev().find(shared).unwrap_or(0);
    &first[..length]
}

/// The first bytes of non-empty strings, rising, each once.
fn first_bytes(strings: &[&[u8]]) -> impl Iterator<Item = u8> {
    strings.iter().map(|string| string[0]).collect::<std::collections::BTreeSet<u8>>().into_iter()
}

#[cfg(test)]
mod tests;
