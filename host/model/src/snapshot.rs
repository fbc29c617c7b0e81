//! Snapshots (01, Snapshot).
//!
//! ```text
//! snapshot   version 1 (1) | entry count (2, LE) | contents | bodies back to back
//! contents   per entry: kind (1) | offset from the file's start (4, LE) | length (4, LE)
//! kind 1     last ID (16, BE)                          once, first
//! kind 2     key (16, BE) | listpack                   by rising key, from the fresh cut
//! kind 3     a group's body (see groups)               by rising name
//! ```

use std::collections::BTreeMap;

use crate::bytes::Reader;
use crate::groups;
use crate::id::Id;
use crate::ledger::{Ledger, MOST_SLOTS};
use crate::message::Message;
use crate::node::{self, Node};
use crate::refusal::{Refusal, Refused, TOO_MANY_NODES};

const VERSION: u8 = 1;
const KIND_LAST_ID: u8 = 1;
const KIND_NODE: u8 = 2;
const KIND_GROUP: u8 = 3;
const CONTENTS_START: usize = 3;
const CONTENTS_ENTRY: usize = 9;

/// The fresh cut: the live messages alone, added in order to an empty store by the add rule,
/// slots never lacking.
pub fn fresh_cut(messages: &BTreeMap<Id, Message>) -> Vec<Node> {
    let mut nodes: Vec<Node> = Vec::new();
    for (&id, pairs) in messages {
        match nodes.last().and_then(|highest| highest.after_add(id, pairs)) {
            Some(after) => *nodes.last_mut().expect("the highest node") = after,
            None => nodes.push(Node::of_one(id, pairs.clone())),
        }
    }
    nodes
}

/// The snapshot of a ledger that keeps its rules; refusal 15 where the fresh cut needs over 64
/// nodes.
pub fn snapshot(ledger: &Ledger) -> Result<Vec<u8>, Refusal> {
    let nodes = fresh_cut(&ledger.messages);
    if nodes.len() > MOST_SLOTS {
        return Err(TOO_MANY_NODES);
    }
    let mut entries = vec![(KIND_LAST_ID, ledger.last_id.to_bytes().to_vec())];
    entries.extend(nodes.iter().map(|node| (KIND_NODE, node_body(node))));
    entries.extend(ledger.groups.iter().map(|(name, group)| (KIND_GROUP, groups::body(name, group))));
    Ok(file(&entries))
}

/// A body of kind 2.
pub fn node_body(node: &Node) -> Vec<u8> {
    [&node.key().to_bytes()[..], &node.to_bytes()].concat()
}

/// The file of these kinds and bodies.
pub fn file(entries: &[(u8, Vec<u8>)]) -> Vec<u8> {
    let mut contents = vec![VERSION];
    contents.extend((entries.len() as u16).to_le_bytes());
    let mut bodies = Vec::new();
    for (kind, body) in entries {
        let offset = CONTENTS_START + CONTENTS_ENTRY * entries.len() + bodies.len();
        contents.push(*kind);
        contents.extend((offset as u32).to_le_bytes());
        contents.extend((body.len() as u32).to_le_bytes());
        bodies.extend(body);
    }
    [contents, bodies].concat()
}

/// The ledger whose snapshot is the whole slice.
pub fn read(file: &[u8]) -> Result<Ledger, Refused> {
    let ledger = read_bodies(file)?;
    if ledger.keeps_rules() && snapshot(&ledger).as_deref() == Ok(file) {
        Ok(ledger)
    } else {
        Err(Refused)
    }
}

/// The ledger that the bodies stand for. Number, order and place of the bodies, and how the
/// messages are cut, are judged by making the file again from the ledger.
fn read_bodies(file: &[u8]) -> Result<Ledger, Refused> {
    let mut reader = Reader::new(file);
    let _version = reader.byte()?;
    let count = reader.number(2)?;
    let mut ledger = Ledger::empty();
    for _ in 0..count {
        let kind = reader.byte()?;
        let (offset, length) = (reader.length(4)?, reader.length(4)?);
        let after_start = file.get(offset..).ok_or(Refused)?;
        read_entry(&mut ledger, kind, after_start.get(..length).ok_or(Refused)?)?;
    }
    Ok(ledger)
}

fn read_entry(ledger: &mut Ledger, kind: u8, body: &[u8]) -> Result<(), Refused> {
    let mut reader = Reader::new(body);
    match kind {
        KIND_LAST_ID => ledger.last_id = reader.id()?,
        KIND_NODE => {
            let node = node::read(reader.id()?, reader.rest())?;
            ledger.messages.extend(node.live().map(|entry| (entry.id, entry.pairs.clone())));
        }
        KIND_GROUP => ledger.groups.extend([groups::read_body(body)?]),
        _ => return Err(Refused),
    }
    Ok(())
}

#[cfg(test)]
mod tests {
    use super::*;
    use crate::generate;
    use crate::rng::Rng;

    fn short() -> Message {
        vec![(b"a".to_vec(), b"1".to_vec())]
    }

    fn ledger() -> Ledger {
        let mut rng = Rng::new(8);
        let mut ledger = Ledger::empty();
        for ms in 1..=250 {
            ledger.messages.insert(Id::new(ms, 0), short());
        }
        ledger.last_id = Id::new(300, 7);
        for name in [b"one", b"two"] {
            let (_, mut group) = generate::group(&mut rng);
            group.pending.retain(|&id, _| id <= ledger.last_id);
            ledger.groups.insert(name.to_vec(), group);
        }
        ledger
    }

    #[test]
    fn empty_snapshot() {
        let mut bytes = vec![0x01, 0x01, 0x00, 0x01, 0x0C, 0x00, 0x00, 0x00, 0x10, 0x00, 0x00, 0x00];
        bytes.extend([0; 16]);
        assert_eq!(snapshot(&Ledger::empty()).as_ref(), Ok(&bytes));
        assert_eq!(read(&bytes), Ok(Ledger::empty()));
    }

    #[test]
    fn one_node_and_one_group() {
        let mut ledger = Ledger::empty();
        ledger.messages.insert(Id::new(5, 0), short());
        ledger.last_id = Id::new(6, 0);
        ledger.groups.insert(b"g".to_vec(), groups::Group::new(Id::new(4, 0)));
        let mut bytes = vec![1, 3, 0];
        bytes.extend([1, 30, 0, 0, 0, 16, 0, 0, 0]);
        bytes.extend([2, 46, 0, 0, 0, 44, 0, 0, 0]);
        bytes.extend([3, 90, 0, 0, 0, 21, 0, 0, 0]);
        bytes.extend(Id::new(6, 0).to_bytes());
        bytes.extend(Id::new(5, 0).to_bytes());
        bytes.extend([
            0x1C, 0x00, 0x00, 0x00, 0x0A, 0x00, 0x01, 0x01, 0x00, 0x01, 0x01, 0x01, 0x81, 0x61, 0x02, 0x00,
            0x01, 0x02, 0x01, 0x00, 0x01, 0x00, 0x01, 0x01, 0x01, 0x04, 0x01, 0xFF,
        ]);
        bytes.extend([1, b'g']);
        bytes.extend(Id::new(4, 0).to_bytes());
        bytes.extend([0, 0, 0]);
        assert_eq!(snapshot(&ledger).as_ref(), Ok(&bytes));
        assert_eq!(read(&bytes), Ok(ledger));
    }

    #[test]
    fn the_fresh_cut_starts_a_node_after_100_messages() {
        let keys: Vec<Id> = fresh_cut(&ledger().messages).iter().map(Node::key).collect();
        assert_eq!(keys, [Id::new(1, 0), Id::new(101, 0), Id::new(201, 0)]);
    }

    #[test]
    fn read_gives_the_ledger_back() {
        let ledger = ledger();
        assert!(ledger.keeps_rules());
        assert_eq!(read(&snapshot(&ledger).unwrap()), Ok(ledger));
    }

    /// A file of other bodies than a snapshot has.
    fn refused(entries: &[(u8, Vec<u8>)]) -> bool {
        read(&file(entries)).is_err()
    }

    #[test]
    fn other_bodies_are_refused() {
        let last = (1, Id::new(9, 0).to_bytes().to_vec());
        let node = |ms| (2, node_body(&Node::of_one(Id::new(ms, 0), short())));
        let two = (2, node_body(&Node::of_one(Id::new(3, 0), short()).with(Id::new(4, 0), &short())));
        let group = |name: &[u8]| (3, groups::body(name, &groups::Group::new(Id::LEAST)));
        assert!(!refused(&[last.clone(), two, group(b"a"), group(b"b")]));
        assert!(refused(&[]));
        assert!(refused(&[node(3)]));
        assert!(refused(&[last.clone(), last.clone()]));
        assert!(refused(&[node(3), last.clone()]));
        assert!(refused(&[last.clone(), node(3), node(4)])); // not the fresh cut
        assert!(refused(&[last.clone(), node(10)])); // above the last ID
        assert!(refused(&[last.clone(), group(b"a"), node(3)]));
        assert!(refused(&[last.clone(), group(b"b"), group(b"a")]));
        assert!(refused(&[last.clone(), group(b"a"), group(b"a")]));
        assert!(refused(&[last.clone(), (4, vec![])]));
        assert!(refused(&[last.clone(), (2, vec![])]));
        assert!(refused(&[(1, vec![0; 17])]));
        let groups = |count| [vec![last.clone()], (1..=count).map(|name| group(&[name])).collect()].concat();
        assert!(!refused(&groups(8)));
        assert!(refused(&groups(9)));
    }

    #[test]
    fn deleted_messages_are_not_saved() {
        let mut node = Node::of_one(Id::new(3, 0), short()).with(Id::new(4, 0), &short());
        node.delete(Id::new(3, 0));
        let last = (1, Id::new(9, 0).to_bytes().to_vec());
        assert!(refused(&[last, (2, node_body(&node))]));
    }

    #[test]
    fn at_most_64_nodes() {
        let with = |count: u64| {
            let mut ledger = Ledger::empty();
            for ms in 1..=count {
                ledger.messages.insert(Id::new(ms, 0), short());
            }
            ledger.last_id = Id::GREATEST;
            ledger
        };
        assert_eq!(read(&snapshot(&with(6_400)).unwrap()), Ok(with(6_400)));
        assert_eq!(snapshot(&with(6_401)), Err(15));
        let mut entries = vec![(1, Id::GREATEST.to_bytes().to_vec())];
        entries.extend(fresh_cut(&with(6_401).messages).iter().map(|node| (2, node_body(node))));
        assert!(refused(&entries));
    }

    #[test]
    fn offsets_lengths_and_end_are_judged() {
        let good = snapshot(&ledger()).unwrap();
        for place in 0..CONTENTS_START + 6 * CONTENTS_ENTRY {
            for byte in [0, 1, 2, 3, 4, 255] {
                let mut bytes = good.clone();
                bytes[place] = byte;
                assert_eq!(read(&bytes).is_ok(), bytes == good, "{place} {byte}");
            }
        }
        assert!(read(&good[..good.len() - 1]).is_err());
        assert!(read(&[&good[..], &[0]].concat()).is_err());
        assert!(read(&[]).is_err());
    }
}
