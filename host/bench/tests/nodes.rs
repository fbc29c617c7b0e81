//! The proved functions on a node in its slot, the plain ones and the model give the same answers.

use bench::{plain_node, proved};
use wallathi_model::generate;
use wallathi_model::id::Id;
use wallathi_model::message::Message;
use wallathi_model::node::{self, Node, SLOT_BYTES};
use wallathi_model::rng::Rng;
use wallathi_model::slip;

fn same_verdict(key: Id, slot: &[u8]) -> bool {
    let verdict = proved::judge(slot, key);
    assert_eq!(verdict, plain_node::judge(slot, key), "{key:?} {slot:02x?}");
    assert_eq!(verdict, node::read_slot(key, slot).is_ok(), "{key:?} {slot:02x?}");
    verdict
}

/// An ID of the node, or near one.
fn some_id(rng: &mut Rng, node: &Node) -> Id {
    let id = rng.pick(&node.entries).id;
    match rng.below(6) {
        0 => Id::new(id.ms, id.seq.wrapping_add(1)),
        1 => Id::new(rng.next(), rng.next()),
        _ => id,
    }
}

/// Changes a slot and answers whether it did.
type Change<'a> = &'a dyn Fn(&mut [u8]) -> bool;

/// Both leave what the model says, or the slot as it was.
fn same_change(slot: &[u8], expected: Option<Vec<u8>>, changes: [Change; 2]) {
    for change in changes {
        let mut copy = slot.to_vec();
        assert_eq!(change(&mut copy), expected.is_some());
        assert_eq!(copy, expected.as_deref().unwrap_or(slot));
    }
}

fn same_find(node: &Node, slot: &[u8], id: Id) {
    let live = node.live().any(|entry| entry.id == id);
    assert_eq!(proved::find(slot, node.key(), id), live);
    assert_eq!(plain_node::find(slot, node.key(), id), live);
}

/// A reader writes what is expected at the start of an output that is as long or longer, and nothing in a shorter one.
fn same_output(expected: Option<&[u8]>, read: &dyn Fn(&mut [u8]) -> usize) {
    let length = expected.map_or(0, <[u8]>::len);
    for room in [length, length + 3, length.saturating_sub(1)] {
        let mut out = vec![7; room];
        let mut wanted = out.clone();
        let written = expected.filter(|bytes| bytes.len() <= room).unwrap_or(&[]);
        wanted[..written.len()].copy_from_slice(written);
        assert_eq!(read(&mut out), written.len());
        assert_eq!(out, wanted);
    }
}

fn same_reading(node: &Node, slot: &[u8], id: Id) {
    let key = node.key();
    let found = node.live().find(|entry| entry.id == id);
    let whole = found.map(|entry| slip::write(&entry.pairs));
    same_output(whole.as_deref(), &|out| proved::read_message(slot, key, id, out));
    same_output(whole.as_deref(), &|out| plain_node::read_message(slot, key, id, out));
    let names = found.iter().flat_map(|entry| entry.pairs.iter().map(|(name, _)| name.clone()));
    for name in names.chain([b"no such field".to_vec()]) {
        let value = found.and_then(|entry| entry.pairs.iter().find(|(field, _)| *field == name));
        let value = value.map(|(_, value)| value.as_slice());
        same_output(value, &|out| proved::field(slot, key, id, &name, out));
        same_output(value, &|out| plain_node::field(slot, key, id, &name, out));
    }
}

fn same_delete(node: &Node, slot: &[u8], id: Id) {
    let mut after = node.clone();
    let deleted = node.live_count() >= 2 && after.delete(id);
    let expected = deleted.then(|| after.to_slot());
    let key = node.key();
    same_change(
        slot,
        expected,
        [&|slot| proved::delete(slot, key, id), &|slot| plain_node::delete(slot, key, id)],
    );
}

fn same_append(node: &Node, slot: &[u8], id: Id, pairs: &Message) {
    let expected = node.after_add(id, pairs).map(|after| after.to_slot());
    let (key, slip) = (node.key(), slip::write(pairs));
    same_change(
        slot,
        expected,
        [&|slot| proved::append(slot, key, id, &slip), &|slot| plain_node::append(slot, key, id, &slip)],
    );
}

/// A message with the fields of the node's first one, now and then.
fn some_message(rng: &mut Rng, node: &Node) -> Message {
    let mut pairs = generate::message(rng);
    if rng.one_in(2) {
        for (pair, first) in pairs.iter_mut().zip(&node.entries[0].pairs) {
            pair.0.clone_from(&first.0);
        }
    }
    pairs
}

#[test]
fn nodes_are_accepted_and_changed() {
    let mut rng = Rng::new(41);
    for _ in 0..300 {
        let node = generate::node(&mut rng);
        let slot = node.to_slot();
        assert!(same_verdict(node.key(), &slot));
        for _ in 0..4 {
            let id = some_id(&mut rng, &node);
            same_verdict(id, &slot);
            same_find(&node, &slot, id);
            same_reading(&node, &slot, id);
            same_delete(&node, &slot, id);
            let pairs = some_message(&mut rng, &node);
            same_append(&node, &slot, node.greatest_id().following().expect("a following ID"), &pairs);
        }
    }
}

fn damage(rng: &mut Rng, slot: &mut [u8], size: usize) {
    let at = rng.size_below(size);
    match rng.below(6) {
        0 => slot[at] = rng.byte(),
        1 => slot[at] = slot[at].wrapping_add(1),
        2 => slot[at] ^= 1 << rng.below(8),
        3 => slot.copy_within(at..SLOT_BYTES - 1, at + 1),
        4 => slot.copy_within(at + 1..SLOT_BYTES, at),
        _ => slot[rng.size_below(SLOT_BYTES)] ^= 1 << rng.below(8),
    }
}

#[test]
fn damaged_nodes() {
    let mut rng = Rng::new(42);
    let mut refused = 0;
    for _ in 0..300 {
        let node = generate::node(&mut rng);
        for _ in 0..60 {
            let mut slot = node.to_slot();
            for _ in 0..1 + rng.below(2) {
                damage(&mut rng, &mut slot, node.size());
            }
            let sound = same_verdict(node.key(), &slot);
            refused += usize::from(!sound);
            if !sound {
                let (key, id) = (node.key(), node.greatest_id());
                assert!(!proved::find(&slot, key, id) && !plain_node::find(&slot, key, id));
                same_change(
                    &slot,
                    None,
                    [&|slot| proved::delete(slot, key, id), &|slot| plain_node::delete(slot, key, id)],
                );
            }
        }
    }
    assert!((9_000..18_000).contains(&refused), "{refused}");
}

/// Every byte of some small nodes, with every value.
#[test]
fn every_byte_of_a_node() {
    let mut rng = Rng::new(43);
    let mut node = Node::of_one(Id::new(5, 9), vec![(b"a".to_vec(), b"1".to_vec())]);
    node = node.with(Id::new(6, 0), &[(b"b".to_vec(), b"".to_vec())]);
    node = node.with(Id::new(6, 700), &[(b"a".to_vec(), b"-5000".to_vec())]);
    node.delete(Id::new(6, 0));
    for node in [node.clone(), node.with(Id::new(7, 7), &generate::message(&mut rng)[..1])] {
        for at in 0..node.size() + 1 {
            for value in 0..=255 {
                let mut slot = node.to_slot();
                slot[at] = value;
                same_verdict(node.key(), &slot);
            }
        }
    }
}

/// The deleted count passes 127, and everything behind it moves by a byte; in a full node too.
#[test]
fn the_deleted_count_takes_a_third_byte() {
    for value in [&b"5"[..], b"a longer one: 23 bytes"] {
        let pairs = vec![(b"t".to_vec(), value.to_vec())];
        let mut node = Node::of_one(Id::new(1, 0), pairs.clone());
        for ms in 2.. {
            if node.live_count() > 3 {
                let oldest = node.live().next().expect("a live message").id;
                same_delete(&node, &node.to_slot(), oldest);
                node.delete(oldest);
            }
            same_append(&node, &node.to_slot(), Id::new(ms, 0), &pairs);
            match node.after_add(Id::new(ms, 0), &pairs) {
                Some(after) => node = after,
                None => break,
            }
        }
        assert!(same_verdict(node.key(), &node.to_slot()));
    }
}

#[test]
fn other_slots_and_slips() {
    let node = Node::of_one(Id::new(5, 0), vec![(b"a".to_vec(), b"1".to_vec())]);
    let slot = node.to_slot();
    let key = node.key();
    for length in [0, 3, 6, 7, 28, 4_095] {
        assert!(!same_verdict(key, &slot[..length]));
    }
    assert!(!same_verdict(key, &[&slot[..], &[0]].concat()));
    let slips: [&[u8]; 6] = [&[], &[0], &[1, 0, 0], &[1, 0, 0, 0, 0, 0], &[1, 1, 0, b'a', 2, 0, b'b'], &[33]];
    for slip in slips {
        same_change(
            &slot,
            None,
            [&|slot| proved::append(slot, key, Id::new(6, 0), slip), &|slot| {
                plain_node::append(slot, key, Id::new(6, 0), slip)
            }],
        );
    }
}
