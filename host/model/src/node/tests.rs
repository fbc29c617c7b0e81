use super::*;
use crate::generate;
use crate::rng::Rng;

fn pairs(list: &[(&[u8], &[u8])]) -> Message {
    list.iter().map(|(field, value)| (field.to_vec(), value.to_vec())).collect()
}

/// 01: node with 5-0, a=1.
const ONE: [u8; 28] = [
    0x1C, 0x00, 0x00, 0x00, 0x0A, 0x00, 0x01, 0x01, 0x00, 0x01, 0x01, 0x01, 0x81, 0x61, 0x02, 0x00, 0x01,
    0x02, 0x01, 0x00, 0x01, 0x00, 0x01, 0x01, 0x01, 0x04, 0x01, 0xFF,
];

fn one() -> Node {
    Node::of_one(Id::new(5, 0), pairs(&[(b"a", b"1")]))
}

fn slot_of(bytes: &[u8]) -> Vec<u8> {
    let mut slot = bytes.to_vec();
    slot.resize(SLOT_BYTES, 0);
    slot
}

#[test]
fn example_of_one_message() {
    assert_eq!(one().to_bytes(), ONE);
    assert_eq!(read(Id::new(5, 0), &ONE), Ok(one()));
    assert_eq!(read_slot(Id::new(5, 0), &slot_of(&ONE)), Ok(one()));
}

#[test]
fn example_of_two_messages() {
    let two = one().after_add(Id::new(6, 0), &pairs(&[(b"b", b"")])).unwrap();
    let bytes = two.to_bytes();
    assert_eq!(bytes.len(), 43);
    assert_eq!(two.elements().len(), 17);
    assert_eq!(bytes[..8], [43, 0, 0, 0, 17, 0, 2, 1]);
    let message = [0, 1, 1, 1, 0, 1, 1, 1, 0x81, b'b', 2, 0x80, 1, 6, 1, 0xFF];
    assert_eq!(bytes[27..], message);
    assert_eq!(read(Id::new(5, 0), &bytes), Ok(two));
}

#[test]
fn a_negative_seq_difference_is_stored() {
    let node =
        Node::of_one(Id::new(5, 9), pairs(&[(b"a", b"1")])).with(Id::new(6, 0), &pairs(&[(b"a", b"2")]));
    let expected: [&[u8]; 5] = [b"2", b"1", b"-9", b"2", b"4"];
    assert_eq!(node.elements()[10..], expected);
    assert_eq!(read(Id::new(5, 9), &node.to_bytes()), Ok(node));
}

#[test]
fn flag_2_needs_equal_names_in_number_order_and_bytes() {
    let first = pairs(&[(b"a", b"1"), (b"b", b"2")]);
    let node = Node::of_one(Id::new(1, 0), first);
    let flags_of = |message: &[Pair]| node.with(Id::new(2, 0), message).elements()[12].clone();
    assert_eq!(flags_of(&pairs(&[(b"a", b""), (b"b", b"")])), b"2");
    assert_eq!(flags_of(&pairs(&[(b"b", b""), (b"a", b"")])), b"0");
    assert_eq!(flags_of(&pairs(&[(b"a", b"")])), b"0");
    assert_eq!(flags_of(&pairs(&[(b"a", b""), (b"B", b"")])), b"0");
}

#[test]
fn delete_moves_one_from_live_to_deleted() {
    let mut node = one().with(Id::new(6, 0), &pairs(&[(b"b", b"")]));
    assert!(node.delete(Id::new(5, 0)));
    assert!(!node.delete(Id::new(5, 0)));
    assert!(!node.delete(Id::new(7, 0)));
    let expected: [&[u8]; 10] = [b"1", b"1", b"1", b"a", b"0", b"3", b"0", b"0", b"1", b"4"];
    assert_eq!(node.elements()[..10], expected);
    assert_eq!(node.key(), Id::new(5, 0));
    assert_eq!(read(Id::new(5, 0), &node.to_bytes()), Ok(node));
}

#[test]
fn a_field_of_another_message_is_not_read_through_the_master() {
    let node = one().with(Id::new(6, 0), &pairs(&[(b"b", b"7")]));
    let read = read(Id::new(5, 0), &node.to_bytes()).unwrap();
    assert_eq!(crate::message::value_of(&read.entries[1].pairs, b"a"), None);
    assert_eq!(crate::message::value_of(&read.entries[1].pairs, b"b"), Some(&b"7"[..]));
}

/// The node bytes of any list of strings, however wrong.
fn refused(key: Id, strings: &[&[u8]]) -> bool {
    read(key, &listpack::listpack(strings).unwrap()).is_err()
}

#[test]
fn other_strings_are_refused() {
    let key = Id::new(5, 0);
    let good: [&[u8]; 10] = [b"1", b"0", b"1", b"a", b"0", b"2", b"0", b"0", b"1", b"4"];
    assert!(!refused(key, &good));
    let wrong: [(usize, &[u8]); 19] = [
        (0, b"2"),
        (0, b"0"),
        (0, b"x"),
        (0, b"01"),
        (1, b"1"),
        (1, b"-1"),
        (2, b"0"),
        (2, b"2"),
        (2, b"-1"),
        (2, b"9223372036854775807"),
        (4, b"1"),
        (5, b"0"),
        (5, b"3"),
        (5, b"6"),
        (6, b"1"),
        (7, b"-1"),
        (9, b"3"),
        (9, b"6"),
        (9, b""),
    ];
    for (place, string) in wrong {
        let mut strings = good;
        strings[place] = string;
        assert!(refused(key, &strings), "{place} {string:?}");
    }
    assert!(refused(key, &good[..9]));
    assert!(refused(key, &good[..5]));
    assert!(refused(key, &[]));
    assert!(refused(key, &[&good[..], &[b"0"]].concat()));
}

#[test]
fn a_first_message_without_flag_2_is_refused() {
    let strings: [&[u8]; 12] = [b"1", b"0", b"1", b"a", b"0", b"0", b"0", b"0", b"1", b"a", b"1", b"6"];
    assert!(refused(Id::new(5, 0), &strings));
}

#[test]
fn ids_rise_and_are_above_the_least() {
    let message = pairs(&[(b"a", b"1")]);
    assert!(read(Id::LEAST, &ONE).is_err());
    assert!(read(Id::new(0, 1), &ONE).is_ok());
    let equal = one().with(Id::new(5, 0), &message);
    let falling = one().with(Id::new(4, 9), &message);
    assert!(read(equal.key(), &equal.to_bytes()).is_err());
    assert!(read(falling.key(), &falling.to_bytes()).is_err());
}

#[test]
fn messages_keep_their_rules() {
    let alone = |message: Message| Node::of_one(Id::new(1, 0), message).keeps_rules();
    assert!(alone(vec![(vec![], vec![]); 32]));
    assert!(!alone(vec![(vec![], vec![]); 33]));
    assert!(!alone(vec![]));
    assert!(alone(pairs(&[(&[b'x'; 1000], &[b'x'; 1000])])));
    assert!(!alone(pairs(&[(&[b'x'; 1001], b"")])));
    let mut node = Node::of_one(Id::new(1, 0), pairs(&[(b"a", &[b'x'; 1001])]));
    node.entries[0].deleted = true;
    let node = node.with(Id::new(2, 0), &pairs(&[(b"a", b"")]));
    assert!(read(node.key(), &node.to_bytes()).is_err());
}

#[test]
fn one_to_100_live_messages() {
    let message = pairs(&[(b"a", b"1")]);
    let mut node = one();
    assert!(node.delete(Id::new(5, 0)));
    assert!(!node.keeps_rules());
    for ms in 6..106 {
        node = node.after_add(Id::new(ms, 0), &message).unwrap();
        assert!(node.keeps_rules());
    }
    assert_eq!(node.live_count(), 100);
    assert_eq!(node.after_add(Id::new(106, 0), &message), None);
    let over = node.with(Id::new(106, 0), &message);
    assert!(read(over.key(), &over.to_bytes()).is_err());
    assert!(node.delete(Id::new(50, 0)));
    assert!(node.after_add(Id::new(106, 0), &message).is_some());
}

#[test]
fn a_slot_is_zero_after_the_end_byte() {
    let key = Id::new(5, 0);
    for place in [28, 29, 2000, 4095] {
        let mut slot = slot_of(&ONE);
        slot[place] = 1;
        assert_eq!(read_slot(key, &slot), Err(Refused));
    }
    assert_eq!(read_slot(key, &ONE), Err(Refused));
    assert_eq!(read_slot(key, &slot_of(&[])), Err(Refused));
    assert_eq!(read_slot(key, &slot_of(&[0xFF; 4])), Err(Refused));
}

/// A node of 4,095 bytes whose last message is long, with the given number of deleted ones.
fn node_of_4095_bytes(deleted: u64) -> Node {
    let message = pairs(&[(b"", b"")]);
    let mut node = Node::of_one(Id::new(1, 0), message.clone());
    for ms in 2..deleted + 2 {
        node.delete(Id::new(ms - 1, 0));
        node = node.after_add(Id::new(ms, 0), &message).unwrap();
    }
    for ms in deleted + 2..4_000 {
        let next = |value: usize| node.after_add(Id::new(ms, 0), &pairs(&[(b"", &vec![b'x'; value])]));
        match next(500) {
            Some(after) if after.size() < 3_500 => node = after,
            _ => {
                let mut lengths = (0..=1_000).rev().filter_map(next);
                return lengths.next().expect("a message that fits");
            }
        }
    }
    unreachable!()
}

#[test]
fn the_128th_delete_may_make_4096_bytes() {
    let mut node = node_of_4095_bytes(127);
    assert_eq!((node.deleted_count(), node.size()), (127, 4_095));
    let last = node.greatest_id();
    assert!(node.delete(Id::new(128, 0)));
    assert_eq!((node.deleted_count(), node.size()), (128, 4_096));
    assert!(node.keeps_rules());
    assert_eq!(read_slot(node.key(), &node.to_slot()), Ok(node.clone()));
    assert_eq!(node.after_add(Id::new(last.ms + 1, 0), &pairs(&[(b"", b"")])), None);
}

#[test]
fn a_node_of_4096_bytes_needs_128_deleted() {
    let mut node = node_of_4095_bytes(126);
    let last = node.entries.len() - 1;
    node.entries[last].pairs[0].1.push(b'x');
    assert_eq!((node.deleted_count(), node.size()), (126, 4_096));
    assert_eq!(read_slot(node.key(), &node.to_slot()), Err(Refused));
}

#[test]
fn a_message_alone_has_at_most_4095_bytes() {
    let message = |last: usize| {
        let long = vec![b'x'; 1000];
        vec![(long.clone(), long.clone()), (long, vec![b'x'; last])]
    };
    let size = |last| Node::of_one(Id::new(1, 0), message(last)).size();
    assert_eq!(size(1000), 4_039);
    assert!(fits_alone(&message(1000)));
    let with_third = |length: usize| {
        let mut pairs = message(1000);
        pairs.push((vec![b'x'; length], vec![]));
        pairs
    };
    let longest = (0..1000).rev().find(|&length| fits_alone(&with_third(length))).unwrap();
    assert_eq!(Node::of_one(Id::GREATEST, with_third(longest)).size(), 4_095);
    assert_eq!(Node::of_one(Id::GREATEST, with_third(longest + 1)).size(), 4_096);
}

#[test]
fn slots_and_nodes_are_inverse() {
    let mut rng = Rng::new(4);
    for _ in 0..300 {
        let node = generate::node(&mut rng);
        assert!(node.keeps_rules());
        assert_eq!(read_slot(node.key(), &node.to_slot()), Ok(node));
    }
}
