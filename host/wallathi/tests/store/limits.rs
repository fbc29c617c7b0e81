//! Each limit of document 01 from both sides.

use wallathi_model::id::Id;
use wallathi_model::ledger::{Answer, Command, Model, Store};
use wallathi_model::message::{Message, Name};
use wallathi_model::node::Node;
use wallathi_model::slip;

use crate::beside::Beside;
use crate::lent::Lent;

const SLOT: usize = 4_096;

pub fn message(list: &[(&[u8], &[u8])]) -> Message {
    list.iter().map(|(field, value)| (field.to_vec(), value.to_vec())).collect()
}

pub fn one(value: &str) -> Message {
    message(&[(b"t", value.as_bytes())])
}

pub fn name(text: &str) -> Name {
    text.as_bytes().to_vec()
}

/// A store of so many slots that takes no more of these messages, 7-1, 7-2, ..
pub fn full(slots: usize, message: impl Fn(u64) -> Message) -> Store {
    let mut store = Store::fresh(slots * SLOT);
    let add = |seq| Command::Add { id: Id::new(7, seq), slip: slip::write(&message(seq)) };
    (1..).find(|&seq| store.run(&add(seq)).code() != 0);
    store
}

impl Beside {
    pub fn add(&mut self, id: Id, pairs: &Message) -> Answer {
        self.run(&Command::Add { id, slip: slip::write(pairs) })
    }

    /// Adds by clock at time 0, so that each ID follows the last.
    fn append(&mut self, pairs: &Message) -> Answer {
        self.run(&Command::AddByClock { time: 0, slip: slip::write(pairs) })
    }

    pub fn delete(&mut self, id: Id) {
        assert_eq!(self.run(&Command::Delete { id }), Answer::Count(1));
    }

    fn node(&self, slot: usize) -> &Node {
        self.model().cut.slots[slot].as_ref().expect("a node")
    }

    pub fn create(&mut self, group: &str, start: Id) -> Answer {
        self.run(&Command::CreateGroup { group: name(group), start })
    }

    pub fn group_read(&mut self, group: &str, consumer: &str, now: u64) -> Answer {
        self.run(&Command::GroupRead { group: name(group), consumer: name(consumer), now })
    }

    pub fn claim(&mut self, consumer: &str, least_idle: u64, id: Id, now: u64) -> Answer {
        self.run(&Command::Claim { group: name("g"), consumer: name(consumer), least_idle, id, now })
    }
}

#[test]
fn a_hundred_live_messages_in_a_node() {
    let mut beside = Beside::fresh(2 * SLOT);
    for _ in 0..100 {
        beside.append(&one("7"));
    }
    assert_eq!(beside.node(0).live_count(), 100);
    beside.delete(Id::new(0, 50));
    beside.append(&one("8"));
    assert_eq!(beside.node(0).live_count(), 100);
    beside.append(&one("9"));
    assert_eq!(beside.node(1).live_count(), 1);
    // The highest node goes, and the one before it takes adds again.
    beside.delete(Id::new(0, 102));
    beside.delete(Id::new(0, 1));
    assert!(matches!(beside.append(&one("10")), Answer::Id(_)));
    assert_eq!(beside.node(0).live_count(), 100);
    assert_eq!(beside.model().cut.slots[1], None);
    beside.check();
}

/// A message of one value, as long as makes a node of this many bytes of it and what the node has.
pub fn filling(node: Option<&Node>, id: Id, bytes: usize) -> Message {
    let size = |pairs: &Message| match node {
        Some(node) => node.with(id, pairs).size(),
        None => Node::of_one(id, pairs.clone()).size(),
    };
    let pairs = |length: usize| {
        let mut pairs = message(&[(b"t", b"x"), (b"u", b"x"), (b"v", b"x"), (b"w", b"x"), (b"z", b"x")]);
        let mut left = length;
        for pair in &mut pairs {
            pair.1.resize(left.clamp(1, 1_000), b'x');
            left = left.saturating_sub(1_000);
        }
        pairs
    };
    let fits = |length: &usize| size(&pairs(*length)) == bytes;
    (1..5_000).find(fits).map(pairs).unwrap_or_else(|| panic!("no message makes {bytes} bytes"))
}

#[test]
fn a_message_that_fills_a_node() {
    let id = Id::new(1, 0);
    let (full, over) = (filling(None, id, 4_095), filling(None, id, 4_096));
    let mut beside = Beside::fresh(2 * SLOT + 1);
    assert_eq!(beside.add(id, &over), Answer::Refused(6));
    assert_eq!(beside.add(id, &full), Answer::Id(id));
    assert_eq!(beside.node(0).size(), 4_095);
    // A node takes messages up to 4,095 bytes.
    assert_eq!(beside.append(&one("1")), Answer::Id(Id::new(1, 1)));
    let next = Id::new(1, 2);
    let (exact, over) =
        (filling(Some(beside.node(1)), next, 4_095), filling(Some(beside.node(1)), next, 4_096));
    assert_eq!(beside.add(next, &over), Answer::Refused(7));
    assert_eq!(beside.add(next, &exact), Answer::Id(next));
    assert_eq!(beside.node(1).size(), 4_095);
    assert_eq!(beside.append(&one("1")), Answer::Refused(7));
    beside.check();
}

#[test]
fn a_node_of_4096_bytes_once_128_are_deleted() {
    let mut beside = Beside::fresh(2 * SLOT);
    for number in 1..=128 {
        beside.append(&one("1"));
        if number > 1 {
            beside.delete(Id::new(0, number));
        }
    }
    assert_eq!((beside.node(0).deleted_count(), beside.node(0).live_count()), (127, 1));
    let id = Id::new(0, 129);
    let last = filling(Some(beside.node(0)), id, 4_095);
    beside.add(id, &last);
    assert_eq!(beside.node(0).size(), 4_095);
    beside.delete(Id::new(0, 1));
    assert_eq!((beside.node(0).size(), beside.node(0).deleted_count()), (4_096, 128));
    for command in [Command::Read { id, room: 5_000 }, Command::Save { room: 9_000 }] {
        assert_eq!(beside.run(&command).code(), 0);
    }
    // It takes no other message, and goes with its last one.
    assert_eq!(beside.append(&one("1")), Answer::Id(Id::new(0, 130)));
    assert_eq!(beside.model().cut.nodes().len(), 2);
    beside.check();
    beside.delete(id);
    assert_eq!(beside.model().cut.slots[0], None);
    beside.check();
}

/// A trim that gives the deleted count a third byte makes a node of 4,095 bytes one of 4,096; it is read and deleted from like any other.
#[test]
fn a_trim_makes_a_node_of_4096_bytes() {
    let mut beside = Beside::fresh(SLOT);
    for (count, keep) in [(100, 10), (40, 13)] {
        (0..count).for_each(|_| assert!(matches!(beside.append(&one("1")), Answer::Id(_))));
        beside.run(&Command::Trim { keep });
    }
    assert_eq!((beside.node(0).deleted_count(), beside.node(0).live_count()), (127, 13));
    let id = Id::new(0, 141);
    let (full, over) = (filling(Some(beside.node(0)), id, 4_095), filling(Some(beside.node(0)), id, 4_096));
    assert_eq!(beside.add(id, &over), Answer::Refused(7));
    assert_eq!(beside.add(id, &full), Answer::Id(id));
    assert_eq!(beside.run(&Command::Trim { keep: 13 }), Answer::Count(1));
    assert_eq!((beside.node(0).size(), beside.node(0).deleted_count()), (4_096, 128));
    assert_eq!(beside.append(&one("")), Answer::Refused(7));
    for command in [Command::Read { id, room: 5_000 }, Command::Save { room: 9_000 }] {
        assert_eq!(beside.run(&command).code(), 0);
    }
    beside.check();
    for count in [1, 0] {
        assert_eq!(beside.run(&Command::Delete { id }), Answer::Count(count));
    }
    assert_eq!(beside.run(&Command::Trim { keep: 1 }), Answer::Count(11));
    assert_eq!((beside.node(0).size(), beside.node(0).deleted_count()), (4_096, 140));
    beside.check();
}

/// 64 nodes, and the lowest slots that were freed take what comes.
#[test]
fn sixty_four_nodes() {
    let mut beside = Beside::fresh(64 * SLOT + 1);
    let long = message(&[(b"a", &[b'x'; 700]), (b"b", &[b'x'; 700]), (b"c", &[b'x'; 700])]);
    for ms in 1..=64 {
        assert_eq!(beside.add(Id::new(ms * 1_000, ms), &long), Answer::Id(Id::new(ms * 1_000, ms)));
    }
    assert_eq!(beside.add(Id::new(65_000, 0), &long), Answer::Refused(7));
    [64, 20, 21].into_iter().for_each(|ms| beside.delete(Id::new(ms * 1_000, ms)));
    for (ms, slot) in [(65, 19), (66, 20), (67, 63)] {
        let id = Id::new(ms * 1_000, 0);
        assert_eq!(beside.add(id, &long), Answer::Id(id));
        assert_eq!(beside.node(slot).key(), id);
    }
    assert_eq!(beside.add(Id::new(68_000, 0), &long), Answer::Refused(7));
    beside.check();
}

/// Trims that take a node's deleted count across 127 in one step.
#[test]
fn a_trim_across_127_deleted() {
    for keep in [1, 2, 50, 99] {
        let mut beside = Beside::fresh(SLOT);
        for _ in 0..3 {
            while beside.model().ledger.messages.len() < 100 {
                if beside.append(&one("1")) == Answer::Refused(7) {
                    break;
                }
            }
            assert!(matches!(beside.run(&Command::Trim { keep }), Answer::Count(_)));
        }
        beside.check();
    }
}

#[test]
fn the_clock_and_the_greatest_ids() {
    let mut beside = Beside::fresh(SLOT);
    let at =
        |beside: &mut Beside, time| beside.run(&Command::AddByClock { time, slip: slip::write(&one("1")) });
    assert_eq!(beside.add(Id::LEAST, &one("1")), Answer::Refused(4));
    assert_eq!(at(&mut beside, 0), Answer::Id(Id::new(0, 1)));
    assert_eq!(at(&mut beside, 7), Answer::Id(Id::new(7, 0)));
    assert_eq!(at(&mut beside, 3), Answer::Id(Id::new(7, 1)));
    beside.add(Id::new(8, u64::MAX), &one("1"));
    assert_eq!(at(&mut beside, 8), Answer::Id(Id::new(9, 0)));
    beside.add(Id::new(u64::MAX - 1, u64::MAX), &one("1"));
    assert_eq!(at(&mut beside, 1), Answer::Id(Id::new(u64::MAX, 0)));
    assert_eq!(at(&mut beside, u64::MAX), Answer::Id(Id::new(u64::MAX, 1)));
    assert_eq!(beside.create("g", Id::new(u64::MAX, 1)), Answer::Done);
    assert_eq!(beside.add(Id::GREATEST, &one("1")), Answer::Id(Id::GREATEST));
    assert_eq!(at(&mut beside, u64::MAX), Answer::Refused(5));
    assert_eq!(at(&mut beside, 0), Answer::Refused(5));
    assert_eq!(beside.add(Id::GREATEST, &one("1")), Answer::Refused(4));
    assert_eq!(beside.run(&Command::Next { id: Id::GREATEST }), Answer::Id(Id::GREATEST));
    assert_eq!(beside.group_read("g", "c", 0), Answer::Id(Id::GREATEST));
    assert_eq!(beside.group_read("g", "c", 0), Answer::NothingNew);
    beside.delete(Id::GREATEST);
    assert_eq!(beside.run(&Command::Next { id: Id::GREATEST }), Answer::NoneFound);
    beside.check();
}

/// A clock that stands still and goes back, up to the last of all IDs.
#[test]
fn the_last_ids_by_clock() {
    let mut beside = Beside::fresh(SLOT);
    let slip = slip::write(&one("1"));
    let at = |time| Command::AddByClock { time, slip: slip.clone() };
    for (time, ms, seq) in [(0, 0, 1), (0, 0, 2), (5, 5, 0), (5, 5, 1), (4, 5, 2), (0, 5, 3), (6, 6, 0)] {
        assert_eq!(beside.run(&at(time)), Answer::Id(Id::new(ms, seq)));
    }
    assert_eq!(beside.run(&at(u64::MAX)), Answer::Id(Id::new(u64::MAX, 0)));
    assert_eq!(beside.run(&at(3)), Answer::Id(Id::new(u64::MAX, 1)));
    let before = Id::new(u64::MAX, u64::MAX - 1);
    assert_eq!(beside.add(before, &one("1")), Answer::Id(before));
    assert_eq!(beside.run(&at(8)), Answer::Id(Id::GREATEST));
    [0, 8, u64::MAX].into_iter().for_each(|time| assert_eq!(beside.run(&at(time)), Answer::Refused(5)));
    assert_eq!(beside.create("g", before), Answer::Done);
    assert_eq!(beside.group_read("g", "c", u64::MAX), Answer::Id(Id::GREATEST));
    assert_eq!(beside.group_read("g", "c", u64::MAX), Answer::NothingNew);
    beside.check();
}

/// IDs whose differences are negative, and wrap.
pub fn far_apart() -> [Id; 9] {
    [
        Id::new(1, 9),
        Id::new(2, 0),
        Id::new(2, u64::MAX),
        Id::new(1 << 31, 1 << 31),
        Id::new(1 << 63, 1 << 63),
        Id::new((1 << 63) + 1, 9),
        Id::new((1 << 63) + 2, (1 << 63) + 8),
        Id::new((1 << 63) + 2, (1 << 63) + 9),
        Id::GREATEST,
    ]
}

#[test]
fn differences_of_every_kind() {
    let mut beside = Beside::fresh(SLOT);
    let ids = far_apart();
    ids.iter().for_each(|&id| assert_eq!(beside.add(id, &one("1")), Answer::Id(id)));
    for id in ids {
        assert_eq!(beside.run(&Command::Next { id }), Answer::Id(id));
        assert_eq!(beside.run(&Command::Read { id, room: 7 }).code(), 0);
        beside.delete(id);
    }
    beside.check();
}

/// Outputs as long as the answer and one byte shorter, for each command that writes.
#[test]
fn outputs_that_just_fit() {
    let mut beside = Beside::fresh(2 * SLOT);
    let id = Id::new(5, 5);
    beside.add(id, &message(&[(b"a", b"-9223372036854775808"), (b"", b""), (b"a", b"2")]));
    let first = |room| Command::Field { id, name: name("a"), room };
    let empty = |room| Command::Field { id, name: name(""), room };
    let read = |room| Command::Read { id, room };
    let save = |room| Command::Save { room };
    let commands: [&dyn Fn(usize) -> Command; 4] = [&read, &first, &empty, &save];
    for command in commands {
        let Answer::Written(bytes) = beside.run(&command(9_999)) else { panic!("no answer") };
        assert_eq!(beside.run(&command(bytes.len())).code(), 0);
        for room in 0..bytes.len() {
            assert_eq!(beside.run(&command(room)), Answer::Refused(8));
        }
    }
}

/// 64 full nodes whose first message, once deleted, no longer lends its long field name.
#[test]
fn a_save_may_need_over_64_nodes() {
    let mut beside = Beside::fresh(64 * SLOT);
    let field = [b'f'; 1000];
    beside.append(&message(&[(&field, b"")]));
    beside.append(&message(&[(b"other", b"")]));
    let long = message(&[(&field, &[b'x'; 100])]);
    while beside.append(&long) != Answer::Refused(7) {}
    let Answer::Written(file) = beside.run(&Command::Save { room: 1 << 20 }) else { panic!("no file") };
    beside.delete(Id::new(0, 1));
    assert_eq!(beside.run(&Command::Save { room: 1 << 20 }), Answer::Refused(15));
    assert_eq!(beside.run(&Command::Save { room: 0 }), Answer::Refused(15));
    beside.check();
    let mut other = Beside::fresh(63 * SLOT);
    assert_eq!(other.run(&Command::Load { file: file.clone() }), Answer::Refused(17));
    let mut other = Beside::fresh(65 * SLOT);
    assert_eq!(other.run(&Command::Load { file }), Answer::Done);
    other.check();
}

/// A trim of a full store, to nothing and to some.
#[test]
fn trims_of_a_full_store() {
    let full = |keep: u64| {
        let mut store = Store::fresh(64 * SLOT);
        let value = [b'x'; 380];
        let slip = slip::write(&message(&[(b"a", &value)]));
        while store.run(&Command::AddByClock { time: 1, slip: slip.clone() }).code() == 0 {}
        let model: &Model = store.model.as_ref().expect("an image");
        let mut beside = Beside::new(Lent::image(model, 64 * SLOT), store.clone());
        assert!(matches!(beside.run(&Command::Trim { keep }), Answer::Count(_)));
        beside.append(&one("1"));
        beside.check();
    };
    [0, 1, 9, 10, 11, 300, 639, u64::MAX].into_iter().for_each(full);
}
