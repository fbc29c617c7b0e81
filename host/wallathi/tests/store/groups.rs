//! Consumer groups: names of every length, clocks that go back, and each limit from both sides.

use std::collections::{BTreeMap, BTreeSet};

use wallathi_model::groups::{Group, Pending, MOST_CONSUMERS, MOST_GROUPS, MOST_PENDING};
use wallathi_model::id::Id;
use wallathi_model::ledger::{Answer, Command, Store};
use wallathi_model::message::Name;
use wallathi_model::rng::Rng;

use crate::amount;
use crate::beside::Beside;
use crate::damage::image_of;
use crate::limits::{full, name, one};

const SLOT: usize = 4_096;

#[test]
fn eight_groups() {
    let mut beside = Beside::fresh(SLOT);
    for group in ["d", "h", "b", "f", "a", "g", "c", "e"] {
        assert_eq!(beside.create(group, Id::new(3, 4)), Answer::Done);
    }
    assert_eq!(beside.create("i", Id::LEAST), Answer::Refused(11));
    assert_eq!(beside.create("e", Id::LEAST), Answer::Refused(10));
    for group in ["a", "h", "d"] {
        assert_eq!(beside.run(&Command::DestroyGroup { group: name(group) }), Answer::Done);
        assert_eq!(beside.create("aa", Id::LEAST), Answer::Done);
        assert_eq!(beside.run(&Command::DestroyGroup { group: name("aa") }), Answer::Done);
        assert_eq!(beside.create(group, Id::GREATEST), Answer::Done);
    }
    assert_eq!(beside.create("", Id::LEAST), Answer::Refused(3));
    assert_eq!(beside.create("seventeen letters", Id::LEAST), Answer::Refused(3));
    beside.check();
}

/// A group with 16 consumers and 256 pending; the message that follows is live.
fn crowded() -> Beside {
    let mut beside = Beside::fresh(64 * SLOT);
    beside.create("g", Id::LEAST);
    for number in 1..=257 {
        beside.add(Id::new(number, 0), &one("1"));
        if number <= 256 {
            // Names come in an order that is not theirs.
            let consumer = format!("c{}", number * 5 % 16);
            assert_eq!(beside.group_read("g", &consumer, 100), Answer::Id(Id::new(number, 0)));
        }
    }
    beside
}

#[test]
fn sixteen_consumers_and_256_pending() {
    let mut beside = crowded();
    assert_eq!(beside.group_read("g", "new", 0), Answer::Refused(12));
    assert_eq!(beside.group_read("g", "c1", 0), Answer::Refused(13));
    assert_eq!(beside.claim("new", 0, Id::new(1, 0), 100), Answer::Refused(12));
    assert_eq!(beside.claim("new", 1, Id::new(1, 0), 100), Answer::NotMoved);
    assert_eq!(beside.claim("new", 0, Id::new(257, 0), 100), Answer::NotMoved);
    // The clock went back: idle is 0.
    assert_eq!(beside.claim("c1", 1, Id::new(1, 0), 99), Answer::NotMoved);
    assert_eq!(beside.claim("c1", 0, Id::new(1, 0), 99), Answer::Moved);
    let consumers: Vec<Name> = beside.group(b"g").consumers.iter().cloned().collect();
    for consumer in consumers {
        let mut after = Id::LEAST;
        while let Answer::Pending { id, .. } =
            beside.run(&Command::NextPending { group: name("g"), consumer: consumer.clone(), after })
        {
            after = id;
        }
        let command = Command::DropConsumer { group: name("g"), consumer };
        assert!(matches!(beside.run(&command), Answer::Count(15..=17)));
    }
    assert_eq!(beside.group_read("g", "new", 0), Answer::Id(Id::new(257, 0)));
    beside.check();
}

#[test]
fn acknowledged_from_the_middle_and_the_ends() {
    let mut beside = crowded();
    for number in [1, 256, 128, 2, 255, 128, 257] {
        let found = beside.group(b"g").pending.contains_key(&Id::new(number, 0));
        let command = Command::Acknowledge { group: name("g"), id: Id::new(number, 0) };
        assert_eq!(beside.run(&command), Answer::Count(u64::from(found)));
    }
    beside.check();
}

/// A pending entry outlives its message, and a crowded group is destroyed as an empty one is.
#[test]
fn entries_of_messages_that_are_gone() {
    let mut beside = crowded();
    let id = Id::new(5, 0);
    let first = Command::NextPending { group: name("g"), consumer: name("d"), after: Id::LEAST };
    let drop = Command::DropConsumer { group: name("g"), consumer: name("c0") };
    assert_eq!(beside.run(&drop), Answer::Count(16));
    beside.delete(id);
    assert_eq!(beside.claim("d", 1, id, 101), Answer::Moved);
    assert_eq!(beside.run(&first), Answer::Pending { id, time: 101, count: 2, lives: false });
    for count in [1, 0] {
        assert_eq!(beside.run(&Command::Acknowledge { group: name("g"), id }), Answer::Count(count));
    }
    assert_eq!(beside.run(&first), Answer::NoneFound);
    beside.check();
    assert_eq!(beside.run(&Command::DestroyGroup { group: name("g") }), Answer::Done);
    assert_eq!(beside.create("g", Id::GREATEST), Answer::Done);
    assert_eq!(beside.group_read("g", "c0", 0), Answer::NothingNew);
    beside.check();
}

#[test]
fn idle_times_from_both_sides() {
    let most = u64::MAX;
    let id = Id::new(1, 0);
    for (delivered, now, least_idle, moves) in [
        (5, 5, 0, true),
        (5, 5, 1, false),
        (5, 9, 4, true),
        (5, 9, 5, false),
        (9, 5, 0, true),
        (9, 5, 1, false),
        (0, most, most, true),
        (1, most, most, false),
        (1, most, most - 1, true),
        (most, 0, 0, true),
        (most, 0, 1, false),
        (most, most, most, false),
    ] {
        let mut beside = Beside::fresh(SLOT);
        beside.add(id, &one("1"));
        beside.create("g", Id::LEAST);
        assert_eq!(beside.group_read("g", "c", delivered), Answer::Id(id));
        let expected = if moves { Answer::Moved } else { Answer::NotMoved };
        assert_eq!(beside.claim("d", least_idle, id, now), expected, "{delivered} {now} {least_idle}");
    }
}

/// A store of so many slots, full of small messages 7-1, 7-2, .. that were added, with these groups.
pub fn store_with(slots: usize, groups: BTreeMap<Name, Group>) -> Store {
    let mut store = full(slots, |_| one("1"));
    let model = store.model.as_mut().expect("an image");
    model.ledger.groups = groups;
    assert!(model.keeps_rules());
    store
}

pub fn beside_with(slots: usize, groups: BTreeMap<Name, Group>) -> Beside {
    let store = store_with(slots, groups);
    Beside::new(image_of(&store), store)
}

/// A group of so many consumers that have the messages 7-3, 7-6, ..; about half of the counts are near their limit.
pub fn filled(rng: &mut Rng, consumers: u64, entries: u64) -> Group {
    let mut group = Group::new(Id::new(7, 3 * entries));
    for entry in 1..=entries {
        let consumer = vec![b'm', (entry % consumers) as u8];
        let count = if rng.one_in(2) { 65_535 - rng.below(3) as u16 } else { 1 };
        group.consumers.insert(consumer.clone());
        group.pending.insert(Id::new(7, 3 * entry), Pending { consumer, time: rng.below(2_000), count });
    }
    group
}

/// Eight groups that are as full as groups can be: saved, destroyed and loaded.
#[test]
fn eight_full_groups() {
    let mut rng = Rng::new(5_001);
    let full = |number: u8| {
        let name = vec![b'a' + number; 1 + 2 * usize::from(number)];
        (name, filled(&mut rng, MOST_CONSUMERS as u64, MOST_PENDING as u64))
    };
    let mut beside = beside_with(10, (0..MOST_GROUPS as u8).map(full).collect());
    let groups: Vec<Name> = beside.model().ledger.groups.keys().cloned().collect();
    let Answer::Written(file) = beside.run(&Command::Save { room: 1 << 20 }) else { panic!("no file") };
    for group in [&groups[7], &groups[0], &groups[3]] {
        let read = Command::GroupRead { group: group.clone(), consumer: vec![b'm', 3], now: 1 };
        assert_eq!(beside.run(&read), Answer::Refused(13));
        assert_eq!(beside.run(&Command::DestroyGroup { group: group.clone() }), Answer::Done);
        assert_eq!(beside.run(&read), Answer::Refused(9));
    }
    assert_eq!(beside.create("new", Id::LEAST), Answer::Done);
    beside.check();
    assert_eq!(beside.run(&Command::Load { file: file.clone() }), Answer::Done);
    assert_eq!(beside.run(&Command::Save { room: file.len() }), Answer::Written(file));
    beside.check();
}

#[test]
fn a_delivery_count_stays_at_65535() {
    let id = Id::new(7, 3);
    let mut group = filled(&mut Rng::new(1), 1, 1);
    group.pending.get_mut(&id).expect("an entry").count = 65_533;
    let mut beside = beside_with(1, [(name("g"), group)].into());
    let first = Command::NextPending { group: name("g"), consumer: name("d"), after: Id::LEAST };
    for count in [65_534, 65_535, 65_535, 65_535] {
        assert_eq!(beside.claim("d", 0, id, 9), Answer::Moved);
        assert_eq!(beside.run(&first), Answer::Pending { id, time: 9, count, lives: true });
    }
}

/// Commands on groups whose names have 1 to 16 bytes of any value and are often the beginnings of one another.
struct Crowd {
    rng: Rng,
    /// How many consumers' names there are to choose from.
    names: u64,
}

impl Crowd {
    fn name(&mut self, count: u64) -> Name {
        let number = self.rng.below(count);
        let mut name = vec![b'n'; 1 + (number * 7 % 16) as usize];
        if number % 3 != 0 {
            *name.last_mut().expect("a byte") = (number * 37) as u8;
        }
        name
    }

    fn consumer(&mut self, group: Option<&Group>) -> Name {
        let held: Vec<Name> = group.map_or(vec![], |group| group.consumers.iter().cloned().collect());
        if held.is_empty() || self.rng.one_in(2) {
            return self.name(self.names);
        }
        self.rng.pick(&held).clone()
    }

    /// An ID that is pending, the last delivered, or near it.
    fn id(&mut self, group: Option<&Group>) -> Id {
        let Some(group) = group else { return Id::new(7, 1) };
        let pending: Vec<Id> = group.pending.keys().copied().collect();
        let last = group.last_delivered;
        match self.rng.below(8) {
            0..=4 if !pending.is_empty() => *self.rng.pick(&pending),
            5 => last,
            6 => last.following().unwrap_or(last),
            _ => Id::new(last.ms.saturating_sub(self.rng.below(3)), self.rng.below(300)),
        }
    }

    /// The clock goes back now and then.
    fn time(&mut self) -> u64 {
        match self.rng.below(12) {
            0 => 0,
            1 => u64::MAX - self.rng.below(3),
            2 => self.rng.next(),
            _ => 1_000 + self.rng.below(1_000),
        }
    }

    fn command(&mut self, groups: &BTreeMap<Name, Group>) -> Command {
        let held: Vec<Name> = groups.keys().cloned().collect();
        let is_new = held.is_empty() || self.rng.one_in(6);
        let group = if is_new { self.name(40) } else { self.rng.pick(&held).clone() };
        let found = groups.get(&group);
        let (consumer, id, time) = (self.consumer(found), self.id(found), self.time());
        match self.rng.below(100) {
            0..=11 => {
                let start = *self.rng.pick(&[Id::LEAST, id, Id::GREATEST]);
                Command::CreateGroup { group: self.name(40), start }
            }
            12 => Command::DestroyGroup { group },
            13..=39 => Command::GroupRead { group, consumer, now: time },
            40..=49 => {
                let n = *self.rng.pick(&[0, 1, 2, 5, 40, 256]);
                Command::GroupReadMany { group, consumer, now: time, n, room: 16 * 256 }
            }
            50..=59 => Command::Acknowledge { group, id },
            60..=79 => {
                let least_idle = *self.rng.pick(&[0, 0, 0, 1, 500, u64::MAX]);
                Command::Claim { group, consumer, least_idle, id, now: time }
            }
            80..=82 => Command::DropConsumer { group, consumer },
            _ => Command::NextPending { group, consumer, after: id },
        }
    }
}

#[test]
fn names_of_every_length() {
    let (mut codes, mut lengths) = (BTreeMap::new(), BTreeSet::new());
    for list in 0..amount(20, 400) {
        let mut rng = Rng::new(5_100 + list);
        let group = match list % 5 {
            0 => Group::new(Id::LEAST),
            1 => Group::new(Id::new(rng.next(), u64::MAX)),
            2 => filled(&mut rng, 14, 40),
            3 => filled(&mut rng, 15, 250),
            _ => filled(&mut rng, 5, 30),
        };
        let length = 1 + rng.size_below(16);
        let mut beside = beside_with(8, [(rng.bytes(length), group)].into());
        let mut crowd = Crowd { rng, names: [3, 8, 20, 40][(list % 4) as usize] };
        for _ in 0..150 {
            let answer = beside.run(&crowd.command(&beside.model().ledger.groups));
            *codes.entry(answer.code()).or_insert(0) += 1;
            lengths.extend(beside.model().ledger.groups.keys().map(Vec::len));
        }
        beside.check();
    }
    let seen: Vec<u32> = codes.keys().copied().collect();
    assert_eq!(seen, [0, 9, 10, 11, 12, 13, 32, 34], "{codes:?}");
    assert!(lengths.into_iter().eq(1..=16));
}
