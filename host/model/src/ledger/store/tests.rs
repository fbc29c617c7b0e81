use super::*;
use crate::groups::Pending;
use crate::id::Id;
use crate::ledger::Report;
use crate::message::{Message, Name};
use crate::slip;

fn slip_of(list: &[(&[u8], &[u8])]) -> Vec<u8> {
    let pairs: Message = list.iter().map(|(field, value)| (field.to_vec(), value.to_vec())).collect();
    slip::write(&pairs)
}

/// A slip whose message fills most of a node: 3 values of 1,000 bytes.
fn long_slip() -> Vec<u8> {
    slip_of(&[(b"a", &[b'x'; 1000]), (b"b", &[b'x'; 1000]), (b"c", &[b'x'; 1000])])
}

fn add(store: &mut Store, ms: u64, list: &[(&[u8], &[u8])]) {
    let id = Id::new(ms, 0);
    assert_eq!(store.run(&Command::Add { id, slip: slip_of(list) }), Answer::Id(id));
}

/// Two slots; 3-0 a=1, 5-0 b empty and a=2, 9-0 a=3.
fn store() -> Store {
    let mut store = Store::fresh(8192);
    add(&mut store, 3, &[(b"a", b"1")]);
    add(&mut store, 5, &[(b"b", b""), (b"a", b"2")]);
    add(&mut store, 9, &[(b"a", b"3")]);
    store
}

fn name(text: &str) -> Name {
    text.as_bytes().to_vec()
}

fn create(store: &mut Store, group: &str, start: Id) -> Answer {
    store.run(&Command::CreateGroup { group: name(group), start })
}

fn group_read(store: &mut Store, group: &str, consumer: &str, now: u64) -> Answer {
    store.run(&Command::GroupRead { group: name(group), consumer: name(consumer), now })
}

fn read_many(consumer: &str, n: u64, room: usize) -> Command {
    Command::GroupReadMany { group: name("g"), consumer: name(consumer), now: 100, n, room }
}

fn ids(list: &[u64]) -> Answer {
    Answer::Written(list.iter().flat_map(|&ms| Id::new(ms, 0).to_bytes()).collect())
}

fn claim(store: &mut Store, consumer: &str, least_idle: u64, id: Id, now: u64) -> Answer {
    store.run(&Command::Claim { group: name("g"), consumer: name(consumer), least_idle, id, now })
}

/// The command is refused with this number and changes nothing.
fn refused(store: &Store, command: Command, number: u32) {
    let mut after = store.clone();
    assert_eq!(after.run(&command), Answer::Refused(number), "{command:?}");
    assert_eq!(&after, store);
}

#[test]
fn set_up_empties_the_store() {
    let mut store = store();
    assert_eq!(store.run(&Command::SetUp), Answer::Done);
    assert_eq!(store, Store::fresh(8192));
    refused(&Store::fresh(4095), Command::SetUp, 1);
    refused(&Store::damaged(0), Command::SetUp, 1);
}

#[test]
fn a_damaged_store_refuses_all_but_set_up_and_load() {
    let damaged = Store::damaged(8192);
    refused(&damaged, Command::Add { id: Id::LEAST, slip: vec![] }, 2);
    refused(&damaged, Command::Next { id: Id::LEAST }, 2);
    refused(&damaged, Command::DestroyGroup { group: vec![] }, 2);
    refused(&damaged, Command::Save { room: 0 }, 2);
    refused(&damaged, Command::Load { file: vec![] }, 16);
    refused(&Store::damaged(4095), Command::Load { file: vec![] }, 1);
    let mut healed = damaged.clone();
    assert_eq!(healed.run(&Command::SetUp), Answer::Done);
    assert_eq!(healed, Store::fresh(8192));
    let file = crate::snapshot::snapshot(&store().model.unwrap().ledger).unwrap();
    let mut healed = damaged;
    assert_eq!(healed.run(&Command::Load { file }), Answer::Done);
    assert_eq!(healed, store());
}

#[test]
fn a_store_without_slots_refuses_adds_with_7() {
    let mut store = Store::fresh(4095);
    refused(&store, Command::Add { id: Id::new(1, 0), slip: slip_of(&[(b"", b"")]) }, 7);
    refused(&store, Command::AddByClock { time: 0, slip: slip_of(&[(b"", b"")]) }, 7);
    assert_eq!(create(&mut store, "g", Id::LEAST), Answer::Done);
    assert_eq!(group_read(&mut store, "g", "c", 0), Answer::NothingNew);
}

#[test]
fn add_refusals_lowest_first() {
    let store = store();
    let add = |id, slip: Vec<u8>| Command::Add { id, slip };
    let too_long =
        slip_of(&[(&[b'x'; 1000], &[b'x'; 1000]), (&[b'y'; 1000], &[b'x'; 1000]), (b"c", &[b'x'; 100])]);
    refused(&store, add(Id::new(9, 0), vec![]), 3);
    refused(&store, add(Id::new(9, 0), too_long.clone()), 4);
    refused(&store, add(Id::LEAST, slip_of(&[(b"a", b"1")])), 4);
    refused(&store, add(Id::new(9, 1), too_long.clone()), 6);
    refused(&store, Command::AddByClock { time: 1, slip: vec![1] }, 3);
    refused(&store, Command::AddByClock { time: 1, slip: too_long.clone() }, 6);
    let mut full = store;
    for ms in 10..12 {
        full.run(&add(Id::new(ms, 0), long_slip()));
    }
    refused(&full, add(Id::new(12, 0), long_slip()), 7);
    refused(&full, add(Id::new(12, 0), too_long), 6);
}

#[test]
fn add_of_0_0_is_refused_with_4() {
    refused(&Store::fresh(4096), Command::Add { id: Id::LEAST, slip: slip_of(&[(b"a", b"1")]) }, 4);
}

#[test]
fn add_by_clock() {
    let mut store = Store::fresh(4096);
    let mut at = |time| store.run(&Command::AddByClock { time, slip: slip_of(&[(b"a", b"1")]) });
    assert_eq!(at(0), Answer::Id(Id::new(0, 1)));
    assert_eq!(at(0), Answer::Id(Id::new(0, 2)));
    assert_eq!(at(7), Answer::Id(Id::new(7, 0)));
    assert_eq!(at(3), Answer::Id(Id::new(7, 1)));
    let last = Command::Add { id: Id::new(8, u64::MAX), slip: slip_of(&[(b"a", b"1")]) };
    store.run(&last);
    let mut at = |time| store.run(&Command::AddByClock { time, slip: slip_of(&[(b"a", b"1")]) });
    assert_eq!(at(8), Answer::Id(Id::new(9, 0)));
    store.run(&Command::Add { id: Id::GREATEST, slip: slip_of(&[(b"a", b"1")]) });
    refused(&store, Command::AddByClock { time: u64::MAX, slip: long_slip() }, 5);
    refused(&store, Command::AddByClock { time: 0, slip: long_slip() }, 5);
    refused(&store, Command::AddByClock { time: 0, slip: vec![] }, 3);
}

#[test]
fn delete_and_trim() {
    let mut store = store();
    let mut run = |command| store.run(&command);
    assert_eq!(run(Command::Delete { id: Id::new(5, 0) }), Answer::Count(1));
    assert_eq!(run(Command::Delete { id: Id::new(5, 0) }), Answer::Count(0));
    assert_eq!(run(Command::Delete { id: Id::new(4, 0) }), Answer::Count(0));
    assert_eq!(run(Command::Trim { keep: 2 }), Answer::Count(0));
    assert_eq!(run(Command::Trim { keep: 1 }), Answer::Count(1));
    assert_eq!(run(Command::Next { id: Id::LEAST }), Answer::Id(Id::new(9, 0)));
    assert_eq!(run(Command::Trim { keep: 0 }), Answer::Count(1));
    assert_eq!(run(Command::Next { id: Id::LEAST }), Answer::NoneFound);
    let model = store.model.unwrap();
    assert_eq!(model.ledger.last_id, Id::new(9, 0));
    assert_eq!(model.cut, Cut::empty(2));
}

#[test]
fn next() {
    let mut store = store();
    let mut at = |id| store.run(&Command::Next { id });
    assert_eq!(at(Id::LEAST), Answer::Id(Id::new(3, 0)));
    assert_eq!(at(Id::new(3, 1)), Answer::Id(Id::new(5, 0)));
    assert_eq!(at(Id::new(9, 0)), Answer::Id(Id::new(9, 0)));
    assert_eq!(at(Id::GREATEST), Answer::NoneFound);
}

#[test]
fn read() {
    let mut store = store();
    let expected = slip_of(&[(b"b", b""), (b"a", b"2")]);
    let read = |ms, room| Command::Read { id: Id::new(ms, 0), room };
    assert_eq!(store.run(&read(5, expected.len())), Answer::Written(expected.clone()));
    refused(&store, read(5, expected.len() - 1), 8);
    refused(&store, read(4, 0), 14);
}

#[test]
fn field() {
    let mut store = store();
    let field = |ms, name: &[u8], room| Command::Field { id: Id::new(ms, 0), name: name.to_vec(), room };
    assert_eq!(store.run(&field(5, b"a", 1)), Answer::Written(b"2".to_vec()));
    assert_eq!(store.run(&field(5, b"b", 0)), Answer::Written(vec![]));
    assert_eq!(store.run(&field(3, b"b", 0)), Answer::Absent);
    assert_eq!(store.run(&field(3, b"", 0)), Answer::Absent);
    assert_eq!(store.run(&field(3, &[b'x'; 1000], 0)), Answer::Absent);
    refused(&store, field(5, b"a", 0), 8);
    refused(&store, field(4, b"a", 0), 14);
    refused(&store, field(4, &[b'x'; 1001], 0), 3);
}

fn report(name: &[u8], first: Id, last: Id) -> Command {
    Command::Report { name: name.to_vec(), first, last }
}

#[test]
fn reports() {
    let mut store = store();
    let mut over = |name: &[u8], first, last| store.run(&report(name, first, last));
    let integers = |lacking, integers, sum, smallest, largest| {
        let (smallest, largest) = (Some(smallest), Some(largest));
        Answer::Report(Report { lacking, other: 0, integers, sum, smallest, largest })
    };
    assert_eq!(over(b"a", Id::LEAST, Id::GREATEST), integers(0, 3, 6, 1, 3));
    assert_eq!(over(b"a", Id::new(3, 0), Id::new(5, 0)), integers(0, 2, 3, 1, 2));
    assert_eq!(over(b"a", Id::new(3, 1), Id::new(8, 0)), integers(0, 1, 2, 2, 2));
    let none = |lacking, other| Answer::Report(Report { lacking, other, ..Report::default() });
    assert_eq!(over(b"b", Id::LEAST, Id::GREATEST), none(2, 1));
    assert_eq!(over(b"", Id::LEAST, Id::GREATEST), none(3, 0));
    assert_eq!(over(b"a", Id::new(5, 1), Id::new(5, 0)), none(0, 0));
    assert_eq!(over(&[b'x'; 1000], Id::LEAST, Id::GREATEST), none(3, 0));
    refused(&store, report(&[b'x'; 1001], Id::GREATEST, Id::LEAST), 3);
    refused(&Store::damaged(8192), report(&[b'x'; 1001], Id::LEAST, Id::GREATEST), 2);
    store.run(&Command::Delete { id: Id::new(5, 0) });
    assert_eq!(store.run(&report(b"a", Id::LEAST, Id::GREATEST)), integers(0, 2, 4, 1, 3));
}

fn range_reply(first: Id, last: Id, room: usize) -> Command {
    Command::RangeReply { first, last, room }
}

#[test]
fn range_replies() {
    let mut store = store();
    let mut over = |first, last, room| match store.run(&range_reply(first, last, room)) {
        Answer::Written(bytes) => String::from_utf8(bytes).unwrap(),
        answer => panic!("{answer:?}"),
    };
    let three = "*2\r\n$3\r\n3-0\r\n*2\r\n$1\r\na\r\n$1\r\n1\r\n";
    let five = "*2\r\n$3\r\n5-0\r\n*4\r\n$1\r\nb\r\n$0\r\n\r\n$1\r\na\r\n$1\r\n2\r\n";
    assert_eq!(over(Id::new(3, 0), Id::new(5, 0), 999), format!("*2\r\n{three}{five}"));
    assert_eq!(over(Id::new(3, 1), Id::new(8, 0), 999), format!("*1\r\n{five}"));
    assert_eq!(over(Id::LEAST, Id::GREATEST, 999)[..4], *"*3\r\n");
    assert_eq!(over(Id::new(5, 1), Id::new(5, 0), 4), "*0\r\n");
    refused(&store, range_reply(Id::new(5, 1), Id::new(5, 0), 3), 8);
    refused(&store, range_reply(Id::new(5, 0), Id::new(5, 0), 3 + five.len()), 8);
    refused(&Store::damaged(8192), range_reply(Id::LEAST, Id::GREATEST, 0), 2);
    store.run(&Command::Delete { id: Id::new(5, 0) });
    let rest = store.run(&range_reply(Id::LEAST, Id::new(5, 0), 4 + three.len()));
    assert_eq!(rest, Answer::Written(format!("*1\r\n{three}").into_bytes()));
}

#[test]
fn create_and_destroy_group() {
    let mut store = store();
    assert_eq!(create(&mut store, "g", Id::GREATEST), Answer::Done);
    refused(&store, Command::CreateGroup { group: vec![], start: Id::LEAST }, 3);
    refused(&store, Command::CreateGroup { group: vec![b'g'; 17], start: Id::LEAST }, 3);
    refused(&store, Command::CreateGroup { group: name("g"), start: Id::LEAST }, 10);
    for number in 1..8 {
        assert_eq!(create(&mut store, &number.to_string(), Id::LEAST), Answer::Done);
    }
    refused(&store, Command::CreateGroup { group: name("h"), start: Id::LEAST }, 11);
    refused(&store, Command::CreateGroup { group: name("g"), start: Id::LEAST }, 10);
    refused(&store, Command::DestroyGroup { group: name("h") }, 9);
    refused(&store, Command::DestroyGroup { group: vec![] }, 3);
    assert_eq!(store.run(&Command::DestroyGroup { group: name("g") }), Answer::Done);
    assert_eq!(create(&mut store, "h", Id::LEAST), Answer::Done);
}

#[test]
fn names_are_judged_before_the_group_is_sought() {
    let store = store();
    let (group, bad) = (name("g"), vec![]);
    refused(&store, Command::GroupRead { group: group.clone(), consumer: bad.clone(), now: 0 }, 3);
    refused(&store, Command::GroupRead { group: bad.clone(), consumer: group.clone(), now: 0 }, 3);
    refused(&store, Command::GroupRead { group: group.clone(), consumer: group.clone(), now: 0 }, 9);
    refused(&store, Command::Acknowledge { group: bad.clone(), id: Id::LEAST }, 3);
    refused(&store, Command::Acknowledge { group: group.clone(), id: Id::LEAST }, 9);
    refused(
        &store,
        Command::NextPending { group: group.clone(), consumer: bad.clone(), after: Id::LEAST },
        3,
    );
    refused(
        &store,
        Command::NextPending { group: group.clone(), consumer: group.clone(), after: Id::LEAST },
        9,
    );
    refused(&store, Command::DropConsumer { group: group.clone(), consumer: bad.clone() }, 3);
    refused(&store, Command::DropConsumer { group: group.clone(), consumer: group.clone() }, 9);
    let claim =
        |consumer| Command::Claim { group: name("g"), consumer, least_idle: 0, id: Id::LEAST, now: 0 };
    refused(&store, claim(bad), 3);
    refused(&store, claim(group), 9);
}

#[test]
fn group_read_delivers_in_order() {
    let mut store = store();
    create(&mut store, "g", Id::new(3, 0));
    assert_eq!(group_read(&mut store, "g", "c", 100), Answer::Id(Id::new(5, 0)));
    assert_eq!(group_read(&mut store, "g", "d", 200), Answer::Id(Id::new(9, 0)));
    assert_eq!(group_read(&mut store, "g", "e", 300), Answer::NothingNew);
    let group = &store.model.as_ref().unwrap().ledger.groups[&name("g")];
    assert_eq!(group.last_delivered, Id::new(9, 0));
    assert!(group.consumers.iter().eq([b"c", b"d"]));
    let entry = Pending { consumer: name("d"), time: 200, count: 1 };
    assert_eq!(group.pending[&Id::new(9, 0)], entry);
}

#[test]
fn a_batch_delivers_in_order() {
    let mut store = store();
    create(&mut store, "g", Id::LEAST);
    assert_eq!(store.run(&read_many("c", 0, 0)), ids(&[]));
    assert_eq!(store.run(&read_many("c", 2, 32)), ids(&[3, 5]));
    let group = &store.model.as_ref().unwrap().ledger.groups[&name("g")];
    assert_eq!(group.last_delivered, Id::new(5, 0));
    assert!(group.consumers.iter().eq([b"c"]));
    let entry = Pending { consumer: name("c"), time: 100, count: 1 };
    assert!(group.pending.iter().eq([(&Id::new(3, 0), &entry), (&Id::new(5, 0), &entry)]));
    assert_eq!(store.run(&read_many("d", 256, 4096)), ids(&[9]));
    let read = store.clone();
    assert_eq!(store.run(&read_many("e", 256, 4096)), ids(&[]));
    assert_eq!(store, read);
}

#[test]
fn batch_refusals_lowest_first() {
    let mut store = store();
    let bad = |group: &str, consumer: &str, n, room| Command::GroupReadMany {
        group: name(group),
        consumer: name(consumer),
        now: 0,
        n,
        room,
    };
    refused(&Store::damaged(4096), bad("", "", 257, 0), 2);
    refused(&store, bad("", "c", 1, 0), 3);
    refused(&store, bad("g", "", 1, 0), 3);
    for n in [257, (1 << 32) + 1, u64::MAX] {
        refused(&store, read_many("c", n, 1 << 20), 3);
    }
    refused(&store, read_many("c", 1, 15), 8);
    refused(&store, read_many("c", 256, 4095), 8);
    refused(&store, read_many("c", 256, 4096), 9);
    refused(&store, read_many("c", 0, 0), 9);
    // 8 also where nothing is new.
    create(&mut store, "g", Id::GREATEST);
    refused(&store, read_many("c", 1, 0), 8);
    assert_eq!(store.run(&read_many("c", 1, 16)), ids(&[]));
}

/// As many as there are free entries; 12 and 13 where one single read would be refused.
#[test]
fn a_batch_for_a_crowded_group() {
    let mut store = crowded();
    refused(&store, read_many("new", 1, 16), 12);
    refused(&store, read_many("c1", 256, 4096), 13);
    for consumer in ["new", "c1"] {
        assert_eq!(store.run(&read_many(consumer, 0, 0)), ids(&[]));
    }
    add(&mut store, 258, &[(b"a", b"1")]);
    store.run(&Command::Acknowledge { group: name("g"), id: Id::new(7, 0) });
    assert_eq!(store.run(&read_many("c1", 2, 32)), ids(&[257]));
    refused(&store, read_many("c1", 2, 32), 13);
    store.run(&Command::Delete { id: Id::new(258, 0) });
    for consumer in ["new", "c1"] {
        assert_eq!(store.run(&read_many(consumer, 256, 4096)), ids(&[]));
    }
}

#[test]
fn a_group_may_start_above_the_last_id() {
    let mut store = store();
    create(&mut store, "g", Id::new(20, 0));
    add(&mut store, 20, &[(b"a", b"1")]);
    assert_eq!(group_read(&mut store, "g", "c", 0), Answer::NothingNew);
    add(&mut store, 21, &[(b"a", b"1")]);
    assert_eq!(group_read(&mut store, "g", "c", 0), Answer::Id(Id::new(21, 0)));
}

#[test]
fn pending_entries_outlive_their_messages() {
    let mut store = store();
    create(&mut store, "g", Id::LEAST);
    group_read(&mut store, "g", "c", 100);
    store.run(&Command::Delete { id: Id::new(3, 0) });
    let next = Command::NextPending { group: name("g"), consumer: name("c"), after: Id::LEAST };
    let entry = |time, count, lives| Answer::Pending { id: Id::new(3, 0), time, count, lives };
    assert_eq!(store.run(&next), entry(100, 1, false));
    assert_eq!(claim(&mut store, "c", 0, Id::new(3, 0), 150), Answer::Moved);
    assert_eq!(store.run(&next), entry(150, 2, false));
    group_read(&mut store, "g", "c", 100);
    let after = Command::NextPending { group: name("g"), consumer: name("c"), after: Id::new(3, 0) };
    let expected = Answer::Pending { id: Id::new(5, 0), time: 100, count: 1, lives: true };
    assert_eq!(store.run(&after), expected);
    let unknown = Command::NextPending { group: name("g"), consumer: name("x"), after: Id::LEAST };
    assert_eq!(store.run(&unknown), Answer::NoneFound);
}

#[test]
fn a_drop_that_answers_0_may_remove_a_consumer() {
    let mut store = store();
    create(&mut store, "g", Id::LEAST);
    group_read(&mut store, "g", "c", 100);
    store.run(&Command::Acknowledge { group: name("g"), id: Id::new(3, 0) });
    let drop = Command::DropConsumer { group: name("g"), consumer: name("c") };
    assert_eq!(store.run(&drop), Answer::Count(0));
    assert!(store.model.unwrap().ledger.groups[&name("g")].consumers.is_empty());
}

#[test]
fn acknowledge_and_drop() {
    let mut store = store();
    create(&mut store, "g", Id::LEAST);
    group_read(&mut store, "g", "c", 100);
    group_read(&mut store, "g", "c", 100);
    let acknowledge = Command::Acknowledge { group: name("g"), id: Id::new(3, 0) };
    assert_eq!(store.run(&acknowledge), Answer::Count(1));
    assert_eq!(store.run(&acknowledge), Answer::Count(0));
    let drop = Command::DropConsumer { group: name("g"), consumer: name("c") };
    assert_eq!(store.run(&drop), Answer::Count(1));
    assert_eq!(store.run(&drop), Answer::Count(0));
}

/// A group with 16 consumers and 256 pending; the message that follows is live.
fn crowded() -> Store {
    let mut store = Store::fresh(64 * 4096);
    create(&mut store, "g", Id::LEAST);
    for ms in 1..=257 {
        add(&mut store, ms, &[(b"a", b"1")]);
        if ms <= 256 {
            group_read(&mut store, "g", &format!("c{}", ms % 16), 100);
        }
    }
    store
}

#[test]
fn refusals_12_and_13_only_where_the_read_or_move_would_happen() {
    let mut store = crowded();
    let read = |consumer: &str| Command::GroupRead { group: name("g"), consumer: name(consumer), now: 0 };
    let claim = |least_idle, ms| Command::Claim {
        group: name("g"),
        consumer: name("new"),
        least_idle,
        id: Id::new(ms, 0),
        now: 100,
    };
    refused(&store, read("new"), 12);
    refused(&store, read("c1"), 13);
    refused(&store, claim(0, 1), 12);
    assert_eq!(store.run(&claim(1, 1)), Answer::NotMoved);
    assert_eq!(store.run(&claim(0, 257)), Answer::NotMoved);
    store.run(&Command::Delete { id: Id::new(257, 0) });
    assert_eq!(store.run(&read("new")), Answer::NothingNew);
    assert_eq!(store.run(&read("c1")), Answer::NothingNew);
}

#[test]
fn save_and_load() {
    let mut store = crowded();
    let file = crate::snapshot::snapshot(&store.model.as_ref().unwrap().ledger).unwrap();
    assert_eq!(store.run(&Command::Save { room: file.len() }), Answer::Written(file.clone()));
    refused(&store, Command::Save { room: file.len() - 1 }, 8);
    refused(&Store::fresh(4095), Command::Load { file: file.clone() }, 1);
    refused(&Store::fresh(8192), Command::Load { file: file[1..].to_vec() }, 16);
    refused(&Store::fresh(8192), Command::Load { file: file.clone() }, 17);
    let mut other = Store::fresh(4 * 4096);
    assert_eq!(other.run(&Command::Load { file }), Answer::Done);
    assert_eq!(other.model.as_ref().unwrap().ledger, store.model.as_ref().unwrap().ledger);
    assert_eq!(other.model.unwrap().cut.slots.iter().flatten().count(), 3);
}

/// 64 full nodes whose first message, once deleted, no longer lends its long field name.
#[test]
fn a_save_may_need_over_64_nodes() {
    let mut store = Store::fresh(64 * 4096);
    let field = [b'f'; 1000];
    add(&mut store, 1, &[(&field, b"")]);
    add(&mut store, 2, &[(b"other", b"")]);
    let long = slip_of(&[(&field, &[b'x'; 100])]);
    let full = |answer: Answer| answer == Answer::Refused(7);
    while !full(store.run(&Command::AddByClock { time: 0, slip: long.clone() })) {}
    assert!(matches!(store.run(&Command::Save { room: 1 << 20 }), Answer::Written(_)));
    assert_eq!(store.run(&Command::Delete { id: Id::new(1, 0) }), Answer::Count(1));
    assert!(store.model.as_ref().unwrap().keeps_rules());
    refused(&store, Command::Save { room: 1 << 20 }, 15);
    refused(&store, Command::Save { room: 0 }, 15);
}
