//! The channel report (02, CR 2): values and names of every form, ranges that end at every kind of place, each limit from both sides, both
//! refusals, damaged bytes.

use wallathi::raw::STATE_BYTES;
use wallathi_model::id::Id;
use wallathi_model::ledger::{Answer, Command, Report, Store};
use wallathi_model::message::Message;

use crate::amount;
use crate::batches::thinned;
use crate::beside::Beside;
use crate::damage::{image_of, two_nodes, Sweep};
use crate::every_byte::store_of;
use crate::lent::{Lent, RECORD};
use crate::limits::{far_apart, full, message, one};
use crate::nodes::small_node;
use crate::sides::{self, Call, Values};
use crate::strings::boundaries;

const SLOT: usize = 4_096;
const MOST: i64 = 1_000_000_000;

fn report(name: &[u8], first: Id, last: Id) -> Command {
    Command::Report { name: name.to_vec(), first, last }
}

fn whole(name: &[u8]) -> Command {
    report(name, Id::LEAST, Id::GREATEST)
}

/// The integer that a report takes, of the string that is its text.
fn taken(value: &[u8]) -> Option<i64> {
    let text = std::str::from_utf8(value).ok()?;
    let integer: i64 = text.parse().ok()?;
    (integer.to_string() == text && (-MOST..=MOST).contains(&integer)).then_some(integer)
}

/// A report over integers alone.
fn of_integers(integers: impl IntoIterator<Item = i64>) -> Report {
    let integers: Vec<i64> = integers.into_iter().collect();
    Report {
        integers: integers.len() as u64,
        sum: integers.iter().sum(),
        smallest: integers.iter().copied().min(),
        largest: integers.iter().copied().max(),
        ..Report::default()
    }
}

fn of_others(lacking: u64, other: u64) -> Report {
    Report { lacking, other, ..Report::default() }
}

impl Beside {
    fn report(&mut self, name: &[u8], first: Id, last: Id) -> Report {
        match self.run(&report(name, first, last)) {
            Answer::Report(report) => report,
            answer => panic!("{answer:?}"),
        }
    }

    fn whole(&mut self, name: &[u8]) -> Report {
        self.report(name, Id::LEAST, Id::GREATEST)
    }

    /// The same by single commands: each message's field is asked for.
    fn by_fields(&mut self, name: &[u8], first: Id, last: Id) -> Report {
        let (mut integers, mut lacking, mut other) = (vec![], 0, 0);
        let mut from = Some(first);
        while let Some(Answer::Id(id)) = from.map(|id| self.run(&Command::Next { id })) {
            if id > last {
                break;
            }
            match self.run(&Command::Field { id, name: name.to_vec(), room: 1_000 }) {
                Answer::Written(value) => match taken(&value) {
                    Some(integer) => integers.push(integer),
                    None => other += 1,
                },
                answer => {
                    assert_eq!(answer, Answer::Absent);
                    lacking += 1;
                }
            }
            from = id.following();
        }
        Report { lacking, other, ..of_integers(integers) }
    }

    /// So many messages, the first of which lends the others its names or does not.
    fn of(slots: usize, messages: &[Message]) -> Beside {
        let mut beside = Beside::fresh(slots * SLOT);
        for (pairs, seq) in messages.iter().zip(1..) {
            assert_eq!(beside.add(Id::new(7, seq), pairs), Answer::Id(Id::new(7, seq)));
        }
        beside
    }
}

/// The ends of what is counted, and texts that are nearly integers.
#[test]
fn integers_and_others() {
    let ends = ["1000000000", "-1000000000", "999999999", "0", "-1"];
    let others = ["1000000001", "-1000000001", "-0", "007", "+1", "", "-", "1.0", " 1", "1 ", "0x1", "none"];
    let messages: Vec<Message> = ends.into_iter().chain(others).map(one).collect();
    let mut beside = Beside::of(1, &messages);
    let sum_of_ends = of_integers([MOST, -MOST, MOST - 1, 0, -1]);
    assert_eq!(beside.whole(b"t"), Report { other: others.len() as u64, ..sum_of_ends });
    for (value, seq) in ends.into_iter().zip(1..) {
        let integer = value.parse().expect("an integer");
        assert_eq!(beside.report(b"t", Id::new(7, seq), Id::new(7, seq)), of_integers([integer]));
    }
    let first = Id::new(7, 1 + ends.len() as u64);
    assert_eq!(beside.report(b"t", first, Id::GREATEST), of_others(0, others.len() as u64));
}

/// Every form of an integer and of a text, in messages that share their names and in messages that have their own.
#[test]
fn values_of_every_form() {
    let ends = [MOST, MOST + 1, -MOST, -MOST - 1].map(|end| end.to_string().into_bytes());
    let values: Vec<Vec<u8>> = boundaries().into_iter().chain(ends).collect();
    let integers: Vec<i64> = values.iter().filter_map(|value| taken(value)).collect();
    let forms = [(0, 127), (128, 4_095), (4_096, 32_767), (32_768, 8_388_607), (8_388_608, MOST)];
    assert!(forms.iter().all(|&(low, high)| integers.contains(&low) && integers.contains(&high)));
    assert!(integers.iter().filter(|&&integer| integer < 0).count() > 8);
    let others = (values.len() - integers.len()) as u64;
    for own in [false, true] {
        let number = |place: usize| if own { place.to_string() } else { String::new() };
        let pairs =
            |(place, value): (usize, &Vec<u8>)| message(&[(b"v", value), (number(place).as_bytes(), b"x")]);
        let messages: Vec<Message> = values.iter().enumerate().map(pairs).collect();
        let mut beside = Beside::of(10, &messages);
        for (value, seq) in values.iter().zip(1..) {
            let expected = taken(value).map_or(of_others(0, 1), |integer| of_integers([integer]));
            assert_eq!(beside.report(b"v", Id::new(7, seq), Id::new(7, seq)), expected, "{value:?}");
        }
        let expected = Report { other: others, ..of_integers(integers.iter().copied()) };
        assert_eq!(beside.whole(b"v"), expected);
        assert_eq!(beside.by_fields(b"v", Id::LEAST, Id::GREATEST), expected);
        beside.check();
    }
}

/// Each string as a name, integers and the empty one among them, beside the one after it.
#[test]
fn names_of_every_form() {
    let names = boundaries();
    let others = names.iter().cycle().skip(1);
    for (name, other) in names.iter().zip(others) {
        let mut beside = Beside::of(2, &[message(&[(name, b"5")]), message(&[(other, b"6"), (name, b"7")])]);
        assert_eq!(beside.whole(name), of_integers([5, 7]), "{name:?}");
        assert_eq!(beside.whole(other), Report { lacking: 1, ..of_integers([6]) }, "{other:?}");
    }
    let mut beside = Beside::of(1, &[message(&[(b"7", b"1"), (b"", b"2"), (b"-0", b"3")])]);
    for (name, integer) in [("7", 1), ("", 2), ("-0", 3)] {
        assert_eq!(beside.whole(name.as_bytes()), of_integers([integer]));
    }
    for name in ["07", "+7", "7 ", "0", "77", "\0"] {
        assert_eq!(beside.whole(name.as_bytes()), of_others(1, 0), "{name:?}");
    }
}

#[test]
fn names_at_their_limits() {
    let mut beside = Beside::of(1, &[message(&[(&[b'f'; 1_000], b"3"), (b"", b"4")])]);
    for (length, code) in [(0, 0), (1, 35), (999, 35), (1_000, 0), (1_001, 3), (65_536, 3), (66_536, 3)] {
        assert_eq!(beside.run(&whole(&vec![b'f'; length])).code(), code, "{length}");
    }
    assert_eq!(beside.run(&report(&[b'f'; 1_001], Id::GREATEST, Id::LEAST)), Answer::Refused(3));
}

/// The second pair of a name does not count: neither where the names are the node's nor where they are the message's own.
#[test]
fn the_first_pair_of_a_name() {
    let twice = |one: &str, other: &str| message(&[(b"a", one.as_bytes()), (b"a", other.as_bytes())]);
    let own = |one: &str, other: &str| [twice(one, other), message(&[(b"b", b"1")])].concat();
    let shared = [twice("1", "2"), twice("x", "3"), twice("4", "y"), twice("", "5")];
    let expected = Report { other: 2, ..of_integers([1, 4]) };
    assert_eq!(Beside::of(1, &shared).whole(b"a"), expected);
    let mut beside = Beside::of(1, &[one("9"), own("1", "2"), own("x", "3"), own("4", "y"), own("", "5")]);
    assert_eq!(beside.whole(b"a"), Report { lacking: 1, ..expected });
}

/// Names in another order, fewer and more of them than the node has.
#[test]
fn names_of_their_own() {
    let messages = [
        message(&[(b"a", b"1"), (b"b", b"2")]),
        message(&[(b"b", b"3"), (b"a", b"4")]),
        message(&[(b"a", b"5")]),
        message(&[(b"b", b"6")]),
        message(&[(b"a", b"7"), (b"b", b"8"), (b"c", b"9")]),
        message(&[(b"c", b"10"), (b"a", b"x")]),
        message(&[(b"a", b"11"), (b"b", b"12")]),
        message(&[(b"", b"13")]),
    ];
    let mut beside = Beside::of(1, &messages);
    assert_eq!(beside.whole(b"a"), Report { lacking: 2, other: 1, ..of_integers([1, 4, 5, 7, 11]) });
    assert_eq!(beside.whole(b"b"), Report { lacking: 3, ..of_integers([2, 3, 6, 8, 12]) });
    assert_eq!(beside.whole(b"c"), Report { lacking: 6, ..of_integers([9, 10]) });
    assert_eq!(beside.whole(b""), Report { lacking: 7, ..of_integers([13]) });
    assert_eq!(beside.whole(b"d"), of_others(8, 0));
    // Without the first, whose names the node keeps.
    beside.delete(Id::new(7, 1));
    assert_eq!(beside.whole(b"a"), Report { lacking: 2, other: 1, ..of_integers([4, 5, 7, 11]) });
    beside.check();
}

/// Each of 32 fields, in messages that share them and in one that has them in another order.
#[test]
fn each_of_32_fields() {
    let pairs: Message = (0..32i64)
        .map(|field| (vec![b'f', field as u8], (field * 1_000 - 9_000).to_string().into_bytes()))
        .collect();
    let turned: Message = pairs.iter().rev().cloned().collect();
    let mut beside = Beside::of(2, &[pairs.clone(), turned, pairs.clone()]);
    for (name, value) in &pairs {
        let integer = taken(value).expect("an integer");
        assert_eq!(beside.whole(name), of_integers([integer; 3]));
    }
    assert_eq!(beside.whole(&[b'f', 32]), of_others(3, 0));
}

/// Values that are their message's number, so that a sum says which messages are counted.
fn numbered() -> Vec<(&'static str, Beside)> {
    thinned(&full(4, |seq| one(&seq.to_string())))
}

/// Below all, at a node's key and beside it, in the middle, at a node's end, above all; both ends at each.
#[test]
fn ranges_that_end_at_every_kind_of_place() {
    let seqs = [0, 1, 2, 50, 99, 100, 101, 102, 150, 200, 201, 300, 301, 399, 400, 401];
    let inside = seqs.into_iter().map(|seq| Id::new(7, seq));
    let ends = [Id::LEAST, Id::new(6, 400), Id::new(8, 0), Id::GREATEST];
    let ends: Vec<Id> = inside.chain(ends).collect();
    for (kind, mut beside) in numbered() {
        let live: Vec<Id> = beside.model().ledger.messages.keys().copied().collect();
        for &first in &ends {
            for &last in &ends {
                let counted = live.iter().filter(|&&id| first <= id && id <= last);
                let expected = of_integers(counted.map(|id| id.seq as i64));
                assert_eq!(beside.report(b"t", first, last), expected, "{kind} {first:?} {last:?}");
                let lacking = expected.integers;
                assert_eq!(beside.report(b"u", first, last), of_others(lacking, 0), "{kind}");
            }
        }
    }
}

/// What is above an ID and what is not are the whole, wherever it is cut and however the nodes are.
#[test]
fn both_sides_of_any_id() {
    for (kind, mut beside) in numbered() {
        let Answer::Written(file) = beside.run(&Command::Save { room: 1 << 20 }) else { panic!("no file") };
        let expected = beside.by_fields(b"t", Id::LEAST, Id::GREATEST);
        for turn in 0..2 {
            assert_eq!(beside.whole(b"t"), expected, "{kind} {turn}");
            for seq in (0..=401).step_by(amount(7, 1)) {
                let (below, above) = (Id::new(7, seq), Id::new(7, seq + 1));
                let below = beside.report(b"t", Id::LEAST, below);
                let both = below.with(&beside.report(b"t", above, Id::GREATEST));
                assert_eq!(both, expected, "{kind} {turn} {seq}");
            }
            assert_eq!(beside.run(&Command::Load { file: file.clone() }), Answer::Done);
        }
    }
}

#[test]
fn ids_far_apart() {
    let mut beside = Beside::fresh(SLOT);
    let ids = far_apart();
    ids.iter()
        .zip(1..)
        .for_each(|(&id, value)| assert_eq!(beside.add(id, &one(&format!("{value}"))), Answer::Id(id)));
    for (first, low) in ids.into_iter().zip(1..) {
        for (last, high) in ids.into_iter().zip(1..) {
            assert_eq!(beside.report(b"t", first, last), of_integers(low..=high));
            let Some(above) = first.following() else { continue };
            assert_eq!(beside.report(b"t", above, last), of_integers(low + 1..=high));
        }
    }
}

/// 6,400 messages of the largest and of the smallest integer, and both by turns.
#[test]
fn sums_at_both_limits() {
    let all = 64 * 100;
    let values: [fn(u64) -> i64; 3] = [|_| MOST, |_| -MOST, |seq| if seq % 2 == 0 { MOST } else { -MOST }];
    for value in values {
        let store = full(64, |seq| one(&value(seq).to_string()));
        let mut beside = Beside::new(image_of(&store), store);
        let expected = of_integers((1..=all).map(value));
        assert_eq!(beside.whole(b"t"), expected);
        assert!([0, 6_400_000_000_000].contains(&expected.sum.abs()));
        assert_eq!(beside.whole(b"u"), of_others(all, 0));
    }
}

/// A deleted count of three bytes moves the names.
#[test]
fn over_127_deleted() {
    for deleted in [126, 127, 128, 140] {
        let store = store_of(small_node(3, deleted));
        let mut beside = Beside::new(image_of(&store), store);
        assert_eq!(beside.whole(b"t"), of_integers([1; 3]), "{deleted}");
        assert_eq!(beside.whole(b"u"), of_others(3, 0), "{deleted}");
    }
}

/// A store without a slot, one without a message, and one whose messages are gone.
#[test]
fn stores_without_messages() {
    for length in [0, 4_095, SLOT] {
        let mut beside = Beside::fresh(length);
        assert_eq!(beside.whole(b"t"), Report::default());
        assert_eq!(beside.run(&whole(&[b't'; 1_001])), Answer::Refused(3));
    }
    let mut beside = Beside::of(1, &[one("1"), one("2")]);
    beside.run(&Command::Trim { keep: 0 });
    assert_eq!(beside.whole(b"t"), Report::default());
}

/// 0 writes six numbers, 35 the first four, a refusal none; 2 comes before 3.
#[test]
fn numbers_that_are_written() {
    let beside = Beside::of(1, &[one("-3"), one("x"), one("5"), message(&[(b"u", b"")])]);
    let good = image_of(&beside.model);
    let mut damaged = good.clone();
    damaged.store_mut()[6] ^= 1; // a live count
    let held: Values = [11, 12, 13, 14, 15, 16];
    let run = |call: Call, lent: &Lent, command: Command| {
        let (mut lent, mut values) = (lent.clone(), held);
        let (store, state) = lent.both();
        (call(store, state, &command, &mut values, &mut []), values)
    };
    for call in [sides::proved, sides::plain] {
        assert_eq!(run(call, &good, whole(b"t")), (0, [1, 1, 2, 2, -3i64 as u64, 5]));
        assert_eq!(run(call, &good, whole(b"u")), (35, [3, 1, 0, 0, 15, 16]));
        assert_eq!(run(call, &good, report(b"t", Id::GREATEST, Id::LEAST)), (35, [0, 0, 0, 0, 15, 16]));
        assert_eq!(run(call, &good, whole(&[b't'; 1_001])), (3, held));
        assert_eq!(run(call, &damaged, whole(b"t")), (2, held));
        assert_eq!(run(call, &damaged, whole(&[b't'; 1_001])), (2, held));
    }
}

/// Two nodes of messages of every kind, a third of them deleted.
fn store_to_damage() -> Store {
    let mut store = full(2, |seq| match seq % 5 {
        0 => message(&[(b"b", b"1"), (b"t", b"-100000")]),
        1 | 2 => one(&(seq * 300).to_string()),
        3 => one("a text"),
        _ => message(&[(b"b", b"70")]),
    });
    for seq in (1..200).step_by(3) {
        store.run(&Command::Delete { id: Id::new(7, seq) });
    }
    store
}

/// A report for each byte of the nodes, of the last ID, and some of the index and of the groups.
#[test]
fn each_byte_changed() {
    let (store, command) = (store_to_damage(), report(b"t", Id::new(7, 20), Id::new(7, 180)));
    let (images, damaged) = Sweep::of_store(store.clone(), 0).each(command.clone(), two_nodes(1_620));
    assert!(images > 400 && damaged > 2_000, "{images} {damaged}");
    let rest = (RECORD..STATE_BYTES).step_by(amount(61, 1));
    let (images, damaged) = Sweep::of_state(store, 0).each(command, (0..RECORD).chain(rest));
    assert!(images > 10 && damaged > 800, "{images} {damaged}");
}
