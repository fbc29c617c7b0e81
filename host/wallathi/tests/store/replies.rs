//! Replies in RESP2 (02, CR 4): ranges, messages, strings and numbers at their limits, outputs that just fit, each refusal, damaged stores.
//! What is written reads back.

use wallathi::raw::STATE_BYTES;
use wallathi_model::generate::Mood;
use wallathi_model::id::Id;
use wallathi_model::ledger::{Answer, Command};
use wallathi_model::message::Message;
use wallathi_model::reply::Reply;
use wallathi_model::rng::Rng;
use wallathi_model::slip;

use crate::amount;
use crate::batches::thinned;
use crate::beside::{run_damaged, Beside};
use crate::damage::{image_of, reached, two_nodes, Sweep};
use crate::every_byte::store_of;
use crate::lent::RECORD;
use crate::limits::{far_apart, filling, full, message as pairs, one};
use crate::nodes::small_node;
use crate::readers::{error, integer, message, read};
use crate::strings::boundaries;

const SLOT: usize = 4_096;
/// No message's slip is longer.
const LONGEST_SLIP: usize = wallathi::LONGEST_SLIP;

fn range_reply(first: Id, last: Id, room: usize) -> Command {
    Command::RangeReply { first, last, room }
}

impl Beside {
    /// The range reply, from outputs that it just fits and that are one byte too short.
    fn range_reply(&mut self, first: Id, last: Id) -> Vec<u8> {
        let bytes = self.model().ledger.range_reply(first, last).to_bytes();
        assert_eq!(self.run(&range_reply(first, last, bytes.len())), Answer::Written(bytes.clone()));
        assert_eq!(self.run(&range_reply(first, last, bytes.len() - 1)), Answer::Refused(8));
        bytes
    }

    fn whole_reply(&mut self) -> Vec<u8> {
        self.range_reply(Id::LEAST, Id::GREATEST)
    }

    /// The reply on a range reads back: its number of messages, and each of them as a read gives it, or some where there are many.
    fn read_back(&mut self, first: Id, last: Id, rng: &mut Rng) {
        let ids: Vec<Id> = self.model().ledger.range(first, last).map(|(id, _)| id).collect();
        let reply = self.range_reply(first, last);
        assert_eq!(read(&reply), Ok((1, ids.len() as u64)));
        assert_eq!(message(&reply, ids.len() as u64, LONGEST_SLIP), Ok(None));
        let some = amount(6, 60).min(ids.len());
        for turn in 0..some {
            let place = if some == ids.len() { turn } else { rng.size_below(ids.len()) };
            let found = message(&reply, place as u64, LONGEST_SLIP);
            let Ok(Some((id, slip))) = found else { panic!("{place}: {found:?}") };
            assert_eq!(id, ids[place]);
            assert_eq!(self.run(&Command::Read { id, room: LONGEST_SLIP }), Answer::Written(slip));
        }
    }

    /// The same of the whole store and of a part of it.
    pub fn check_replies(&mut self) {
        let ids: Vec<Id> = self.model().ledger.messages.keys().copied().collect();
        let mut rng = Rng::new(ids.len() as u64);
        self.read_back(Id::LEAST, Id::GREATEST, &mut rng);
        if !ids.is_empty() {
            let (one, other) = (*rng.pick(&ids), *rng.pick(&ids));
            self.read_back(one.min(other), one.max(other), &mut rng);
        }
    }
}

/// The reply of these messages, whatever they are.
pub fn reply_of(messages: &[(Id, Message)]) -> Vec<u8> {
    Reply::Range(messages.to_vec()).to_bytes()
}

/// The reply of one message.
pub fn alone(pairs: Message) -> Vec<u8> {
    reply_of(&[(Id::new(7, 1), pairs)])
}

pub fn value(length: usize) -> Message {
    pairs(&[(b"v", &vec![b'x'; length])])
}

/// Whether the reply of a message is read; then a store that takes it writes it so.
fn is_read_and_written(pairs: &Message) -> bool {
    let reply = alone(pairs.clone());
    let is_read = read(&reply).is_ok();
    let mut beside = Beside::fresh(SLOT);
    let is_added = beside.add(Id::new(7, 1), pairs) == Answer::Id(Id::new(7, 1));
    assert_eq!(is_read, is_added);
    if is_added {
        assert_eq!(beside.whole_reply(), reply);
        assert_eq!(message(&reply, 0, LONGEST_SLIP), Ok(Some((Id::new(7, 1), slip::write(pairs)))));
    }
    is_read
}

#[test]
fn byte_by_byte() {
    let mut beside = Beside::fresh(SLOT);
    assert_eq!(beside.whole_reply(), b"*0\r\n");
    beside.add(Id::new(5, 0), &pairs(&[(b"a", b"1")]));
    beside.add(Id::new(10, 9), &pairs(&[(b"a", b"-12"), (b"", b"\r\n$1\r\n")]));
    let (one, other) = (
        "*2\r\n$3\r\n5-0\r\n*2\r\n$1\r\na\r\n$1\r\n1\r\n",
        "*2\r\n$4\r\n10-9\r\n*4\r\n$1\r\na\r\n$3\r\n-12\r\n$0\r\n\r\n$6\r\n\r\n$1\r\n\r\n",
    );
    assert_eq!(beside.whole_reply(), format!("*2\r\n{one}{other}").as_bytes());
    assert_eq!(beside.range_reply(Id::LEAST, Id::new(10, 8)), format!("*1\r\n{one}").as_bytes());
    assert_eq!(beside.range_reply(Id::new(5, 1), Id::new(10, 9)), format!("*1\r\n{other}").as_bytes());
    assert_eq!(beside.range_reply(Id::new(5, 1), Id::new(10, 8)), b"*0\r\n");
    assert_eq!(beside.range_reply(Id::new(10, 9), Id::new(5, 0)), b"*0\r\n");
    assert_eq!(read(b"*0\r\n"), Ok((1, 0)));
    beside.delete(Id::new(5, 0));
    assert_eq!(beside.whole_reply(), format!("*1\r\n{other}").as_bytes());
    beside.check();
}

/// Numbers at their limits, with outputs of every length: 3 comes before 8.
#[test]
fn numbers() {
    let far = [1 << 16, (1 << 32) - 1, 1 << 32, (1 << 32) + 1, 1 << 63, u64::MAX];
    let ends = [0, 1, 9, 10, 11, 17, 18, 19, 99, 100, 999, 1_000, 6_399, 6_400, 6_401, 9_999, 10_000];
    for number in ends.into_iter().chain(far) {
        for room in 0..=12 {
            let bytes = integer(number, room);
            let expected = format!(":{number}\r\n").into_bytes();
            match number {
                0..=6_400 if room >= expected.len() => assert_eq!(bytes.as_ref(), Ok(&expected)),
                0..=6_400 => assert_eq!(bytes, Err(8)),
                _ => assert_eq!(bytes, Err(3)),
            }
            let bytes = error(number, room);
            let expected = format!("-ERR {number}\r\n").into_bytes();
            match number {
                1..=18 if room >= expected.len() => assert_eq!(bytes.as_ref(), Ok(&expected)),
                1..=18 => assert_eq!(bytes, Err(8)),
                _ => assert_eq!(bytes, Err(3)),
            }
        }
        let is = |is_one: bool, kind: u64| if is_one { Ok((kind, number)) } else { Err(3) };
        assert_eq!(read(format!(":{number}\r\n").as_bytes()), is(number <= 6_400, 2));
        assert_eq!(read(format!("-ERR {number}\r\n").as_bytes()), is((1..=18).contains(&number), 3));
    }
}

/// Each number that there is reads back, and is no range reply.
#[test]
fn every_number() {
    for number in 0..=6_400 {
        let bytes = integer(number, 7).expect("there is such a reply");
        assert_eq!(read(&bytes), Ok((2, number)));
        assert_eq!(message(&bytes, number, 0), Err(3));
    }
    for number in 1..=18 {
        let bytes = error(number, 9).expect("there is such a reply");
        assert_eq!(read(&bytes), Ok((3, number)));
        assert_eq!(message(&bytes, 0, 9), Err(3));
    }
}

/// A store without a slot, one without a message, and one whose messages are gone.
#[test]
fn stores_without_messages() {
    for length in [0, 4_095, SLOT] {
        let mut beside = Beside::fresh(length);
        for room in 0..6 {
            let answer = if room < 4 { Answer::Refused(8) } else { Answer::Written(b"*0\r\n".to_vec()) };
            assert_eq!(beside.run(&range_reply(Id::LEAST, Id::GREATEST, room)), answer);
        }
    }
    let mut beside = Beside::fresh(SLOT);
    beside.add(Id::new(7, 1), &one("1"));
    beside.run(&Command::Trim { keep: 0 });
    assert_eq!(beside.whole_reply(), b"*0\r\n");
}

#[test]
fn pairs_at_their_limits() {
    for count in [1, 2, 4, 5, 9, 10, 31, 32] {
        let number = |number: usize| number.to_string().into_bytes();
        assert!(is_read_and_written(&(0..count).map(|place| (number(place), number(count))).collect()));
        assert!(is_read_and_written(&vec![(vec![], vec![]); count]));
    }
    for count in [0, 33, 34, 49, 50, 64, 128, 500] {
        assert_eq!(read(&alone(vec![(b"f".to_vec(), vec![]); count])), Err(3), "{count}");
    }
    // A field without a value.
    for strings in 0..=66 {
        let bulks = "$1\r\ns\r\n".repeat(strings);
        let reply = format!("*1\r\n*2\r\n$3\r\n7-1\r\n*{strings}\r\n{bulks}");
        let is_message = strings % 2 == 0 && (2..=64).contains(&strings);
        assert_eq!(read(reply.as_bytes()).is_ok(), is_message, "{strings}");
    }
}

/// As a field and as a value, where a length gets a digit more, up to 1,000.
#[test]
fn strings_of_every_length() {
    for length in [0, 1, 9, 10, 11, 63, 64, 99, 100, 101, 127, 128, 999, 1_000] {
        let string = vec![b's'; length];
        assert!(is_read_and_written(&pairs(&[(&string, b"1")])), "{length}");
        assert!(is_read_and_written(&pairs(&[(b"f", &string)])), "{length}");
        assert!(is_read_and_written(&pairs(&[(&string, &string), (b"f", &string)])), "{length}");
    }
    for length in [1_001, 1_002, 1_010, 1_100, 2_000, 4_000, 4_096, 10_000, 65_536, 66_536] {
        let string = vec![b's'; length];
        assert_eq!(read(&alone(pairs(&[(&string, b"1")]))), Err(3), "{length}");
        assert_eq!(read(&alone(pairs(&[(b"f", &string)]))), Err(3), "{length}");
    }
}

/// Every form of a string in a node: in messages that share their names, and in messages that have their own.
#[test]
fn strings_of_every_form() {
    let strings = boundaries();
    let mut beside = Beside::fresh(60 * SLOT);
    let others = strings.iter().cycle().skip(1);
    for (string, other) in strings.iter().zip(others) {
        for pairs in
            [pairs(&[(string, other)]), pairs(&[(string, b"1")]), pairs(&[(b"f", string), (other, b"")])]
        {
            let id = beside.model().ledger.last_id.following().expect("there are more");
            assert_eq!(beside.add(id, &pairs), Answer::Id(id));
            let reply = beside.range_reply(id, id);
            assert_eq!(reply, reply_of(&[(id, pairs.clone())]));
            assert_eq!(message(&reply, 0, LONGEST_SLIP), Ok(Some((id, slip::write(&pairs)))));
        }
    }
    beside.check();
}

/// Values that no text may hold as they are: line ends, zeros, every byte.
#[test]
fn strings_of_every_byte() {
    let all: Vec<u8> = (0..=255).collect();
    assert!(is_read_and_written(&pairs(&[(&all, &all)])));
    for byte in all {
        assert!(is_read_and_written(&pairs(&[(&[byte], &[byte, b'\r', b'\n', byte])])));
    }
    assert!(is_read_and_written(&pairs(&[(b"*0\r\n", b":1\r\n"), (b"$0\r\n\r\n", b"-ERR 1\r\n")])));
}

/// Both halves at 0, at each number of digits, and at 2^64 - 1; 0-0 is none.
#[test]
fn ids_of_every_length() {
    let powers = (0..20).map(|power| 10u64.pow(power));
    let halves: Vec<u64> =
        [0, u64::MAX - 1, u64::MAX].into_iter().chain(powers.flat_map(|ten| [ten - 1, ten])).collect();
    for &ms in &halves {
        for &seq in &halves {
            let id = Id::new(ms, seq);
            let reply = reply_of(&[(id, one("1"))]);
            assert_eq!(read(&reply).is_ok(), id > Id::LEAST, "{id:?}");
            if id > Id::LEAST {
                assert_eq!(message(&reply, 0, 7), Ok(Some((id, slip::write(&one("1"))))));
            }
        }
    }
    for id in [Id::new(0, 1), Id::new(0, u64::MAX), Id::new(1, 0), Id::new(u64::MAX, 0), Id::GREATEST] {
        let mut beside = Beside::fresh(SLOT);
        beside.add(id, &one("1"));
        assert_eq!(beside.whole_reply(), reply_of(&[(id, one("1"))]));
    }
    let mut beside = Beside::fresh(SLOT);
    far_apart().into_iter().for_each(|id| assert_eq!(beside.add(id, &one("1")), Answer::Id(id)));
    beside.check();
}

/// Messages that alone make a node of 4,094, 4,095 and 4,096 bytes: of texts, of many pairs, and of the longest integers, whose text is
/// twice as long as they are.
#[test]
fn messages_that_just_fit() {
    for size in [4_094, 4_095, 4_096, 4_097] {
        let message = filling(None, Id::new(7, 1), size);
        assert_eq!(is_read_and_written(&message), size <= 4_095, "{size}");
    }
    let least = i64::MIN.to_string().into_bytes();
    // 23 bytes, 60 integers of 10, texts of 4 more than their length.
    let of = |last: usize| {
        let texts = [1_000, 1_000, 1_000, last].map(|length| vec![b'x'; length]);
        let strings: Vec<Vec<u8>> = texts.into_iter().chain(vec![least.clone(); 60]).collect();
        strings.chunks(2).map(|pair| (pair[0].clone(), pair[1].clone())).collect::<Message>()
    };
    assert_eq!(slip::write(&of(456)).len(), 1 + 64 * 2 + 60 * 20 + 3_456);
    assert!(is_read_and_written(&of(456)));
    assert!(!is_read_and_written(&of(457)));
    // One beyond the longest integers is a text, and takes 21 or 22 bytes.
    let beyond = pairs(&[(b"9223372036854775808", b"-9223372036854775809")]);
    for (integers, fits) in [(&pairs(&[(&least, &least)]), true), (&beyond, false)] {
        let texts =
            pairs(&[(&[b'x'; 1_000], &[b'x'; 1_000]), (&[b'x'; 1_000], &[b'x'; 1_000]), (b"", &[b'x'; 10])]);
        let all = [texts, integers.clone()].concat();
        assert_eq!(is_read_and_written(&all), fits, "{fits}");
    }
}

/// Below all, at a node's key and beside it, in the middle, at a node's end, above all; both ends at each.
#[test]
fn ranges_that_end_at_every_kind_of_place() {
    let seqs = [0, 1, 2, 50, 100, 101, 150, 200, 201, 300, 301, 399, 400, 401];
    let inside = seqs.into_iter().map(|seq| Id::new(7, seq));
    let ends: Vec<Id> = inside.chain([Id::LEAST, Id::new(8, 0), Id::GREATEST]).collect();
    for (kind, mut beside) in thinned(&full(4, |seq| one(&seq.to_string()))) {
        for &first in &ends {
            for &last in &ends {
                let bytes = beside.range_reply(first, last);
                let live = beside.model().ledger.messages.keys().filter(|&&id| first <= id && id <= last);
                assert!(bytes.starts_with(format!("*{}\r\n", live.count()).as_bytes()), "{kind}");
            }
        }
        beside.check();
    }
}

/// A deleted count of three bytes moves the names.
#[test]
fn over_127_deleted() {
    for deleted in [126, 127, 128, 140] {
        let store = store_of(small_node(3, deleted));
        let mut beside = Beside::new(image_of(&store), store);
        beside.check();
        assert_eq!(read(&beside.whole_reply()), Ok((1, 3)), "{deleted}");
    }
}

/// 6,400 messages; and names that a node has once and each of its messages in the reply.
#[test]
fn full_stores() {
    let store = full(64, |seq| one(&seq.to_string()));
    let mut beside = Beside::new(image_of(&store), store);
    let reply = beside.whole_reply();
    assert_eq!(read(&reply), Ok((1, 6_400)));
    for place in [0, 1, 99, 100, 6_399] {
        let found = (Id::new(7, place + 1), slip::write(&one(&(place + 1).to_string())));
        assert_eq!(message(&reply, place, 20), Ok(Some(found)));
    }
    assert_eq!(message(&reply, 6_400, 20), Ok(None));
    let names = [[b'a'; 1_000], [b'b'; 1_000], [b'c'; 1_000]];
    let store = full(2, |_| names.iter().map(|name| (name.to_vec(), b"7".to_vec())).collect());
    let mut beside = Beside::new(image_of(&store), store);
    let length = beside.whole_reply().len();
    assert!(length > 40 * beside.model.length, "{length}");
    beside.check();
}

/// Places at both ends and beyond, outputs that just fit: 3 comes before 8 and 32, 32 before 8, and nothing is written then.
#[test]
fn places_and_outputs() {
    let messages = [(Id::new(7, 1), value(0)), (Id::new(7, 2), value(10)), (Id::new(8, 0), value(1_000))];
    let reply = reply_of(&messages);
    for ((id, pairs), place) in messages.iter().zip(0..) {
        let slip = slip::write(pairs);
        for room in [0, 1, slip.len() - 1] {
            assert_eq!(message(&reply, place, room), Err(8), "{place} {room}");
        }
        for room in [slip.len(), slip.len() + 1, LONGEST_SLIP] {
            assert_eq!(message(&reply, place, room), Ok(Some((*id, slip.clone()))), "{place} {room}");
        }
    }
    for place in [3, 4, 1 << 32, (1 << 32) + 1, 1 << 63, u64::MAX] {
        for room in [0, LONGEST_SLIP] {
            assert_eq!(message(&reply, place, room), Ok(None));
            assert_eq!(message(&reply[..reply.len() - 1], place, room), Err(3));
            assert_eq!(message(b":1\r\n", place, room), Err(3));
        }
    }
    for place in 0..3 {
        assert_eq!(message(&reply[..reply.len() - 1], place, 0), Err(3));
        assert_eq!(message(b"*0\r\n", place, 0), Ok(None));
        assert_eq!(message(b"", place, 0), Err(3));
    }
}

/// 2 comes before 8; neither writes.
#[test]
fn refusals_of_a_range_reply() {
    let mut beside = Beside::fresh(SLOT);
    beside.add(Id::new(7, 1), &one("1"));
    let good = image_of(&beside.model);
    let mut damaged = good.clone();
    damaged.store_mut()[6] ^= 1; // a live count
    let held = beside.model.model.clone();
    let length = beside.whole_reply().len();
    for (first, last) in [(Id::LEAST, Id::GREATEST), (Id::GREATEST, Id::LEAST)] {
        for room in [0, 3, 4, length - 1, length, length + 1] {
            let command = range_reply(first, last, room);
            assert_eq!(run_damaged(&damaged, None, &command), Answer::Refused(2));
            let is_short = room < if first < last { length } else { 4 };
            assert_eq!(run_damaged(&good, held.clone(), &command).code(), if is_short { 8 } else { 0 });
        }
    }
}

/// A range reply for each byte of the nodes, of the last ID, and some of the index and of the groups.
#[test]
fn each_byte_of_a_store_changed() {
    let mut store = full(2, |seq| match seq % 4 {
        0 => pairs(&[(b"b", b"1"), (b"t", b"-100000")]),
        1 => one(&(seq * 300).to_string()),
        2 => one("a text"),
        _ => pairs(&[(b"b", b"70")]),
    });
    (1..200)
        .step_by(3)
        .for_each(|seq| assert_eq!(store.run(&Command::Delete { id: Id::new(7, seq) }).code(), 0));
    let command = range_reply(Id::new(7, 20), Id::new(7, 180), 5_000);
    let places = two_nodes(1_620).step_by(amount(2, 1));
    let (images, damaged) = Sweep::of_store(store.clone(), 0).each(command.clone(), places);
    assert!(images > 100 && damaged > 800, "{images} {damaged}");
    let rest = (RECORD..STATE_BYTES).step_by(amount(97, 1));
    let (images, damaged) = Sweep::of_state(store, 0).each(command, (0..RECORD).chain(rest));
    assert!(images > 5 && damaged > 500, "{images} {damaged}");
}

/// The store that random lists leave, over one slot and over many, reads back whole and in parts.
#[test]
fn stores_of_random_lists() {
    let moods = [Mood::Mixed, Mood::Fills, Mood::FillsLong, Mood::Rolls];
    for (mood, seed) in moods.into_iter().cycle().take(amount(8, 80)).zip(4_100..) {
        let store = reached(seed, mood, (1 + seed as usize % 5) * SLOT, 150);
        let mut beside = Beside::new(image_of(&store), store);
        let ids: Vec<Id> = beside.model().ledger.messages.keys().copied().collect();
        let mut rng = Rng::new(seed);
        for _ in 0..ids.len().min(5) {
            let (one, other) = (*rng.pick(&ids), *rng.pick(&ids));
            beside.read_back(one, other, &mut rng);
        }
        beside.check();
    }
}
