//! Batch reading for a group (02, CR 1): each limit from both sides, each refusal alone and with others, last delivered IDs at every
//! kind of place. `beside` compares each accepted batch with as many single reads.

use std::collections::BTreeMap;

use wallathi_model::groups::{Group, MOST_CONSUMERS, MOST_PENDING};
use wallathi_model::id::Id;
use wallathi_model::ledger::{Answer, Command, Store};
use wallathi_model::message::Name;
use wallathi_model::rng::Rng;

use crate::amount;
use crate::beside::{run_damaged, Beside};
use crate::damage::{image_of, two_nodes, Sweep};
use crate::groups::{beside_with, filled, store_with};
use crate::lent::{RECORD, REGIONS};
use crate::limits::{name, one};

const SLOT: usize = 4_096;
/// More than a batch may have: one more, more than 32 bits hold, the most.
const TOO_MANY: [u64; 3] = [257, (1 << 32) + 1, u64::MAX];

fn read_many(group: &str, consumer: &str, n: u64, room: usize) -> Command {
    Command::GroupReadMany { group: name(group), consumer: name(consumer), now: 77, n, room }
}

/// The answer that has these IDs.
fn ids(list: impl IntoIterator<Item = Id>) -> Answer {
    Answer::Written(list.into_iter().flat_map(Id::to_bytes).collect())
}

/// 7-1, 7-2, .. from one of these numbers to another.
fn sevens(first: u64, last: u64) -> impl Iterator<Item = Id> {
    (first..=last).map(|seq| Id::new(7, seq))
}

impl Beside {
    /// A batch with an output that just holds n IDs.
    fn batch(&mut self, group: &str, consumer: &str, n: u64) -> Answer {
        self.run(&read_many(group, consumer, n, 16 * n as usize))
    }
}

#[test]
fn numbers_and_outputs_at_their_limits() {
    for n in [0, 1, 2, 255, 256] {
        let mut beside = beside_with(4, [(name("g"), Group::new(Id::LEAST))].into());
        let exact = 16 * n as usize;
        for room in [0, 15, exact.saturating_sub(1)].into_iter().filter(|&room| room < exact) {
            assert_eq!(beside.run(&read_many("g", "c", n, room)), Answer::Refused(8), "{n} {room}");
        }
        assert_eq!(beside.run(&read_many("g", "c", n, exact)), ids(sevens(1, n)), "{n}");
        beside.check();
        assert_eq!(beside.run(&read_many("g", "d", 0, 9)), ids([]));
        assert_eq!(beside.group(b"g").consumers.len(), usize::from(n > 0));
        let rest = if n < 256 { ids(sevens(n + 1, 256)) } else { Answer::Refused(13) };
        assert_eq!(beside.run(&read_many("g", "d", 256, 5_000)), rest);
        for (n, room) in TOO_MANY.into_iter().flat_map(|n| [0, 16, 4_096, 1 << 20].map(|room| (n, room))) {
            assert_eq!(beside.run(&read_many("g", "c", n, room)), Answer::Refused(3), "{n} {room}");
        }
        beside.check();
    }
}

/// A group of so many consumers, "own" among them or not, with so many entries, 7-3, 7-6 ..
fn group_of(consumers: usize, has_own: bool, pending: u64) -> Group {
    let mut group = filled(&mut Rng::new(pending), 3, pending);
    if has_own {
        group.consumers.insert(name("own"));
    }
    let names = (0..).map(|number| format!("z{number}").into_bytes());
    group.consumers.extend(names.take(consumers - group.consumers.len()));
    assert_eq!((group.consumers.len(), group.pending.len()), (consumers, pending as usize));
    group
}

/// What a batch of n gives "own", in a store of the messages 7-1 to 7-1000.
fn expected(group: &Group, n: u64) -> Answer {
    let (last, pending) = (group.last_delivered.seq, group.pending.len());
    let is_new = n > 0 && last < 1_000;
    let has_own = group.consumers.contains(&name("own"));
    if is_new && !has_own && group.consumers.len() == MOST_CONSUMERS {
        return Answer::Refused(12);
    }
    if is_new && pending == MOST_PENDING {
        return Answer::Refused(13);
    }
    let count = n.min(1_000 - last).min((MOST_PENDING - pending) as u64);
    ids(sevens(last + 1, last + count))
}

/// 0, 1, 255 and 256 pending; 15 and 16 consumers with and without the one that reads; many above, one, none.
#[test]
fn free_entries_and_consumers() {
    let store = store_with(10, BTreeMap::new());
    let run = |group: &Group, n: u64| {
        let mut store = store.clone();
        store.model.as_mut().expect("an image").ledger.groups.insert(name("g"), group.clone());
        let mut beside = Beside::new(image_of(&store), store);
        let answer = beside.batch("g", "own", n);
        assert_eq!(answer, expected(group, n), "{n} {group:?}");
        let is_made = !matches!(answer, Answer::Refused(_)) && answer != ids([]);
        let has_own = is_made || group.consumers.contains(&name("own"));
        assert_eq!(beside.group(b"g").consumers.contains(&name("own")), has_own);
        beside.check();
    };
    for (consumers, has_own) in [(15, false), (15, true), (16, false), (16, true)] {
        for pending in [0, 1, 255, 256] {
            let mut group = group_of(consumers, has_own, pending);
            for last in [3 * pending, 999, 1_000] {
                group.last_delivered = Id::new(7, last);
                [0, 1, 2, 256].into_iter().for_each(|n| run(&group, n));
            }
        }
    }
}

/// Whether a message is deleted, by its number.
type IsGone = fn(u64) -> bool;

/// A store of four nodes 7-1 to 7-400, from which some are deleted.
pub fn thinned(store: &Store) -> Vec<(&'static str, Beside)> {
    let kinds: [(&str, IsGone); 6] = [
        ("none", |_| false),
        ("some of each node", |seq| seq % 3 == 0),
        ("the first and the last of each node", |seq| seq % 100 < 2),
        ("the second node", |seq| (101..=200).contains(&seq)),
        ("the first and the third node", |seq| seq <= 100 || (201..=300).contains(&seq)),
        ("all but the last of the last node", |seq| seq < 400),
    ];
    let delete = |is_gone: IsGone| {
        let mut store = store.clone();
        assert_eq!(store.model.as_ref().expect("an image").ledger.last_id, Id::new(7, 400));
        for seq in (1..=400).filter(|&seq| is_gone(seq)) {
            assert_eq!(store.run(&Command::Delete { id: Id::new(7, seq) }), Answer::Count(1));
        }
        Beside::new(image_of(&store), store)
    };
    kinds.map(|(kind, is_gone)| (kind, delete(is_gone))).into()
}

/// The last delivered below all, at a node's key and beside it, in the middle, at a node's end, above all.
#[test]
fn last_delivered_at_every_kind_of_place() {
    let seqs = [0, 1, 2, 50, 99, 100, 101, 102, 150, 200, 201, 299, 300, 301, 350, 398, 399, 400, 401];
    let starts = seqs.into_iter().map(|seq| Id::new(7, seq));
    let starts: Vec<Id> = starts.chain([Id::LEAST, Id::new(6, 400), Id::new(8, 0), Id::GREATEST]).collect();
    for (kind, mut beside) in thinned(&store_with(4, BTreeMap::new())) {
        for &start in &starts {
            for n in [1, 99, 100, 101, 256] {
                let expected = ids(beside.model().ledger.above(start).take(n as usize));
                assert_eq!(beside.create("g", start), Answer::Done);
                assert_eq!(beside.batch("g", "c", n), expected, "{kind} {start:?} {n}");
                assert_eq!(beside.run(&Command::DestroyGroup { group: name("g") }), Answer::Done);
            }
        }
        beside.check();
    }
}

/// Batches until nothing is new: each message once, in order, whatever the batches' sizes.
#[test]
fn batches_one_after_another() {
    for (kind, mut beside) in thinned(&store_with(4, BTreeMap::new())) {
        for n in [1, 7, 100, 256] {
            let mut left: Vec<Id> = beside.model().ledger.messages.keys().copied().collect();
            beside.create("g", Id::LEAST);
            while !left.is_empty() {
                let taken: Vec<Id> = left.drain(..left.len().min(n)).collect();
                assert_eq!(beside.batch("g", "c", n as u64), ids(taken), "{kind} {n}");
                assert!(matches!(
                    beside.run(&Command::DropConsumer { group: name("g"), consumer: name("c") }),
                    Answer::Count(1..)
                ));
            }
            assert_eq!(beside.batch("g", "c", n as u64), ids([]), "{kind} {n}");
            beside.run(&Command::DestroyGroup { group: name("g") });
        }
        beside.check();
    }
}

#[test]
fn the_greatest_id() {
    let mut beside = Beside::fresh(SLOT);
    let last = [Id::new(u64::MAX, u64::MAX - 1), Id::GREATEST];
    beside.add(Id::new(1, 0), &one("1"));
    last.into_iter().for_each(|id| assert_eq!(beside.add(id, &one("1")), Answer::Id(id)));
    beside.create("all", Id::LEAST);
    assert_eq!(beside.batch("all", "c", 256), ids([Id::new(1, 0), last[0], last[1]]));
    beside.create("two", Id::new(1, 0));
    assert_eq!(beside.batch("two", "c", 2), ids(last));
    beside.create("one", last[0]);
    assert_eq!(beside.batch("one", "c", 256), ids([last[1]]));
    beside.create("none", Id::GREATEST);
    for group in ["all", "two", "one", "none"] {
        assert_eq!(beside.batch(group, "d", 256), ids([]));
        assert_eq!(beside.batch(group, "d", 0), ids([]));
    }
    beside.check();
}

/// What can be wrong with a batch, each by a bit, with the refusal that it brings.
const FAULTS: [u32; 8] = [2, 3, 3, 3, 8, 9, 12, 13];

/// A batch with these faults, of the groups below.
fn faulty(faults: [bool; 8]) -> Command {
    let [_, bad_group, bad_consumer, too_many, short, no_group, no_consumer, full] = faults;
    let group = match (bad_group, no_group) {
        (true, _) => name(""),
        (_, true) => name("none"),
        _ => vec![b'a' + u8::from(no_consumer) + 2 * u8::from(full)],
    };
    let n = if too_many { 257 } else { 2 };
    let consumer = if bad_consumer { name("seventeen letters") } else { name("new") };
    Command::GroupReadMany { group, consumer, now: 1, n, room: if short { 31 } else { 16 * n as usize } }
}

/// Groups a, b, c, d: with room for both, without a consumer's, without an entry's, without both.
fn four_groups() -> BTreeMap<Name, Group> {
    let kinds = [(15, 255), (16, 255), (15, 256), (16, 256)];
    let group = |(consumers, pending)| group_of(consumers, false, pending);
    ["a", "b", "c", "d"].map(name).into_iter().zip(kinds.map(group)).collect()
}

/// Every set of refusals: the lowest is given, and nothing is written.
#[test]
fn refusals_alone_and_together() {
    let store = store_with(10, four_groups());
    let good = image_of(&store);
    let mut damaged = good.clone();
    damaged.store_mut()[SLOT + 6] ^= 1; // a live count
    assert_eq!(damaged.read(), None);
    for set in 0..1 << FAULTS.len() {
        let faults: [bool; 8] = std::array::from_fn(|fault| set >> fault & 1 == 1);
        let lowest = FAULTS.iter().zip(faults).filter(|(_, is_there)| *is_there).map(|(code, _)| *code).min();
        let (lent, held) = if faults[0] { (&damaged, None) } else { (&good, store.model.clone()) };
        let answer = run_damaged(lent, held, &faulty(faults));
        assert_eq!(answer.code(), lowest.unwrap_or(0), "{faults:?}");
        assert_eq!(answer.code() == 0, answer == ids([Id::new(7, 766)]), "{faults:?}");
    }
}

/// 12 and 13 are not given for 0, nor where nothing is new; 8 and 9 are.
#[test]
fn refusals_where_nothing_would_be_delivered() {
    let mut groups = four_groups();
    let mut beside = beside_with(10, groups.clone());
    for group in ["a", "b", "c", "d"] {
        assert_eq!(beside.batch(group, "new", 0), ids([]));
    }
    assert_eq!(beside.batch("none", "new", 0), Answer::Refused(9));
    groups.values_mut().for_each(|group| group.last_delivered = Id::new(7, 1_000));
    let mut beside = beside_with(10, groups);
    for group in ["a", "b", "c", "d"] {
        assert_eq!(beside.batch(group, "new", 256), ids([]));
        assert_eq!(beside.run(&read_many(group, "new", 256, 4_095)), Answer::Refused(8));
    }
    beside.check();
}

/// A store without a slot, and one without a message.
#[test]
fn stores_without_messages() {
    for length in [0, 4_095, SLOT] {
        let mut beside = Beside::fresh(length);
        assert_eq!(beside.batch("g", "c", 1), Answer::Refused(9));
        beside.create("g", Id::LEAST);
        for n in [0, 1, 256] {
            assert_eq!(beside.batch("g", "c", n), ids([]));
        }
        beside.check();
    }
}

/// A batch where a byte is changed.
fn swept(sweep: fn(Store, u64) -> Sweep, places: impl Iterator<Item = usize>) -> (usize, usize) {
    sweep(store_to_damage(), 0).each(read_many("g", "new", 50, 800), places)
}

/// A group in the middle of the messages, for which a few entries are free.
fn store_to_damage() -> Store {
    let group = group_of(15, false, 40);
    store_with(2, [(name("g"), group)].into())
}

#[test]
fn bytes_of_the_store() {
    let (images, damaged) = swept(Sweep::of_store, two_nodes(1_100));
    assert!(images > 100 && damaged > 1_000, "{images} {damaged}");
}

/// The last ID, the group's region up to the first free entry, and some of the index.
#[test]
fn bytes_of_the_state() {
    let used = REGIONS + 308 + 41 * 27;
    let index = (RECORD..REGIONS).step_by(amount(19, 1));
    let region = (REGIONS..used).step_by(amount(2, 1));
    let places = (0..RECORD).chain(region).chain(index);
    let (images, damaged) = swept(Sweep::of_state, places);
    assert!(images > 200 && damaged > 500, "{images} {damaged}");
}
