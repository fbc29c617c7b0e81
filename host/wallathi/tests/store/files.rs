//! Files that are not what save wrote: damaged, cut, hostile.

use std::slice;

use wallathi_model::generate::{self, Commands, Mood};
use wallathi_model::groups::{self, Group};
use wallathi_model::id::Id;
use wallathi_model::ledger::{Answer, Command, Store};
use wallathi_model::message::Message;
use wallathi_model::node::Node;
use wallathi_model::rng::Rng;
use wallathi_model::snapshot::{self, file, fresh_cut, node_body};

use crate::beside::run_damaged;
use crate::damage::others;
use crate::lent::Lent;
use crate::{amount, Progress};

const SLOT: usize = 4_096;
const CONTENTS: usize = 3;
const ENTRY: usize = 9;

/// Loads a file into a store of so many slots that holds no image; the code.
fn load(slots: usize, file: Vec<u8>) -> u32 {
    let store = vec![7; slots * SLOT + 5];
    let lent = Lent::new(&store, &[9; wallathi::raw::STATE_BYTES]);
    run_damaged(&lent, None, &Command::Load { file }).code()
}

/// The snapshot of what a list of commands leaves.
pub fn saved(seed: u64, mood: Mood, slots: usize, commands: usize) -> Vec<u8> {
    let mut store = Store::fresh(slots * SLOT);
    let mut next = Commands::with_mood(seed, mood);
    for _ in 0..commands {
        store.run(&next.next(&store));
    }
    let ledger = store.model.expect("an image").ledger;
    snapshot::snapshot(&ledger).expect("few nodes")
}

/// Snapshots of small nodes of 100 messages each with groups, of messages of every kind, of nothing.
fn files() -> Vec<Vec<u8>> {
    vec![
        saved(3, Mood::FillsSmall, 3, amount(420, 900)),
        saved(4, Mood::Fills, 1, 60),
        saved(5, Mood::FillsLong, 3, amount(10, 40)),
        saved(6, Mood::Mixed, 2, 0),
    ]
}

#[test]
fn each_byte_changed() {
    let mut rng = Rng::new(2_001);
    let (mut accepted, mut refused) = (0, 0);
    for good in files() {
        assert_eq!(load(3, good.clone()), 0);
        let mut progress = Progress::new("each byte of a file", good.len());
        for at in (0..good.len()).step_by(amount(11, 1)) {
            for byte in others(&mut rng, good[at], amount(1, 3)) {
                let mut bad = good.clone();
                bad[at] = byte;
                match load(3, bad) {
                    0 => accepted += 1,
                    16 => refused += 1,
                    code => panic!("byte {at}: {code}"),
                }
            }
            progress.step();
        }
    }
    assert!(accepted > 50 && refused > 150, "{accepted} {refused}");
}

#[test]
fn cut_at_every_length() {
    for good in files() {
        (0..good.len())
            .step_by(amount(3, 1))
            .for_each(|length| assert_eq!(load(3, good[..length].to_vec()), 16, "{length}"));
        for after in [0, 1, 255] {
            assert_eq!(load(3, [&good[..], &[after]].concat()), 16);
        }
    }
}

/// Kinds 0 to 255, and offsets, lengths and counts up to the greatest.
#[test]
fn hostile_contents() {
    let good = &files()[0];
    let count = u16::from_le_bytes([good[1], good[2]]);
    for other in (0..80).chain([254, 255, 256, 257, 4_096, 65_534, 65_535]).filter(|&other| other != count) {
        let mut bad = good.clone();
        bad[1..3].copy_from_slice(&other.to_le_bytes());
        assert_eq!(load(3, bad), 16, "{other} entries");
    }
    for entry in 0..usize::from(count) {
        let at = CONTENTS + ENTRY * entry;
        for kind in (0..=255).filter(|&kind| kind != good[at]) {
            let mut bad = good.clone();
            bad[at] = kind;
            assert_eq!(load(3, bad), 16, "kind {kind}");
        }
        for field in [at + 1, at + 5] {
            let number = u32::from_le_bytes(good[field..field + 4].try_into().expect("4 bytes"));
            let length = good.len() as u32;
            let near = [number - 1, number + 1, length - 1, length, length + 1, 0u32.wrapping_sub(number)];
            for other in near.into_iter().chain([0, 1, 1 << 16, 1 << 31, u32::MAX - 1, u32::MAX]) {
                let mut bad = good.clone();
                bad[field..field + 4].copy_from_slice(&other.to_le_bytes());
                assert_eq!(load(3, bad) == 0, other == number, "{other} in entry {entry}");
            }
        }
    }
}

fn short() -> Message {
    vec![(b"a".to_vec(), b"1".to_vec())]
}

/// A message of which three make a node.
fn long(number: u64) -> Message {
    vec![(b"a".to_vec(), vec![b'x'; 999]), (number.to_string().into_bytes(), vec![b'y'; 200])]
}

/// A node of these numbers as IDs.
fn node(numbers: &[u64], pairs: fn(u64) -> Message) -> Node {
    let (&first, others) = numbers.split_first().expect("a message");
    let one = Node::of_one(Id::new(first, 0), pairs(first));
    others.iter().fold(one, |node, &number| node.with(Id::new(number, 0), &pairs(number)))
}

fn group(name: &[u8], pending: &[u64]) -> (u8, Vec<u8>) {
    let mut group = Group::new(Id::LEAST);
    pending.iter().for_each(|&ms| group.deliver(b"c", Id::new(ms, 0), 1).expect("there is room"));
    (3, groups::body(name, &group))
}

/// Bodies in order, out of order, twice, too many; nodes that the fresh cut does not make.
#[test]
fn hostile_bodies() {
    let last = (1, Id::new(9, 0).to_bytes().to_vec());
    let body = |node: &Node| (2, node_body(node));
    let of = |numbers: &[u64]| body(&node(numbers, |_| short()));
    let of_long = |numbers: &[u64]| body(&node(numbers, long));
    let mut deleted = node(&[3, 4], |_| short());
    deleted.delete(Id::new(3, 0));
    let code = |bodies: &[(u8, Vec<u8>)]| load(2, file(&[slice::from_ref(&last), bodies].concat()));
    assert_eq!(code(&[of(&[3, 4]), group(b"a", &[]), group(b"b", &[3, 9])]), 0);
    assert_eq!(code(&[of_long(&[1, 2, 3]), of_long(&[4, 5, 6])]), 0);
    assert_eq!(code(&[of_long(&[1, 2, 3]), of_long(&[4, 5, 6]), of_long(&[7])]), 17);
    let refused = [
        vec![of_long(&[1, 2]), of_long(&[3, 4, 5])], // the first has room
        vec![of(&[3]), of(&[4])],
        vec![of_long(&[4, 5, 6]), of_long(&[1, 2, 3])],
        vec![of_long(&[1, 2, 5]), of_long(&[4, 6])],
        vec![of_long(&[1, 2, 3]), of_long(&[3, 4])],
        vec![of(&[10])],
        vec![of(&[0])],
        vec![body(&deleted)],
        vec![last.clone()],
        vec![group(b"b", &[]), group(b"a", &[])],
        vec![group(b"a", &[]), group(b"a", &[])],
        vec![group(b"a", &[]), of(&[3])],
        vec![group(b"a", &[10])],
        vec![group(b"", &[])],
        vec![group(&[b'a'; 17], &[])],
        vec![(2, vec![])],
        vec![(2, vec![0; 16])],
        vec![(3, vec![])],
        vec![(0, vec![])],
    ];
    refused.iter().for_each(|bodies| assert_eq!(code(bodies), 16, "{bodies:?}"));
    assert_eq!(load(2, file(&[])), 16);
    assert_eq!(load(2, file(&[of(&[3]), last.clone()])), 16);
    assert_eq!(load(2, file(&[(1, vec![0; 15])])), 16);
    assert_eq!(load(2, file(&[(1, vec![0; 17])])), 16);
    assert_eq!(load(0, file(slice::from_ref(&last))), 1);
    let groups = |count: u8| (1..=count).map(|name| group(&[name], &[])).collect::<Vec<_>>();
    assert_eq!(code(&groups(8)), 0);
    assert_eq!(code(&groups(9)), 16);
}

/// A body with a byte changed, put in or taken out, cut, or longer.
fn damage_body(rng: &mut Rng, body: &mut Vec<u8>) {
    let place = rng.size_below(body.len());
    match rng.below(9) {
        0 => body.truncate(place),
        1 => body.push(rng.byte()),
        2 => body[place] = 0,
        3 => body[place] = rng.byte(),
        4 => body[0] = rng.below(19) as u8,
        5 => body.insert(place, 0),
        6 => drop(body.remove(place)),
        _ => body[place] = body[place].wrapping_add(1),
    }
}

/// Damaged bodies of nodes and groups in files that are right otherwise.
#[test]
fn damaged_bodies() {
    let mut rng = Rng::new(2_002);
    let (mut accepted, mut refused) = (0, 0);
    for _ in 0..amount(500, 20_000) {
        let node = generate::node(&mut rng);
        let live = node.live().map(|entry| (entry.id, entry.pairs.clone())).collect();
        let (name, group) = generate::group(&mut rng);
        let mut bodies = [
            (1, Id::GREATEST.to_bytes().to_vec()),
            (2, node_body(&fresh_cut(&live)[0])),
            (3, groups::body(&name, &group)),
        ];
        assert_eq!(load(1, file(&bodies)), 0);
        let body = 1 + rng.size_below(2);
        damage_body(&mut rng, &mut bodies[body].1);
        match load(1, file(&bodies)) {
            0 => accepted += 1,
            16 => refused += 1,
            code => panic!("{code}"),
        }
    }
    assert!(accepted > 50 && refused > 200, "{accepted} {refused}");
}

#[test]
fn nodes_up_to_65() {
    let with = |count: u64| {
        let mut bodies = vec![(1, Id::GREATEST.to_bytes().to_vec())];
        bodies.extend(
            (0..count).map(|number| (2, node_body(&node(&[1 + number], |_| vec![long(1)[0].clone(); 3])))),
        );
        file(&bodies)
    };
    assert_eq!([1, 2, 63, 64, 65].map(|count| load(64, with(count))), [0, 0, 0, 0, 16]);
    assert_eq!([63, 64, 65].map(|count| load(63, with(count))), [0, 17, 16]);
    assert_eq!([64, 65].map(|count| load(65, with(count))), [0, 16]);
}

/// A snapshot that was saved is loaded, and saved again it is the same file.
#[test]
fn saved_and_loaded() {
    for seed in 0..amount(4, 40) {
        for mood in [Mood::Mixed, Mood::Fills, Mood::FillsSmall, Mood::FillsLong, Mood::Rolls] {
            let file = saved(seed, mood, 64, amount(150, 1_500));
            let mut beside = crate::beside::Beside::fresh(64 * SLOT);
            assert_eq!(beside.run(&Command::Load { file: file.clone() }), Answer::Done);
            assert_eq!(beside.run(&Command::Save { room: file.len() }), Answer::Written(file));
        }
    }
}
