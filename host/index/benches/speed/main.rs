//! Measures the proved index beside the same in plain Rust, a `BTreeMap` and a sorted array, in one run.
//!
//! `cargo bench` prints times, `cargo bench -- instructions` counts of executed instructions (it runs
//! itself under valgrind). See docs/PERFORMANCE.md.

mod plain;
mod sides;

use std::hint::black_box;
use std::time::Instant;

use measure::{grouped, median, ratio, Benchmark, Table};

use sides::{Plain, Proved, Side, Sorted, Tree};
use wallathi_index::LONGEST_KEY;
use wallathi_model::rng::Rng;

const SAMPLES: usize = 501;
/// Calls in a sample: enough that the clock's own cost does not show, few enough that their copies stay
/// in the cache.
const CALLS: usize = 64;

#[derive(Clone, Copy)]
enum Operation {
    Find,
    FirstAtOrAbove,
    LastAtOrBelow,
    /// A held key gets another value.
    Replace,
    /// The last of the keys comes.
    Put,
    /// One of the keys goes.
    Remove,
}

const OPERATIONS: [(&str, Operation); 6] = [
    ("find", Operation::Find),
    ("first at or above", Operation::FirstAtOrAbove),
    ("last at or below", Operation::LastAtOrBelow),
    ("put, a held key", Operation::Replace),
    ("put, a new key", Operation::Put),
    ("remove", Operation::Remove),
];

const SETS: [(&str, usize); 4] = [("name", 1), ("names", 8), ("names", 64), ("IDs", 64)];

type Key = Vec<u8>;

/// So many names of stations, or message IDs as the store's index has them.
fn keys(kind: &str, count: usize) -> Vec<Key> {
    const WORDS: [&str; 8] =
        ["Suva", "Hobart", "Honiara", "Port Moresby", "Apia", "Auckland", "Alofi", "Papeete"];
    let mut rng = Rng::new(64);
    let key = |number: usize| match kind {
        "IDs" => {
            let ms = 1_790_000_000_000 + 97_000 * number as u64;
            [ms.to_be_bytes(), [0; 8]].concat()
        }
        _ => format!("{} {}", WORDS[number % 8], 1 + number / 8).into_bytes(),
    };
    let mut keys: Vec<Key> = (0..count).map(key).collect();
    (0..count).for_each(|place| keys.swap(place, rng.size_below(count)));
    keys
}

/// Keys to ask neighbours of: held ones and ones that differ in the last byte.
fn asked(keys: &[Key]) -> Vec<Key> {
    let near = |(number, key): (usize, &Key)| {
        let mut key = key.clone();
        let last = key.len() - 1;
        key[last] = key[last].wrapping_add((number % 3) as u8).wrapping_sub(1);
        key
    };
    keys.iter().enumerate().map(near).collect()
}

fn filled<S: Side>(keys: &[Key]) -> S {
    let mut side = S::new();
    keys.iter().zip(1..).for_each(|(key, value)| side.put(key, value));
    side
}

/// A map for each call that changes one: without its key for a put, else with all.
fn copies<S: Side>(operation: Operation, full: &S, held: &[&Key]) -> Vec<S> {
    let without = |key: &&Key| {
        let mut side = full.clone();
        side.remove(key);
        side
    };
    match operation {
        Operation::Find | Operation::FirstAtOrAbove | Operation::LastAtOrBelow => vec![],
        Operation::Replace | Operation::Remove => vec![full.clone(); held.len()],
        Operation::Put => held.iter().map(without).collect(),
    }
}

/// The time of a call in ns, of so many. With `only_prepare` there is no call.
fn run<S: Side>(operation: Operation, keys: &[Key], calls: usize, only_prepare: bool) -> f64 {
    let full: S = filled(keys);
    let held: Vec<&Key> = keys.iter().cycle().take(calls).collect();
    let mut copies = copies(operation, &full, &held);
    let asked = asked(keys);
    if only_prepare {
        return 0.0;
    }
    let mut output = [0; LONGEST_KEY];
    let near = asked.iter().cycle().take(calls);
    let start = Instant::now();
    match operation {
        Operation::Find => held.iter().for_each(|key| {
            black_box(full.find(black_box(key)));
        }),
        Operation::FirstAtOrAbove => near.for_each(|key| {
            black_box(full.first_at_or_above(black_box(key), &mut output));
        }),
        Operation::LastAtOrBelow => near.for_each(|key| {
            black_box(full.last_at_or_below(black_box(key), &mut output));
        }),
        Operation::Replace | Operation::Put => {
            copies.iter_mut().zip(held).for_each(|(side, key)| side.put(black_box(key), black_box(99)));
        }
        Operation::Remove => copies.iter_mut().zip(held).for_each(|(side, key)| {
            black_box(side.remove(black_box(key)));
        }),
    }
    let time = start.elapsed().as_nanos() as f64 / calls as f64;
    black_box((&copies, &output));
    time
}

/// The same for the validation of a record, which every operation on a record begins with.
fn validate<S: Side>(validate: fn(&S), keys: &[Key], calls: usize, only_prepare: bool) -> f64 {
    let side: S = filled(keys);
    if only_prepare {
        return 0.0;
    }
    let start = Instant::now();
    (0..calls).for_each(|_| validate(black_box(&side)));
    start.elapsed().as_nanos() as f64 / calls as f64
}

/// A figure of each side for each operation on each set of keys, and of the validation.
fn report(name: &str, sides: impl Fn(usize, usize) -> [f64; 4], validation: impl Fn(usize) -> [f64; 2]) {
    let head = ["", Proved::NAME, Plain::NAME, "ratio", Tree::NAME, Sorted::NAME];
    let mut table = Table::new(name, &head);
    for (set, (kind, count)) in SETS.iter().enumerate() {
        let [proved, plain] = validation(set);
        let compared = |proved: f64, plain: f64| vec![grouped(proved), grouped(plain), ratio(proved, plain)];
        let name = vec![format!("validation, {count} {kind}")];
        table.row(&[name, compared(proved, plain), vec![String::new(); 2]].concat());
        for (number, (name, _)) in OPERATIONS.iter().enumerate() {
            let [proved, plain, tree, sorted] = sides(set, number);
            let name = vec![format!("{name}, {count} {kind}")];
            table.row(&[name, compared(proved, plain), vec![grouped(tree), grouped(sorted)]].concat());
        }
    }
}

fn set_keys(set: usize) -> Vec<Key> {
    keys(SETS[set].0, SETS[set].1)
}

/// Samples of the sides alternate, so that what disturbs the machine disturbs all.
fn time() {
    let sides = |set: usize, operation: usize| {
        let (keys, operation) = (set_keys(set), OPERATIONS[operation].1);
        let mut samples = [vec![], vec![], vec![], vec![]];
        for _ in 0..SAMPLES {
            samples[0].push(run::<Proved>(operation, &keys, CALLS, false));
            samples[1].push(run::<Plain>(operation, &keys, CALLS, false));
            samples[2].push(run::<Tree>(operation, &keys, CALLS, false));
            samples[3].push(run::<Sorted>(operation, &keys, CALLS, false));
        }
        samples.map(median)
    };
    let validation = |set| {
        let keys = set_keys(set);
        let mut samples = [vec![], vec![]];
        for _ in 0..SAMPLES {
            samples[0].push(validate(Proved::validate, &keys, CALLS, false));
            samples[1].push(validate(Plain::validate, &keys, CALLS, false));
        }
        samples.map(median)
    };
    report("index_times_ns", sides, validation);
}

fn instructions() {
    let of = |set: usize, operation: &str, side: &str| {
        let set = set.to_string();
        let [calls, prepare] =
            ["calls", "prepare"].map(|part| measure::instructions_of(&["run", &set, operation, side, part]));
        (calls - prepare) / CALLS as f64
    };
    let sides = |set: usize, operation: usize| {
        [Proved::NAME, Plain::NAME, Tree::NAME, Sorted::NAME]
            .map(|side| of(set, &operation.to_string(), side))
    };
    report("index_instructions", sides, |set| {
        [Proved::NAME, Plain::NAME].map(|side| of(set, "validation", side))
    });
}

/// One side's calls, or their preparation, to be counted.
fn run_one(words: &[&str]) {
    let &[set, operation, side, part] = words else { panic!("four words") };
    let only_prepare = part == "prepare";
    let keys = set_keys(set.parse().expect("a set's number"));
    if operation == "validation" {
        match side {
            Proved::NAME => validate(Proved::validate, &keys, CALLS, only_prepare),
            _ => validate(Plain::validate, &keys, CALLS, only_prepare),
        };
        return;
    }
    let operation = OPERATIONS[operation.parse::<usize>().expect("an operation's number")].1;
    match side {
        Proved::NAME => run::<Proved>(operation, &keys, CALLS, only_prepare),
        Plain::NAME => run::<Plain>(operation, &keys, CALLS, only_prepare),
        Tree::NAME => run::<Tree>(operation, &keys, CALLS, only_prepare),
        _ => run::<Sorted>(operation, &keys, CALLS, only_prepare),
    };
}

/// What a side answers on a key: its value, the first at or above, the last at or below.
fn answers<S: Side>(keys: &[Key], key: &Key) -> (u64, (u64, u64), (u64, u64), [u8; LONGEST_KEY]) {
    let side: S = filled(keys);
    let mut output = [0; LONGEST_KEY];
    (
        side.find(key),
        side.first_at_or_above(key, &mut output),
        side.last_at_or_below(key, &mut output),
        output,
    )
}

/// The sides answer alike.
fn compare() {
    for set in 0..SETS.len() {
        let keys = set_keys(set);
        for key in keys.iter().chain(&asked(&keys)) {
            let proved = answers::<Proved>(&keys, key);
            assert_eq!(answers::<Plain>(&keys, key), proved);
            assert_eq!(answers::<Tree>(&keys, key), proved);
            assert_eq!(answers::<Sorted>(&keys, key), proved);
        }
    }
}

fn main() {
    Benchmark { compare, time, instructions, run: run_one }.start();
}
