//! Measures the proved functions on strings, listpacks, nodes and groups beside the plain ones, in one run.
//!
//! `bench` prints times, `bench instructions` counts of executed instructions (it runs itself under
//! valgrind). See docs/PERFORMANCE.md.

use std::hint::black_box;
use std::time::{Duration, Instant};

use bench::{plain, proved};
use measure::{grouped, median, ratio, Benchmark, Table};
use wallathi_model::rng::Rng;

mod groups;
mod nodes;
mod recognition;

const ROOM: usize = 4_096;
/// Each sample lasts about this long, so that the clock's own cost does not show.
const SAMPLE: Duration = Duration::from_micros(100);
const SAMPLES: usize = 1_001;

/// What a listpack is filled with.
enum Content {
    Integers {
        first: u64,
        step: u64,
    },
    Texts(&'static [u8]),
    /// Integers of every size and texts of every form, in random order.
    Mixed,
}

const CONTENTS: [(&str, Content); 9] = [
    ("the integer 7", Content::Integers { first: 7, step: 0 }),
    ("integers, counting from 0", Content::Integers { first: 0, step: 1 }),
    ("integers of 16 bits", Content::Integers { first: 5_000, step: 17 }),
    ("integers of 24 bits", Content::Integers { first: 100_000, step: 977 }),
    ("integers of 64 bits", Content::Integers { first: 1 << 40, step: (1 << 33) + 1 }),
    ("texts of 10 bytes", Content::Texts(b"amplitude1")),
    ("dates (10 bytes)", Content::Texts(b"2026-11-15")),
    ("texts of 100 bytes", Content::Texts(&[b'x'; 100])),
    ("a mixture", Content::Mixed),
];

/// Runs what is measured so many times.
type Run = Box<dyn FnMut(u64)>;

/// One thing to measure, done by the proved code and by the plain one.
struct Task {
    name: String,
    /// How many bytes are read, where a speed says more than a time.
    bytes: Option<usize>,
    proved: Run,
    plain: Run,
}

fn mixed() -> Vec<u8> {
    let mut rng = Rng::new(4_096);
    let mut bytes = vec![0; ROOM];
    let (mut at, mut count) = (6, 0u16);
    loop {
        let room = &mut bytes[at..ROOM - 1];
        let written = match rng.below(4) {
            0 => plain::write_integer(room, rng.below(128) as i64),
            1 => plain::write_integer(room, (rng.next() >> rng.below(64)) as i64),
            2 => plain::write_integer(room, ((rng.next() >> rng.below(64)) as i64).wrapping_neg()),
            _ => {
                let length = 1 + rng.size_below(90);
                plain::write_string(room, &rng.bytes(length))
            }
        };
        let Some(size) = written else { break };
        at += size;
        count += 1;
    }
    bytes[at] = 0xFF;
    bytes.truncate(at + 1);
    bytes[..4].copy_from_slice(&(at as u32 + 1).to_le_bytes());
    bytes[4..6].copy_from_slice(&count.to_le_bytes());
    bytes
}

fn tasks() -> Vec<Task> {
    let mut tasks = recognition::tasks();
    tasks.extend(listpack_tasks());
    tasks.extend(nodes::tasks());
    tasks.extend(groups::tasks());
    tasks
}

fn listpack_tasks() -> Vec<Task> {
    let mut tasks = Vec::new();
    for (name, content) in &CONTENTS {
        let mut bytes = vec![0; ROOM];
        let size = match *content {
            Content::Integers { first, step } => plain::write_integers(&mut bytes, first, step),
            Content::Texts(text) => plain::write_texts(&mut bytes, text),
            Content::Mixed => {
                bytes = mixed();
                bytes.len()
            }
        };
        bytes.truncate(size);
        assert!(plain::check(&bytes) && proved::check(&bytes));
        let again = bytes.clone();
        tasks.push(Task {
            name: format!("read, {name}"),
            bytes: Some(size),
            proved: Box::new(move |times| {
                for _ in 0..times {
                    black_box(proved::check(black_box(&bytes)));
                }
            }),
            plain: Box::new(move |times| {
                for _ in 0..times {
                    black_box(plain::check(black_box(&again)));
                }
            }),
        });
    }
    for (name, content) in &CONTENTS {
        let (mut out, mut other) = (vec![0; ROOM], vec![0; ROOM]);
        let (proved, plain): (Run, Run) = match *content {
            Content::Integers { first, step } => (
                Box::new(move |times| {
                    for _ in 0..times {
                        black_box(proved::write_integers(
                            black_box(&mut out),
                            black_box(first),
                            black_box(step),
                        ));
                    }
                }),
                Box::new(move |times| {
                    for _ in 0..times {
                        black_box(plain::write_integers(
                            black_box(&mut other),
                            black_box(first),
                            black_box(step),
                        ));
                    }
                }),
            ),
            Content::Texts(text) => (
                Box::new(move |times| {
                    for _ in 0..times {
                        black_box(proved::write_texts(black_box(&mut out), black_box(text)));
                    }
                }),
                Box::new(move |times| {
                    for _ in 0..times {
                        black_box(plain::write_texts(black_box(&mut other), black_box(text)));
                    }
                }),
            ),
            Content::Mixed => continue,
        };
        tasks.push(Task { name: format!("write, {name}"), bytes: None, proved, plain });
    }
    tasks
}

fn timed(run: &mut dyn FnMut(u64), times: u64) -> f64 {
    let start = Instant::now();
    run(times);
    start.elapsed().as_nanos() as f64 / times as f64
}

fn row(name: &str, proved: f64, plain: f64) -> [String; 4] {
    [name.to_string(), grouped(proved), grouped(plain), ratio(proved, plain)]
}

/// Samples of the two alternate, so that what disturbs the machine disturbs both.
fn time() {
    let head = ["", "proved, ns", "plain Rust, ns", "ratio", "MB a second: proved", "plain Rust"];
    let mut table = Table::new("parts_times", &head);
    for task in &mut tasks() {
        let once = timed(&mut task.plain, 100);
        let times = (SAMPLE.as_nanos() as f64 / once).max(1.0) as u64;
        let (mut proved, mut plain) = (Vec::new(), Vec::new());
        for _ in 0..SAMPLES {
            proved.push(timed(&mut task.proved, times));
            plain.push(timed(&mut task.plain, times));
        }
        let (proved, plain) = (median(proved), median(plain));
        // Bytes in nanoseconds, as millions of bytes a second.
        let speed =
            |time: f64| task.bytes.map_or(String::new(), |bytes| grouped(bytes as f64 / time * 1_000.0));
        table.row(&[&row(&task.name, proved, plain)[..], &[speed(proved), speed(plain)]].concat());
    }
}

/// How many instructions a side of a task takes so many times, with all that comes before.
fn instructions_of(task: usize, side: &str, times: u64) -> f64 {
    measure::instructions_of(&["run", &task.to_string(), side, &times.to_string()])
}

/// The difference of two runs is what the calls alone take.
fn instructions() {
    let mut table = Table::new("parts_instructions", &["", "proved", "plain Rust", "ratio"]);
    for (number, task) in tasks().iter().enumerate() {
        let [proved, plain] = ["proved", "plain"]
            .map(|side| (instructions_of(number, side, 110) - instructions_of(number, side, 10)) / 100.0);
        table.row(&row(&task.name, proved, plain));
    }
}

fn run_one(words: &[&str]) {
    let &[task, side, times] = words else { panic!("three words") };
    let task = &mut tasks()[task.parse::<usize>().expect("a task's number")];
    let times = times.parse().expect("a number");
    match side {
        "proved" => (task.proved)(times),
        _ => (task.plain)(times),
    }
}

fn main() {
    // The sides are compared by the tests.
    Benchmark { compare: || (), time, instructions, run: run_one }.start();
}
