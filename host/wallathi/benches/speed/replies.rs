//! Replies: the range reply of all messages, with its judgement and beyond it, and the strict reader of its bytes.

use std::hint::black_box;
use std::time::Instant;

use measure::{grouped, median, ratio, Table};
use wallathi_model::id::Id;
use wallathi_model::ledger::Command;
use wallathi_model::slip;

use crate::lent::Lent;
use crate::readers::READERS;
use crate::sides::Values;
use crate::stores::{Fill, FILLS, LENGTH};
use crate::{judgement, SIDES};

const SAMPLES: usize = 301;
/// Calls whose instructions are counted.
const CALLS: usize = 4;
/// As many calls are timed at once as read this many bytes.
const BYTES_AT_ONCE: usize = 50_000;
/// The stores whose replies are measured: one message, half full, full.
const STORES: usize = 3;
/// Longer than the reply of any of them.
pub const ROOM: usize = 1 << 20;

/// What is measured.
#[derive(Clone, Copy, PartialEq, Eq)]
enum Work {
    Judge,
    Write,
    Read,
    /// The message in the middle.
    Message,
}

const WORKS: [Work; 4] = [Work::Judge, Work::Write, Work::Read, Work::Message];

/// The range reply of all messages.
pub fn whole() -> Command {
    Command::RangeReply { first: Id::LEAST, last: Id::GREATEST, room: ROOM }
}

struct Bench {
    lent: Lent,
    reply: Vec<u8>,
    place: u64,
    output: Vec<u8>,
}

impl Bench {
    fn new(fill: &Fill) -> Bench {
        let lent = Lent::image(&fill.model(), LENGTH);
        let mut bench = Bench { lent, reply: vec![], place: fill.messages() / 2, output: vec![0; ROOM] };
        let (values, _) = bench.call(1, Work::Write);
        bench.reply = bench.output[..values[0] as usize].to_vec();
        bench
    }

    /// The numbers that a side gives, and its answer.
    fn call(&mut self, side: usize, work: Work) -> (Values, u32) {
        let mut values = [0; 6];
        let (_, read, message) = READERS[side];
        let reply = black_box(&self.reply[..]);
        let code = match work {
            Work::Judge | Work::Write => {
                let command = if work == Work::Judge { judgement() } else { whole() };
                let (store, state) = self.lent.both();
                SIDES[side].1(store, state, black_box(&command), &mut values, &mut self.output)
            }
            Work::Read => read(reply, values.first_chunk_mut().expect("two of six")),
            Work::Message => {
                message(reply, self.place, &mut self.output, values.first_chunk_mut().expect("three of six"))
            }
        };
        (values, code)
    }

    /// The time of a call in ns.
    fn time(&mut self, side: usize, work: Work) -> f64 {
        let is_reader = matches!(work, Work::Read | Work::Message);
        let calls = if is_reader { 1 + BYTES_AT_ONCE / self.reply.len() } else { 1 };
        let start = Instant::now();
        for _ in 0..calls {
            black_box(self.call(side, work));
        }
        start.elapsed().as_nanos() as f64 / calls as f64
    }
}

/// Each row: its name, the bytes of the reply, and both figures. Of one message the judgement is nearly all, so that nothing can be said of
/// the rest.
fn rows(figures: impl Fn(usize, Work) -> [f64; 2]) -> Vec<(String, f64, [f64; 2])> {
    let of_store = |(store, fill): (usize, &'static Fill)| {
        let [judged, written, read, message] = WORKS.map(|work| figures(store, work));
        let beyond = [written[0] - judged[0], written[1] - judged[1]];
        let mut rows = vec![("range reply", written), ("read reply", read), ("message of a reply", message)];
        if fill.messages() > 1 {
            rows.insert(1, ("range reply, beyond the judgement", beyond));
        }
        let bytes = Bench::new(fill).reply.len() as f64;
        rows.into_iter().map(move |(name, both)| (format!("{name}, {}", fill.name), bytes, both))
    };
    FILLS.iter().take(STORES).enumerate().flat_map(of_store).collect()
}

/// Samples of the two alternate.
pub fn time() {
    let figures = |store: usize, work: Work| {
        let mut bench = Bench::new(&FILLS[store]);
        let mut samples = [vec![], vec![]];
        for _ in 0..SAMPLES {
            for (side, samples) in samples.iter_mut().enumerate() {
                samples.push(bench.time(side, work));
            }
        }
        samples.map(median)
    };
    let head = [
        "",
        "bytes",
        "proved, µs",
        "plain Rust, µs",
        "ratio",
        "proved, MB a second",
        "plain Rust, MB a second",
    ];
    let mut table = Table::new("reply_times", &head);
    for (name, bytes, both) in rows(figures) {
        let [us, plain_us] = both.map(|time| format!("{:.2}", time / 1_000.0));
        let [speed, plain_speed] = both.map(|time| grouped(bytes / time * 1_000.0));
        table.row(&[name, grouped(bytes), us, plain_us, ratio(both[0], both[1]), speed, plain_speed]);
    }
}

pub fn instructions() {
    let run = |store: usize, work: usize, side: usize, calls: usize| {
        let words = [store, work, side, calls].map(|word| word.to_string());
        measure::instructions_of(&[&["run", "reply"], &words.each_ref().map(String::as_str)[..]].concat())
    };
    let figures = |store: usize, work: Work| {
        let number = WORKS.iter().position(|&other| other == work).expect("one of them");
        [0, 1].map(|side| (run(store, number, side, CALLS) - run(store, number, side, 0)) / CALLS as f64)
    };
    let head = ["", "bytes", "proved", "plain Rust", "ratio", "proved, a byte", "plain Rust, a byte"];
    let mut table = Table::new("reply_instructions", &head);
    for (name, bytes, both) in rows(figures) {
        let [a_byte, plain_a_byte] = both.map(|count| format!("{:.2}", count / bytes));
        let [count, plain_count] = both.map(grouped);
        table.row(&[name, grouped(bytes), count, plain_count, ratio(both[0], both[1]), a_byte, plain_a_byte]);
    }
}

/// So many calls of a side, to be counted.
pub fn run_one(words: &[&str]) {
    let numbers: Vec<usize> = words.iter().map(|word| word.parse().expect("a number")).collect();
    let [store, work, side, calls] = numbers[..] else { panic!("four numbers") };
    let mut bench = Bench::new(&FILLS[store]);
    for _ in 0..calls {
        black_box(bench.call(side, WORKS[work]));
    }
}

/// Both sides write the model's reply and read it back.
pub fn compare() {
    for fill in FILLS.iter().take(STORES) {
        let ledger = fill.model().ledger;
        let reply = ledger.range_reply(Id::LEAST, Id::GREATEST).to_bytes();
        let mut bench = Bench::new(fill);
        assert!(bench.reply == reply, "{}", fill.name);
        let (id, pairs) = ledger.messages.iter().nth(bench.place as usize).expect("one in the middle");
        let slip = slip::write(pairs);
        for (side, (name, _, _)) in READERS.iter().enumerate() {
            assert_eq!(bench.call(side, Work::Judge).1, 3, "{name}, {}", fill.name);
            assert_eq!(
                bench.call(side, Work::Write),
                ([reply.len() as u64, 0, 0, 0, 0, 0], 0),
                "{name}, {}",
                fill.name
            );
            assert!(bench.output[..reply.len()] == reply, "{name}, {}", fill.name);
            assert_eq!(
                bench.call(side, Work::Read),
                ([1, fill.messages(), 0, 0, 0, 0], 0),
                "{name}, {}",
                fill.name
            );
            let expected = ([id.ms, id.seq, slip.len() as u64, 0, 0, 0], 0);
            assert_eq!(bench.call(side, Work::Message), expected, "{name}, {}", fill.name);
            assert_eq!(bench.output[..slip.len()], slip, "{name}, {}", fill.name);
        }
    }
}
