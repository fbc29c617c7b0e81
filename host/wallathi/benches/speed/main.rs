//! Measures the proved store beside the plain one, in one run.
//!
//! `cargo bench` prints times, `cargo bench -- instructions` counts of executed instructions (it runs itself under valgrind), both as
//! tables of docs/PERFORMANCE.md. Each call is one on a fresh copy of store and state, made before the clock starts; single reads beside a
//! batch go one after another on one copy. What a command costs beyond the judgement is what it costs more than a command that is refused
//! once store and state are judged. Replies have a table of their own.

#[path = "../../tests/store/lent.rs"]
#[allow(dead_code)]
mod lent;
#[path = "../../tests/store/readers.rs"]
#[allow(dead_code)]
mod readers;
mod replies;
#[path = "../../tests/store/sides.rs"]
mod sides;
mod stores;

use std::hint::black_box;
use std::time::Instant;

use lent::Lent;
use measure::{grouped, median, ratio, Benchmark, Table};
use sides::{Call, Values};
use stores::{reading, Fill, Shape, FILLS, LENGTH};
use wallathi_model::groups::MOST_BATCH;
use wallathi_model::id::Id;
use wallathi_model::ledger::{Command, Store};
use wallathi_model::slip;

const SAMPLES: usize = 301;
/// The same for a row of many calls.
const FEW_SAMPLES: usize = 31;
/// Calls whose instructions are counted.
const CALLS: usize = 4;
const SIDES: [(&str, Call); 2] = [("proved", sides::proved), ("plain", sides::plain)];
/// The room of an output: a reply's, which is longer than a snapshot.
const ROOM: usize = replies::ROOM;

/// What is measured: a name, and commands one after another.
type Row = (&'static str, Vec<Command>);

/// What is measured of a store. The first is the judgement alone.
fn rows(fill: &Fill) -> Vec<Row> {
    let judgement = ("judgement", vec![judgement()]);
    let others = if fill.is_for_batches() {
        batches(fill)
    } else if fill.shape != Shape::Readings {
        vec![("report", vec![report_of(fill)])]
    } else {
        commands(fill).into_iter().map(|(name, command)| (name, vec![command])).collect()
    };
    [vec![judgement], others].concat()
}

/// A command that is refused once store and state are judged.
fn judgement() -> Command {
    Command::CreateGroup { group: vec![], start: Id::LEAST }
}

/// A report over all messages.
fn report_of(fill: &Fill) -> Command {
    Command::Report { name: fill.shape.channel(), first: Id::LEAST, last: Id::GREATEST }
}

/// A batch, and beside it as many single reads, of groups that have been given nothing, half of the messages, all but as many.
fn batches(fill: &Fill) -> Vec<Row> {
    let names = [
        ("batch of 256 at the start", "256 single reads at the start"),
        ("batch of 256 in the middle", "256 single reads in the middle"),
        ("batch of 256 at the end", "256 single reads at the end"),
    ];
    let both = |((batch, single), number)| {
        let (group, consumer, now) = (fill.new_group(number), fill.consumer(), fill.new_id().ms);
        let read = Command::GroupRead { group: group.clone(), consumer: consumer.clone(), now };
        let many = Command::GroupReadMany { group, consumer, now, n: MOST_BATCH, room: ROOM };
        [(batch, vec![many]), (single, vec![read; MOST_BATCH as usize])]
    };
    names.into_iter().zip(0..).flat_map(both).collect()
}

/// Each command.
fn commands(fill: &Fill) -> Vec<(&'static str, Command)> {
    let (id, middle) = (fill.new_id(), fill.middle());
    let (group, consumer, now) = (fill.group(), fill.consumer(), id.ms * 2);
    let slip = slip::write(&reading(fill.messages()));
    let long = slip::write(&vec![(b"trace".to_vec(), vec![b'x'; 1_000]); 4]);
    let open = fill.open_group();
    let mut commands = vec![
        ("add", Command::Add { id, slip: slip.clone() }),
        ("add by clock", Command::AddByClock { time: id.ms, slip }),
        ("delete", Command::Delete { id: middle }),
        ("trim by 10", Command::Trim { keep: fill.messages().saturating_sub(10) }),
        ("trim to half", Command::Trim { keep: fill.messages() / 2 }),
        ("next", Command::Next { id: middle }),
        ("read", Command::Read { id: middle, room: ROOM }),
        ("field", Command::Field { id: middle, name: b"note".to_vec(), room: ROOM }),
        ("report", report_of(fill)),
        ("range reply", replies::whole()),
        ("group read", Command::GroupRead { group: open.clone(), consumer: consumer.clone(), now }),
        (
            "batch of 256",
            Command::GroupReadMany {
                group: open,
                consumer: consumer.clone(),
                now,
                n: MOST_BATCH,
                room: ROOM,
            },
        ),
        ("acknowledge", Command::Acknowledge { group: group.clone(), id: fill.pending() }),
        (
            "claim",
            Command::Claim {
                group: group.clone(),
                consumer: consumer.clone(),
                least_idle: 1,
                id: fill.pending(),
                now,
            },
        ),
        ("next pending", Command::NextPending { group, consumer, after: Id::new(fill.pending().ms - 1, 0) }),
        ("save", Command::Save { room: ROOM }),
        ("load", Command::Load { file: Bench::new(fill).saved() }),
    ];
    if fill.messages() <= 100 * 63 {
        commands.insert(1, ("add, a new node", Command::Add { id, slip: long }));
    }
    commands
}

/// Store and state with a copy that calls work on.
struct Bench {
    fresh: Lent,
    lent: Lent,
    values: Values,
    output: Vec<u8>,
}

impl Bench {
    fn new(fill: &Fill) -> Bench {
        let fresh = Lent::image(&fill.model(), LENGTH);
        Bench { lent: fresh.clone(), fresh, values: [0; 6], output: vec![0; ROOM] }
    }

    fn copy(&mut self) {
        let (store, state) = self.lent.both();
        store.copy_from_slice(self.fresh.store());
        state.copy_from_slice(self.fresh.state());
    }

    /// The last answer.
    fn call(&mut self, call: Call, commands: &[Command]) -> u32 {
        let (store, state) = self.lent.both();
        let mut code = 0;
        for command in commands {
            code = call(store, state, black_box(command), &mut self.values, &mut self.output);
        }
        code
    }

    /// The store's snapshot. The plain side makes it, as the model is slow at it.
    fn saved(mut self) -> Vec<u8> {
        self.call(sides::plain, &[Command::Save { room: ROOM }]);
        self.output.truncate(self.values[0] as usize);
        self.output
    }

    /// The time of the calls in ns.
    fn time(&mut self, call: Call, commands: &[Command]) -> f64 {
        self.copy();
        let start = Instant::now();
        black_box(self.call(call, commands));
        start.elapsed().as_nanos() as f64
    }
}

/// A table of each row of each store. `figures` gives a row's two figures, proved and plain, and `told` what the table says of
/// them beside those of the judgement, with how many times the judgement's the proved one is.
fn report(
    name: &str,
    head: &[&str],
    figures: impl Fn(usize, usize) -> [f64; 2],
    told: impl Fn([f64; 2], [f64; 2]) -> Vec<String>,
) {
    let mut table = Table::new(name, &[&[""], head, &["proved, of its judgement"]].concat());
    for (store, fill) in FILLS.iter().enumerate() {
        let judgement = figures(store, 0);
        for (number, (name, _)) in rows(fill).iter().enumerate() {
            let both = if number == 0 { judgement } else { figures(store, number) };
            // Load judges no store.
            let judges = number > 0 && *name != "load";
            let beyond = if *name == "load" { [0.0; 2] } else { judgement };
            let of_judgement = if judges { ratio(both[0], judgement[0]) } else { String::new() };
            table.row(
                &[vec![format!("{name}, {}", fill.name)], told(both, beyond), vec![of_judgement]].concat(),
            );
        }
    }
}

/// Samples of the two alternate, so that what disturbs the machine disturbs both.
fn time() {
    let figures = |store: usize, number: usize| {
        let mut bench = Bench::new(&FILLS[store]);
        let (_, commands) = rows(&FILLS[store]).swap_remove(number);
        let mut samples = [vec![], vec![]];
        for _ in 0..if commands.len() > 1 { FEW_SAMPLES } else { SAMPLES } {
            for (samples, (_, call)) in samples.iter_mut().zip(SIDES) {
                samples.push(bench.time(call, &commands));
            }
        }
        samples.map(median)
    };
    let bytes = (LENGTH + wallathi::raw::STATE_BYTES) as f64;
    let told = |[proved, plain]: [f64; 2], [judged, _]: [f64; 2]| {
        let speed = if judged == proved { format!("{:.0}", bytes / proved * 1_000.0) } else { String::new() };
        let [us, plain_us] = [proved, plain].map(|time| format!("{:.1}", time / 1_000.0));
        vec![us, plain_us, ratio(proved, plain), speed]
    };
    report("store_times", &["proved, µs", "plain Rust, µs", "ratio", "MB judged a second"], figures, told);
    replies::time();
}

fn instructions() {
    let run = |store: usize, number: usize, side: usize, calls: usize| {
        let words = [store, number, side, calls].map(|word| word.to_string());
        measure::instructions_of(&[&["run"], &words.each_ref().map(String::as_str)[..]].concat())
    };
    let prepared: Vec<f64> = (0..FILLS.len()).map(|store| run(store, 0, 0, 0)).collect();
    let figures = |store: usize, number: usize| {
        [0, 1].map(|side| (run(store, number, side, CALLS) - prepared[store]) / CALLS as f64)
    };
    let told = |[proved, plain]: [f64; 2], [judged, plain_judged]: [f64; 2]| {
        let own = if judged == proved {
            ["".to_string(), "".to_string()]
        } else {
            [grouped(proved - judged), grouped(plain - plain_judged)]
        };
        [vec![grouped(proved), grouped(plain), ratio(proved, plain)], own.to_vec()].concat()
    };
    let head = ["proved", "plain Rust", "ratio", "beyond the judgement: proved", "plain Rust"];
    report("store_instructions", &head, figures, told);
    replies::instructions();
}

/// So many calls of a side, to be counted; the copies are made in any case.
fn run_one(words: &[&str]) {
    if let ["reply", words @ ..] = words {
        return replies::run_one(words);
    }
    let numbers: Vec<usize> = words.iter().map(|word| word.parse().expect("a number")).collect();
    let [store, number, side, calls] = numbers[..] else { panic!("four numbers") };
    let mut bench = Bench::new(&FILLS[store]);
    let (_, commands) = rows(&FILLS[store]).swap_remove(number);
    for call in 0..CALLS {
        bench.copy();
        if call < calls {
            black_box(bench.call(SIDES[side].1, &commands));
        }
    }
}

/// The sides answer as the model, and leave what it says.
fn compare() {
    replies::compare();
    for fill in &FILLS {
        for (name, commands) in rows(fill) {
            let mut model = Store { length: LENGTH, model: Some(fill.model()) };
            let code = commands.iter().map(|command| model.run(command).code()).last();
            for (side, call) in SIDES {
                let mut bench = Bench::new(fill);
                assert_eq!(Some(bench.call(call, &commands)), code, "{side}: {name}, {}", fill.name);
                assert!(bench.lent.read() == model.model, "{side}: {name}, {}", fill.name);
            }
        }
    }
}

fn main() {
    Benchmark { compare, time, instructions, run: run_one }.start();
}
