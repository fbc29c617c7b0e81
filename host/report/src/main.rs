//! Runs the proved program `report` on many files beside the model: `report PROGRAM PRELOAD FOLDER`. The argument `input` alone writes
//! the file that the program's own run reads, crates/report/data/hut.snapshot.

use std::fs::{self, File};
use std::io::Write;
use std::path::PathBuf;
use std::process::ExitCode;

use report::{expected, ledger_of, message, snapshot_of, Outcome, Program};
use wallathi_model::decimal;
use wallathi_model::generate::{Commands, Mood};
use wallathi_model::groups::Group;
use wallathi_model::id::Id;
use wallathi_model::ledger::{Ledger, Store};
use wallathi_model::message::Message;
use wallathi_model::rng::Rng;
use wallathi_model::snapshot;

const STORE_BYTES: usize = 64 * 4_096;
const LONGEST_SNAPSHOT: usize = 321_604;
const NO_ACCESS: u32 = 13;
const BAD_DISK: u32 = 5;

/// Of the field temp: three integers, two texts, a message without it. The second pair of a name does not count.
fn hut() -> Ledger {
    let texts = ["temp=215 wind=7", "temp=-8 temp=900", "temp=?", "wind=12", "temp=007", "wind=9 temp=-31"];
    let mut ledger = ledger_of(texts.map(message));
    let mut group = Group::new(Id::LEAST);
    group.deliver(b"plot", Id::new(1_000, 0), 6_500).expect("room for a consumer");
    ledger.groups.insert(b"hut".to_vec(), group);
    ledger
}

/// A message of one integer of the field t.
fn integer(number: i64) -> Message {
    vec![(b"t".to_vec(), decimal::text(number))]
}

/// Names of messages, one that none has, the empty one, one of 1,000 bytes. (No argument has a byte 0.)
fn names(rng: &mut Rng, ledger: &Ledger) -> Vec<Vec<u8>> {
    let messages: Vec<&Message> = ledger.messages.values().collect();
    let mut names = vec![b"absent".to_vec(), vec![], vec![b'x'; 1_000]];
    for _ in 0..messages.len().min(3) {
        let pairs = *rng.pick(&messages);
        names.push(rng.pick(pairs).0.clone());
    }
    names.retain(|name| !name.contains(&0));
    names
}

/// Snapshots of a store on the way to so many commands.
fn snapshots(seed: u64, mood: Mood, commands: u32) -> Vec<Vec<u8>> {
    let mut store = Store::fresh(STORE_BYTES);
    let mut list = Commands::with_mood(seed, mood);
    let mut files = Vec::new();
    for number in 1..=commands {
        let command = list.next(&store);
        store.run(&command);
        if number % (commands / 4) == 0 {
            let ledger = &store.model.as_ref().expect("an image").ledger;
            files.extend(snapshot::snapshot(ledger));
        }
    }
    files
}

/// Snapshots of many stores, and the same with a byte changed.
fn stores(program: &Program) -> Outcome {
    let moods = [
        (Mood::Mixed, 400),
        (Mood::Fills, 1_200),
        (Mood::FillsSmall, 4_000),
        (Mood::FillsLong, 600),
        (Mood::Rolls, 600),
    ];
    let mut rng = Rng::new(7);
    for (mood, commands) in moods {
        for file in (0..4).flat_map(|seed| snapshots(seed, mood, commands)) {
            let ledger = snapshot::read(&file).expect("a snapshot");
            for name in names(&mut rng, &ledger) {
                program.agrees(&file, &name)?;
                let mut damaged = file.clone();
                let place = rng.size_below(file.len());
                damaged[place] = rng.byte();
                program.agrees(&damaged, &name)?;
            }
        }
    }
    Ok(())
}

/// As many integers as a store takes, all of them the largest or the smallest that counts, and one more.
fn sums(program: &Program) -> Outcome {
    for number in [1_000_000_000, -1_000_000_000, 1_000_000_001, 0] {
        let ledger = ledger_of((0..6_400).map(|_| integer(number)));
        let file = snapshot_of(&ledger);
        program.agrees(&file, b"t")?;
        program.agrees(&file, b"u")?;
    }
    let mixed = (0..6_400).map(|k| integer(if k % 2 == 0 { 1_000_000_000 } else { -1_000_000_000 + k % 3 }));
    program.agrees(&snapshot_of(&ledger_of(mixed)), b"t")
}

/// Every byte of a snapshot, changed in four ways.
fn every_byte(program: &Program) -> Outcome {
    let file = snapshot_of(&hut());
    for place in 0..file.len() {
        for change in [1, 16, 128, 255] {
            let mut other = file.clone();
            other[place] ^= change;
            program.agrees(&other, b"temp")?;
        }
    }
    Ok(())
}

/// Every beginning of a snapshot, and bytes after its end, up to more than any snapshot has.
fn every_length(program: &Program) -> Outcome {
    let file = snapshot_of(&hut());
    for length in 0..=file.len() {
        program.agrees(&file[..length], b"temp")?;
    }
    for length in
        [file.len() + 1, 4_096, 65_536, LONGEST_SNAPSHOT, LONGEST_SNAPSHOT + 1, LONGEST_SNAPSHOT + 2, 1 << 20]
    {
        let mut longer = file.clone();
        longer.resize(length, 0);
        program.agrees(&longer, b"temp")?;
    }
    Ok(())
}

/// A file that is far too long is refused without being read to its end, which takes a terabyte here.
fn very_long(program: &Program) -> Outcome {
    program.save("long", &snapshot_of(&hut()));
    let file = File::options().write(true).open(program.path("long")).expect("the file");
    if file.set_len(1 << 40).is_err() {
        file.set_len(1 << 30).expect("a sparse file");
    }
    program.prints(&[b"long", b"temp"], "16\n")?;
    program.prints(&[b"/dev/zero", b"temp"], "16\n")
}

/// What is no file, or none that can be read.
fn no_files(program: &Program) -> Outcome {
    fs::create_dir_all(program.path("folder")).expect("a folder");
    let long = vec![b'x'; 5_000];
    for path in [
        &b"folder"[..],
        b"missing",
        b"",
        b".",
        b"/",
        b"folder/",
        b"file/",
        b"/proc/self/mem",
        &long,
        &long[..4_096],
        &long[..4_095],
    ] {
        program.prints(&[path, b"temp"], "16\n")?;
    }
    Ok(())
}

/// Where the system refuses to open or to read, also when every byte has come.
fn faults(program: &Program) -> Outcome {
    let file = snapshot_of(&hut());
    program.fails(&file, "open", NO_ACCESS, (1, 1), "16\n")?;
    program.fails(&file, "read", BAD_DISK, (1, 1), "16\n")?;
    program.fails(&file, "read", BAD_DISK, (2, 2), "16\n")?;
    program.fails(&file, "read", BAD_DISK, (3, 9), &expected(&file, b"temp"))
}

/// Through a pipe, in pieces.
fn pipes(program: &Program) -> Outcome {
    let small = snapshot_of(&hut());
    for piece in [1, 7, 1_000] {
        program.reads(&small, b"temp", piece)?;
        program.reads(&small[1..], b"temp", piece)?;
    }
    let large = snapshot_of(&ledger_of((0..6_400).map(|k| integer(k * 1_000 - 3))));
    let beyond = [&large[..], &vec![0; 2 * LONGEST_SNAPSHOT]].concat();
    program.reads(&large, b"t", 5_000)?;
    program.reads(&beyond, b"t", 70_000)
}

/// Names at the limit, with a hyphen, with bytes that are no text; each is the field of one message.
fn fields(program: &Program) -> Outcome {
    let long = vec![b'n'; 100_000];
    let names: [&[u8]; 14] = [
        b"",
        b"-",
        b"--",
        b"-t",
        b"--help",
        b"--name=x",
        b"a b",
        b"a\nb",
        b"\xFF\xFE",
        b"\xC3\xA9",
        b"0",
        b"16",
        &long[..999],
        &long[..1_000],
    ];
    let numbered = |(name, number): (&&[u8], i64)| vec![(name.to_vec(), decimal::text(number))];
    let file = snapshot_of(&ledger_of(names.iter().zip(1..).map(numbered)));
    for name in names {
        program.agrees(&file, name)?;
    }
    for name in [&long[..1_001], &long[..1_002], &long[..4_096], &long] {
        program.agrees(&file, name)?;
        program.prints(&[b"missing", name], "3\n")?;
        program.prints(&[b"", name], "3\n")?;
        program.prints(&[b"file", name, b"more"], "3\n")?;
    }
    Ok(())
}

/// Fewer arguments than two, or more; files that begin with a hyphen.
fn arguments(program: &Program) -> Outcome {
    let file = snapshot_of(&hut());
    program.save("hut", &file);
    let too_few: [&[&[u8]]; 4] = [&[], &[b"hut"], &[b""], &[b"--help"]];
    let too_many: [&[&[u8]]; 2] = [&[b"hut", b"temp", b""], &[b"hut", b"temp", b"wind", b"more"]];
    for words in too_few.into_iter().chain(too_many) {
        program.prints(words, "16\n")?;
    }
    for path in ["-", "--", "-hut", "--help", "a b"] {
        program.prints(&[path.as_bytes(), b"temp"], "16\n")?;
        program.save(path, &file);
        program.prints(&[path.as_bytes(), b"temp"], &expected(&file, b"temp"))?;
    }
    program.prints(&[b"./hut", b"temp"], "1\n2\n3\n176\n-31\n215\n")
}

type Case = (&'static str, fn(&Program) -> Outcome);

const CASES: [Case; 10] = [
    ("arguments", arguments),
    ("fields", fields),
    ("no files", no_files),
    ("faults", faults),
    ("pipes", pipes),
    ("very long", very_long),
    ("every length", every_length),
    ("every byte", every_byte),
    ("sums", sums),
    ("stores", stores),
];

fn main() -> ExitCode {
    let words: Vec<PathBuf> = std::env::args_os().skip(1).map(PathBuf::from).collect();
    if words.len() == 1 && words[0].as_os_str() == "input" {
        std::io::stdout().write_all(&snapshot_of(&hut())).expect("standard output");
        return ExitCode::SUCCESS;
    }
    let [path, preload, folder] = &words[..] else {
        eprintln!("usage: report PROGRAM PRELOAD FOLDER, or report input");
        return ExitCode::from(2);
    };
    let program = Program::new(path, preload, folder);
    let mut failed = 0;
    for (name, case) in CASES {
        if let Err(why) = case(&program) {
            eprintln!("report: {name}: {why}");
            failed += 1;
        }
    }
    println!("{} cases, {failed} failed; answers: {:?}", CASES.len(), program.kinds());
    ExitCode::from(u8::from(failed != 0 || program.kinds().len() != 4))
}
