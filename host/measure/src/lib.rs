//! What the benchmarks share: the words they are started with, medians of samples, counts of executed instructions, and tables.

use std::env;
use std::fs::{self, File};
use std::io::Write;
use std::process::{self, Command};

/// A benchmark of several sides.
pub struct Benchmark {
    /// Do the sides answer alike?
    pub compare: fn(),
    pub time: fn(),
    pub instructions: fn(),
    /// One run of a side, to be counted: which one, the words say.
    pub run: fn(&[&str]),
}

impl Benchmark {
    /// Does what the words say that the program was started with; `cargo bench` adds one of its own.
    pub fn start(&self) {
        let words: Vec<String> = env::args().skip(1).filter(|word| word != "--bench").collect();
        match words.iter().map(String::as_str).collect::<Vec<_>>()[..] {
            [] => {
                (self.compare)();
                (self.time)();
            }
            ["compare"] => (self.compare)(),
            ["instructions"] => (self.instructions)(),
            ["run", ref words @ ..] => (self.run)(words),
            _ => {
                eprintln!("words: none for times, instructions, compare");
                process::exit(2);
            }
        }
    }
}

/// The middle one of an odd number of samples.
pub fn median(mut samples: Vec<f64>) -> f64 {
    samples.sort_by(f64::total_cmp);
    samples[samples.len() / 2]
}

/// How many instructions this program executes when it is started with these words, counted by valgrind.
pub fn instructions_of(words: &[&str]) -> f64 {
    let program = env::current_exe().expect("the program's own path");
    let run = Command::new("valgrind")
        .args(["--tool=callgrind", "--callgrind-out-file=/dev/null"])
        .arg(program)
        .args(words)
        .output()
        .expect("valgrind runs");
    let told = String::from_utf8_lossy(&run.stderr).into_owned();
    let count =
        told.lines().find_map(|line| line.split("Collected :").nth(1)).unwrap_or_else(|| panic!("{told}"));
    count.trim().parse().expect("a number")
}

/// A figure with commas between thousands.
pub fn grouped(figure: f64) -> String {
    let digits = format!("{:.0}", figure.max(0.0));
    let places = digits.char_indices();
    places.fold(String::new(), |mut text, (place, digit)| {
        if place > 0 && (digits.len() - place) % 3 == 0 {
            text.push(',');
        }
        text.push(digit);
        text
    })
}

/// How many times the second figure the first one is.
pub fn ratio(proved: f64, plain: f64) -> String {
    format!("{:.2}", proved / plain)
}

/// A table on standard output as docs/PERFORMANCE.md has it, and as tab-separated values in target/measure.
pub struct Table {
    file: File,
}

impl Table {
    pub fn new(name: &str, head: &[&str]) -> Table {
        let folder = concat!(env!("CARGO_MANIFEST_DIR"), "/../../target/measure");
        fs::create_dir_all(folder).expect("a folder for the tables");
        let file = File::create(format!("{folder}/{name}.tsv")).expect("a file for the table");
        let mut table = Table { file };
        table.row(head);
        println!("|{}", "---|".repeat(head.len()));
        table
    }

    pub fn row<S: AsRef<str>>(&mut self, cells: &[S]) {
        let cells: Vec<&str> = cells.iter().map(AsRef::as_ref).collect();
        println!("| {} |", cells.join(" | "));
        let plain: Vec<String> = cells.iter().map(|cell| plain_number(cell)).collect();
        writeln!(self.file, "{}", plain.join("\t")).expect("the table can be written");
    }
}

/// A figure without its commas; any other text as it is.
fn plain_number(cell: &str) -> String {
    let figure = cell.replace(',', "");
    if figure.parse::<f64>().is_ok() {
        figure
    } else {
        cell.to_string()
    }
}

#[cfg(test)]
mod tests {
    use super::*;

    #[test]
    fn figures() {
        assert_eq!(["0", "999", "1,000", "1,234,567"], [0.0, 999.0, 1e3, 1_234_567.0].map(grouped));
        assert_eq!(ratio(3.0, 4.0), "0.75");
        assert_eq!(plain_number("1,234"), "1234");
        assert_eq!(plain_number("add, full"), "add, full");
        assert_eq!(median(vec![3.0, 1.0, 2.0]), 2.0);
    }
}
