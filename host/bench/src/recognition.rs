//! What is measured of integer recognition: strings by themselves, a hundred to a figure.

use std::hint::black_box;

use bench::{plain, proved};
use wallathi_model::rng::Rng;

use crate::Task;

const COUNT: usize = 100;

const STRINGS: [(&str, &[u8]); 13] = [
    ("1 digit", b"7"),
    ("5 digits", b"48213"),
    ("10 digits", b"1763000000"),
    ("19 digits", b"9223372036854775807"),
    ("a minus, 1 digit", b"-3"),
    ("a minus, 5 digits", b"-48213"),
    ("a minus, 10 digits", b"-1763000000"),
    ("a minus, 19 digits", b"-9223372036854775808"),
    ("a text by its first byte", b"amplitude1"),
    ("a text by its fifth byte", b"2026-11-15"),
    ("20 digits", &[b'1'; 20]),
    ("21 digits", &[b'1'; 21]),
    ("1,000 digits", &[b'1'; 1_000]),
];

/// Integers of every length, and texts that begin like one or not, in random order.
fn mixed() -> Vec<Vec<u8>> {
    let mut rng = Rng::new(100);
    let string = |_| {
        let integer = (rng.next() >> rng.below(64)) as i64;
        match rng.below(4) {
            0 => format!("name {integer}"),
            1 => format!("{integer}.5"),
            2 => integer.to_string(),
            _ => integer.wrapping_neg().to_string(),
        }
    };
    (0..COUNT).map(string).map(String::into_bytes).collect()
}

fn task(name: &str, strings: Vec<Vec<u8>>) -> Task {
    for string in &strings {
        assert_eq!(proved::recognise(string), plain::integer(string).map(|integer| integer as u64));
    }
    let again = strings.clone();
    Task {
        name: format!("recognise {COUNT}, {name}"),
        bytes: None,
        proved: Box::new(move |times| {
            for _ in 0..times {
                for string in &strings {
                    black_box(proved::recognise(black_box(string)));
                }
            }
        }),
        plain: Box::new(move |times| {
            for _ in 0..times {
                for string in &again {
                    black_box(plain::integer(black_box(string)));
                }
            }
        }),
    }
}

pub fn tasks() -> Vec<Task> {
    let single = STRINGS.iter().map(|&(name, string)| task(name, vec![string.to_vec(); COUNT]));
    single.chain([task("of every kind", mixed())]).collect()
}
