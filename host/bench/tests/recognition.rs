//! Which strings are integers, and what the recogniser answers on the way: the proved functions, the plain one and the model agree.

use bench::{plain, proved};
use wallathi_model::decimal;
use wallathi_model::rng::Rng;

/// The longest string that takes steps.
const MOST_STEPS: usize = 20;

/// The answer for the string, and after each of its bytes that of the recogniser for the bytes so far.
fn same_answers(string: &[u8]) -> Option<u64> {
    let pattern = decimal::pattern(string);
    assert_eq!(proved::recognise(string), pattern, "{string:?}");
    assert_eq!(plain::integer(string).map(|integer| integer as u64), pattern, "{string:?}");
    for so_far in (0..=string.len()).map(|count| &string[..count]) {
        assert_eq!(proved::steps(so_far), decimal::pattern(so_far), "{so_far:?} of {string:?}");
    }
    pattern
}

/// A minus, digits, their neighbours, and others.
const ALPHABET: [u8; 14] = *b"-+0159/:. ae\0\xFF";

#[test]
fn every_short_string() {
    let mut strings = vec![vec![]];
    for length in 0..3 {
        let longer: Vec<Vec<u8>> = strings
            .iter()
            .filter(|string| string.len() == length)
            .flat_map(|string| ALPHABET.map(|byte| [&string[..], &[byte]].concat()))
            .collect();
        strings.extend(longer);
    }
    let integers = strings.iter().filter(|string| same_answers(string).is_some()).count();
    assert_eq!(strings.len(), 1 + 14 + 14 * 14 + 14 * 14 * 14);
    // 0, and a digit 1-9 with up to two digits after it, or up to one after a minus.
    assert_eq!(integers, 1 + 3 * (1 + 4 + 16) + 3 * (1 + 4));
}

#[test]
fn every_single_byte_and_pair() {
    for first in 0..=255 {
        same_answers(&[first]);
        for second in 0..=255 {
            same_answers(&[first, second]);
        }
    }
}

/// Numbers around the ends of the range, the most that takes another digit, and each number of digits.
fn boundaries() -> Vec<i128> {
    let powers = (0..=20).map(|digits| 10i128.pow(digits));
    let ends = [1 << 63, 1 << 64, 5 << 63].into_iter().chain(powers);
    ends.flat_map(|end| (-2..=2).flat_map(move |step| [end + step, -end + step])).collect()
}

#[test]
fn boundaries_and_their_neighbours() {
    for number in boundaries() {
        let text = number.to_string();
        let pattern = i64::try_from(number).ok().map(|integer| integer as u64);
        assert_eq!(same_answers(text.as_bytes()), pattern, "{number}");
        let digits = number.unsigned_abs();
        for other in [
            format!("0{digits}"),
            format!("-0{digits}"),
            format!("--{digits}"),
            format!("+{digits}"),
            format!(" {text}"),
            format!("{text} "),
            format!("{text}-"),
            format!("{text}.0"),
        ] {
            assert_eq!(same_answers(other.as_bytes()), None, "{other}");
        }
        for digit in '0'..='9' {
            same_answers(format!("{text}{digit}").as_bytes());
        }
    }
    for (string, pattern) in
        [("0", Some(0)), ("-", None), ("-0", None), ("--1", None), ("+1", None), ("", None)]
    {
        assert_eq!(same_answers(string.as_bytes()), pattern, "{string}");
    }
}

/// Digits of every length around the longest that takes steps, and far above it.
#[test]
fn longer_strings() {
    for length in (MOST_STEPS - 3..60).chain([100, 255, 256, 1_000, 4_096]) {
        for first in [b'-', b'0', b'1', b'9', b'a'] {
            for rest in [b'0', b'1', b'9', b'-'] {
                let mut string = vec![rest; length];
                string[0] = first;
                let pattern = same_answers(&string);
                assert!(pattern.is_none() || length <= MOST_STEPS);
            }
        }
    }
}

/// Mostly digits, so that states of every kind are met; often near the ends of the range.
fn random_string(rng: &mut Rng) -> Vec<u8> {
    let length = rng.size_below(24);
    match rng.below(8) {
        0 => rng.bytes(length),
        1 => rng.digits(length),
        2 => (rng.next() >> rng.below(64)).to_string().into_bytes(),
        3 => ((rng.next() >> rng.below(64)) as i64).wrapping_neg().to_string().into_bytes(),
        4 => {
            let near = (1i128 << 63) + i128::from(rng.below(1 << 20)) - (1 << 19);
            if rng.one_in(2) { near } else { -near }.to_string().into_bytes()
        }
        5 => (0..length).map(|_| *rng.pick(&ALPHABET)).collect(),
        _ => {
            let mut string = rng.digits(length);
            if rng.one_in(2) {
                string.insert(0, b'-');
            }
            if rng.one_in(3) && !string.is_empty() {
                let place = rng.size_below(string.len());
                string[place] = *rng.pick(&ALPHABET);
            }
            string
        }
    }
}

#[test]
fn random_strings() {
    let mut rng = Rng::new(37);
    let integers = (0..1_000_000).filter(|_| same_answers(&random_string(&mut rng)).is_some()).count();
    assert!((300_000..700_000).contains(&integers), "{integers}");
}
