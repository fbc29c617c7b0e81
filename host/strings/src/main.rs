//! Prints test strings with their listpack elements, one a line: the string in hex (`-` when it
//! is empty), a space, the element in hex. With the argument `input` it writes the strings alone, as
//! the proved program reads them. The list is the same in every run.

use std::collections::BTreeSet;
use std::io::Write;

use wallathi_model::listpack;
use wallathi_model::rng::Rng;

const SEED: u64 = 20_261_115;

/// The ends of every integer form.
fn boundaries() -> Vec<i128> {
    let mut numbers = vec![0, 127, 128, -4096, 4095];
    for bits in [7, 8, 12, 13, 15, 16, 23, 24, 31, 32, 53, 63, 64, 65] {
        numbers.extend([1i128 << bits, -(1i128 << bits)]);
    }
    for digits in 1..=20 {
        numbers.extend([10i128.pow(digits), -10i128.pow(digits)]);
    }
    numbers
}

/// The text of a number, and texts that differ from it a little.
fn forms(number: i128) -> Vec<String> {
    let text = number.to_string();
    let magnitude = number.unsigned_abs();
    vec![
        format!("0{text}"),
        format!("-0{magnitude}"),
        format!("+{magnitude}"),
        format!("--{magnitude}"),
        format!(" {text}"),
        format!("{text} "),
        format!("{text}-"),
        format!("{text}.0"),
        format!("{text}\0"),
        text,
    ]
}

fn near_integers() -> Vec<Vec<u8>> {
    let mut strings = Vec::new();
    for boundary in boundaries() {
        strings.extend((-2..=2).map(|step| (boundary + step).to_string().into_bytes()));
        strings.extend(forms(boundary).into_iter().map(String::into_bytes));
    }
    strings
}

fn by_hand() -> Vec<Vec<u8>> {
    let texts =
        ["", "-", "--", "+", "+1", "-0", "00", "-00", "007", "-007", "0x10", "1e3", "1,000", "\u{663}"];
    texts.iter().map(|text| text.as_bytes().to_vec()).collect()
}

/// Bytes and digits of each length at which a form of string or back length changes.
fn lengths(rng: &mut Rng) -> Vec<Vec<u8>> {
    let mut strings = Vec::new();
    for length in [0, 1, 62, 63, 64, 65, 66, 123, 124, 125, 126, 127, 128, 129, 130] {
        strings.extend([rng.bytes(length), rng.digits(length), vec![b'x'; length], vec![b'1'; length]]);
    }
    for length in [131, 200, 255, 256, 257, 511, 512, 1000, 1001, 2047, 2048, 4093, 4094, 4095] {
        strings.push(rng.bytes(length));
    }
    for length in [254, 999, 1000, 4094, 4095] {
        strings.push(rng.digits(length));
    }
    strings.push(vec![b'x'; listpack::LONGEST_STRING]);
    strings
}

fn random(rng: &mut Rng) -> Vec<Vec<u8>> {
    let mut strings: Vec<Vec<u8>> = (0..=255).map(|byte| vec![byte]).collect();
    for _ in 0..500 {
        let pattern = rng.next() >> rng.below(64);
        strings.push(pattern.to_string().into_bytes());
        strings.push((pattern as i64).wrapping_neg().to_string().into_bytes());
        let length = 1 + rng.size_below(22);
        strings.push(rng.digits(length));
    }
    for _ in 0..250 {
        let length = rng.size_below(131);
        strings.push(rng.bytes(length));
        let length = 1 + rng.size_below(4);
        strings.push((0..length).map(|_| *rng.pick(b"-+ 019")).collect());
    }
    strings
}

/// All test strings, each once.
fn strings() -> Vec<Vec<u8>> {
    let mut rng = Rng::new(SEED);
    let mut strings = [by_hand(), near_integers(), lengths(&mut rng), random(&mut rng)].concat();
    let mut seen = BTreeSet::new();
    strings.retain(|string| seen.insert(string.clone()));
    strings
}

fn hex(bytes: &[u8]) -> String {
    bytes.iter().map(|byte| format!("{byte:02X}")).collect()
}

fn line(string: &[u8]) -> String {
    let element = listpack::element(string).expect("a string of at most 4,095 bytes");
    let string = if string.is_empty() { "-".to_string() } else { hex(string) };
    format!("{string} {}", hex(&element))
}

/// The same strings for a program that reads them: a 2-byte little-endian length and the bytes, each.
fn input() -> Vec<u8> {
    strings().iter().flat_map(|string| [&(string.len() as u16).to_le_bytes()[..], string].concat()).collect()
}

fn main() -> std::io::Result<()> {
    if std::env::args().nth(1).as_deref() == Some("input") {
        return std::io::stdout().write_all(&input());
    }
    let lines: Vec<String> = strings().iter().map(|string| line(string)).collect();
    println!("{}", lines.join("\n"));
    Ok(())
}

#[cfg(test)]
mod tests {
    use super::*;

    #[test]
    fn lines() {
        assert_eq!(line(b""), "- 8001");
        assert_eq!(line(b"-1"), "2D31 DFFF02");
        assert_eq!(line(b"007"), "303037 8330303704");
    }

    #[test]
    fn the_list_is_fixed_and_has_few_long_strings() {
        let list = strings();
        assert_eq!(list, strings());
        assert!((2_500..=3_500).contains(&list.len()), "{}", list.len());
        assert_eq!(list.iter().filter(|string| string.len() > 130).count(), 20);
        assert!(list.iter().all(|string| string.len() <= listpack::LONGEST_STRING));
    }

    #[test]
    fn the_list_has_every_boundary() {
        let list = strings();
        let ends = [
            "0",
            "127",
            "128",
            "-1",
            "4095",
            "4096",
            "-4096",
            "-4097",
            "32767",
            "32768",
            "-32768",
            "-32769",
            "8388607",
            "8388608",
            "-8388608",
            "-8388609",
            "2147483647",
            "2147483648",
            "-2147483648",
            "-2147483649",
            "9223372036854775807",
            "9223372036854775808",
            "-9223372036854775808",
            "-9223372036854775809",
            "-0",
            "+1",
            "007",
        ];
        for end in ends {
            assert!(list.iter().any(|string| string == end.as_bytes()), "{end}");
        }
        for length in (62..=66).chain(123..=130).chain([0, 1, 4094, 4095]) {
            assert!(list.iter().any(|string| string.len() == length), "{length}");
        }
    }
}
