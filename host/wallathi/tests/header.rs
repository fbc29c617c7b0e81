//! The numbers of this crate are those of the C header.

use std::collections::BTreeMap;
use std::fs;

use wallathi::{raw, Refusal};

/// The header's constants, without their prefix.
fn constants() -> BTreeMap<String, u64> {
    let path = concat!(env!("CARGO_MANIFEST_DIR"), "/../include/wallathi.h");
    let header = fs::read_to_string(path).expect("the header is beside the crate");
    let define = |line: &str| {
        let (name, number) = line.strip_prefix("#define WALLATHI_")?.split_once(' ')?;
        Some((name.to_string(), number.parse().ok()?))
    };
    header.lines().filter_map(define).collect()
}

#[test]
fn sizes_and_answers() {
    let constants = constants();
    for (name, number) in [
        ("STATE_BYTES", wallathi::STATE_BYTES as u64),
        ("SLOT_BYTES", wallathi::SLOT_BYTES as u64),
        ("MOST_SLOTS", wallathi::MOST_SLOTS as u64),
        ("MOST_PAIRS", wallathi::MOST_PAIRS as u64),
        ("LONGEST_STRING", wallathi::LONGEST_STRING as u64),
        ("LONGEST_SLIP", wallathi::LONGEST_SLIP as u64),
        ("LONGEST_SNAPSHOT", wallathi::LONGEST_SNAPSHOT as u64),
        ("LARGEST_BATCH", wallathi::LARGEST_BATCH as u64),
        ("ID_BYTES", wallathi::ID_BYTES as u64),
        ("LARGEST_INTEGER_REPLY", wallathi::LARGEST_INTEGER_REPLY),
        ("LAST_ERROR_REPLY", wallathi::LAST_ERROR_REPLY),
        ("LONGEST_NUMBER_REPLY", wallathi::LONGEST_NUMBER_REPLY as u64),
        ("RANGE_REPLY", raw::RANGE_REPLY),
        ("INTEGER_REPLY", raw::INTEGER_REPLY),
        ("ERROR_REPLY", raw::ERROR_REPLY),
        ("OK", u64::from(raw::OK)),
        ("NONE", u64::from(raw::NONE)),
        ("ABSENT", u64::from(raw::ABSENT)),
        ("NOT_MOVED", u64::from(raw::NOT_MOVED)),
        ("NO_INTEGERS", u64::from(raw::NO_INTEGERS)),
    ] {
        assert_eq!(constants.get(name), Some(&number), "{name}");
    }
    assert_eq!(raw::state_bytes(), constants["STATE_BYTES"]);
}

/// Each refusal has its name in the header: `NoSlot` is `NO_SLOT`.
#[test]
fn refusals() {
    let constants = constants();
    let mut count = 0;
    for number in 1..=constants["LAST_REFUSAL"] as u32 {
        let Some(refusal) = Refusal::from_number(number) else { continue };
        let mut name = String::new();
        for letter in format!("{refusal:?}").chars() {
            if letter.is_uppercase() && !name.is_empty() {
                name.push('_');
            }
            name.extend(letter.to_uppercase());
        }
        assert_eq!(constants.get(&name), Some(&u64::from(number)), "{name}");
        count += 1;
    }
    assert_eq!(count, 17);
}
