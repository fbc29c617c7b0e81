//! The worked example of docs/FORMAT.md, byte by byte: each block of the page that is marked `hex` is what the model writes.
//!
//! A line of a block is bytes, then words that say what they are. `@ n` begins a line with the place of its bytes; what lies between
//! the lines is zero, and so is what follows the last one.

use wallathi_model::groups;
use wallathi_model::id::Id;
use wallathi_model::image;
use wallathi_model::index::record;
use wallathi_model::ledger::{Answer, Command, Model, Store};
use wallathi_model::reply::Reply;
use wallathi_model::slip;
use wallathi_model::snapshot;

const PAGE: &str = include_str!("../../../docs/FORMAT.md");

/// The bytes of the block of that name, with zeros up to `size`.
fn block(name: &str, size: usize) -> Vec<u8> {
    let start = format!("```hex {name}\n");
    let text = PAGE.split_once(&start).unwrap_or_else(|| panic!("no block {name}")).1;
    let text = text.split_once("```").expect("an end of the block").0;
    let mut bytes = Vec::new();
    for line in text.lines() {
        let mut words = line.split_whitespace().peekable();
        if words.next_if_eq(&"@").is_some() {
            let place: usize = words.next().expect("a place").replace(',', "").parse().expect("a number");
            assert!(bytes.len() <= place, "{name}: {line}");
            bytes.resize(place, 0);
        }
        let is_byte = |word: &&str| word.len() == 2 && u8::from_str_radix(word, 16).is_ok();
        bytes.extend(words.take_while(is_byte).map(|word| u8::from_str_radix(word, 16).unwrap()));
    }
    assert!(bytes.len() <= size, "{name}");
    bytes.resize(size, 0);
    bytes
}

/// 5-0 with a=1, then 6-0 with b empty; the group g, whose consumer c was given 5-0 at the time 7.
fn example() -> (Vec<u8>, Model) {
    let pairs = [(b"a".to_vec(), b"1".to_vec())];
    let group = b"g".to_vec();
    let commands = [
        Command::Add { id: Id { ms: 5, seq: 0 }, slip: slip::write(&pairs) },
        Command::Add { id: Id { ms: 6, seq: 0 }, slip: slip::write(&[(b"b".to_vec(), Vec::new())]) },
        Command::CreateGroup { group: group.clone(), start: Id::LEAST },
        Command::GroupRead { group, consumer: b"c".to_vec(), now: 7 },
    ];
    let mut store = Store::fresh(4096);
    for command in &commands {
        let answer = store.run(command);
        assert!(!matches!(answer, Answer::Refused(_)), "{command:?}");
    }
    (slip::write(&pairs), store.model.expect("an image"))
}

/// The state with the index's nodes at the first places of the pool.
fn state(model: &Model) -> Vec<u8> {
    let record = record::write(&image::index(&model.cut), &[0, 1]);
    [&model.ledger.last_id.to_bytes()[..], &record, &image::regions(&model.ledger.groups)].concat()
}

#[track_caller]
fn same(name: &str, bytes: &[u8]) {
    let written = block(name, bytes.len());
    let apart = written.iter().zip(bytes).position(|(a, b)| a != b);
    assert_eq!(
        apart,
        None,
        "{name}: the page and the model part there; the model has {:02X?} ..",
        &bytes[..bytes.len().min(64)]
    );
}

#[test]
fn the_slip() {
    same("slip", &example().0);
}

#[test]
fn the_slot() {
    same("slot", &image::slots(&example().1.cut));
}

#[test]
fn the_state() {
    same("state", &state(&example().1));
}

#[test]
fn the_body_of_the_group() {
    let (name, group) = example().1.ledger.groups.into_iter().next().expect("a group");
    same("body", &groups::body(&name, &group));
}

#[test]
fn the_snapshot() {
    let file = snapshot::snapshot(&example().1.ledger).expect("few nodes");
    assert_eq!(block("snapshot", file.len()).len(), file.len());
    same("snapshot", &file);
}

#[test]
fn the_range_reply() {
    let messages = example().1.ledger.messages.into_iter().collect();
    let bytes = Reply::Range(messages).to_bytes();
    assert_eq!(block("range", bytes.len()).len(), bytes.len());
    same("range", &bytes);
}

#[test]
fn an_element_of_each_form() {
    let rows = PAGE.lines().filter_map(|line| line.strip_prefix("| `\"")).collect::<Vec<_>>();
    assert!(10 < rows.len());
    for row in rows {
        let (text, rest) = row.split_once("\"` | `").expect("a string");
        let bytes = rest.split_once('`').expect("bytes").0;
        let bytes: Vec<u8> =
            bytes.split(' ').map(|byte| u8::from_str_radix(byte, 16).expect("a byte")).collect();
        assert_eq!(wallathi_model::listpack::element(text.as_bytes()), Some(bytes), "{text}");
    }
}
