//! Strict readers: what is written reads back, and a changed byte is refused unless the changed
//! bytes are the encoding of another value.

use wallathi_model::rng::Rng;
use wallathi_model::{generate, groups, listpack, node, slip, snapshot};

/// Changes each byte (or, of long inputs, some 200) and compares what the reader accepts with its
/// encoding. Answers how many changes were accepted.
fn change_bytes(rng: &mut Rng, bytes: &[u8], encoding_of_read: impl Fn(&[u8]) -> Option<Vec<u8>>) -> usize {
    assert_eq!(encoding_of_read(bytes).as_deref(), Some(bytes));
    let step = 1 + bytes.len() / 200;
    let mut accepted = 0;
    for place in (rng.size_below(step)..bytes.len()).step_by(step) {
        let mut changed = bytes.to_vec();
        changed[place] ^= 1 + rng.below(255) as u8;
        if let Some(encoding) = encoding_of_read(&changed) {
            assert_eq!(encoding, changed);
            accepted += 1;
        }
    }
    accepted
}

#[test]
fn elements() {
    let mut rng = Rng::new(20);
    for _ in 0..3_000 {
        let length = rng.size_below(140);
        let string = if rng.one_in(2) { rng.bytes(length) } else { rng.digits(length % 22) };
        let element = listpack::element(&string).unwrap();
        assert_eq!(listpack::read_element(&element), Ok((string, element.len())));
        change_bytes(&mut rng, &element, |bytes| {
            let (string, size) = listpack::read_element(bytes).ok()?;
            // A change may leave a shorter element at the start.
            Some([&listpack::element(&string)?[..], &bytes[size..]].concat())
        });
    }
}

/// How many slices of first byte, any two bytes and this last byte are one whole element.
fn count_of_four(first: u8, last: u8) -> usize {
    let whole = |&pattern: &u16| {
        let [low, high] = pattern.to_le_bytes();
        matches!(listpack::read_element(&[first, low, high, last]), Ok((_, 4)))
    };
    (0..=u16::MAX).filter(whole).count()
}

#[test]
fn all_short_elements() {
    let whole = |bytes: &[u8]| listpack::read_element(bytes).is_ok_and(|(_, size)| size == bytes.len());
    let count = |of: &dyn Fn(u8, u8) -> bool| (0..=u16::MAX).filter(|p| of((p >> 8) as u8, *p as u8)).count();
    // 0 to 127, and the empty string.
    assert_eq!(count(&|first, second| whole(&[first, second])), 129);
    // The other integers of 13 bits, and one byte that is no digit.
    assert_eq!(count(&|first, second| whole(&[first, second, 2])), 8_192 - 128 + 256 - 10);
    assert_eq!(count(&|first, second| whole(&[first, second, 3])), 0);
    // The other integers of 16 bits; two bytes that are not 10 to 99 or -1 to -9.
    assert_eq!(count_of_four(0xF1, 3), 65_536 - 8_192);
    assert_eq!(count_of_four(0x82, 3), 65_536 - 90 - 9);
    assert_eq!(count_of_four(0xF1, 4) + count_of_four(0x82, 2) + count_of_four(0xF0, 3), 0);
}

#[test]
fn listpacks() {
    let mut rng = Rng::new(21);
    for _ in 0..300 {
        let count = rng.below(12);
        let strings: Vec<Vec<u8>> = (0..count).map(|_| generate::message(&mut rng)[0].1.clone()).collect();
        let bytes = listpack::listpack(&strings).unwrap();
        assert_eq!(listpack::read_listpack(&bytes), Ok(strings));
        change_bytes(&mut rng, &bytes, |bytes| listpack::listpack(&listpack::read_listpack(bytes).ok()?));
    }
}

#[test]
fn slips() {
    let mut rng = Rng::new(22);
    for _ in 0..300 {
        let bytes = slip::write(&generate::message(&mut rng));
        change_bytes(&mut rng, &bytes, |bytes| Some(slip::write(&slip::read(bytes).ok()?)));
    }
}

#[test]
fn slots() {
    let mut rng = Rng::new(23);
    let mut accepted = 0;
    for _ in 0..40 {
        let node = generate::node(&mut rng);
        let key = node.key();
        accepted +=
            change_bytes(&mut rng, &node.to_slot(), |slot| Some(node::read_slot(key, slot).ok()?.to_slot()));
    }
    assert!(accepted > 0, "a changed byte inside a value is another node");
}

#[test]
fn regions_and_bodies() {
    let mut rng = Rng::new(24);
    for _ in 0..40 {
        let (name, group) = generate::group(&mut rng);
        change_bytes(&mut rng, &groups::region(&name, &group), |bytes| {
            let (name, group) = groups::read_region(bytes).ok()??;
            Some(groups::region(&name, &group))
        });
        change_bytes(&mut rng, &groups::body(&name, &group), |bytes| {
            let (name, group) = groups::read_body(bytes).ok()?;
            Some(groups::body(&name, &group))
        });
    }
}

#[test]
fn snapshots() {
    let mut rng = Rng::new(25);
    let mut commands = generate::Commands::new(25);
    let mut store = wallathi_model::ledger::Store::fresh(6 * 4096);
    for _ in 0..5 {
        for _ in 0..60 {
            store.run(&commands.next(&store));
        }
        let file = snapshot::snapshot(&store.model.as_ref().unwrap().ledger).unwrap();
        change_bytes(&mut rng, &file, |bytes| snapshot::snapshot(&snapshot::read(bytes).ok()?).ok());
    }
}
