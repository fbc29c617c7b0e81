//! The library beside the model on random and adversarial operations, with fixed seeds. Each answer,
//! each out-parameter and each byte of record and output is compared, and the shape of each record.

mod beside;
mod keys;

use std::collections::BTreeMap;

use beside::{one_of_each, step, Operation};
use keys::{Kind, KINDS};
use wallathi_index::raw;
use wallathi_model::index::record::{self, Field, RECORD_BYTES};
use wallathi_model::index::{Index, MOST_KEYS, POOL_NODES};
use wallathi_model::rng::Rng;

/// The index that a record holds, by the model.
fn held(record: &[u8]) -> Option<Index> {
    record::read(record).ok().map(|(index, _)| index)
}

fn places(rng: &mut Rng, count: usize) -> Vec<usize> {
    let mut places: Vec<usize> = (0..POOL_NODES).collect();
    (0..POOL_NODES).for_each(|place| places.swap(place, rng.size_below(POOL_NODES)));
    places.truncate(count);
    places
}

/// An index with keys of a kind, and a record of it with its nodes anywhere.
fn relocated(rng: &mut Rng, kind: &Kind, most: usize) -> (Index, Vec<usize>, Vec<u8>) {
    let mut index = Index::new();
    for _ in 0..rng.size_below(most + 1) {
        index.put(&kind.key(rng), rng.next() as u32).expect("at most 64 keys that keep their rule");
    }
    let places = places(rng, index.shape().node_count());
    let record = record::write(&index, &places);
    (index, places, record)
}

#[test]
fn the_record_is_laid_out_as_the_model_says() {
    assert_eq!(raw::record_bytes(), RECORD_BYTES);
    let mut record = vec![0xA5; RECORD_BYTES];
    assert_eq!(raw::set_up(&mut record), raw::OK);
    assert_eq!(held(&record), Some(Index::new()));
}

/// In phases an index fills up, changes and empties again.
fn operation(rng: &mut Rng, kind: &Kind, index: &Index, phase: usize) -> Operation {
    let (puts, removes, fills) = [(60, 65, true), (30, 50, false), (10, 60, false)][phase % 3];
    let key = if fills && rng.one_in(2) { kind.key(rng) } else { kind.asked(rng, index) };
    match rng.below(100) {
        chance if chance < puts => Operation::Put { key, value: rng.next() as u32 >> rng.below(32) },
        chance if chance < removes => Operation::Remove { key },
        chance if chance % 3 == 0 => Operation::Find { key },
        chance if chance % 3 == 1 => Operation::FirstAtOrAbove { key },
        _ => Operation::LastAtOrBelow { key },
    }
}

#[test]
fn operations_in_sequence() {
    const RUNS: u64 = 128;
    const LENGTH: usize = 1_800;
    let mut numbers = BTreeMap::new();
    let mut fullest = 0;
    for run in 0..RUNS {
        let mut rng = Rng::new(run);
        let kind = &KINDS[run as usize % KINDS.len()];
        let mut record = vec![0; RECORD_BYTES];
        assert_eq!(raw::set_up(&mut record), raw::OK);
        let mut index = Some(Index::new());
        for turn in 0..LENGTH {
            let held = index.as_ref().expect("operations keep a sound record");
            if turn % 50 == 0 {
                fullest = fullest.max(held.shape().node_count());
            }
            let operation = operation(&mut rng, kind, held, turn / 200);
            *numbers.entry(step(&mut record, &mut index, &operation)).or_insert(0) += 1;
        }
    }
    let known: Vec<u32> = numbers.keys().copied().collect();
    assert_eq!(known, [raw::OK, raw::BAD_KEY, raw::FULL, raw::NONE]);
    assert!(numbers.values().all(|&times| times > 1_000), "{numbers:?}");
    assert!(fullest > 150, "{fullest}");
}

#[test]
fn relocated_records_are_accepted() {
    let mut rng = Rng::new(1_001);
    for turn in 0..4_000 {
        let kind = &KINDS[turn % KINDS.len()];
        let (index, _, mut record) = relocated(&mut rng, kind, MOST_KEYS);
        let mut index = Some(index);
        for operation in one_of_each(&mut rng, kind, &index.clone().expect("it was just made")) {
            assert_ne!(step(&mut record, &mut index, &operation), raw::DAMAGED);
        }
    }
}

/// Runs each operation on a record that may be damaged, and says whether it was.
fn judge(rng: &mut Rng, kind: &Kind, record: &mut [u8], like: &Index) -> bool {
    let mut index = held(record);
    let is_damaged = index.is_none();
    for operation in one_of_each(rng, kind, &index.clone().unwrap_or_else(|| like.clone())) {
        assert_eq!(step(record, &mut index, &operation) == raw::DAMAGED, is_damaged);
    }
    is_damaged
}

/// One byte is changed: of a place in use, of the root's number, or any.
#[test]
fn a_changed_byte() {
    const TURNS: usize = 24_000;
    let fields = [Field::LEN, Field::KEY, Field::CHILD, Field::NEXT, Field::VAL, Field::LABEL];
    let mut rng = Rng::new(1_002);
    let mut damaged = 0;
    for turn in 0..TURNS {
        let kind = &KINDS[turn % KINDS.len()];
        let (index, places, mut record) =
            relocated(&mut rng, kind, if turn % 2 == 0 { 6 } else { MOST_KEYS });
        let bytes = match rng.below(8) {
            0 => Field::ROOT.at(0),
            1 | 2 => 0..RECORD_BYTES,
            _ => rng.pick(&fields).at(*rng.pick(&places)),
        };
        let at = bytes.start + rng.size_below(bytes.len());
        record[at] = match rng.below(4) {
            0 => rng.byte(),
            1 => record[at].wrapping_add(1),
            2 => record[at] ^ (1 << rng.below(8)),
            _ => record[at].wrapping_sub(1),
        };
        damaged += usize::from(judge(&mut rng, kind, &mut record, &index));
    }
    assert!((TURNS / 2..TURNS * 95 / 100).contains(&damaged), "{damaged}");
}

/// Every byte of one record, each with some other values.
#[test]
fn each_byte_changed() {
    let mut rng = Rng::new(1_003);
    let mut index = Index::new();
    for (value, key) in
        [&b"foo"[..], b"foobar", b"footer", b"g", b"ga", b"gb", b"h\0", b"h\xff"].iter().enumerate()
    {
        index.put(key, value as u32 * 1_000).expect("eight keys");
    }
    let places: Vec<usize> = (0..index.shape().node_count()).map(|node| 7 * node % POOL_NODES).collect();
    let record = record::write(&index, &places);
    let mut accepted = 0;
    for at in 0..RECORD_BYTES {
        for other in [0, 1, 255, record[at] ^ 1, record[at].wrapping_add(1)] {
            let mut record = record.clone();
            record[at] = other;
            let mut held = held(&record);
            accepted += usize::from(held.is_some());
            let operation = Operation::Find { key: Kind::Names.asked(&mut rng, &index) };
            step(&mut record, &mut held, &operation);
        }
    }
    assert!(accepted > 100, "{accepted}");
}

/// Changes a whole field of a place in use: a link to any place, a part exchanged with another place's, a label cut short.
fn change_a_field(rng: &mut Rng, record: &mut [u8], places: &[usize]) {
    let (a, b) = (*rng.pick(places), *rng.pick(places));
    match rng.below(8) {
        0 => Field::CHILD.set(record, a, 1 + b),
        1 => Field::NEXT.set(record, a, 1 + b),
        2 => {
            let link = *rng.pick(&[0, 1, 255, 256, 257, 258, 65_535]);
            rng.pick(&[Field::CHILD, Field::NEXT]).set(record, a, link);
        }
        3 => Field::ROOT.set(record, 0, *rng.pick(&[a, 0, 255, 256, 257, 65_535])),
        4 => {
            let field = *rng.pick(&[Field::LEN, Field::KEY, Field::CHILD, Field::NEXT, Field::VAL]);
            field.at(a).zip(field.at(b)).for_each(|(a, b)| record.swap(a, b));
        }
        5 => Field::LABEL.at(a).zip(Field::LABEL.at(b)).for_each(|(a, b)| record.swap(a, b)),
        6 => {
            // A key less, or one more.
            let is_key = Field::KEY.get(record, a) == 1;
            Field::KEY.set(record, a, usize::from(!is_key));
            if is_key {
                Field::VAL.set(record, a, 0);
            }
        }
        _ => {
            let length = Field::LEN.get(record, a).saturating_sub(1);
            Field::LEN.set(record, a, length);
            record[Field::LABEL.at(a)][length.min(15)..].fill(0);
        }
    }
}

#[test]
fn changed_fields() {
    const TURNS: usize = 12_000;
    let mut rng = Rng::new(1_004);
    let mut damaged = 0;
    for turn in 0..TURNS {
        let kind = &KINDS[turn % KINDS.len()];
        let most = if turn % 2 == 0 { 5 } else { MOST_KEYS };
        let (index, places, mut record) = relocated(&mut rng, kind, most);
        (0..1 + rng.below(2)).for_each(|_| change_a_field(&mut rng, &mut record, &places));
        damaged += usize::from(judge(&mut rng, kind, &mut record, &index));
    }
    assert!((TURNS / 2..TURNS * 99 / 100).contains(&damaged), "{damaged}");
}

/// A record of nodes in a line, each with a label of one byte.
fn line(rng: &mut Rng, count: usize, link: Field, are_keys: bool) -> (Vec<u8>, Vec<usize>) {
    let places = places(rng, count);
    let mut record = vec![0; RECORD_BYTES];
    Field::ROOT.set(&mut record, 0, places[0]);
    for (number, pair) in places.windows(2).enumerate() {
        let link = if number == 0 { Field::CHILD } else { link };
        link.set(&mut record, pair[0], 1 + pair[1]);
        Field::LEN.set(&mut record, pair[1], 1);
        Field::KEY.set(&mut record, pair[1], usize::from(are_keys));
        record[Field::LABEL.at(pair[1]).start] = number as u8;
    }
    (record, places)
}

/// Lines of nodes, open and closed to a ring, as long as the pool; and bytes without any order.
#[test]
fn hostile_records() {
    let mut rng = Rng::new(1_005);
    let none = Index::new();
    for count in [2, 3, 16, 17, 18, 64, 65, 66, 67, 128, 255, 256] {
        for (link, are_keys) in
            [(Field::CHILD, true), (Field::CHILD, false), (Field::NEXT, true), (Field::NEXT, false)]
        {
            let (record, places) = line(&mut rng, count, link, are_keys);
            let longest = if link.at(0) == Field::CHILD.at(0) { 17 } else { 65 };
            let is_damaged = judge(&mut rng, &Kind::Bytes, &mut record.clone(), &none);
            assert_eq!(is_damaged, !are_keys || count > longest, "{count} {link:?}");
            for &back in &places {
                let mut ring = record.clone();
                link.set(&mut ring, places[count - 1], 1 + back);
                assert!(judge(&mut rng, &Kind::Bytes, &mut ring, &none));
            }
        }
    }
    for _ in 0..2_000 {
        let mut record = rng.bytes(RECORD_BYTES);
        assert!(judge(&mut rng, &Kind::Bytes, &mut record, &none));
        // Links that stay in the pool lead further.
        (0..POOL_NODES).for_each(|place| {
            Field::CHILD.set(&mut record, place, rng.size_below(257));
            Field::NEXT.set(&mut record, place, rng.size_below(257));
        });
        Field::ROOT.set(&mut record, 0, rng.size_below(256));
        assert!(judge(&mut rng, &Kind::Bytes, &mut record, &none));
    }
}

/// 64 keys of each kind are held; a 65th is refused, until one goes.
#[test]
fn the_last_key() {
    let mut rng = Rng::new(1_006);
    for kind in KINDS.iter().filter(|kind| !matches!(kind, Kind::Letters(b"a") | Kind::Beginnings)) {
        let mut record = vec![0; RECORD_BYTES];
        let mut index = Some(Index::new());
        let held = |index: &Option<Index>| index.as_ref().expect("sound").len();
        while held(&index) < MOST_KEYS {
            let operation = Operation::Put { key: kind.key(&mut rng), value: 7 };
            assert_eq!(step(&mut record, &mut index, &operation), raw::OK);
        }
        let keys: Vec<Vec<u8>> = index.iter().flat_map(Index::entries).map(|(key, _)| key.to_vec()).collect();
        for key in &keys {
            let new = Operation::Put { key: b"a new key".to_vec(), value: 1 };
            assert_eq!(step(&mut record, &mut index, &new), raw::FULL);
            let replaced = Operation::Put { key: key.clone(), value: 2 };
            assert_eq!(step(&mut record, &mut index, &replaced), raw::OK);
            assert_eq!(step(&mut record, &mut index, &Operation::Remove { key: key.clone() }), raw::OK);
            assert_eq!(step(&mut record, &mut index, &new), raw::OK);
            assert_eq!(
                step(&mut record, &mut index, &Operation::Remove { key: b"a new key".to_vec() }),
                raw::OK
            );
            assert_eq!(
                step(&mut record, &mut index, &Operation::Put { key: key.clone(), value: 3 }),
                raw::OK
            );
        }
    }
}
