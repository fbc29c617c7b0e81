//! The plain Rust side of the benchmark beside the library, on sound records and on damaged ones: the same answers, the same bytes.

#[path = "../benches/speed/plain.rs"]
mod plain;

mod keys;

use keys::{Kind, KINDS};
use wallathi_index::raw;
use wallathi_model::index::record::{self, Field, RECORD_BYTES};
use wallathi_model::index::{Index, MOST_KEYS, POOL_NODES};
use wallathi_model::rng::Rng;

const UNTOUCHED: u64 = u64::MAX;

fn near(found: Result<plain::Near, u32>) -> (u32, u64, u64) {
    match found {
        Ok(Some((length, value))) => (raw::OK, length as u64, u64::from(value)),
        Ok(None) => (raw::NONE, UNTOUCHED, UNTOUCHED),
        Err(number) => (number, UNTOUCHED, UNTOUCHED),
    }
}

/// Every operation with a key, on both sides. Says whether the record was refused.
fn agree(record: &[u8; RECORD_BYTES], key: &[u8], value: u32) -> bool {
    let mut found = UNTOUCHED;
    let number = raw::find(record, key, &mut found);
    let other = plain::find(record, key);
    let told = other.map_or_else(|number| number, |held| held.map_or(raw::NONE, |_| raw::OK));
    assert_eq!((number, found), (told, other.ok().flatten().map_or(UNTOUCHED, u64::from)));

    type Neighbour = fn(&[u8], &[u8], &mut plain::Output, &mut u64, &mut u64) -> u32;
    type Plain = fn(&[u8; RECORD_BYTES], &[u8], &mut plain::Output) -> Result<plain::Near, u32>;
    let sides: [(Neighbour, Plain); 2] = [
        (raw::first_at_or_above, plain::first_at_or_above),
        (raw::last_at_or_below, plain::last_at_or_below),
    ];
    for (library, plain) in sides {
        let (mut length, mut value, mut output, mut other) = (UNTOUCHED, UNTOUCHED, [0; 16], [0; 16]);
        let number = library(record, key, &mut output, &mut length, &mut value);
        assert_eq!((number, length, value), near(plain(record, key, &mut other)));
        assert_eq!(output, other);
    }

    let (mut library, mut other) = (*record, *record);
    let number = raw::put(&mut library, key, value);
    assert_eq!(number, plain::put(&mut other, key, value).map_or_else(|number| number, |()| raw::OK));
    assert!(library == other);

    let (mut library, mut other, mut count) = (*record, *record, UNTOUCHED);
    let number = raw::remove(&mut library, key, &mut count);
    let gone = plain::remove(&mut other, key);
    assert_eq!((number, count), gone.map_or_else(|number| (number, UNTOUCHED), |gone| (raw::OK, gone)));
    assert!(library == other);
    number == raw::DAMAGED
}

fn record_of(rng: &mut Rng, kind: &Kind, most: usize) -> (Index, Vec<usize>, [u8; RECORD_BYTES]) {
    let mut index = Index::new();
    for _ in 0..rng.size_below(most + 1) {
        index.put(&kind.key(rng), rng.next() as u32).expect("at most 64 keys that keep their rule");
    }
    let mut places: Vec<usize> = (0..POOL_NODES).collect();
    if rng.one_in(2) {
        (0..POOL_NODES).for_each(|place| places.swap(place, rng.size_below(POOL_NODES)));
    }
    places.truncate(index.shape().node_count());
    let record = record::write(&index, &places).try_into().expect("a record");
    (index, places, record)
}

/// Up to two bytes of a place in use, of the root's number or of any place are changed.
#[test]
fn sound_and_damaged_records() {
    const TURNS: usize = 16_000;
    let fields = [Field::LEN, Field::KEY, Field::CHILD, Field::NEXT, Field::VAL, Field::LABEL];
    let mut rng = Rng::new(2_001);
    let mut damaged = 0;
    for turn in 0..TURNS {
        let kind = &KINDS[turn % KINDS.len()];
        let (index, places, mut record) =
            record_of(&mut rng, kind, if turn % 2 == 0 { 6 } else { MOST_KEYS });
        for _ in 0..rng.below(3) {
            let bytes = match rng.below(8) {
                0 => Field::ROOT.at(0),
                1 | 2 => 0..RECORD_BYTES,
                _ => rng.pick(&fields).at(*rng.pick(&places)),
            };
            let at = bytes.start + rng.size_below(bytes.len());
            record[at] = match rng.below(3) {
                0 => rng.byte(),
                1 => record[at].wrapping_add(1),
                _ => record[at].wrapping_sub(1),
            };
        }
        let key = kind.asked(&mut rng, &index);
        damaged += usize::from(agree(&record, &key, rng.next() as u32));
    }
    assert!((TURNS / 4..TURNS * 3 / 4).contains(&damaged), "{damaged}");
}
