//! The safe wrapper beside the model.

mod keys;

use keys::{Kind, KINDS};
use wallathi_index::{Entry, Index, Refusal, LONGEST_KEY, MOST_KEYS};
use wallathi_model::index::{Index as Model, KeyValue};
use wallathi_model::rng::Rng;

fn same<T: PartialEq + std::fmt::Debug>(answer: Result<T, Refusal>, expected: Result<T, u32>) {
    assert_eq!(answer.map_err(Refusal::number), expected);
}

fn pair(answer: Result<Option<Entry>, Refusal>) -> Result<Option<KeyValue>, Refusal> {
    answer.map(|found| found.map(|entry| (entry.key().to_vec(), entry.value())))
}

fn compare(seed: u64, kind: &Kind) {
    let mut rng = Rng::new(seed);
    let (mut index, mut model) = (Index::new(), Model::new());
    for _ in 0..1_000 {
        let key = kind.asked(&mut rng, &model);
        let value = rng.next() as u32;
        match rng.below(6) {
            0 | 1 => same(index.put(&key, value), model.put(&key, value)),
            2 => same(index.remove(&key), model.remove(&key).map(|count| count == 1)),
            3 => same(index.find(&key), model.find(&key)),
            4 => same(pair(index.first_at_or_above(&key)), model.first_at_or_above(&key)),
            _ => same(pair(index.last_at_or_below(&key)), model.last_at_or_below(&key)),
        }
    }
}

#[test]
fn answers_are_the_models() {
    KINDS.iter().zip(2_000..).for_each(|(kind, seed)| compare(seed, kind));
}

#[test]
fn a_record_is_kept_and_read_back() {
    let mut index = Index::new();
    index.put(b"Hobart", 11).unwrap();
    let kept = index.record().to_vec();
    let again = Index::from_record(kept.clone()).expect("a record's length");
    assert!(again == index && again.find(b"Hobart") == Ok(Some(11)));
    assert!(Index::from_record(&kept[1..]).is_none());
    assert!(Index::from_record(Vec::new()).is_none());
}

#[test]
fn refusals_have_their_numbers() {
    let mut index = Index::default();
    for key in 0..MOST_KEYS as u8 {
        assert_eq!(index.put(&[key], 0), Ok(()));
    }
    assert_eq!(index.put(&[64], 0), Err(Refusal::Full));
    assert_eq!(index.put(&[], 0), Err(Refusal::BadKey));
    assert_eq!(index.find(&[0; LONGEST_KEY + 1]), Err(Refusal::BadKey));
    let mut bytes = index.into_record();
    bytes.fill(1);
    let mut index = Index::from_record(bytes.clone()).expect("a record's length");
    assert_eq!(index.put(&[], 0), Err(Refusal::Damaged));
    assert_eq!(index.remove(b"a"), Err(Refusal::Damaged));
    assert_eq!(index.first_at_or_above(b"a"), Err(Refusal::Damaged));
    assert_eq!(index.last_at_or_below(b"a"), Err(Refusal::Damaged));
    assert!(index.record() == &bytes[..]);
    let numbers = [Refusal::Damaged, Refusal::BadKey, Refusal::Full].map(Refusal::number);
    assert_eq!(numbers, [2, 3, 18]);
}

#[test]
fn debug_shows_a_key_as_text() {
    let mut index = Index::new();
    index.put(b"Apia\n", 5).unwrap();
    let found = index.first_at_or_above(b"A").unwrap().expect("one key");
    assert_eq!(format!("{found:?}"), "Apia\\n => 5");
}
