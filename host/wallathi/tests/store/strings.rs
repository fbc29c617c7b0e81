//! Strings and slips at the ends of what is allowed, and of the forms that a listpack has for them.

use wallathi_model::id::Id;
use wallathi_model::ledger::{Answer, Command};
use wallathi_model::message::Message;
use wallathi_model::slip;

use crate::beside::Beside;

const SLOT: usize = 4_096;

/// Integers at the ends of each form, texts that are nearly integers, texts at the ends of each form.
pub fn boundaries() -> Vec<Vec<u8>> {
    let ends = [0, 127, 4_095, 32_767, 8_388_607, 2_147_483_647, i64::MAX];
    let numbers = ends.into_iter().flat_map(|end| {
        [Some(end), end.checked_add(1), Some(-1 - end), (-1 - end).checked_sub(1)].into_iter().flatten()
    });
    let texts = ["007", "-0", "+1", "-", " 1", "1 ", "1.0", "9223372036854775808", "-9223372036854775809"];
    let lengths = [0, 1, 62, 63, 64, 65, 124, 125, 126, 127, 128, 999, 1_000];
    numbers
        .map(|number| number.to_string().into_bytes())
        .chain(texts.map(|text| text.as_bytes().to_vec()))
        .chain(lengths.map(|length| vec![b'y'; length]))
        .collect()
}

/// Each string as a field and as a value, beside the one after it: added, read, looked up, saved, loaded and deleted.
#[test]
fn strings_at_the_ends_of_the_forms() {
    let strings = boundaries();
    let mut beside = Beside::fresh(30 * SLOT);
    let others = strings.iter().cycle().skip(1);
    for ((string, other), seq) in strings.iter().zip(others).zip(1..) {
        let id = Id::new(7, seq);
        let pairs: Message = vec![(string.clone(), other.clone()), (b"a".to_vec(), string.clone())];
        assert_eq!(beside.run(&Command::Add { id, slip: slip::write(&pairs) }), Answer::Id(id));
        let read = Command::Read { id, room: slip::write(&pairs).len() };
        assert_eq!(beside.run(&read), Answer::Written(slip::write(&pairs)));
        let field = Command::Field { id, name: string.clone(), room: other.len() };
        assert_eq!(beside.run(&field), Answer::Written(other.clone()));
    }
    beside.check();
    let Answer::Written(file) = beside.run(&Command::Save { room: 1 << 20 }) else { panic!("no file") };
    assert_eq!(beside.run(&Command::Load { file }), Answer::Done);
    for seq in 1..=strings.len() as u64 {
        assert_eq!(beside.run(&Command::Delete { id: Id::new(7, seq) }), Answer::Count(1));
    }
    beside.check();
}

/// The slip of strings of these lengths; it need keep no rule.
fn any_slip(count: u8, lengths: &[(usize, usize)]) -> Vec<u8> {
    let mut slip = vec![count];
    for length in lengths.iter().flat_map(|&(field, value)| [field, value]) {
        slip.extend((length as u16).to_le_bytes());
        slip.extend(vec![b's'; length]);
    }
    slip
}

#[test]
fn slips_at_their_limits() {
    let mut beside = Beside::fresh(4 * SLOT);
    let whole = any_slip(2, &[(3, 4), (0, 5)]);
    let refused = [
        any_slip(0, &[]),
        any_slip(33, &[(0, 0); 33]),
        any_slip(255, &[(0, 0); 255]),
        any_slip(1, &[(1_001, 0)]),
        any_slip(1, &[(0, 1_001)]),
        any_slip(1, &[(1, 65_535)]),
        any_slip(1, &[(3, 4), (0, 5)]),
        any_slip(3, &[(3, 4), (0, 5)]),
        [&whole[..], &[0]].concat(),
    ];
    let cut = (0..whole.len()).map(|length| whole[..length].to_vec());
    for slip in refused.into_iter().chain(cut) {
        assert_eq!(beside.run(&Command::AddByClock { time: 1, slip }), Answer::Refused(3));
    }
    let accepted = [whole.clone(), any_slip(32, &[(0, 0); 32]), any_slip(1, &[(1_000, 1_000)])];
    for (slip, seq) in accepted.into_iter().zip(0..) {
        assert_eq!(beside.run(&Command::AddByClock { time: 1, slip }), Answer::Id(Id::new(1, seq)));
    }
    beside.check();
}

#[test]
fn field_names_at_their_limits() {
    let mut beside = Beside::fresh(SLOT);
    let id = Id::new(1, 0);
    let pairs: Message = vec![(vec![b'f'; 1_000], b"long".to_vec()), (vec![], b"none".to_vec())];
    beside.run(&Command::Add { id, slip: slip::write(&pairs) });
    for (length, code) in [(0, 0), (1, 33), (999, 33), (1_000, 0), (1_001, 3), (65_536, 3), (66_536, 3)] {
        let command = Command::Field { id, name: vec![b'f'; length], room: 4 };
        assert_eq!(beside.run(&command).code(), code, "{length}");
    }
}
