//! The proved functions, the plain ones and the model give the same answers.

use bench::{plain, proved};
use wallathi_model::listpack;
use wallathi_model::rng::Rng;

fn same_verdict(bytes: &[u8]) -> bool {
    let verdict = proved::check(bytes);
    assert_eq!(verdict, plain::check(bytes), "{bytes:02x?}");
    assert_eq!(verdict, listpack::read_listpack(bytes).is_ok(), "{bytes:02x?}");
    verdict
}

fn random_string(rng: &mut Rng) -> Vec<u8> {
    match rng.below(8) {
        0 => rng.below(200).to_string().into_bytes(),
        1 => (rng.below(20_000) as i64 - 10_000).to_string().into_bytes(),
        2 | 3 => ((rng.next() >> rng.below(64)) as i64).to_string().into_bytes(),
        4 => ((rng.next() >> rng.below(64)) as i64).wrapping_neg().to_string().into_bytes(),
        5 => {
            let length = rng.size_below(22);
            rng.digits(length)
        }
        6 => {
            let length = *rng.pick(&[0, 1, 62, 63, 64, 65, 123, 124, 125, 126, 127, 128, 129, 255, 256, 300]);
            rng.bytes(length)
        }
        _ => {
            let length = rng.size_below(40);
            rng.bytes(length)
        }
    }
}

fn random_listpack(rng: &mut Rng) -> Vec<u8> {
    let strings: Vec<Vec<u8>> = (0..rng.below(6)).map(|_| random_string(rng)).collect();
    listpack::listpack(&strings).expect("the strings are short")
}

fn set_total(bytes: &mut [u8]) {
    let total = (bytes.len() as u32).to_le_bytes();
    if let Some(place) = bytes.get_mut(..4) {
        place.copy_from_slice(&total);
    }
}

#[test]
fn listpacks_are_accepted() {
    let mut rng = Rng::new(31);
    for _ in 0..20_000 {
        assert!(same_verdict(&random_listpack(&mut rng)));
    }
}

#[test]
fn damaged_listpacks() {
    let mut rng = Rng::new(32);
    let mut refused = 0;
    for _ in 0..100_000 {
        let mut bytes = random_listpack(&mut rng);
        for _ in 0..1 + rng.below(2) {
            let at = rng.size_below(bytes.len());
            match rng.below(5) {
                0 => bytes[at] = rng.byte(),
                1 => bytes[at] = bytes[at].wrapping_add(1),
                2 => bytes[at] ^= 1 << rng.below(8),
                3 => bytes.insert(at, rng.byte()),
                _ => drop(bytes.remove(at)),
            }
            // A wrong total alone would hide every other damage.
            if !rng.one_in(8) {
                set_total(&mut bytes);
            }
        }
        refused += usize::from(!same_verdict(&bytes));
    }
    assert!((50_000..100_000).contains(&refused), "{refused}");
}

/// Every first byte, with every back length that could follow, and every form of a few integers.
#[test]
fn single_elements() {
    let mut rng = Rng::new(33);
    for first in 0..=255 {
        for size in 1..12 {
            for _ in 0..60 {
                let mut body = rng.bytes(size);
                body[0] = first;
                if rng.one_in(2) {
                    let fill = *rng.pick(&[0x00, 0xFF, b'0', b'5']);
                    let from = 1 + rng.size_below(size);
                    body[from..].fill(fill);
                }
                let mut bytes = vec![0, 0, 0, 0, 1, 0];
                bytes.extend(&body);
                bytes.push(size as u8);
                bytes.push(0xFF);
                set_total(&mut bytes);
                same_verdict(&bytes);
            }
        }
    }
}

#[test]
fn any_bytes() {
    let mut rng = Rng::new(34);
    for length in 0..12 {
        for _ in 0..2_000 {
            let mut bytes = rng.bytes(length);
            set_total(&mut bytes);
            same_verdict(&bytes);
        }
    }
}

/// Writes a listpack into a slice and answers its size.
type Write<'a> = &'a dyn Fn(&mut [u8]) -> usize;

/// Both write into equal slices, and leave every other byte as it was.
fn same_bytes(room: usize, write: [Write; 2], string: impl Fn(u64) -> Vec<u8>) {
    let mut outs = [vec![0xA5; room], vec![0xA5; room]];
    let sizes = [write[0](&mut outs[0]), write[1](&mut outs[1])];
    assert_eq!(sizes[0], sizes[1]);
    assert_eq!(outs[0], outs[1]);
    if sizes[0] > 0 {
        let strings = listpack::read_listpack(&outs[0][..sizes[0]]).expect("a listpack");
        assert!(strings.iter().zip(0..).all(|(written, i)| *written == string(i)));
        let next = listpack::element_size(&string(strings.len() as u64)).expect("a short string");
        assert!(strings.len() == 65_535 || room < sizes[0] + next);
    }
}

#[test]
fn written_integers() {
    let mut rng = Rng::new(35);
    for _ in 0..5_000 {
        let room = rng.size_below(300);
        let (first, step) = match rng.below(3) {
            0 => (rng.below(300).wrapping_sub(150), rng.below(3).wrapping_sub(1)),
            1 => (rng.next() >> rng.below(64), 1 << rng.below(64)),
            _ => (rng.next(), rng.next()),
        };
        same_bytes(
            room,
            [&|out| proved::write_integers(out, first, step), &|out| plain::write_integers(out, first, step)],
            |i| (first.wrapping_add(step.wrapping_mul(i)) as i64).to_string().into_bytes(),
        );
    }
}

#[test]
fn written_texts() {
    let mut rng = Rng::new(36);
    for _ in 0..5_000 {
        let room = rng.size_below(1_000);
        let text = random_string(&mut rng);
        same_bytes(
            room,
            [&|out| proved::write_texts(out, &text), &|out| plain::write_texts(out, &text)],
            |_| text.clone(),
        );
    }
}

/// A header counts no more than 65,535 elements, and a string of 4,096 bytes has none.
#[test]
fn limits() {
    same_bytes(
        140_000,
        [&|out| proved::write_integers(out, 5, 0), &|out| plain::write_integers(out, 5, 0)],
        |_| b"5".to_vec(),
    );
    for length in [4_094, 4_095, 4_096] {
        let text = vec![b'x'; length];
        same_bytes(
            10_000,
            [&|out| proved::write_texts(out, &text), &|out| plain::write_texts(out, &text)],
            |_| text.clone(),
        );
    }
    let mut out = [0; 10_000];
    assert_eq!(proved::write_texts(&mut out, &[b'x'; 4_096]), 0);
}
