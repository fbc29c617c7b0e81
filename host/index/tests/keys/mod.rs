//! Keys of several kinds, to put and to ask for.

use wallathi_model::index::Index;
use wallathi_model::rng::Rng;

/// How the keys of an index look.
#[derive(Clone, Debug)]
pub enum Kind {
    /// 1 to 16 of few letters, so that prefixes are shared.
    Letters(&'static [u8]),
    /// The beginnings of few strings.
    Beginnings,
    /// Message IDs: 16 bytes that differ in the last ones.
    Ids,
    /// Words with a number after them.
    Names,
    /// Any bytes, 1 to 4 of them.
    Bytes,
    /// Runs between branches, so that there are many nodes for a key.
    Runs,
}

pub const KINDS: [Kind; 8] = [
    Kind::Letters(b"a"),
    Kind::Letters(b"ab"),
    Kind::Letters(b"\x00\x7f\x80\xff"),
    Kind::Beginnings,
    Kind::Ids,
    Kind::Names,
    Kind::Bytes,
    Kind::Runs,
];

impl Kind {
    /// A key of this kind.
    pub fn key(&self, rng: &mut Rng) -> Vec<u8> {
        match self {
            Kind::Letters(letters) => {
                let length = 1 + rng.size_below(16);
                (0..length).map(|_| *rng.pick(letters)).collect()
            }
            Kind::Beginnings => {
                let string = *rng.pick(&["abcdefghijklmnop", "abcdefghXXXXXXXX", "abXXXXXXXXXXXXXX"]);
                string.as_bytes()[..1 + rng.size_below(16)].to_vec()
            }
            Kind::Ids => {
                let ms = 1_700_000_000_000 + 1_000 * rng.below(90);
                [ms.to_be_bytes(), rng.below(3).to_be_bytes()].concat()
            }
            Kind::Names => {
                let word: &&str = rng.pick(&["Hobart", "Honiara", "Suva", "Suva North", "Apia", "A"]);
                format!("{word} {}", rng.below(40)).into_bytes()
            }
            Kind::Bytes => {
                let length = 1 + rng.size_below(4);
                rng.bytes(length)
            }
            Kind::Runs => {
                let parts = 1 + rng.size_below(5);
                (0..parts).flat_map(|_| *rng.pick(&[b"Axx", b"Bxx", b"Cxx"])).copied().collect()
            }
        }
    }

    /// A key to ask for: held, close to a held one, of this kind, or one that breaks the rule.
    pub fn asked(&self, rng: &mut Rng, index: &Index) -> Vec<u8> {
        match rng.below(20) {
            0 => {
                let length = *rng.pick(&[0, 1, 15, 16, 17, 18, 300]);
                vec![*rng.pick(b"a\x00\xff"); length]
            }
            1..=8 if !index.is_empty() => held(rng, index),
            9..=13 if !index.is_empty() => {
                let key = held(rng, index);
                close(rng, key)
            }
            _ => self.key(rng),
        }
    }
}

fn held(rng: &mut Rng, index: &Index) -> Vec<u8> {
    let place = rng.size_below(index.len());
    index.entries().nth(place).expect("a place below the length").0.to_vec()
}

/// The key with its end or one byte changed.
fn close(rng: &mut Rng, mut key: Vec<u8>) -> Vec<u8> {
    let place = rng.size_below(key.len());
    match rng.below(5) {
        0 => key.truncate(place),
        1 => key.push(*rng.pick(b"\x00a\xff")),
        2 => key[place] = key[place].wrapping_add(1),
        3 => key[place] = key[place].wrapping_sub(1),
        _ => key[place] = rng.byte(),
    }
    key
}
