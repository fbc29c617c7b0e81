//! Lists of commands that go on over damage: bytes that were never set up, bytes that change between commands, and what heals them.

use wallathi_model::generate::{Commands, Mood};
use wallathi_model::groups::REGION_BYTES;
use wallathi_model::index::record::RECORD_BYTES;
use wallathi_model::index::{Index, LONGEST_KEY};
use wallathi_model::ledger::{Answer, Command, Model, Store};
use wallathi_model::rng::Rng;

use crate::amount;
use crate::beside::run_on;
use crate::damage::{image_of, reached, set_index};
use crate::files::saved;
use crate::lent::{Lent, RECORD, REGIONS};

const SLOT: usize = 4_096;

/// A byte of store or state.
type Place = (fn(&mut Lent) -> &mut [u8], usize);

/// Lent bytes, what they are the image of, and what came of the commands on them.
struct Damaged {
    rng: Rng,
    lent: Lent,
    model: Option<Model>,
    refused: usize,
    healed: usize,
}

impl Damaged {
    fn new(seed: u64, lent: Lent) -> Damaged {
        let model = lent.read();
        Damaged { rng: Rng::new(seed), lent, model, refused: 0, healed: 0 }
    }

    fn run(&mut self, command: &Command) -> Answer {
        let was_damaged = self.model.is_none();
        let answer = run_on(&mut self.lent, self.model.take(), command);
        self.model = self.lent.read();
        self.refused += usize::from(answer == Answer::Refused(2));
        self.healed += usize::from(was_damaged && self.model.is_some());
        answer
    }

    /// A place in a node, in the store, in the last ID, in the index or in the groups.
    fn place(&mut self) -> Place {
        let nodes = self.model.as_ref().map_or(vec![], |model| model.cut.nodes());
        let sizes: Vec<(usize, usize)> = nodes.iter().map(|(slot, node)| (*slot, node.size())).collect();
        let (rng, length) = (&mut self.rng, self.lent.store().len());
        match rng.below(8) {
            0..=2 if !sizes.is_empty() => {
                let (slot, size) = *rng.pick(&sizes);
                (Lent::store_mut, slot * SLOT + rng.size_below(size))
            }
            3 if length > 0 => (Lent::store_mut, rng.size_below(length)),
            4 => (Lent::state_mut, rng.size_below(RECORD)),
            5 => (Lent::state_mut, RECORD + rng.size_below(RECORD_BYTES)),
            6 => (Lent::state_mut, REGIONS + rng.size_below(8 * REGION_BYTES)),
            _ => (Lent::state_mut, REGIONS + rng.size_below(2) * REGION_BYTES + rng.size_below(500)),
        }
    }

    fn change(&mut self, (part, at): Place, step: u8) {
        let byte = &mut part(&mut self.lent)[at];
        *byte = byte.wrapping_add(step);
        self.model = self.lent.read();
    }

    /// Commands between which a byte changes, and mostly changes back; what stays damaged is set up or loaded anew.
    fn list(&mut self, seed: u64, file: &[u8], count: usize) {
        let mut next = Commands::with_mood(seed, Mood::Fills);
        for _ in 0..count {
            let store = Store { length: self.lent.store().len(), model: self.model.clone() };
            let command = next.next(&store);
            let damage = self.rng.one_in(4).then(|| (self.place(), *self.rng.pick(&[1, 32, 128, 255])));
            if let Some((place, step)) = damage {
                self.change(place, step);
            }
            self.run(&command);
            match damage {
                Some((place, step)) if !self.rng.one_in(4) => self.change(place, step.wrapping_neg()),
                _ => (),
            }
            if self.model.is_none() && self.rng.one_in(3) {
                let load = Command::Load { file: file.to_vec() };
                let heal = if self.rng.one_in(2) { Command::SetUp } else { load };
                self.run(&heal);
            }
        }
    }
}

#[test]
fn lists_over_damage() {
    let file = saved(7, Mood::Fills, 1, 20);
    let (mut refused, mut healed) = (0, 0);
    for (length, turn) in
        [0, 4_095, SLOT, SLOT + 1, 2 * SLOT - 1, 3 * SLOT + 2_049, 65 * SLOT + 777].into_iter().zip(1..)
    {
        for fill in [0, 7] {
            let lent = Lent::new(&vec![fill; length], &[fill; wallathi::raw::STATE_BYTES]);
            let mut damaged = Damaged::new(6_000 + turn, lent);
            damaged.list(turn, &file, amount(200, 4_000));
            (refused, healed) = (refused + damaged.refused, healed + damaged.healed);
        }
    }
    assert!(refused > 300 && healed > 50, "{refused} {healed}");
}

/// Records of other keys than the nodes have, and bytes that are no record: each command answers 2 until the index is as it was.
#[test]
fn other_records() {
    let store = reached(8, Mood::Fills, 3 * SLOT, 200);
    let good = image_of(&store);
    let mut rng = Rng::new(6_100);
    let mut records = vec![];
    for keys in [0, 1, 2, 5, 20, 64] {
        let mut index = Index::new();
        for value in 0..keys {
            let length = *rng.pick(&[1, 2, 15, LONGEST_KEY]);
            let key: Vec<u8> = (0..length).map(|_| *rng.pick(b"ab\0\xff")).collect();
            index.put(&key, value).expect("at most 64 keys of 1 to 16 bytes");
        }
        let mut lent = good.clone();
        set_index(&mut rng, &mut lent, &index);
        records.push(lent.state()[RECORD..REGIONS].to_vec());
    }
    records.extend([0, 1, 255].map(|byte| vec![byte; RECORD_BYTES]));
    for (record, seed) in records.iter().zip(0..) {
        let mut lent = good.clone();
        lent.state_mut()[RECORD..REGIONS].copy_from_slice(record);
        let mut damaged = Damaged::new(seed, lent);
        let mut next = Commands::with_mood(seed, Mood::Fills);
        for _ in 0..10 {
            assert_eq!(damaged.run(&next.next(&store)), Answer::Refused(2));
        }
        damaged.lent.state_mut()[RECORD..REGIONS].copy_from_slice(&good.state()[RECORD..REGIONS]);
        assert!(damaged.lent == good);
    }
}
