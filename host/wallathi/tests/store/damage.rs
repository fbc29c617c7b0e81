//! Store and state with bytes that a command did not leave: what is no longer an image answers 2 and stays, the rest is what it is.

use wallathi_model::generate::{self, Commands, Mood};
use wallathi_model::groups::{self, MOST_GROUPS, REGION_BYTES};
use wallathi_model::id::Id;
use wallathi_model::image;
use wallathi_model::index::record::{self, Field};
use wallathi_model::index::{Index, POOL_NODES};
use wallathi_model::ledger::{Command, Cut, Ledger, Model, Store};
use wallathi_model::node;
use wallathi_model::rng::Rng;

use crate::beside::{run_damaged, Beside};
use crate::lent::{Lent, RECORD, REGIONS};
use crate::{amount, Progress};

const SLOT: usize = 4_096;

/// The bytes of the nodes in two slots, which have so many at the most, and some of the zeros after them.
pub fn two_nodes(size: usize) -> impl Iterator<Item = usize> {
    (0..size).chain(SLOT..SLOT + size).chain((size..2 * SLOT).step_by(amount(97, 1)))
}

/// So many other values of a byte: the likely ones first.
pub fn others(rng: &mut Rng, byte: u8, count: usize) -> Vec<u8> {
    let likely = [byte ^ 1 << rng.below(8), byte.wrapping_add(1), 0, 255, rng.byte()];
    let mut others: Vec<u8> = likely.into_iter().filter(|&other| other != byte).collect();
    let start = rng.size_below(others.len());
    others.rotate_left(start);
    others.truncate(count);
    others
}

/// What a list of commands leaves.
pub fn reached(seed: u64, mood: Mood, length: usize, commands: usize) -> Store {
    let mut store = Store::fresh(length);
    let mut next = Commands::with_mood(seed, mood);
    for _ in 0..commands {
        store.run(&next.next(&store));
    }
    store
}

/// Full stores: messages of every kind, small ones with many deleted, long ones.
fn full_stores() -> Vec<Store> {
    vec![
        reached(1, Mood::Fills, 2 * SLOT + 3, 600),
        reached(2, Mood::Rolls, SLOT, 900),
        reached(3, Mood::FillsLong, 2 * SLOT, 60),
    ]
}

pub fn image_of(store: &Store) -> Lent {
    Lent::image(store.model.as_ref().expect("an image"), store.length)
}

/// What bytes with one byte of the store changed are the image of. The node in its slot comes first, as it is mostly no node.
fn held_after_store(lent: &Lent, store: &Store, at: usize) -> Option<Model> {
    let slots = &store.model.as_ref()?.cut.slots;
    if let Some(node) = slots.get(at / SLOT) {
        let bytes = &lent.store()[at / SLOT * SLOT..][..SLOT];
        match node {
            Some(node) => node::read_slot(node.key(), bytes).ok().map(|_| ())?,
            None => bytes.iter().all(|&byte| byte == 0).then_some(())?,
        }
    }
    lent.read()
}

/// The same for one byte of the state, where a group's region comes first.
fn held_after_state(lent: &Lent, _: &Store, at: usize) -> Option<Model> {
    if at >= REGIONS {
        let region = (at - REGIONS) / REGION_BYTES;
        groups::read_region(&lent.state()[REGIONS + region * REGION_BYTES..][..REGION_BYTES]).ok()?;
    }
    lent.read()
}

/// Which bytes of a store change, one after another, and how often the bytes were an image then and how often not.
pub struct Sweep {
    store: Store,
    lent: Lent,
    part: fn(&mut Lent) -> &mut [u8],
    held: fn(&Lent, &Store, usize) -> Option<Model>,
    next: Box<dyn FnMut(&Store) -> Command>,
    pub images: usize,
    pub damaged: usize,
}

impl Sweep {
    pub fn of_store(store: Store, seed: u64) -> Sweep {
        Sweep::new(store, Lent::store_mut, held_after_store, seed)
    }

    pub fn of_state(store: Store, seed: u64) -> Sweep {
        Sweep::new(store, Lent::state_mut, held_after_state, seed)
    }

    fn new(
        store: Store,
        part: fn(&mut Lent) -> &mut [u8],
        held: fn(&Lent, &Store, usize) -> Option<Model>,
        seed: u64,
    ) -> Sweep {
        let mut commands = Commands::with_mood(seed, Mood::Fills);
        let next = Box::new(move |store: &Store| commands.next(store));
        Sweep { lent: image_of(&store), store, part, held, next, images: 0, damaged: 0 }
    }

    /// The same command for each of these bytes, which is changed; how often the bytes were an image then, and how often not.
    pub fn each(self, command: Command, places: impl Iterator<Item = usize>) -> (usize, usize) {
        let mut rng = Rng::new(9_001);
        let mut sweep = Sweep { next: Box::new(move |_| command.clone()), ..self };
        for at in places {
            sweep.change(at, |good| others(&mut rng, good, amount(1, 4)));
        }
        (sweep.images, sweep.damaged)
    }

    /// A command for each of the values that the byte at a place gets in turn; it is as it was again then.
    pub fn change(&mut self, at: usize, values: impl FnOnce(u8) -> Vec<u8>) {
        let good = (self.part)(&mut self.lent)[at];
        for byte in values(good) {
            (self.part)(&mut self.lent)[at] = byte;
            let held = (self.held)(&self.lent, &self.store, at);
            *(if held.is_some() { &mut self.images } else { &mut self.damaged }) += 1;
            run_damaged(&self.lent, held, &(self.next)(&self.store));
        }
        (self.part)(&mut self.lent)[at] = good;
    }
}

/// Changes each byte of a part of full stores, one in so many in the short run. Answers how often the bytes were an image, and how often
/// not.
fn each_byte(name: &'static str, sweep: fn(Store, u64) -> Sweep, step: usize) -> (usize, usize) {
    let mut rng = Rng::new(3_001);
    let (mut images, mut damaged) = (0, 0);
    for (number, store) in full_stores().into_iter().enumerate() {
        let mut sweep = sweep(store, number as u64);
        let length = (sweep.part)(&mut sweep.lent).len();
        let mut progress = Progress::new(name, length);
        for at in (number..length).step_by(amount(step, 1)) {
            sweep.change(at, |good| others(&mut rng, good, amount(1, 3)));
            progress.step();
        }
        (images, damaged) = (images + sweep.images, damaged + sweep.damaged);
    }
    (images, damaged)
}

#[test]
fn each_byte_of_the_store() {
    let (images, damaged) = each_byte("each byte of a store", Sweep::of_store, 9);
    assert!(images > 100 && damaged > 500, "{images} {damaged}");
}

#[test]
fn each_byte_of_the_state() {
    let (images, damaged) = each_byte("each byte of a state", Sweep::of_state, 16);
    assert!(images > 100 && damaged > 5_000, "{images} {damaged}");
}

fn shuffled(rng: &mut Rng, count: usize, of: usize) -> Vec<usize> {
    let mut places: Vec<usize> = (0..of).collect();
    (0..of).for_each(|place| places.swap(place, rng.size_below(of)));
    places.truncate(count);
    places
}

/// The index part of a state, with its nodes at any places.
pub fn set_index(rng: &mut Rng, lent: &mut Lent, index: &Index) {
    let places = shuffled(rng, index.shape().node_count(), POOL_NODES);
    lent.state_mut()[RECORD..REGIONS].copy_from_slice(&record::write(index, &places));
}

/// A model that commands need not reach: any nodes in any slots, any groups.
fn any_model(rng: &mut Rng, slots: usize) -> Model {
    let count = rng.size_below(slots + 1);
    let mut model = Model { ledger: Ledger::empty(), cut: Cut::empty(slots) };
    let mut last = Id::LEAST;
    for slot in shuffled(rng, count, slots) {
        let mut node = generate::node(rng);
        for entry in &mut node.entries {
            entry.id.ms = entry.id.ms.saturating_add(last.ms + 1);
        }
        if !node.keeps_rules() {
            continue;
        }
        last = node.greatest_id();
        model.ledger.messages.extend(node.live().map(|entry| (entry.id, entry.pairs.clone())));
        model.cut.slots[slot] = Some(node);
        if last.ms > u64::MAX / 2 {
            break;
        }
    }
    model.ledger.last_id = last.max(Id::new(last.ms, rng.next()));
    for _ in 0..rng.below(9) {
        let (name, mut group) = generate::group(rng);
        group.pending.retain(|&id, _| id <= model.ledger.last_id);
        model.ledger.groups.insert(name, group);
    }
    model
}

/// Images that are handed in: each is accepted, and goes on as the model says.
#[test]
fn images_handed_in() {
    let mut rng = Rng::new(3_003);
    for turn in 0..amount(60, 2_000) {
        let slots = *rng.pick(&[1, 2, 3, 5, 64]);
        let model = any_model(&mut rng, slots);
        assert!(model.keeps_rules());
        let length = slots * SLOT + rng.size_below(SLOT);
        let mut lent = Lent::image(&model, length);
        set_index(&mut rng, &mut lent, &image::index(&model.cut));
        let mut beside = Beside::new(lent, Store { length, model: Some(model) });
        let mut next = Commands::new(turn);
        for _ in 0..40 {
            beside.run(&next.next(&beside.model));
        }
        beside.check();
    }
}

/// A run of an index record becomes two nodes: the same entries, but not their shape.
fn split_a_run(rng: &mut Rng, record: &mut [u8]) {
    let (_, places) = record::read(record).expect("an index");
    let runs: Vec<usize> =
        places.iter().copied().filter(|&place| Field::LEN.get(record, place) >= 2).collect();
    let free = (0..POOL_NODES).find(|place| !places.contains(place));
    let (Some(&run), Some(free)) = (runs.first(), free) else { return };
    let length = Field::LEN.get(record, run);
    let kept = 1 + rng.size_below(length - 1);
    for field in [Field::KEY, Field::VAL, Field::CHILD] {
        field.set(record, free, field.get(record, run));
        field.set(record, run, 0);
    }
    Field::LEN.set(record, free, length - kept);
    Field::LEN.set(record, run, kept);
    let label = record[Field::LABEL.at(run)].to_vec();
    record[Field::LABEL.at(free)][..length - kept].copy_from_slice(&label[kept..length]);
    record[Field::LABEL.at(run)][kept..].fill(0);
    Field::CHILD.set(record, run, 1 + free);
}

/// A field of a node of an index record gets another number, or what another node has.
fn change_a_field(rng: &mut Rng, record: &mut [u8]) {
    let (_, places) = record::read(record).expect("an index");
    let (a, b) = (*rng.pick(&places), *rng.pick(&places));
    let fields = [Field::LEN, Field::KEY, Field::CHILD, Field::NEXT, Field::VAL, Field::LABEL];
    let field = *rng.pick(&fields);
    match rng.below(3) {
        0 => rng.pick(&[Field::CHILD, Field::NEXT]).set(record, a, 1 + b),
        1 => fields[rng.size_below(5)].set(record, a, *rng.pick(&[0, 1, 2, 255, 256, 257])),
        _ => field.at(a).zip(field.at(b)).for_each(|(a, b)| record.swap(a, b)),
    }
}

/// Whole parts exchanged, taken away or put in.
fn change_a_part(rng: &mut Rng, lent: &mut Lent, model: &Model) {
    let slots = model.cut.slots.len();
    let (a, b) = (rng.size_below(slots), rng.size_below(slots));
    let (region, other) = (rng.size_below(MOST_GROUPS), rng.size_below(MOST_GROUPS));
    let mut index = image::index(&model.cut);
    let keys: Vec<Vec<u8>> = index.entries().map(|(key, _)| key.to_vec()).collect();
    match rng.below(14) {
        0 => (0..SLOT).for_each(|at| lent.store_mut().swap(a * SLOT + at, b * SLOT + at)),
        1 => lent.store_mut().copy_within(a * SLOT..(a + 1) * SLOT, b * SLOT),
        2 => lent.store_mut()[a * SLOT..(a + 1) * SLOT].fill(0),
        3 => lent.store_mut()[a * SLOT..][..SLOT].copy_from_slice(&generate::node(rng).to_slot()),
        4 => (0..REGION_BYTES).for_each(|at| {
            lent.state_mut().swap(REGIONS + region * REGION_BYTES + at, REGIONS + other * REGION_BYTES + at);
        }),
        5 => lent.state_mut()[REGIONS + region * REGION_BYTES..][..REGION_BYTES].fill(0),
        6 => {
            let (name, group) = generate::group(rng);
            let bytes = groups::region(&name, &group);
            lent.state_mut()[REGIONS + region * REGION_BYTES..][..REGION_BYTES].copy_from_slice(&bytes);
        }
        7 if !keys.is_empty() => {
            let key: &Vec<u8> = rng.pick(&keys);
            index.put(key, *rng.pick(&[a as u32, 64, 255, u32::MAX])).expect("a held key");
            set_index(rng, lent, &index);
        }
        8 if !keys.is_empty() => {
            let key: &Vec<u8> = rng.pick(&keys);
            index.remove(key).expect("a key");
            set_index(rng, lent, &index);
        }
        9 if keys.len() < 64 => {
            let length = 1 + rng.size_below(16);
            index.put(&rng.bytes(length), b as u32).expect("few keys");
            set_index(rng, lent, &index);
        }
        10 => {
            let last = model.ledger.last_id;
            let near =
                [Id::new(last.ms.wrapping_sub(1), last.seq), Id::new(last.ms, last.seq.wrapping_sub(1))];
            lent.state_mut()[..RECORD].copy_from_slice(&rng.pick(&near).to_bytes());
        }
        11 => split_a_run(rng, &mut lent.state_mut()[RECORD..REGIONS]),
        12 => change_a_field(rng, &mut lent.state_mut()[RECORD..REGIONS]),
        _ => set_index(rng, lent, &index),
    }
}

#[test]
fn parts_changed() {
    let mut rng = Rng::new(3_004);
    let (mut images, mut damaged) = (0, 0);
    for turn in 0..amount(120, 4_000) {
        let slots = *rng.pick(&[1, 2, 3, 6]);
        let model = any_model(&mut rng, slots);
        let store = Store { length: slots * SLOT, model: Some(model) };
        let good = image_of(&store);
        let mut next = Commands::new(turn);
        for _ in 0..8 {
            let mut lent = good.clone();
            change_a_part(&mut rng, &mut lent, store.model.as_ref().expect("an image"));
            let held = lent.read();
            *(if held.is_some() { &mut images } else { &mut damaged }) += 1;
            run_damaged(&lent, held, &next.next(&store));
        }
    }
    assert!(images > 100 && damaged > 200, "{images} {damaged}");
}

/// Bytes without any order.
#[test]
fn no_order_at_all() {
    let mut rng = Rng::new(3_005);
    let mut next = Commands::with_mood(1, Mood::Fills);
    for length in [0, 1, 4_095, 4_096, 3 * SLOT + 9, 65 * SLOT] {
        for _ in 0..amount(5, 50) {
            let lent = Lent::new(&rng.bytes(length), &rng.bytes(wallathi::raw::STATE_BYTES));
            run_damaged(&lent, None, &next.next(&Store::damaged(length)));
        }
    }
}
