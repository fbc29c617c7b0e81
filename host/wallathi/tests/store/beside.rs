//! One command after another on lent bytes of each side and on the model, with everything compared.

use wallathi_model::groups::{Group, REGION_BYTES};
use wallathi_model::id::Id;
use wallathi_model::image;
use wallathi_model::index::record;
use wallathi_model::index::Index;
use wallathi_model::ledger::{Answer, Command, Model, Store};
use wallathi_model::message::Name;
use wallathi_model::node::{Node, SLOT_BYTES};

use crate::lent::{inner_mut, Lent, GUARD, RECORD, REGIONS};
use crate::sides::{self, Call, Values};

const SIDES: [(&str, Call); 2] = [("proved", sides::proved), ("plain", sides::plain)];

/// Out-parameters and outputs hold this before a call.
const MARK: u64 = 0xA5A5_A5A5_A5A5_A5A5;

/// All that a call tells.
#[derive(Clone, Debug, PartialEq, Eq)]
pub struct Told {
    pub code: u32,
    pub values: Values,
    output: Vec<u8>,
}

impl Told {
    /// Nothing told yet.
    fn before(command: &Command) -> Told {
        let room = match command {
            Command::Read { room, .. }
            | Command::Field { room, .. }
            | Command::RangeReply { room, .. }
            | Command::GroupReadMany { room, .. }
            | Command::Save { room } => *room,
            _ => 0,
        };
        Told { code: u32::MAX, values: [MARK; 6], output: vec![0xA5; room + 2 * GUARD] }
    }

    /// What a side tells.
    fn of(lent: &mut Lent, call: Call, command: &Command) -> Told {
        let mut told = Told::before(command);
        let (store, state) = lent.both();
        told.code = call(store, state, command, &mut told.values, inner_mut(&mut told.output));
        told
    }

    /// What an answer of the model has to be told as.
    fn expected(command: &Command, answer: &Answer) -> Told {
        let mut told = Told::before(command);
        told.code = answer.code();
        let numbers = match answer {
            Answer::Id(id) => vec![id.ms, id.seq],
            Answer::Count(count) => vec![*count],
            Answer::Written(bytes) => {
                inner_mut(&mut told.output)[..bytes.len()].copy_from_slice(bytes);
                vec![bytes.len() as u64]
            }
            Answer::Pending { id, time, count, lives } => {
                vec![id.ms, id.seq, *time, u64::from(*count), u64::from(*lives)]
            }
            Answer::Report(report) => {
                let ends = [report.smallest, report.largest].into_iter().flatten();
                let signed = [report.sum].into_iter().chain(ends).map(|value| value as u64);
                [report.lacking, report.other, report.integers].into_iter().chain(signed).collect()
            }
            _ => vec![],
        };
        told.values[..numbers.len()].copy_from_slice(&numbers);
        told
    }
}

/// A batch is so many single reads in a row: on a copy of what a side was lent they give the same IDs and leave the same bytes.
fn check_batch(call: Call, before: &Lent, command: &Command, answer: &Answer, after: &Lent) {
    let (Command::GroupReadMany { group, consumer, now, .. }, Answer::Written(ids)) = (command, answer)
    else {
        return;
    };
    let single = Command::GroupRead { group: group.clone(), consumer: consumer.clone(), now: *now };
    let mut lent = before.clone();
    for id in Id::list(ids) {
        assert_eq!(Told::of(&mut lent, call, &single), Told::expected(&single, &Answer::Id(id)));
    }
    assert!(lent == *after, "{command:?} left other bytes than single reads");
}

/// What a node was when its slot's bytes were last worked out: its key, how many messages it has and how many are deleted. Each
/// command but load changes one of them in a node that it changes.
type Sign = Option<(Id, usize, usize)>;

fn sign(node: &Option<Node>) -> Sign {
    node.as_ref().map(|node| (node.key(), node.entries.len(), node.deleted_count()))
}

/// The bytes that a model says; worked out again only where they may have changed.
struct Expected {
    signs: Vec<Sign>,
    slots: Vec<u8>,
    regions: Vec<u8>,
}

impl Expected {
    fn new(model: &Model) -> Expected {
        Expected {
            signs: model.cut.slots.iter().map(sign).collect(),
            slots: image::slots(&model.cut),
            regions: image::regions(&model.ledger.groups),
        }
    }

    fn update(&mut self, command: &Command, model: &Model) {
        if matches!(command, Command::SetUp | Command::Load { .. }) {
            *self = Expected::new(model);
            return;
        }
        for (place, node) in model.cut.slots.iter().enumerate() {
            let sign = sign(node);
            if sign != self.signs[place] {
                let bytes = node.as_ref().map_or(vec![0; SLOT_BYTES], Node::to_slot);
                self.slots[place * SLOT_BYTES..][..SLOT_BYTES].copy_from_slice(&bytes);
                self.signs[place] = sign;
            }
        }
        if let Some(group) = changed_group(command) {
            self.update_group(group, model);
        }
    }

    /// The regions, where at most one group has changed.
    fn update_group(&mut self, group: &[u8], model: &Model) {
        let groups = &model.ledger.groups;
        let place = groups.keys().position(|name| name == group);
        let used = self.regions.chunks(REGION_BYTES).filter(|region| region[0] != 0).count();
        match place {
            Some(place) if used == groups.len() => {
                let region = wallathi_model::groups::region(group, &groups[group]);
                self.regions[place * REGION_BYTES..][..REGION_BYTES].copy_from_slice(&region);
            }
            _ if used == groups.len() => (),
            _ => self.regions = image::regions(groups),
        }
    }
}

/// The group that a command may change.
fn changed_group(command: &Command) -> Option<&Name> {
    use Command::*;
    match command {
        CreateGroup { group, .. }
        | DestroyGroup { group }
        | GroupRead { group, .. }
        | GroupReadMany { group, .. }
        | Acknowledge { group, .. }
        | Claim { group, .. }
        | DropConsumer { group, .. } => Some(group),
        _ => None,
    }
}

struct Side {
    name: &'static str,
    call: Call,
    lent: Lent,
    before: Lent,
    /// The index of these bytes.
    record: Vec<u8>,
    index: Index,
}

/// A model, and each side's bytes beside it.
pub struct Beside {
    pub model: Store,
    expected: Expected,
    sides: Vec<Side>,
}

impl Beside {
    /// An empty store of this length as set up leaves it; one without a slot is not set up.
    pub fn fresh(length: usize) -> Beside {
        let store = Store::fresh(length);
        let model = store.model.clone().expect("fresh");
        Beside::new(Lent::image(&model, length), store)
    }

    /// From an image, whose model this is.
    pub fn new(lent: Lent, model: Store) -> Beside {
        let record = lent.state()[RECORD..REGIONS].to_vec();
        let (index, _) = record::read(&record).expect("an image");
        let side = |(name, call)| Side {
            name,
            call,
            lent: lent.clone(),
            before: lent.clone(),
            record: record.clone(),
            index: index.clone(),
        };
        let sides = SIDES.into_iter().map(side).collect();
        Beside { expected: Expected::new(model.model.as_ref().expect("an image")), model, sides }
    }

    pub fn model(&self) -> &Model {
        self.model.model.as_ref().expect("commands keep an image")
    }

    pub fn group(&self, name: &[u8]) -> &Group {
        &self.model().ledger.groups[name]
    }

    /// Runs a command everywhere and compares everything.
    pub fn run(&mut self, command: &Command) -> Answer {
        let answer = self.model.run(command);
        let told = Told::expected(command, &answer);
        let model = self.model.model.as_ref().expect("commands keep an image");
        self.expected.update(command, model);
        let kept = answer.changes_nothing(command);
        for side in &mut self.sides {
            side.run(command, &told);
            check_batch(side.call, &side.before, command, &answer, &side.lent);
            if kept {
                assert!(side.lent == side.before, "{}: {command:?} changed bytes", side.name);
            } else {
                side.compare(command, model, &self.expected);
                side.before.clone_from(&side.lent);
            }
        }
        answer
    }

    /// The bytes are the model's, without what was kept of earlier ones; replies on them read back.
    pub fn check(&mut self) {
        let model = self.model.model.as_ref().expect("commands keep an image");
        assert!(model.keeps_rules());
        self.expected = Expected::new(model);
        for side in &mut self.sides {
            side.compare(&Command::SetUp, model, &self.expected);
        }
        self.check_replies();
    }
}

impl Side {
    fn run(&mut self, command: &Command, expected: &Told) {
        let told = Told::of(&mut self.lent, self.call, command);
        if told != *expected {
            let (name, codes) = (self.name, [(told.code, told.values), (expected.code, expected.values)]);
            panic!("{name}: {command:?} told {:?} instead of {:?}", codes[0], codes[1]);
        }
    }

    fn compare(&mut self, command: &Command, model: &Model, expected: &Expected) {
        let (name, used) = (self.name, expected.slots.len());
        let (slots, tail) = self.lent.store().split_at(used);
        let differs = |(place, (a, b)): (usize, (&[u8], &[u8]))| (a != b).then_some(place);
        let pairs = slots.chunks(SLOT_BYTES).zip(expected.slots.chunks(SLOT_BYTES));
        if let Some(place) = pairs.enumerate().find_map(differs) {
            panic!("{name}: slot {place} after {command:?}");
        }
        assert!(*tail == self.before.store()[used..], "{name}: bytes past the last slot after {command:?}");
        assert_eq!(self.lent.last_id(), model.ledger.last_id, "{name}: last ID after {command:?}");
        let state = self.lent.state();
        if self.record != state[RECORD..REGIONS] {
            self.record = state[RECORD..REGIONS].to_vec();
            let read = record::read(&self.record);
            (self.index, _) = read.unwrap_or_else(|_| panic!("{name}: no index after {command:?}"));
        }
        assert_eq!(self.index, image::index(&model.cut), "{name}: index after {command:?}");
        assert!(state[REGIONS..] == expected.regions, "{name}: groups after {command:?}");
        assert!(self.lent.has_guards(), "{name}: bytes beside after {command:?}");
    }
}

/// A command on bytes that may be damaged, on each side. The model's answer, which goes by what the bytes are the image of.
pub fn run_damaged(lent: &Lent, held: Option<Model>, command: &Command) -> Answer {
    run_on(&mut lent.clone(), held, command)
}

/// The same on bytes that the command then leaves as the proved side does.
pub fn run_on(lent: &mut Lent, held: Option<Model>, command: &Command) -> Answer {
    let mut model = Store { length: lent.store().len(), model: held };
    let answer = model.run(command);
    let expected = Told::expected(command, &answer);
    let before = lent.clone();
    for (name, call) in SIDES.into_iter().rev() {
        lent.clone_from(&before);
        let told = Told::of(lent, call, command);
        assert!(told == expected, "{name}: {command:?} told {} instead of {}", told.code, expected.code);
        check_batch(call, &before, command, &answer, lent);
        if answer.changes_nothing(command) {
            assert!(*lent == before, "{name}: {command:?} changed bytes");
        } else {
            assert_eq!(lent.read().as_ref(), model.model.as_ref(), "{name}: {command:?}");
        }
    }
    answer
}
