//! Random inputs for tests: messages, nodes, groups and commands. Equal seeds give equal inputs.

use crate::groups::{Group, MOST_BATCH};
use crate::id::Id;
use crate::ledger::{Command, Ledger, Store, LARGEST_REPORTED};
use crate::message::{Message, Name};
use crate::node::{self, Node};
use crate::reply::{Reply, LAST_REFUSAL, MOST_COUNTED};
use crate::rng::Rng;
use crate::slip;
use crate::snapshot;

/// A field name; few, so that messages often share them.
fn field(rng: &mut Rng) -> Vec<u8> {
    let fields: [&[u8]; 8] = [b"a", b"b", b"temp", b"", b"0", b"-7", b"128", b"007"];
    if rng.one_in(60) {
        return string(rng);
    }
    rng.pick(&fields).to_vec()
}

/// A string of a message: an integer, short bytes, or now and then up to 1,000 bytes.
fn string(rng: &mut Rng) -> Vec<u8> {
    match rng.below(20) {
        0 => end_of_reports(rng),
        1..=7 => {
            let pattern = rng.next() >> rng.below(64);
            crate::decimal::text_of_pattern(if rng.one_in(3) { pattern.wrapping_neg() } else { pattern })
        }
        8..=17 => {
            let length = rng.size_below(20);
            rng.bytes(length)
        }
        18 => {
            let length = rng.size_below(140);
            rng.digits(length)
        }
        _ => {
            let length = 1_000 - rng.size_below(1_001);
            rng.bytes(length)
        }
    }
}

/// The largest or the smallest integer that a report takes, or the first beyond it.
fn end_of_reports(rng: &mut Rng) -> Vec<u8> {
    let end = LARGEST_REPORTED + rng.below(2) as i64;
    crate::decimal::text(if rng.one_in(2) { end } else { -end })
}

/// A message that keeps its rule; it may be too long for a node.
pub fn message(rng: &mut Rng) -> Message {
    let pairs = match rng.below(80) {
        0 => return long_message(rng),
        1..=4 => 1 + rng.below(32),
        _ => 1 + rng.below(3),
    };
    (0..pairs).map(|_| (field(rng), string(rng))).collect()
}

/// A message that makes a node of about 3,000 to 5,000 bytes.
fn long_message(rng: &mut Rng) -> Message {
    let values = 3 + rng.below(3);
    (0..values).map(|_| (field(rng), vec![b'x'; 950 + rng.size_below(51)])).collect()
}

/// One small integer, mostly of the same field.
fn small_message(rng: &mut Rng) -> Message {
    let field: &[u8] = if rng.one_in(50) { b"u" } else { b"t" };
    vec![(field.to_vec(), crate::decimal::text(rng.below(120) as i64))]
}

/// A message of up to 2,000 bytes.
fn longer_message(rng: &mut Rng) -> Message {
    (0..1 + rng.below(2)).map(|_| (field(rng), vec![b'x'; 300 + rng.size_below(701)])).collect()
}

/// A message that makes a node of at most 4,095 bytes.
fn message_that_fits(rng: &mut Rng) -> Message {
    loop {
        let pairs = message(rng);
        if node::fits_alone(&pairs) {
            return pairs;
        }
    }
}

/// An ID above another, mostly near it.
fn id_above(rng: &mut Rng, id: Id) -> Option<Id> {
    match rng.below(12) {
        0..=4 => id.following(),
        5..=8 => Some(Id::new(id.ms.checked_add(1 + rng.below(5))?, rng.below(3))),
        9 => Some(Id::new(id.ms, id.seq.checked_add(1 + rng.below(1 << 20))?)),
        10 => Some(Id::new(id.ms.checked_add(1)?, rng.next())),
        _ => Some(Id::new(id.ms.checked_add(1 + (rng.next() >> (16 + rng.below(40))))?, rng.next())),
    }
}

/// A node that keeps its rules.
pub fn node(rng: &mut Rng) -> Node {
    let mut node = Node::of_one(Id::new(rng.below(9), 1 + rng.below(9)), message_that_fits(rng));
    for _ in 0..rng.below(120) {
        let Some(id) = id_above(rng, node.greatest_id()) else {
            break;
        };
        let Some(after) = node.after_add(id, &message(rng)) else {
            break;
        };
        node = after;
        if rng.one_in(3) && node.live_count() > 1 {
            let id = rng.pick(&node.entries).id;
            node.delete(id);
        }
    }
    node
}

/// A group that keeps its rules, with its name.
pub fn group(rng: &mut Rng) -> (Name, Group) {
    let length = 1 + rng.size_below(16);
    let name = rng.bytes(length);
    let mut group = Group::new(Id::new(rng.below(3), rng.below(3)));
    for _ in 0..rng.below(300) {
        let consumer = consumer(rng);
        let Some(id) = id_above(rng, group.last_delivered) else {
            break;
        };
        // Refusals leave the group as it is.
        let _ = match rng.below(8) {
            0 => Ok(group.acknowledge(group.last_delivered)).map(|_| ()),
            1 => group.claim(&consumer, 0, group.last_delivered, rng.next()).map(|_| ()),
            2 if rng.one_in(20) => Ok(group.drop_consumer(&consumer)).map(|_| ()),
            _ => group.deliver(&consumer, id, rng.next()),
        };
    }
    (name, group)
}

/// A reply that is one: mostly of a few messages.
pub fn reply(rng: &mut Rng) -> Reply {
    match rng.below(8) {
        0 => Reply::Integer(rng.below(MOST_COUNTED + 1)),
        1 => Reply::Error(1 + rng.below(LAST_REFUSAL)),
        _ => {
            let mut messages: Vec<(Id, Message)> = Vec::new();
            for _ in 0..rng.below(5) {
                let last = messages.last().map_or(Id::LEAST, |&(id, _)| id);
                let Some(id) = id_above(rng, last) else { break };
                messages.push((id, message_that_fits(rng)));
            }
            Reply::Range(messages)
        }
    }
}

/// The name of one of some 20 consumers.
fn consumer(rng: &mut Rng) -> Name {
    let number = rng.below(20);
    format!("consumer{number}").into_bytes()
}

/// What a list of commands is like.
#[derive(Clone, Copy, Debug, PartialEq, Eq)]
pub enum Mood {
    /// Commands of every kind.
    Mixed,
    /// No set up, load, destroy, drop or greatest ID, so that the store and its groups fill up.
    Fills,
    /// Likewise, with messages of one small integer: a node has 100 live ones.
    FillsSmall,
    /// Likewise, with long messages: a node has a few.
    FillsLong,
    /// Small messages, and trims to some 50: a node has many deleted ones.
    Rolls,
}

/// Makes commands that suit what a store holds, so that answers of every kind come up.
pub struct Commands {
    rng: Rng,
    mood: Mood,
    only_fills: bool,
    /// Snapshots of earlier ledgers.
    files: Vec<Vec<u8>>,
}

impl Commands {
    /// Odd seeds give lists that only fill.
    pub fn new(seed: u64) -> Commands {
        Commands::with_mood(seed, if seed % 2 == 1 { Mood::Fills } else { Mood::Mixed })
    }

    pub fn with_mood(seed: u64, mood: Mood) -> Commands {
        Commands { rng: Rng::new(seed), mood, only_fills: mood != Mood::Mixed, files: Vec::new() }
    }

    pub fn next(&mut self, store: &Store) -> Command {
        let empty = Ledger::empty();
        let ledger = store.model.as_ref().map_or(&empty, |model| &model.ledger);
        if ledger.last_id == Id::GREATEST && self.rng.one_in(30) {
            return Command::SetUp;
        }
        match self.rng.below(1_000) {
            0 if !self.only_fills => Command::SetUp,
            1..=5 if !self.only_fills => self.load(ledger),
            0..=16 => Command::Save { room: self.room() },
            17..=316 => self.add(ledger),
            317..=416 => Command::AddByClock { time: self.time(ledger), slip: self.slip() },
            417..=496 => Command::Delete { id: self.id(ledger) },
            497..=506 => Command::Trim { keep: self.keep(ledger) },
            507..=536 => Command::Next { id: self.id(ledger) },
            537..=576 => Command::Read { id: self.id(ledger), room: self.room() },
            577..=616 => Command::Field { id: self.id(ledger), name: self.field_name(), room: self.room() },
            617..=646 => self.report(ledger),
            647..=666 => self.range_reply(ledger),
            _ => self.group_command(ledger),
        }
    }

    /// Mostly of a name that a live message has, and over a range that is not empty.
    fn report(&mut self, ledger: &Ledger) -> Command {
        let message = ledger.messages.get(&self.id(ledger));
        let name = match message {
            Some(pairs) if !self.rng.one_in(4) => self.rng.pick(pairs).0.clone(),
            _ => self.field_name(),
        };
        let (first, last) = self.range(ledger);
        Command::Report { name, first, last }
    }

    /// Mostly an output that just holds the reply.
    fn range_reply(&mut self, ledger: &Ledger) -> Command {
        let (first, last) = self.range(ledger);
        let exact = ledger.range_reply(first, last).to_bytes().len();
        let room = match self.rng.below(8) {
            0 => exact - 1,
            1 => self.rng.size_below(exact),
            2 => exact + self.rng.size_below(40),
            _ => exact,
        };
        Command::RangeReply { first, last, room }
    }

    /// The whole, or mostly from one ID up to another.
    fn range(&mut self, ledger: &Ledger) -> (Id, Id) {
        let (one, other) = (self.id(ledger), self.id(ledger));
        match self.rng.below(6) {
            0..=1 => (Id::LEAST, Id::GREATEST),
            2 => (one, other),
            _ => (one.min(other), one.max(other)),
        }
    }

    fn group_command(&mut self, ledger: &Ledger) -> Command {
        let group = self.group_name();
        let consumer = self.consumer_name();
        match self.rng.below(100) {
            0..=9 => Command::CreateGroup { group, start: self.start(ledger) },
            10 if !self.only_fills => Command::DestroyGroup { group },
            11..=12 if !self.only_fills => Command::DropConsumer { group, consumer },
            10..=60 => Command::GroupRead { group, consumer, now: self.now() },
            61..=72 => self.group_read_many(group, consumer),
            73..=76 => Command::Acknowledge { id: self.pending_id(ledger, &group), group },
            77..=88 => {
                let (id, least_idle, now) =
                    (self.pending_id(ledger, &group), self.rng.below(3) * 300, self.now());
                Command::Claim { group, consumer, least_idle, id, now }
            }
            _ => Command::NextPending { after: self.after(ledger, &group), group, consumer },
        }
    }

    /// Mostly a few messages and an output that just holds their IDs.
    fn group_read_many(&mut self, group: Name, consumer: Name) -> Command {
        let n = match self.rng.below(16) {
            0 => 0,
            1 => MOST_BATCH - self.rng.below(2),
            2 => *self.rng.pick(&[MOST_BATCH + 1, (1 << 32) + 1, u64::MAX]),
            3..=4 => self.rng.below(MOST_BATCH),
            _ => 1 + self.rng.below(5),
        };
        let exact = 16 * n.min(MOST_BATCH) as usize;
        let room = match self.rng.below(12) {
            0 => exact.saturating_sub(1),
            1 => self.rng.size_below(exact + 1),
            2 => exact + self.rng.size_below(40),
            _ => exact,
        };
        Command::GroupReadMany { group, consumer, now: self.now(), n, room }
    }

    /// Mostly an ID above the last one.
    fn add(&mut self, ledger: &Ledger) -> Command {
        let id = match self.rng.below(1_500) {
            0..=1 if !self.only_fills => Id::GREATEST,
            0..=100 => self.id(ledger).min(ledger.last_id),
            _ => id_above(&mut self.rng, ledger.last_id).unwrap_or(ledger.last_id),
        };
        Command::Add { id, slip: self.slip() }
    }

    /// Mostly a valid slip; now and then a byte is changed or the end is cut off.
    fn slip(&mut self) -> Vec<u8> {
        let message = match self.mood {
            Mood::Mixed | Mood::Fills => message(&mut self.rng),
            Mood::FillsSmall | Mood::Rolls => small_message(&mut self.rng),
            Mood::FillsLong => longer_message(&mut self.rng),
        };
        let mut slip = slip::write(&message);
        let place = self.rng.size_below(slip.len());
        match self.rng.below(40) {
            0 => slip[place] = self.rng.byte(),
            1 => slip.truncate(place),
            _ => (),
        }
        slip
    }

    /// A snapshot of this, an earlier or another ledger; half of the time with a byte changed.
    fn load(&mut self, ledger: &Ledger) -> Command {
        let other = other_ledger(1 + self.rng.below(64));
        let ledger = if self.rng.one_in(8) { &other } else { ledger };
        self.files.extend(snapshot::snapshot(ledger));
        self.files.drain(..self.files.len().saturating_sub(4));
        let mut file = if self.files.is_empty() { vec![0] } else { self.rng.pick(&self.files).clone() };
        if self.rng.one_in(2) {
            let place = self.rng.size_below(file.len());
            file[place] = self.rng.byte();
        }
        Command::Load { file }
    }

    fn id(&mut self, ledger: &Ledger) -> Id {
        let live: Vec<Id> = ledger.messages.keys().copied().collect();
        match self.rng.below(12) {
            0 => Id::new(self.rng.below(20), self.rng.below(3)),
            1 => ledger.last_id,
            2 => *self.rng.pick(&[Id::LEAST, Id::GREATEST, Id::new(0, 1), Id::new(u64::MAX, 0)]),
            3 if !live.is_empty() => self.rng.pick(&live).following().unwrap_or(Id::LEAST),
            _ if !live.is_empty() => *self.rng.pick(&live),
            _ => Id::LEAST,
        }
    }

    fn pending_id(&mut self, ledger: &Ledger, group: &[u8]) -> Id {
        let pending: Vec<Id> =
            ledger.groups.get(group).map_or(vec![], |group| group.pending.keys().copied().collect());
        if pending.is_empty() || self.rng.one_in(8) {
            return self.id(ledger);
        }
        *self.rng.pick(&pending)
    }

    fn after(&mut self, ledger: &Ledger, group: &[u8]) -> Id {
        if self.rng.one_in(2) {
            return Id::LEAST;
        }
        self.pending_id(ledger, group)
    }

    fn start(&mut self, ledger: &Ledger) -> Id {
        if self.rng.one_in(2) {
            return Id::LEAST;
        }
        self.id(ledger)
    }

    /// Lengths from 0, often enough for any answer.
    fn room(&mut self) -> usize {
        match self.rng.below(4) {
            0 => self.rng.size_below(40),
            1 => self.rng.size_below(5_000),
            _ => 1 << 20,
        }
    }

    fn keep(&mut self, ledger: &Ledger) -> u64 {
        match self.rng.below(10) {
            0 => self.rng.next(),
            1 if !self.only_fills => 0,
            _ if self.mood == Mood::Rolls => 40 + self.rng.below(20),
            _ => (ledger.messages.len() as u64).saturating_sub(self.rng.below(30)),
        }
    }

    /// Often equal to or below the last ms.
    fn time(&mut self, ledger: &Ledger) -> u64 {
        match self.rng.below(10) {
            0..=3 => ledger.last_id.ms.saturating_add(1 + self.rng.below(1_000)),
            4..=7 => ledger.last_id.ms,
            _ => ledger.last_id.ms.saturating_sub(self.rng.below(1_000)),
        }
    }

    fn now(&mut self) -> u64 {
        if self.rng.one_in(50) {
            return self.rng.next();
        }
        1_000 + self.rng.below(1_000)
    }

    fn field_name(&mut self) -> Vec<u8> {
        if self.rng.one_in(20) {
            return vec![b'x'; 1_000 + self.rng.size_below(2)];
        }
        field(&mut self.rng)
    }

    /// One of ten names, one of them most often; seldom one that breaks the rule.
    fn group_name(&mut self) -> Name {
        match self.rng.below(80) {
            0 => vec![],
            1 => vec![b'g'; 16 + self.rng.size_below(3)],
            2..=49 => b"a".to_vec(),
            _ => format!("group{}", self.rng.below(9)).into_bytes(),
        }
    }

    fn consumer_name(&mut self) -> Name {
        match self.rng.below(80) {
            0 => vec![],
            1 => vec![b'c'; 16 + self.rng.size_below(3)],
            _ => consumer(&mut self.rng),
        }
    }
}

/// A ledger of this many nodes: each message is too long for two of them to share a node.
fn other_ledger(nodes: u64) -> Ledger {
    let mut ledger = Ledger::empty();
    for ms in 1..=nodes {
        ledger.messages.insert(Id::new(ms, 0), vec![(b"a".to_vec(), vec![b'x'; 800]); 3]);
    }
    ledger.last_id = Id::new(nodes, 0);
    ledger
}

#[cfg(test)]
mod tests {
    use super::*;
    use crate::message::is_message;

    #[test]
    fn values_keep_their_rules() {
        let mut rng = Rng::new(9);
        for _ in 0..200 {
            assert!(is_message(&message(&mut rng)));
            assert!(node(&mut rng).keeps_rules());
            assert!(group(&mut rng).1.keeps_rules());
            assert!(reply(&mut rng).keeps_rules());
            let id = Id::new(rng.next(), rng.next());
            assert!(id_above(&mut rng, id).is_none_or(|above| above > id));
        }
    }

    #[test]
    fn equal_seeds_give_equal_commands() {
        let store = Store::fresh(8192);
        let (mut a, mut b) = (Commands::new(1), Commands::new(1));
        assert!((0..200).all(|_| a.next(&store) == b.next(&store)));
    }
}
