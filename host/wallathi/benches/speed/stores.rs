//! The stores that are measured: one message, half full, full; a full one with groups that have no pending entries, for batches; and full
//! ones of other messages, for reports.

use std::collections::BTreeMap;

use wallathi_model::groups::{Group, MOST_BATCH};
use wallathi_model::id::Id;
use wallathi_model::ledger::{Cut, Ledger, Model, MOST_SLOTS};
use wallathi_model::message::{Message, Name};
use wallathi_model::node::{Entry, Node, MOST_LIVE};

pub const LENGTH: usize = 64 * 4_096;
const START: u64 = 1_763_000_000_000;

/// A store: what its messages are like and how many, how many groups, and consumers and pending entries of each group, and how many groups
/// without entries follow.
pub struct Fill {
    pub name: &'static str,
    pub shape: Shape,
    messages: u64,
    groups: u64,
    consumers: u64,
    pending: u64,
    new_groups: u64,
}

const FULL: Fill = Fill {
    name: "full",
    shape: Shape::Readings,
    messages: 6_350,
    groups: 8,
    consumers: 16,
    pending: 256,
    new_groups: 0,
};

/// The last node of each has room, and so has the last group with entries, for one.
pub const FILLS: [Fill; 6] = [
    Fill { name: "one message", messages: 1, groups: 2, consumers: 1, pending: 1, ..FULL },
    Fill { name: "half full", messages: 3_150, groups: 4, consumers: 8, pending: 128, ..FULL },
    FULL,
    Fill { name: "full, new groups", groups: 5, new_groups: 3, ..FULL },
    Fill { name: "full, own names", shape: Shape::OwnNames, ..FULL },
    Fill { name: "full, twelve fields", shape: Shape::TwelveFields, messages: 5_400, ..FULL },
];

/// What the messages of a store are like.
#[derive(Clone, Copy, PartialEq, Eq)]
pub enum Shape {
    /// All have the same names.
    Readings,
    /// Each has a name that no other of its node has.
    OwnNames,
    /// All have the same twelve names, and integers.
    TwelveFields,
}

impl Shape {
    fn message(self, turn: u64) -> Message {
        match self {
            Shape::Readings => reading(turn),
            Shape::OwnNames => own_names(turn),
            Shape::TwelveFields => twelve_fields(turn),
        }
    }

    /// How many of its messages a node takes, or nearly so.
    fn most_live(self) -> usize {
        if self == Shape::TwelveFields {
            85
        } else {
            MOST_LIVE
        }
    }

    /// A name that all messages have; of twelve, the last.
    pub fn channel(self) -> Name {
        if self == Shape::TwelveFields {
            station(11)
        } else {
            b"temp".to_vec()
        }
    }
}

/// A reading of a sensor: a small integer and a text; 100 of them nearly fill a node.
pub fn reading(turn: u64) -> Message {
    let note = ["all was quiet on this line 4", "the pump was restarted twice"][turn as usize % 2];
    vec![pair("temp", &(turn % 60).to_string()), pair("note", note)]
}

/// A text under a name of its own, and a small integer.
fn own_names(turn: u64) -> Message {
    vec![pair(&format!("note {}", turn % 100), "quiet"), pair("temp", &(turn % 60).to_string())]
}

/// Readings of twelve stations.
fn twelve_fields(turn: u64) -> Message {
    let value = |number: u64| (turn * 37 + number * 1_009) as i64 % 4_001 - 2_000;
    (0..12).map(|number| (station(number), value(number).to_string().into_bytes())).collect()
}

fn pair(field: &str, value: &str) -> (Vec<u8>, Vec<u8>) {
    (field.as_bytes().to_vec(), value.as_bytes().to_vec())
}

fn station(number: u64) -> Name {
    format!("station {number:02}").into_bytes()
}

impl Fill {
    pub fn id(&self, turn: u64) -> Id {
        Id::new(START + turn * 3, 0)
    }

    /// The message in the middle.
    pub fn middle(&self) -> Id {
        self.id(self.messages / 2)
    }

    /// An ID above the last.
    pub fn new_id(&self) -> Id {
        self.id(self.messages)
    }

    pub fn messages(&self) -> u64 {
        self.messages
    }

    fn group_name(number: u64) -> Name {
        format!("group {number}").into_bytes()
    }

    /// The group that has room for one more entry.
    pub fn open_group(&self) -> Name {
        Fill::group_name(self.groups - 1)
    }

    /// Whether batches are measured here.
    pub fn is_for_batches(&self) -> bool {
        self.new_groups > 0
    }

    /// A group without entries: before it are none of the messages, half of them, all but 256.
    pub fn new_group(&self, number: u64) -> Name {
        Fill::group_name(self.groups + number)
    }

    fn last_delivered(&self, number: u64) -> Id {
        match number {
            0 => Id::LEAST,
            1 => self.middle(),
            _ => self.id(self.messages - 1 - MOST_BATCH),
        }
    }

    /// A group that has all its entries.
    pub fn group(&self) -> Name {
        Fill::group_name(0)
    }

    /// One of the consumers.
    pub fn consumer(&self) -> Name {
        station(self.consumers / 2)
    }

    /// The pending ID in the middle.
    pub fn pending(&self) -> Id {
        self.id(self.pending / 2)
    }

    /// Entries of the first messages, by turns of the consumers.
    fn group_of(&self, pending: u64) -> Group {
        let mut group = Group::new(Id::LEAST);
        for turn in 0..pending {
            let time = START + turn * 5;
            group.deliver(&station(turn * 7 % self.consumers), self.id(turn), time).expect("there is room");
        }
        group
    }

    pub fn model(&self) -> Model {
        let pairs = |turn: u64| (self.id(turn), self.shape.message(turn));
        let messages: BTreeMap<Id, Message> = (0..self.messages).map(pairs).collect();
        let entry = |(&id, pairs): (&Id, &Message)| Entry { deleted: false, id, pairs: pairs.clone() };
        let entries: Vec<Entry> = messages.iter().map(entry).collect();
        let nodes = entries.chunks(self.shape.most_live());
        let nodes = nodes.map(|entries| Node { entries: entries.to_vec() }).collect();
        let last = self.pending.saturating_sub(1);
        let pending = |number: u64| if number + 1 < self.groups { self.pending } else { last };
        let group = |number| (Fill::group_name(number), self.group_of(pending(number)));
        let new_group = |number| (self.new_group(number), Group::new(self.last_delivered(number)));
        let groups = (0..self.groups).map(group).chain((0..self.new_groups).map(new_group)).collect();
        let ledger = Ledger { messages, last_id: self.id(self.messages - 1), groups };
        Model { ledger, cut: Cut::of_nodes(nodes, MOST_SLOTS).expect("at most 64 nodes") }
    }
}
