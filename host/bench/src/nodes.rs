//! What is measured of a node in its slot. Each call judges the slot first, on both sides.

use std::hint::black_box;

use bench::{plain_node, proved};
use wallathi_model::id::Id;
use wallathi_model::message::Message;
use wallathi_model::node::Node;
use wallathi_model::slip;

use crate::{Run, Task};

const KEY: Id = Id::new(1_763_000_000_000, 0);

/// Messages by turns; full nodes are made of them.
type Make = fn(u64) -> Message;

fn text(name: &str) -> Vec<u8> {
    name.as_bytes().to_vec()
}

/// A reading of a sensor: a small integer and a text.
fn reading(turn: u64) -> Message {
    let note = ["all was quiet on this line 4", "the pump was restarted twice"][turn as usize % 2];
    vec![(text("temp"), text(&(turn % 60).to_string())), (text("note"), text(note))]
}

/// Many small integers.
fn integers(turn: u64) -> Message {
    (0..12).map(|field| (text(&format!("c{field}")), text(&(turn * 7 * field % 300).to_string()))).collect()
}

/// Messages whose first field has one of five names.
fn own_names(turn: u64) -> Message {
    let name = format!("sensor {}", turn % 5);
    vec![(text(&name), text(&(turn % 60).to_string())), (text("note"), text("all was quiet"))]
}

/// One small integer.
fn short(turn: u64) -> Message {
    vec![(text("t"), text(&(turn % 60).to_string()))]
}

fn id(turn: u64) -> Id {
    Id::new(KEY.ms + turn * 3, 0)
}

/// The slot of a node that takes no further message, and as it was before the last one was appended.
struct Full {
    slot: Vec<u8>,
    before: Vec<u8>,
    last: u64,
}

impl Full {
    /// Appends by turns; where so many messages are live, the oldest is deleted first.
    fn new(make: Make, most_live: u64) -> Full {
        let mut slot = Node::of_one(KEY, make(0)).to_slot();
        let mut before = slot.clone();
        for turn in 1.. {
            let mut next = slot.clone();
            if turn >= most_live {
                plain_node::delete(&mut next, KEY, id(turn - most_live));
            }
            if !plain_node::append(&mut next, KEY, id(turn), &slip::write(&make(turn))) {
                return Full { slot, before, last: turn - 1 };
            }
            before = std::mem::replace(&mut slot, next);
        }
        unreachable!("a node has at most 4,096 bytes");
    }

    fn size(&self) -> usize {
        usize::from(u16::from_le_bytes([self.slot[0], self.slot[1]]))
    }

    fn middle(&self) -> Id {
        id(self.last / 2)
    }
}

const NODES: [(&str, Make, u64); 4] = [
    ("same fields, integer and text", reading, 1_000),
    ("same fields, 12 integers", integers, 1_000),
    ("own field names", own_names, 1_000),
    ("many deleted", short, 100),
];

fn judgement(name: &str, node: &Full) -> Task {
    let (slot, again) = (node.slot.clone(), node.slot.clone());
    assert!(proved::judge(&slot, KEY) && plain_node::judge(&slot, KEY));
    Task {
        name: format!("node, {name}"),
        bytes: Some(node.size()),
        proved: Box::new(move |times| {
            for _ in 0..times {
                black_box(proved::judge(black_box(&slot), black_box(KEY)));
            }
        }),
        plain: Box::new(move |times| {
            for _ in 0..times {
                black_box(plain_node::judge(black_box(&again), black_box(KEY)));
            }
        }),
    }
}

fn search(node: &Full) -> Task {
    let (slot, again) = (node.slot.clone(), node.slot.clone());
    let id = node.middle();
    assert!(proved::find(&slot, KEY, id) && plain_node::find(&slot, KEY, id));
    Task {
        name: "node, find the middle one".to_string(),
        bytes: None,
        proved: Box::new(move |times| {
            for _ in 0..times {
                black_box(proved::find(black_box(&slot), black_box(KEY), black_box(id)));
            }
        }),
        plain: Box::new(move |times| {
            for _ in 0..times {
                black_box(plain_node::find(black_box(&again), black_box(KEY), black_box(id)));
            }
        }),
    }
}

/// Runs a change on a copy of the slot; the copying is measured too, on both sides.
fn on_copies(slot: &[u8], change: impl Fn(&mut [u8]) -> bool + 'static) -> Run {
    let (slot, mut copy) = (slot.to_vec(), slot.to_vec());
    assert!(change(&mut copy));
    Box::new(move |times| {
        for _ in 0..times {
            copy.copy_from_slice(black_box(&slot));
            black_box(change(black_box(&mut copy)));
        }
    })
}

fn deletion(node: &Full) -> Task {
    let id = node.middle();
    Task {
        name: "node, delete the middle one".to_string(),
        bytes: None,
        proved: on_copies(&node.slot, move |slot| proved::delete(slot, black_box(KEY), black_box(id))),
        plain: on_copies(&node.slot, move |slot| plain_node::delete(slot, black_box(KEY), black_box(id))),
    }
}

/// The last message is appended to the node of all the others.
fn addition(make: Make, node: &Full) -> Task {
    let slip = slip::write(&make(node.last));
    let (id, other) = (id(node.last), slip.clone());
    Task {
        name: "node, append".to_string(),
        bytes: None,
        proved: on_copies(&node.before, move |slot| {
            proved::append(slot, black_box(KEY), black_box(id), black_box(&slip))
        }),
        plain: on_copies(&node.before, move |slot| {
            plain_node::append(slot, black_box(KEY), black_box(id), black_box(&other))
        }),
    }
}

/// Runs a reader into an output of its own.
fn into_output(slot: &[u8], read: impl Fn(&[u8], &mut [u8]) -> usize + 'static) -> Run {
    let (slot, mut out) = (slot.to_vec(), vec![0; 1_024]);
    assert!(read(&slot, &mut out) > 0);
    Box::new(move |times| {
        for _ in 0..times {
            black_box(read(black_box(&slot), black_box(&mut out)));
        }
    })
}

fn reading_one(node: &Full) -> Task {
    let id = node.middle();
    Task {
        name: "node, read the middle one".to_string(),
        bytes: None,
        proved: into_output(&node.slot, move |slot, out| {
            proved::read_message(slot, black_box(KEY), black_box(id), out)
        }),
        plain: into_output(&node.slot, move |slot, out| {
            plain_node::read_message(slot, black_box(KEY), black_box(id), out)
        }),
    }
}

fn field_of_one(node: &Full) -> Task {
    let id = node.middle();
    Task {
        name: "node, a field of the middle one".to_string(),
        bytes: None,
        proved: into_output(&node.slot, move |slot, out| {
            proved::field(slot, black_box(KEY), black_box(id), black_box(b"note"), out)
        }),
        plain: into_output(&node.slot, move |slot, out| {
            plain_node::field(slot, black_box(KEY), black_box(id), black_box(b"note"), out)
        }),
    }
}

pub fn tasks() -> Vec<Task> {
    let nodes = NODES.map(|(name, make, most_live)| (name, make, Full::new(make, most_live)));
    let mut tasks: Vec<Task> = nodes.iter().map(|(name, _, node)| judgement(name, node)).collect();
    let (_, make, node) = &nodes[0];
    tasks.extend([
        addition(*make, node),
        search(node),
        deletion(node),
        reading_one(node),
        field_of_one(node),
    ]);
    tasks
}
