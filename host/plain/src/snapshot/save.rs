//! Save: two passes over the live messages, one for the sizes and one for the bytes.

use wallathi_model::groups::REGION_BYTES;
use wallathi_model::id::Id;
use wallathi_model::ledger::MOST_SLOTS;

use super::live::{live_messages, Live};
use super::{CONTENTS, ENTRY, GROUP, ID_BYTES, LAST_ID, NODE, VERSION};
use crate::image::{self, Row};
use crate::listpack::write_integer;
use crate::{groups, node};

/// A node of the fresh cut.
#[derive(Clone, Copy)]
struct Fresh {
    key: Id,
    live: usize,
    total: usize,
    elements: usize,
}

/// The nodes of the fresh cut.
struct Cut {
    count: usize,
    nodes: [Fresh; MOST_SLOTS],
}

impl Cut {
    fn nodes(&self) -> &[Fresh] {
        &self.nodes[..self.count]
    }
}

/// The number of elements of a message.
fn elements(message: &Live, matching: bool) -> usize {
    if matching {
        4 + message.count
    } else {
        5 + 2 * message.count
    }
}

/// The fresh cut; none where it needs over 64 nodes.
fn cut(store: &[u8], rows: &[Row]) -> Option<Cut> {
    let none = Fresh { key: Id::LEAST, live: 0, total: 0, elements: 0 };
    let mut cut = Cut { count: 0, nodes: [none; MOST_SLOTS] };
    let mut messages = live_messages(store, rows);
    let Some(mut first) = messages.next() else { return Some(cut) };
    let mut node = alone(&first);
    for message in messages {
        match message.added_to(&first, node.live, node.total) {
            Some((total, matching)) => {
                let elements = node.elements + elements(&message, matching);
                node = Fresh { live: node.live + 1, total, elements, ..node };
            }
            None => {
                *cut.nodes.get_mut(cut.count)? = node;
                cut.count += 1;
                (node, first) = (alone(&message), message);
            }
        }
    }
    *cut.nodes.get_mut(cut.count)? = node;
    cut.count += 1;
    Some(cut)
}

fn alone(message: &Live) -> Fresh {
    let elements = 4 + message.count + elements(message, true);
    Fresh { key: message.id, live: 1, total: message.size_alone(), elements }
}

/// Writes one after the other.
struct Writer<'a> {
    out: &'a mut [u8],
    at: usize,
}

impl Writer<'_> {
    #[inline]
    fn bytes(&mut self, bytes: &[u8]) {
        self.out[self.at..self.at + bytes.len()].copy_from_slice(bytes);
        self.at += bytes.len();
    }

    #[inline]
    fn integer(&mut self, number: i64) {
        self.at += write_integer(&mut self.out[self.at..], number).expect("there is room");
    }

    #[inline]
    fn small(&mut self, number: usize) {
        self.bytes(&[number as u8, 1]);
    }

    fn entry(&mut self, kind: u8, offset: &mut usize, length: usize) {
        self.bytes(&[kind]);
        self.bytes(&(*offset as u32).to_le_bytes());
        self.bytes(&(length as u32).to_le_bytes());
        *offset += length;
    }

    fn head(&mut self, node: &Fresh, first: &Live) {
        self.bytes(&node.key.to_bytes());
        self.bytes(&(node.total as u32).to_le_bytes());
        self.bytes(&(node.elements as u16).to_le_bytes());
        self.small(node.live);
        self.small(0);
        self.small(first.count);
        first.names().for_each(|name| self.bytes(name));
        self.small(0);
    }

    #[inline]
    fn message(&mut self, message: &Live, first: &Live) {
        let matching = message.has_names_of(first);
        let (ms, seq) = message.id.difference(first.id);
        self.small(if matching { 2 } else { 0 });
        self.integer(ms);
        self.integer(seq);
        if !matching {
            self.small(message.count);
        }
        if matching != message.own {
            // The values alone or the pairs, as they lie.
            self.bytes(message.body);
        } else if matching {
            message.values().for_each(|value| self.bytes(value));
        } else {
            message.names().zip(message.values()).for_each(|(name, value)| {
                self.bytes(name);
                self.bytes(value);
            });
        }
        self.small(elements(message, matching) - 1);
    }
}

fn regions(state: &[u8]) -> impl Iterator<Item = &[u8]> {
    image::area(state).chunks_exact(REGION_BYTES).take_while(|region| region[0] != 0)
}

pub fn save(store: &[u8], state: &[u8], out: &mut [u8], length: &mut u64) -> u32 {
    let Some(image) = image::judge(store, state) else { return 2 };
    let Some(cut) = cut(store, image.rows()) else { return 15 };
    let entries = 1 + cut.count + regions(state).count();
    let nodes: usize = cut.nodes().iter().map(|node| ID_BYTES + node.total).sum();
    let groups: usize = regions(state).map(groups::body_length).sum();
    let mut offset = CONTENTS + ENTRY * entries;
    let total = offset + ID_BYTES + nodes + groups;
    let Some(out) = out.get_mut(..total) else { return 8 };
    let mut writer = Writer { out, at: 0 };
    writer.bytes(&[VERSION, entries as u8, 0]);
    writer.entry(LAST_ID, &mut offset, ID_BYTES);
    cut.nodes().iter().for_each(|node| writer.entry(NODE, &mut offset, ID_BYTES + node.total));
    regions(state).for_each(|region| writer.entry(GROUP, &mut offset, groups::body_length(region)));
    writer.bytes(&image.last.to_bytes());
    write_nodes(&mut writer, store, image.rows(), &cut);
    for region in regions(state) {
        let end = writer.at + groups::body_length(region);
        groups::write_body(region, &mut writer.out[writer.at..end]);
        writer.at = end;
    }
    *length = total as u64;
    0
}

fn write_nodes(writer: &mut Writer, store: &[u8], rows: &[Row], cut: &Cut) {
    let mut messages = live_messages(store, rows);
    for node in cut.nodes() {
        let first = messages.next().expect("a node has a message");
        writer.head(node, &first);
        writer.message(&first, &first);
        messages.by_ref().take(node.live - 1).for_each(|message| writer.message(&message, &first));
        writer.bytes(&[node::END]);
    }
}
