//! A live message as its node has it, and what it takes in another node.

use wallathi_model::id::Id;

use crate::image::{self, Row};
use crate::listpack::{element_size, integer_size};
use crate::node::walk::{fields_place, Message, Walk};
use crate::node::{Sound, MOST_BYTES, MOST_LIVE};

/// The bytes of a node's listpack without names and messages: header, counts, number of fields, 0, end byte.
const FRAME: usize = 6 + 4 * 2 + 1;

/// Names and values as elements, where they lie: apart where the fields are the node's, otherwise by turns in one slice.
#[derive(Clone, Copy)]
pub struct Live<'a> {
    pub id: Id,
    pub count: usize,
    pub own: bool,
    names: &'a [u8],
    pub body: &'a [u8],
    names_size: usize,
}

/// Elements one after the other.
struct Elements<'a>(&'a [u8]);

impl<'a> Iterator for Elements<'a> {
    type Item = &'a [u8];

    #[inline]
    fn next(&mut self) -> Option<&'a [u8]> {
        if self.0.is_empty() {
            return None;
        }
        let (element, rest) = self.0.split_at(element_size(self.0));
        self.0 = rest;
        Some(element)
    }
}

impl<'a> Live<'a> {
    /// A message of a node that is in order, whose master has these names.
    #[inline(always)]
    fn new(node: &'a [u8], key: Id, message: Message, fields: &'a [u8], count: usize) -> Live<'a> {
        let id = message.id(key);
        if message.is_matching() {
            let body = &node[message.body..message.body_end];
            return Live { id, count, own: false, names: fields, body, names_size: fields.len() };
        }
        let body = &node[message.body + 2..message.body_end];
        let names_size = Elements(body).step_by(2).map(<[u8]>::len).sum();
        Live { id, count: usize::from(node[message.body]), own: true, names: body, body, names_size }
    }

    /// The first message of a node.
    pub fn first(node: &'a [u8], sound: &Sound, key: Id) -> Option<Live<'a>> {
        Lives::new(node, sound, key).next()
    }

    pub fn names(&self) -> impl Iterator<Item = &'a [u8]> {
        Elements(self.names).step_by(if self.own { 2 } else { 1 })
    }

    pub fn values(&self) -> impl Iterator<Item = &'a [u8]> {
        Elements(self.body).skip(usize::from(self.own)).step_by(if self.own { 2 } else { 1 })
    }

    /// Equal strings have equal elements, and no element begins another. Messages of one node share their names where they lie.
    #[inline(always)]
    pub fn has_names_of(&self, other: &Live) -> bool {
        if self.own || other.own {
            return self.count == other.count && self.names().eq(other.names());
        }
        std::ptr::eq(self.names, other.names) || self.names == other.names
    }

    fn values_size(&self) -> usize {
        self.body.len() - if self.own { self.names_size } else { 0 }
    }

    /// The bytes of a message's elements in a node with this first message: flags, differences, body, count.
    #[inline(always)]
    fn size_after(&self, first: &Live, matching: bool) -> usize {
        let (ms, seq) = self.id.difference(first.id);
        let names = if matching { 0 } else { 2 + self.names_size };
        2 + integer_size(ms) + integer_size(seq) + names + self.values_size() + 2
    }

    /// The bytes of a node of this message alone.
    pub fn size_alone(&self) -> usize {
        FRAME + self.names_size + self.size_after(self, true)
    }

    /// The bytes of a node after an add of this message, and whether its fields are the node's; none where the add goes elsewhere.
    #[inline(always)]
    pub fn added_to(&self, first: &Live, live: usize, total: usize) -> Option<(usize, bool)> {
        if live >= MOST_LIVE {
            return None;
        }
        let matching = self.has_names_of(first);
        let after = total + self.size_after(first, matching);
        (after <= MOST_BYTES).then_some((after, matching))
    }
}

/// The live messages of a node that is in order.
struct Lives<'a> {
    node: &'a [u8],
    key: Id,
    walk: Walk,
    names: &'a [u8],
}

impl<'a> Lives<'a> {
    fn new(node: &'a [u8], sound: &Sound, key: Id) -> Lives<'a> {
        let walk = Walk::new(node, sound);
        // The names stand between their number and the 0.
        let names = &node[fields_place(sound.deleted) + 2..walk.at - 2];
        Lives { node, key, walk, names }
    }
}

impl<'a> Iterator for Lives<'a> {
    type Item = Live<'a>;

    #[inline(always)]
    fn next(&mut self) -> Option<Live<'a>> {
        let message = self.walk.find(self.node, |_| true)?;
        Some(Live::new(self.node, self.key, message, self.names, self.walk.fields))
    }
}

/// All live messages of an image, by rising ID.
pub fn live_messages<'a>(store: &'a [u8], rows: &'a [Row]) -> impl Iterator<Item = Live<'a>> {
    rows.iter().flat_map(|row| Lives::new(image::slot(store, row.slot), &row.node, row.key))
}
