//! Load: the file is judged wholly before the first byte is written.

use wallathi_model::groups::{MOST_GROUPS, REGION_BYTES};
use wallathi_model::id::Id;
use wallathi_model::ledger::{Cut, MOST_SLOTS};

use super::live::Live;
use super::{CONTENTS, ENTRY, GROUP, ID_BYTES, LAST_ID, NODE, VERSION};
use crate::image;
use crate::index::Entries;
use crate::node::{self, Sound, SLOT_BYTES};
use crate::{groups, groups::id_at};

/// The entries of a file and its bodies, back to back from there on.
#[derive(Clone)]
struct Bodies<'a> {
    file: &'a [u8],
    entries: &'a [u8],
    at: usize,
}

impl<'a> Bodies<'a> {
    fn new(file: &'a [u8]) -> Option<Bodies<'a>> {
        let &[VERSION, low, high, ..] = file else { return None };
        let at = CONTENTS + ENTRY * usize::from(u16::from_le_bytes([low, high]));
        Some(Bodies { file, entries: file.get(CONTENTS..at)?, at })
    }

    /// The next body, where it has this kind; it has to stand after the one before it.
    fn of_kind(&mut self, kind: u8) -> Option<Option<&'a [u8]>> {
        let Some((entry, rest)) = self.entries.split_first_chunk::<ENTRY>() else { return Some(None) };
        if entry[0] != kind {
            return Some(None);
        }
        let number = |at: usize| u32::from_le_bytes(entry[at..at + 4].try_into().expect("4 bytes")) as usize;
        let (offset, length) = (number(1), number(5));
        if offset != self.at {
            return None;
        }
        let body = self.file.get(offset..)?.get(..length)?;
        (self.entries, self.at) = (rest, offset + length);
        Some(Some(body))
    }

    fn is_at_end(&self) -> bool {
        self.entries.is_empty() && self.at == self.file.len()
    }
}

/// A node of the file: what it holds, and its first message.
struct Node<'a> {
    sound: Sound,
    first: Live<'a>,
}

/// The node of a body, above the one before it, which would not have taken its first message.
fn read_node<'a>(body: &'a [u8], before: Option<&Node>) -> Option<Node<'a>> {
    let (key, listpack) = body.split_first_chunk::<ID_BYTES>()?;
    let key = Id::from_bytes(*key);
    if before.is_some_and(|before| key <= before.sound.greatest) {
        return None;
    }
    let sound = node::read_listpack(listpack, key).filter(|sound| sound.deleted == 0)?;
    let first = Live::first(listpack, &sound, key)?;
    let taken =
        before.and_then(|before| first.added_to(&before.first, before.sound.live, before.sound.total));
    taken.is_none().then_some(Node { sound, first })
}

/// The number of nodes of a file that is a snapshot.
fn judge(file: &[u8]) -> Option<usize> {
    let mut bodies = Bodies::new(file)?;
    let last = bodies.of_kind(LAST_ID)??;
    let last = Id::from_bytes(last.try_into().ok()?);
    let (mut nodes, mut before) = (0, None);
    while let Some(body) = bodies.of_kind(NODE)? {
        before = Some(read_node(body, before.as_ref())?);
        nodes += 1;
    }
    if before.is_some_and(|node| node.sound.greatest > last) {
        return None;
    }
    let (mut count, mut above): (usize, &[u8]) = (0, &[]);
    while let Some(body) = bodies.of_kind(GROUP)? {
        above = groups::name_of_body(body, last).filter(|&name| name > above)?;
        count += 1;
    }
    (bodies.is_at_end() && nodes <= MOST_SLOTS && count <= MOST_GROUPS).then_some(nodes)
}

pub fn load(store: &mut [u8], state: &mut [u8], file: &[u8]) -> u32 {
    let slots = Cut::slot_count(store.len());
    if slots == 0 {
        return 1;
    }
    let Some(nodes) = judge(file) else { return 16 };
    if nodes > slots {
        return 17;
    }
    let write = write(&mut store[..slots * SLOT_BYTES], state, file);
    write.expect("a snapshot");
    0
}

fn write(slots: &mut [u8], state: &mut [u8], file: &[u8]) -> Option<()> {
    let mut bodies = Bodies::new(file)?;
    state.fill(0);
    image::set_last(state, id_at(bodies.of_kind(LAST_ID)??, 0));
    let (mut entries, mut slot) = (Entries::new(), 0);
    while let Some(body) = bodies.of_kind(NODE)? {
        entries.push(image::key_of(id_at(body, 0)), slot as u32)?;
        let (node, rest) = image::slot_mut(slots, slot).split_at_mut(body.len() - ID_BYTES);
        node.copy_from_slice(&body[ID_BYTES..]);
        rest.fill(0);
        slot += 1;
    }
    slots[slot * SLOT_BYTES..].fill(0);
    image::set_index(state, &entries);
    let mut regions = image::area_mut(state).chunks_exact_mut(REGION_BYTES);
    while let Some(body) = bodies.of_kind(GROUP)? {
        groups::write_region(body, regions.next()?);
    }
    Some(())
}
