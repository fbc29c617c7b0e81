//! Consumer groups (01, The ledger and Commands), their regions of the state and their bodies in a
//! snapshot.
//!
//! ```text
//! region    7,220 bytes, unused bytes zero
//!           name length (1) | name (16) | last delivered (16) | number of consumers (1)
//!           16 x ( length (1) | name (16) ) | number of pending (2, LE) | 256 x pending entry (27)
//! body      the same without unused bytes:
//!           name length (1) | name | last delivered (16) | number of consumers (1)
//!           consumers: length (1) | name ; number of pending (2, LE) | pending entries (27 each)
//! pending   ID (16, BE) | consumer's place from 0 (1) | time (8, LE) | count (2, LE)
//! ```
//!
//! Consumers stand by rising name, pending entries by rising ID.

use std::collections::{BTreeMap, BTreeSet};
use std::ops::Bound;

use crate::bytes::Reader;
use crate::id::Id;
use crate::message::{is_name, Name, LONGEST_NAME};
use crate::refusal::{Refusal, Refused, TOO_MANY_CONSUMERS, TOO_MANY_PENDING};

pub const MOST_GROUPS: usize = 8;
pub const MOST_CONSUMERS: usize = 16;
pub const MOST_PENDING: usize = 256;
/// A batch takes from 0 to this many (02, CR 1).
pub const MOST_BATCH: u64 = 256;
pub const PENDING_BYTES: usize = 27;
pub const REGION_BYTES: usize = 7_220;

/// A pending entry; its ID is its key in the group.
#[derive(Clone, Debug, PartialEq, Eq)]
pub struct Pending {
    pub consumer: Name,
    pub time: u64,
    /// 1 to 65,535.
    pub count: u16,
}

/// A group without its name, which is its key in the ledger. A pending ID has exactly one
/// consumer, as `pending` is a map.
#[derive(Clone, Debug, PartialEq, Eq)]
pub struct Group {
    pub last_delivered: Id,
    pub consumers: BTreeSet<Name>,
    pub pending: BTreeMap<Id, Pending>,
}

impl Group {
    pub fn new(last_delivered: Id) -> Group {
        Group { last_delivered, consumers: BTreeSet::new(), pending: BTreeMap::new() }
    }

    /// Every rule on a group by itself. That pending IDs are at most the last ID is the ledger's.
    pub fn keeps_rules(&self) -> bool {
        let entry_keeps = |(&id, entry): (&Id, &Pending)| {
            Id::LEAST < id
                && id <= self.last_delivered
                && self.consumers.contains(&entry.consumer)
                && entry.count >= 1
        };
        self.consumers.len() <= MOST_CONSUMERS
            && self.consumers.iter().all(|name| is_name(name))
            && self.pending.len() <= MOST_PENDING
            && self.pending.iter().all(entry_keeps)
    }

    /// Refusal 12: the consumer would be made and 16 exist.
    fn check_consumer(&self, consumer: &[u8]) -> Result<(), Refusal> {
        if !self.consumers.contains(consumer) && self.consumers.len() >= MOST_CONSUMERS {
            return Err(TOO_MANY_CONSUMERS);
        }
        Ok(())
    }

    /// Refusals 12 and 13, of a read that finds a live message.
    fn check_read(&self, consumer: &[u8]) -> Result<(), Refusal> {
        self.check_consumer(consumer)?;
        if self.pending.len() >= MOST_PENDING {
            return Err(TOO_MANY_PENDING);
        }
        Ok(())
    }

    /// Group read of a live message above the last delivered.
    pub fn deliver(&mut self, consumer: &[u8], id: Id, now: u64) -> Result<(), Refusal> {
        self.check_read(consumer)?;
        self.consumers.insert(consumer.to_vec());
        self.pending.insert(id, Pending { consumer: consumer.to_vec(), time: now, count: 1 });
        self.last_delivered = id;
        Ok(())
    }

    /// Batch reading (02, CR 1): `ids` are the first live messages above the last delivered, as many as are asked for and there are.
    /// Those for which an entry is free are delivered; they are the answer.
    pub fn deliver_batch<'a>(
        &mut self,
        consumer: &[u8],
        ids: &'a [Id],
        now: u64,
    ) -> Result<&'a [Id], Refusal> {
        if ids.is_empty() {
            return Ok(ids);
        }
        self.check_read(consumer)?;
        let free = MOST_PENDING - self.pending.len();
        let delivered = &ids[..ids.len().min(free)];
        let entry = Pending { consumer: consumer.to_vec(), time: now, count: 1 };
        self.pending.extend(delivered.iter().map(|&id| (id, entry.clone())));
        self.consumers.insert(consumer.to_vec());
        self.last_delivered = delivered[delivered.len() - 1];
        Ok(delivered)
    }

    /// The number of entries removed, 1 or 0.
    pub fn acknowledge(&mut self, id: Id) -> u64 {
        self.pending.remove(&id).map_or(0, |_| 1)
    }

    /// Whether the entry moved to the consumer.
    pub fn claim(&mut self, consumer: &[u8], least_idle: u64, id: Id, now: u64) -> Result<bool, Refusal> {
        let Some(entry) = self.pending.get(&id) else {
            return Ok(false);
        };
        let idle = now.saturating_sub(entry.time);
        if idle < least_idle {
            return Ok(false);
        }
        self.check_consumer(consumer)?;
        let count = entry.count.saturating_add(1);
        self.consumers.insert(consumer.to_vec());
        self.pending.insert(id, Pending { consumer: consumer.to_vec(), time: now, count });
        Ok(true)
    }

    /// The consumer's first entry above an ID.
    pub fn next_pending(&self, consumer: &[u8], after: Id) -> Option<(Id, &Pending)> {
        let above = self.pending.range((Bound::Excluded(after), Bound::Unbounded));
        above.map(|(&id, entry)| (id, entry)).find(|(_, entry)| entry.consumer == consumer)
    }

    /// Removes a consumer and its entries; the number of entries.
    pub fn drop_consumer(&mut self, consumer: &[u8]) -> u64 {
        let before = self.pending.len();
        self.consumers.remove(consumer);
        self.pending.retain(|_, entry| entry.consumer != consumer);
        (before - self.pending.len()) as u64
    }

    /// The pending entries' bytes.
    fn pending_bytes(&self) -> Vec<u8> {
        let mut bytes = Vec::new();
        for (id, entry) in &self.pending {
            let place = self.consumers.iter().position(|name| *name == entry.consumer);
            bytes.extend(id.to_bytes());
            bytes.push(place.expect("a consumer of the group") as u8);
            bytes.extend(entry.time.to_le_bytes());
            bytes.extend(entry.count.to_le_bytes());
        }
        bytes
    }
}

/// Length and name, without unused bytes.
fn short_name(name: &[u8]) -> Vec<u8> {
    [&[name.len() as u8][..], name].concat()
}

/// Length and name in 17 bytes.
fn wide_name(name: &[u8]) -> Vec<u8> {
    let mut bytes = short_name(name);
    bytes.resize(1 + LONGEST_NAME, 0);
    bytes
}

/// A group's region. The group keeps its rules.
pub fn region(name: &[u8], group: &Group) -> Vec<u8> {
    let mut bytes = wide_name(name);
    bytes.extend(group.last_delivered.to_bytes());
    bytes.push(group.consumers.len() as u8);
    let mut consumers = group.consumers.iter().flat_map(|name| wide_name(name)).collect::<Vec<u8>>();
    consumers.resize(MOST_CONSUMERS * (1 + LONGEST_NAME), 0);
    bytes.extend(consumers);
    bytes.extend((group.pending.len() as u16).to_le_bytes());
    bytes.extend(group.pending_bytes());
    bytes.resize(REGION_BYTES, 0);
    bytes
}

/// A group's body in a snapshot. The group keeps its rules.
pub fn body(name: &[u8], group: &Group) -> Vec<u8> {
    let mut bytes = short_name(name);
    bytes.extend(group.last_delivered.to_bytes());
    bytes.push(group.consumers.len() as u8);
    bytes.extend(group.consumers.iter().flat_map(|name| short_name(name)));
    bytes.extend((group.pending.len() as u16).to_le_bytes());
    bytes.extend(group.pending_bytes());
    bytes
}

/// The group in a region; none where the region is free, that is all zero.
pub fn read_region(bytes: &[u8]) -> Result<Option<(Name, Group)>, Refused> {
    if bytes.len() != REGION_BYTES {
        return Err(Refused);
    }
    if bytes.iter().all(|&byte| byte == 0) {
        return Ok(None);
    }
    let mut reader = Reader::new(bytes);
    let name = read_wide_name(&mut reader)?;
    let last_delivered = reader.id()?;
    let count = reader.length(1)?;
    let places =
        (0..MOST_CONSUMERS).map(|_| read_wide_name(&mut reader)).collect::<Result<Vec<Name>, Refused>>()?;
    let consumers = places.get(..count).ok_or(Refused)?;
    let group = read_pending(&mut reader, last_delivered, consumers)?;
    accept(name, group, |name, group| region(name, group) == bytes).map(Some)
}

/// The group whose snapshot body is the whole slice.
pub fn read_body(bytes: &[u8]) -> Result<(Name, Group), Refused> {
    let mut reader = Reader::new(bytes);
    let name = read_short_name(&mut reader)?;
    let last_delivered = reader.id()?;
    let count = reader.byte()?;
    let consumers =
        (0..count).map(|_| read_short_name(&mut reader)).collect::<Result<Vec<Name>, Refused>>()?;
    let group = read_pending(&mut reader, last_delivered, &consumers)?;
    accept(name, group, |name, group| body(name, group) == bytes)
}

/// The name and the group, where they keep their rules and have just these bytes.
fn accept(name: Name, group: Group, same: impl Fn(&[u8], &Group) -> bool) -> Result<(Name, Group), Refused> {
    if is_name(&name) && group.keeps_rules() && same(&name, &group) {
        Ok((name, group))
    } else {
        Err(Refused)
    }
}

fn read_short_name(reader: &mut Reader) -> Result<Name, Refused> {
    let length = reader.length(1)?;
    Ok(reader.take(length)?.to_vec())
}

fn read_wide_name(reader: &mut Reader) -> Result<Name, Refused> {
    let length = reader.length(1)?;
    let name = reader.take(LONGEST_NAME)?.get(..length).ok_or(Refused)?;
    Ok(name.to_vec())
}

/// Number of pending and pending entries; the group with these consumers.
fn read_pending(reader: &mut Reader, last_delivered: Id, consumers: &[Name]) -> Result<Group, Refused> {
    let mut group = Group::new(last_delivered);
    group.consumers = consumers.iter().cloned().collect();
    for _ in 0..reader.number(2)? {
        let id = reader.id()?;
        let consumer = consumers.get(reader.length(1)?).ok_or(Refused)?.clone();
        let (time, count) = (reader.number(8)?, reader.number(2)? as u16);
        group.pending.insert(id, Pending { consumer, time, count });
    }
    Ok(group)
}

#[cfg(test)]
mod tests;
