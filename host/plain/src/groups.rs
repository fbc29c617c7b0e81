//! A consumer group in its region and the area of all groups, in plain Rust: judged as strictly as by the proved functions, and
//! changed in place.
//!
//! ```text
//! region    length 1, name 16 | last delivered 16 | consumers 1 | 16 × (length 1, name 16) | pending 2 | 256 × entry
//! entry     ID 16 | consumer's place 1 | time 8 | count 2
//! ```

use wallathi_model::groups::{MOST_CONSUMERS, MOST_GROUPS, MOST_PENDING, REGION_BYTES};
use wallathi_model::id::Id;
use wallathi_model::message::LONGEST_NAME;

use crate::all_zero;

const DELIVERED: usize = 17;
const CONSUMERS: usize = 33;
const FIELDS: usize = 34;
const FIELD: usize = 17;
const PENDING: usize = 306;
const ENTRIES: usize = 308;
const ENTRY: usize = 27;
const PLACE: usize = 16;
const TIME: usize = 17;
const COUNT: usize = 25;

pub(crate) fn id_at(bytes: &[u8], at: usize) -> Id {
    let half = |at: usize| u64::from_be_bytes(bytes[at..at + 8].try_into().expect("8 bytes"));
    Id::new(half(at), half(at + 8))
}

fn number_at(bytes: &[u8], at: usize) -> usize {
    usize::from(u16::from_le_bytes([bytes[at], bytes[at + 1]]))
}

/// The name in a field of 17 bytes.
fn name_in(field: &[u8]) -> Option<&[u8]> {
    let (name, rest) = field[1..FIELD].split_at_checked(usize::from(field[0]))?;
    (!name.is_empty() && rest.iter().all(|&byte| byte == 0)).then_some(name)
}

fn consumers(region: &[u8]) -> impl Iterator<Item = &[u8]> {
    let fields = region[FIELDS..PENDING].chunks_exact(FIELD).take(usize::from(region[CONSUMERS]));
    fields.map(|field| &field[1..1 + usize::from(field[0])])
}

fn names_pass(region: &[u8]) -> bool {
    let count = usize::from(region[CONSUMERS]);
    if count > MOST_CONSUMERS {
        return false;
    }
    let (fields, rest) = region[FIELDS..PENDING].split_at(count * FIELD);
    let mut above: &[u8] = &[];
    for field in fields.chunks_exact(FIELD) {
        match name_in(field) {
            Some(name) if name > above => above = name,
            _ => return false,
        }
    }
    all_zero(rest)
}

/// Whether entries stand by rising ID up to the most, each with one of so many consumers.
#[inline]
fn rise(entries: &[u8], consumers: usize, most: Id) -> bool {
    let mut above = Id::LEAST;
    for entry in entries.chunks_exact(ENTRY) {
        let id = id_at(entry, 0);
        if usize::from(entry[PLACE]) >= consumers || number_at(entry, COUNT) == 0 || id <= above || id > most
        {
            return false;
        }
        above = id;
    }
    true
}

fn entries_pass(region: &[u8], last: Id) -> bool {
    let (count, consumers) = (number_at(region, PENDING), usize::from(region[CONSUMERS]));
    if count > MOST_PENDING {
        return false;
    }
    let (entries, rest) = region[ENTRIES..].split_at(count * ENTRY);
    rise(entries, consumers, id_at(region, DELIVERED).min(last)) && all_zero(rest)
}

/// The group's name, if the region is that of a group with no pending ID above the last ID.
fn name_of_sound(region: &[u8], last: Id) -> Option<&[u8]> {
    if region.len() != REGION_BYTES {
        return None;
    }
    let name = name_in(&region[..FIELD])?;
    (names_pass(region) && entries_pass(region, last)).then_some(name)
}

/// Whether the bytes are the area of groups with no pending ID above the last ID.
pub fn judge(area: &[u8], last: Id) -> bool {
    if area.len() != MOST_GROUPS * REGION_BYTES {
        return false;
    }
    let mut above: &[u8] = &[];
    for (place, region) in area.chunks_exact(REGION_BYTES).enumerate() {
        if region[0] == 0 {
            return all_zero(&area[place * REGION_BYTES..]);
        }
        match name_of_sound(region, last) {
            Some(name) if name > above => above = name,
            _ => return false,
        }
    }
    true
}

fn is_sound(region: &[u8]) -> bool {
    name_of_sound(region, Id::GREATEST).is_some()
}

pub(crate) fn is_name(name: &[u8]) -> bool {
    (1..=LONGEST_NAME).contains(&name.len())
}

/// The consumer's place, or the one that it would get.
fn place_of(region: &[u8], name: &[u8]) -> Result<usize, usize> {
    for (place, other) in consumers(region).enumerate() {
        if name <= other {
            return if name == other { Ok(place) } else { Err(place) };
        }
    }
    Err(usize::from(region[CONSUMERS]))
}

fn entries(region: &mut [u8]) -> impl Iterator<Item = &mut [u8]> {
    let count = number_at(region, PENDING);
    region[ENTRIES..].chunks_exact_mut(ENTRY).take(count)
}

fn entry_of(region: &[u8], id: Id) -> Option<usize> {
    (0..number_at(region, PENDING)).find(|entry| id_at(region, ENTRIES + entry * ENTRY) == id)
}

/// The consumer's place, made if new; none if 16 exist.
fn make_consumer(region: &mut [u8], name: &[u8]) -> Option<u8> {
    let place = match place_of(region, name) {
        Ok(place) => return Some(place as u8),
        Err(place) => place,
    };
    let count = usize::from(region[CONSUMERS]);
    if count == MOST_CONSUMERS {
        return None;
    }
    for entry in entries(region) {
        entry[PLACE] += u8::from(usize::from(entry[PLACE]) >= place);
    }
    let at = FIELDS + place * FIELD;
    region.copy_within(at..FIELDS + count * FIELD, at + FIELD);
    let field = &mut region[at..at + FIELD];
    field.fill(0);
    field[0] = name.len() as u8;
    field[1..1 + name.len()].copy_from_slice(name);
    region[CONSUMERS] += 1;
    Some(place as u8)
}

fn write_entry(region: &mut [u8], entry: usize, id: Id, place: u8, time: u64, count: u16) {
    let row = &mut region[ENTRIES + entry * ENTRY..][..ENTRY];
    row[..PLACE].copy_from_slice(&id.to_bytes());
    row[PLACE] = place;
    row[TIME..COUNT].copy_from_slice(&time.to_le_bytes());
    row[COUNT..].copy_from_slice(&count.to_le_bytes());
}

fn set_pending(region: &mut [u8], count: usize) {
    region[PENDING..ENTRIES].copy_from_slice(&(count as u16).to_le_bytes());
}

pub fn deliver(region: &mut [u8], consumer: &[u8], time: u64, id: Id) -> u32 {
    if !is_sound(region) {
        return 2;
    }
    if !is_name(consumer) {
        return 3;
    }
    if id <= delivered(region) {
        return 4;
    }
    deliver_in(region, consumer, time, id)
}

pub(crate) fn delivered(region: &[u8]) -> Id {
    id_at(region, DELIVERED)
}

/// Why a region that is in order takes no entry for the consumer: 12, 13 or 0.
pub(crate) fn refused(region: &[u8], consumer: &[u8]) -> u32 {
    if usize::from(region[CONSUMERS]) == MOST_CONSUMERS && place_of(region, consumer).is_err() {
        return 12;
    }
    if free_entries(region) == 0 {
        return 13;
    }
    0
}

/// How many entries a region takes.
pub(crate) fn free_entries(region: &[u8]) -> usize {
    MOST_PENDING - number_at(region, PENDING)
}

/// Deliver in a region that is in order: 12, 13 or 0.
pub(crate) fn deliver_in(region: &mut [u8], consumer: &[u8], time: u64, id: Id) -> u32 {
    let code = refused(region, consumer);
    if code == 0 {
        deliver_all(region, consumer, time, &id.to_bytes());
    }
    code
}

/// Delivers IDs, 16 bytes each and at least one, to a region that takes as many entries for the consumer.
pub(crate) fn deliver_all(region: &mut [u8], consumer: &[u8], time: u64, ids: &[u8]) {
    let place = make_consumer(region, consumer).expect("there is room");
    let mut entry = [0; ENTRY];
    entry[PLACE] = place;
    entry[TIME..COUNT].copy_from_slice(&time.to_le_bytes());
    entry[COUNT] = 1;
    let count = number_at(region, PENDING);
    let entries = region[ENTRIES + count * ENTRY..].chunks_exact_mut(ENTRY);
    for (row, id) in entries.zip(ids.chunks_exact(PLACE)) {
        entry[..PLACE].copy_from_slice(id);
        row.copy_from_slice(&entry);
    }
    set_pending(region, count + ids.len() / PLACE);
    region[DELIVERED..CONSUMERS].copy_from_slice(&ids[ids.len() - PLACE..]);
}

pub fn acknowledge(region: &mut [u8], id: Id) -> u64 {
    if !is_sound(region) {
        return 2;
    }
    acknowledge_in(region, id)
}

/// The number of entries that went, of a region that is in order.
pub(crate) fn acknowledge_in(region: &mut [u8], id: Id) -> u64 {
    let Some(entry) = entry_of(region, id) else {
        return 0;
    };
    let (at, end) = (ENTRIES + entry * ENTRY, ENTRIES + number_at(region, PENDING) * ENTRY);
    region.copy_within(at + ENTRY..end, at);
    region[end - ENTRY..end].fill(0);
    set_pending(region, number_at(region, PENDING) - 1);
    1
}

pub fn claim(region: &mut [u8], consumer: &[u8], least_idle: u64, id: Id, now: u64) -> u32 {
    if !is_sound(region) {
        return 2;
    }
    if !is_name(consumer) {
        return 3;
    }
    claim_in(region, consumer, least_idle, id, now)
}

/// Claim in a region that is in order: 12, 34 or 0.
pub(crate) fn claim_in(region: &mut [u8], consumer: &[u8], least_idle: u64, id: Id, now: u64) -> u32 {
    let Some(entry) = entry_of(region, id) else {
        return 34;
    };
    let (time, count) = time_and_count(&region[ENTRIES + entry * ENTRY..]);
    if now.saturating_sub(time) < least_idle {
        return 34;
    }
    let Some(place) = make_consumer(region, consumer) else {
        return 12;
    };
    write_entry(region, entry, id, place, now, count.saturating_add(1));
    0
}

fn time_and_count(entry: &[u8]) -> (u64, u16) {
    let time = u64::from_le_bytes(entry[TIME..COUNT].try_into().expect("8 bytes"));
    (time, number_at(entry, COUNT) as u16)
}

/// The consumer's first entry above an ID: its ID, time and count.
pub(crate) fn next_pending(region: &[u8], consumer: &[u8], after: Id) -> Option<(Id, u64, u16)> {
    let place = place_of(region, consumer).ok()?;
    let entries = region[ENTRIES..].chunks_exact(ENTRY).take(number_at(region, PENDING));
    let mut own = entries.filter(|entry| usize::from(entry[PLACE]) == place);
    let entry = own.find(|entry| id_at(entry, 0) > after)?;
    let (time, count) = time_and_count(entry);
    Some((id_at(entry, 0), time, count))
}

/// One and the number of entries that went; 0 for a region that is not sound.
pub fn drop_consumer(region: &mut [u8], consumer: &[u8]) -> u64 {
    if !is_sound(region) {
        return 0;
    }
    1 + drop_in(region, consumer)
}

/// The number of entries that went, of a region that is in order.
pub(crate) fn drop_in(region: &mut [u8], consumer: &[u8]) -> u64 {
    let Ok(place) = place_of(region, consumer) else {
        return 0;
    };
    let count = number_at(region, PENDING);
    let mut kept = 0;
    for entry in 0..count {
        let at = ENTRIES + entry * ENTRY;
        let other = usize::from(region[at + PLACE]);
        if other != place {
            region.copy_within(at..at + ENTRY, ENTRIES + kept * ENTRY);
            region[ENTRIES + kept * ENTRY + PLACE] -= u8::from(other > place);
            kept += 1;
        }
    }
    region[ENTRIES + kept * ENTRY..ENTRIES + count * ENTRY].fill(0);
    set_pending(region, kept);
    let (at, end) = (FIELDS + place * FIELD, FIELDS + usize::from(region[CONSUMERS]) * FIELD);
    region.copy_within(at + FIELD..end, at);
    region[end - FIELD..end].fill(0);
    region[CONSUMERS] -= 1;
    (count - kept) as u64
}

/// The region of a group's name, or the one that it would get.
pub(crate) fn region_of(area: &[u8], name: &[u8]) -> Result<usize, usize> {
    let mut place = 0;
    for region in area.chunks_exact(REGION_BYTES).take_while(|region| region[0] != 0) {
        let other = &region[1..1 + usize::from(region[0])];
        if name <= other {
            return if name == other { Ok(place) } else { Err(place) };
        }
        place += 1;
    }
    Err(place)
}

pub fn create(area: &mut [u8], name: &[u8], start: Id) -> u32 {
    if !judge(area, Id::GREATEST) {
        return 2;
    }
    create_in(area, name, start)
}

/// Create in an area that is in order: 3, 10, 11 or 0.
pub(crate) fn create_in(area: &mut [u8], name: &[u8], start: Id) -> u32 {
    if !is_name(name) {
        return 3;
    }
    let last = (MOST_GROUPS - 1) * REGION_BYTES;
    let Err(place) = region_of(area, name) else {
        return 10;
    };
    if area[last] != 0 {
        return 11;
    }
    let at = place * REGION_BYTES;
    area.copy_within(at..last, at + REGION_BYTES);
    let region = &mut area[at..at + REGION_BYTES];
    region.fill(0);
    region[0] = name.len() as u8;
    region[1..1 + name.len()].copy_from_slice(name);
    region[DELIVERED..CONSUMERS].copy_from_slice(&start.to_bytes());
    0
}

pub fn destroy(area: &mut [u8], name: &[u8]) -> u32 {
    if !judge(area, Id::GREATEST) {
        return 2;
    }
    destroy_in(area, name)
}

/// Destroy in an area that is in order: 9 or 0.
pub(crate) fn destroy_in(area: &mut [u8], name: &[u8]) -> u32 {
    let Ok(place) = region_of(area, name) else {
        return 9;
    };
    let last = (MOST_GROUPS - 1) * REGION_BYTES;
    area.copy_within((place + 1) * REGION_BYTES.., place * REGION_BYTES);
    area[last..].fill(0);
    0
}

/// The length of a group's body in a snapshot, of a region that is in order.
pub(crate) fn body_length(region: &[u8]) -> usize {
    let names: usize = consumers(region).map(|name| 1 + name.len()).sum();
    1 + usize::from(region[0]) + 16 + 1 + names + 2 + number_at(region, PENDING) * ENTRY
}

/// Writes the body of that length: the region without its unused bytes.
pub(crate) fn write_body(region: &[u8], body: &mut [u8]) {
    let mut at = 0;
    let mut put = |bytes: &[u8]| {
        body[at..at + bytes.len()].copy_from_slice(bytes);
        at += bytes.len();
    };
    put(&region[..1 + usize::from(region[0])]);
    put(&region[DELIVERED..FIELDS]);
    for name in consumers(region) {
        put(&[name.len() as u8]);
        put(name);
    }
    put(&region[PENDING..ENTRIES + number_at(region, PENDING) * ENTRY]);
}

/// The name that starts the slice, with its length before it, and what follows.
fn split_name(bytes: &[u8]) -> Option<(&[u8], &[u8])> {
    let (&length, rest) = bytes.split_first()?;
    let (name, rest) = rest.split_at_checked(usize::from(length))?;
    is_name(name).then_some((name, rest))
}

/// The group's name, if the body is that of a group with no pending ID above the last ID.
pub(crate) fn name_of_body(body: &[u8], last: Id) -> Option<&[u8]> {
    let (name, rest) = split_name(body)?;
    let (head, mut rest) = rest.split_at_checked(17)?;
    let consumers = usize::from(head[16]);
    let mut above: &[u8] = &[];
    for _ in 0..consumers {
        let (consumer, after) = split_name(rest)?;
        if consumer <= above {
            return None;
        }
        (above, rest) = (consumer, after);
    }
    let (count, entries) = rest.split_first_chunk::<2>()?;
    let count = usize::from(u16::from_le_bytes(*count));
    let fits = consumers <= MOST_CONSUMERS && count <= MOST_PENDING && entries.len() == count * ENTRY;
    (fits && rise(entries, consumers, id_at(head, 0).min(last))).then_some(name)
}

/// Makes a region that is all zero the one of a body that is in order.
pub(crate) fn write_region(body: &[u8], region: &mut [u8]) {
    let length = 1 + usize::from(body[0]);
    region[..length].copy_from_slice(&body[..length]);
    region[DELIVERED..FIELDS].copy_from_slice(&body[length..length + 17]);
    let mut rest = &body[length + 17..];
    for field in 0..usize::from(region[CONSUMERS]) {
        let length = 1 + usize::from(rest[0]);
        region[FIELDS + field * FIELD..][..length].copy_from_slice(&rest[..length]);
        rest = &rest[length..];
    }
    region[PENDING..PENDING + rest.len()].copy_from_slice(rest);
}
