//! The two stores that are compared: a command, called on the proved one and on the plain one.

use wallathi::raw::{self, State};
use wallathi_model::id::Id;
use wallathi_model::ledger::Command;
use wallathi_plain::node::report::Report as PlainReport;
use wallathi_plain::{snapshot, store as plain};

/// The numbers that a command may give, in the header's order; those with a sign by their pattern.
pub type Values = [u64; 6];

/// Runs a command on store and state; numbers and output are lent too.
pub type Call = fn(&mut [u8], &mut State, &Command, &mut Values, &mut [u8]) -> u32;

/// The two numbers of an ID that a command gives.
fn pair(values: &mut Values) -> &mut [u64; 2] {
    values.first_chunk_mut().expect("two of six")
}

/// The three counts of a report, and the three numbers that have a sign.
fn report_of(values: &Values) -> ([u64; 3], [i64; 3]) {
    let [lacking, other, integers, signed @ ..] = *values;
    ([lacking, other, integers], signed.map(|value| value as i64))
}

fn put_report(values: &mut Values, counts: [u64; 3], signed: [i64; 3]) {
    values[..3].copy_from_slice(&counts);
    values[3..].copy_from_slice(&signed.map(|value| value as u64));
}

pub fn proved(
    store: &mut [u8],
    state: &mut State,
    command: &Command,
    values: &mut Values,
    out: &mut [u8],
) -> u32 {
    use Command::*;
    match command {
        SetUp => raw::set_up(store, state),
        Add { id, slip } => raw::add(store, state, id.ms, id.seq, slip, pair(values)),
        AddByClock { time, slip } => raw::add_by_clock(store, state, *time, slip, pair(values)),
        Delete { id } => raw::delete(store, state, id.ms, id.seq, &mut values[0]),
        Trim { keep } => raw::trim(store, state, *keep, &mut values[0]),
        Next { id } => raw::next(store, state, id.ms, id.seq, pair(values)),
        Read { id, .. } => raw::read(store, state, id.ms, id.seq, out, &mut values[0]),
        Field { id, name, .. } => raw::field(store, state, id.ms, id.seq, name, out, &mut values[0]),
        Report { name, first, last } => {
            let (mut counts, mut signed) = report_of(values);
            let (first, last) = ((first.ms, first.seq), (last.ms, last.seq));
            let code =
                raw::report(store, state, name, first.0, first.1, last.0, last.1, &mut counts, &mut signed);
            put_report(values, counts, signed);
            code
        }
        RangeReply { first, last, .. } => {
            let (first, last) = ((first.ms, first.seq), (last.ms, last.seq));
            raw::range_reply(store, state, first.0, first.1, last.0, last.1, out, &mut values[0])
        }
        CreateGroup { group, start } => raw::create_group(store, state, group, start.ms, start.seq),
        DestroyGroup { group } => raw::destroy_group(store, state, group),
        GroupRead { group, consumer, now } => {
            raw::group_read(store, state, group, consumer, *now, pair(values))
        }
        GroupReadMany { group, consumer, now, n, .. } => {
            raw::group_read_many(store, state, group, consumer, *now, *n, out, &mut values[0])
        }
        Acknowledge { group, id } => raw::acknowledge(store, state, group, id.ms, id.seq, &mut values[0]),
        Claim { group, consumer, least_idle, id, now } => {
            raw::claim(store, state, group, consumer, *least_idle, id.ms, id.seq, *now)
        }
        NextPending { group, consumer, after } => {
            let five = values.first_chunk_mut().expect("five of six");
            raw::next_pending(store, state, group, consumer, after.ms, after.seq, five)
        }
        DropConsumer { group, consumer } => raw::drop_consumer(store, state, group, consumer, &mut values[0]),
        Save { .. } => raw::save(store, state, out, &mut values[0]),
        Load { file } => raw::load(store, state, file),
    }
}

pub fn plain(
    store: &mut [u8],
    state: &mut State,
    command: &Command,
    values: &mut Values,
    out: &mut [u8],
) -> u32 {
    use Command::*;
    let mut given = Id::new(values[0], values[1]);
    let code = match command {
        SetUp => return plain::set_up(store, state),
        Add { id, slip } => plain::add(store, state, *id, slip, &mut given),
        AddByClock { time, slip } => plain::add_by_clock(store, state, *time, slip, &mut given),
        Delete { id } => return plain::delete(store, state, *id, &mut values[0]),
        Trim { keep } => return plain::trim(store, state, *keep, &mut values[0]),
        Next { id } => plain::next(store, state, *id, &mut given),
        Read { id, .. } => return plain::read(store, state, *id, out, &mut values[0]),
        Field { id, name, .. } => return plain::field(store, state, *id, name, out, &mut values[0]),
        Report { name, first, last } => {
            let ([lacking, other, integers], [sum, smallest, largest]) = report_of(values);
            let mut told = PlainReport { lacking, other, integers, sum, smallest, largest };
            let code = plain::report(store, state, name, *first, *last, &mut told);
            let signed = [told.sum, told.smallest, told.largest];
            put_report(values, [told.lacking, told.other, told.integers], signed);
            return code;
        }
        RangeReply { first, last, .. } => {
            return plain::range_reply(store, state, *first, *last, out, &mut values[0])
        }
        CreateGroup { group, start } => return plain::create_group(store, state, group, *start),
        DestroyGroup { group } => return plain::destroy_group(store, state, group),
        GroupRead { group, consumer, now } => {
            plain::group_read(store, state, group, consumer, *now, &mut given)
        }
        GroupReadMany { group, consumer, now, n, .. } => {
            return plain::group_read_many(store, state, group, consumer, *now, *n, out, &mut values[0])
        }
        Acknowledge { group, id } => return plain::acknowledge(store, state, group, *id, &mut values[0]),
        Claim { group, consumer, least_idle, id, now } => {
            return plain::claim(store, state, group, consumer, *least_idle, *id, *now)
        }
        NextPending { group, consumer, after } => {
            let [_, _, time, count, lives, _] = *values;
            let mut found = plain::Pending { id: given, time, count, lives };
            let code = plain::next_pending(store, state, group, consumer, *after, &mut found);
            let numbers = [found.id.ms, found.id.seq, found.time, found.count, found.lives];
            values[..5].copy_from_slice(&numbers);
            return code;
        }
        DropConsumer { group, consumer } => {
            return plain::drop_consumer(store, state, group, consumer, &mut values[0])
        }
        Save { .. } => return snapshot::save(store, state, out, &mut values[0]),
        Load { file } => return snapshot::load(store, state, file),
    };
    *pair(values) = [given.ms, given.seq];
    code
}
