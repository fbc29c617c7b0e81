//! The functions on replies that need no store, of both sides, and what they tell beside the model.

use wallathi::raw;
use wallathi_model::id::Id;
use wallathi_model::refusal::Refusal;
use wallathi_model::reply;
use wallathi_plain::reply as plain;

use crate::lent::{inner, inner_mut, GUARD};

/// Writes a number's reply to the output.
pub type WriteNumber = fn(u64, &mut [u8], &mut u64) -> u32;
/// Gives kind and number of a reply.
pub type Read = fn(&[u8], &mut [u64; 2]) -> u32;
/// Writes the message at a place of a reply, and gives its ID and length.
pub type ReadMessage = fn(&[u8], u64, &mut [u8], &mut [u64; 3]) -> u32;

pub const READERS: [(&str, Read, ReadMessage); 2] =
    [("proved", raw::read_reply, raw::reply_message), ("plain", read_plain, message_plain)];

const INTEGERS: [WriteNumber; 2] = [raw::integer_reply, plain::integer_reply];
const ERRORS: [WriteNumber; 2] = [raw::error_reply, plain::error_reply];

fn read_plain(bytes: &[u8], [kind, number]: &mut [u64; 2]) -> u32 {
    plain::read_reply(bytes, kind, number)
}

fn message_plain(bytes: &[u8], place: u64, out: &mut [u8], [ms, seq, length]: &mut [u64; 3]) -> u32 {
    let mut id = Id::new(*ms, *seq);
    let code = plain::reply_message(bytes, place, out, &mut id, length);
    (*ms, *seq) = (id.ms, id.seq);
    code
}

/// Out-parameters and outputs hold this before a call.
const MARK: u64 = 0xA5A5_A5A5_A5A5_A5A5;

/// An output of this length with bytes around it, that starts with these.
fn output(room: usize, bytes: &[u8]) -> Vec<u8> {
    let mut output = vec![0xA5; room + 2 * GUARD];
    inner_mut(&mut output)[..bytes.len()].copy_from_slice(bytes);
    output
}

/// Reads a reply on each side; what the model says of it.
pub fn read(bytes: &[u8]) -> Result<(u64, u64), Refusal> {
    let answer = reply::read_reply(bytes);
    let expected = answer.map_or_else(|code| (code, [MARK; 2]), |(kind, number)| (0, [kind, number]));
    // Off its alignment, and before a byte that would go on with it.
    let lent = [&[b'*'; GUARD], bytes, &[b'\n'; GUARD]].concat();
    for (name, read, _) in READERS {
        let mut values = [MARK; 2];
        let told = (read(inner(&lent), &mut values), values);
        assert_eq!(told, expected, "{name}: {}", bytes.escape_ascii());
    }
    answer
}

/// The same of the message at a place, for an output of this length.
pub fn message(bytes: &[u8], place: u64, room: usize) -> Result<Option<(Id, Vec<u8>)>, Refusal> {
    let answer = reply::reply_message(bytes, place, room);
    let expected = match &answer {
        Ok(Some((id, slip))) => (0, [id.ms, id.seq, slip.len() as u64], output(room, slip)),
        Ok(None) => (32, [MARK; 3], output(room, &[])),
        Err(code) => (*code, [MARK; 3], output(room, &[])),
    };
    for (name, _, message) in READERS {
        let (mut values, mut out) = ([MARK; 3], output(room, &[]));
        let code = message(bytes, place, inner_mut(&mut out), &mut values);
        assert!((code, values, out) == expected, "{name}: {place} {room} of {}", bytes.escape_ascii());
    }
    answer
}

fn number_reply(sides: [WriteNumber; 2], number: u64, room: usize, answer: &Result<Vec<u8>, Refusal>) {
    let expected = match answer {
        Ok(bytes) => (0, bytes.len() as u64, output(room, bytes)),
        Err(code) => (*code, MARK, output(room, &[])),
    };
    for write in sides {
        let (mut length, mut out) = (MARK, output(room, &[]));
        let code = write(number, inner_mut(&mut out), &mut length);
        assert_eq!((code, length, out), expected, "{number} {room}");
    }
}

/// The integer reply on each side; the model's.
pub fn integer(number: u64, room: usize) -> Result<Vec<u8>, Refusal> {
    let answer = reply::integer_reply(number, room);
    number_reply(INTEGERS, number, room, &answer);
    answer
}

/// The error reply on each side; the model's.
pub fn error(number: u64, room: usize) -> Result<Vec<u8>, Refusal> {
    let answer = reply::error_reply(number, room);
    number_reply(ERRORS, number, room, &answer);
    answer
}
