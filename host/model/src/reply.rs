//! Replies in RESP2 (02, CR 4): what is written for clients of the Redis protocol, and the strict reader of it.
//!
//! ```text
//! range     *number of messages CRLF | message | message | ...
//! message   *2 CRLF | ID | *twice the number of pairs CRLF | field | value | field | value | ...
//! ID        the bulk string ms-seq
//! bulk      $length CRLF | bytes CRLF
//! integer   :number CRLF
//! error     -ERR number CRLF
//! ```
//!
//! Numbers are decimal. The reader takes arrays and bulk strings apart without asking how a number is written or whether a message may
//! live; then it writes what it found again and compares.

use crate::bytes::Reader;
use crate::id::Id;
use crate::message::{is_message, Message};
use crate::node;
use crate::refusal::{Refusal, Refused, BREAKS_ITS_RULE, OUTPUT_TOO_SHORT, TOO_MANY_KEYS};
use crate::slip;

/// The integers of replies are at most the number of messages that a store holds.
pub const MOST_COUNTED: u64 = 6_400;
/// The greatest refusal number of 01.
pub const LAST_REFUSAL: u64 = TOO_MANY_KEYS as u64;

#[derive(Clone, Debug, PartialEq, Eq)]
pub enum Reply {
    Range(Vec<(Id, Message)>),
    /// Of a delete, trim or acknowledge.
    Integer(u64),
    /// By the number of the refusal.
    Error(u64),
}

impl Reply {
    /// Whether it is one that is written: of messages that may live, in rising order, or of a number that there is.
    pub fn keeps_rules(&self) -> bool {
        match self {
            Reply::Range(messages) => {
                let may_live = |(id, pairs): &(Id, Message)| {
                    *id > Id::LEAST && is_message(pairs) && node::fits_alone(pairs)
                };
                messages.iter().all(may_live) && messages.windows(2).all(|two| two[0].0 < two[1].0)
            }
            Reply::Integer(number) => *number <= MOST_COUNTED,
            Reply::Error(number) => (1..=LAST_REFUSAL).contains(number),
        }
    }

    pub fn to_bytes(&self) -> Vec<u8> {
        match self {
            Reply::Range(messages) => {
                let entries = messages.iter().flat_map(|(id, pairs)| entry(*id, pairs));
                array(messages.len()).into_bytes().into_iter().chain(entries).collect()
            }
            Reply::Integer(number) => format!(":{number}\r\n").into_bytes(),
            Reply::Error(number) => format!("-ERR {number}\r\n").into_bytes(),
        }
    }

    /// What the C library tells of it: its kind, and how many messages it has or its number.
    pub fn kind_and_number(&self) -> (u64, u64) {
        match self {
            Reply::Range(messages) => (1, messages.len() as u64),
            Reply::Integer(number) => (2, *number),
            Reply::Error(number) => (3, *number),
        }
    }
}

/// What stands before so many values.
fn array(count: usize) -> String {
    format!("*{count}\r\n")
}

fn bulk(string: &[u8]) -> Vec<u8> {
    [format!("${}\r\n", string.len()).as_bytes(), string, b"\r\n"].concat()
}

fn entry(id: Id, pairs: &Message) -> Vec<u8> {
    let id = bulk(format!("{}-{}", id.ms, id.seq).as_bytes());
    let strings = pairs.iter().flat_map(|(field, value)| [bulk(field), bulk(value)]);
    [array(2).into_bytes(), id, array(2 * pairs.len()).into_bytes(), strings.collect::<Vec<_>>().concat()]
        .concat()
}

/// The reply that is the whole slice.
pub fn read(bytes: &[u8]) -> Result<Reply, Refused> {
    let mut reader = Reader::new(bytes);
    let reply = reply_of(value(&mut reader, MOST_DEPTH)?)?;
    if reply.keeps_rules() && reply.to_bytes() == bytes {
        Ok(reply)
    } else {
        Err(Refused)
    }
}

/// Arrays stand in arrays this deep: messages, ID and pairs, strings.
const MOST_DEPTH: usize = 3;

/// A value of the protocol.
enum Value {
    Array(Vec<Value>),
    Bulk(Vec<u8>),
    Integer(u64),
    Error(Vec<u8>),
}

/// The value that comes next, with arrays in it up to this depth.
fn value(reader: &mut Reader, depth: usize) -> Result<Value, Refused> {
    let kind = reader.byte()?;
    let line = line(reader)?;
    match kind {
        b'*' if depth > 0 => {
            let values = (0..number(line)?).map(|_| value(reader, depth - 1));
            Ok(Value::Array(values.collect::<Result<_, Refused>>()?))
        }
        b'$' => {
            let string = reader.take(usize::try_from(number(line)?).map_err(|_| Refused)?)?.to_vec();
            reader.take(2)?;
            Ok(Value::Bulk(string))
        }
        b':' => Ok(Value::Integer(number(line)?)),
        b'-' => Ok(Value::Error(line.to_vec())),
        _ => Err(Refused),
    }
}

/// The bytes up to the next line feed, without the one before it.
fn line<'a>(reader: &mut Reader<'a>) -> Result<&'a [u8], Refused> {
    let end = reader.rest().iter().position(|&byte| byte == b'\n').ok_or(Refused)?;
    let line = reader.take(end + 1)?;
    Ok(&line[..end.saturating_sub(1)])
}

/// A number, in whatever way it is written.
fn number(digits: &[u8]) -> Result<u64, Refused> {
    std::str::from_utf8(digits).ok().and_then(|digits| digits.parse().ok()).ok_or(Refused)
}

fn reply_of(value: Value) -> Result<Reply, Refused> {
    match value {
        Value::Array(entries) => {
            Ok(Reply::Range(entries.into_iter().map(entry_of).collect::<Result<_, Refused>>()?))
        }
        Value::Integer(number) => Ok(Reply::Integer(number)),
        Value::Error(text) => Ok(Reply::Error(number(text.strip_prefix(b"ERR ").ok_or(Refused)?)?)),
        Value::Bulk(_) => Err(Refused),
    }
}

/// The message of an array of two: its ID and its strings.
fn entry_of(value: Value) -> Result<(Id, Message), Refused> {
    let Value::Array(values) = value else { return Err(Refused) };
    let Ok([Value::Bulk(id), Value::Array(strings)]) = <[Value; 2]>::try_from(values) else {
        return Err(Refused);
    };
    let strings: Vec<Vec<u8>> = strings.into_iter().map(bulk_of).collect::<Result<_, Refused>>()?;
    let pairs = strings.chunks_exact(2).map(|pair| (pair[0].clone(), pair[1].clone()));
    Ok((id_of(&id)?, pairs.collect()))
}

fn bulk_of(value: Value) -> Result<Vec<u8>, Refused> {
    match value {
        Value::Bulk(string) => Ok(string),
        _ => Err(Refused),
    }
}

fn id_of(text: &[u8]) -> Result<Id, Refused> {
    let hyphen = text.iter().position(|&byte| byte == b'-').ok_or(Refused)?;
    Ok(Id::new(number(&text[..hyphen])?, number(&text[hyphen + 1..])?))
}

/// The integer reply in an output of `room` bytes, or refusal 3 or 8.
pub fn integer_reply(number: u64, room: usize) -> Result<Vec<u8>, Refusal> {
    written(Reply::Integer(number), room)
}

/// The same of the error reply.
pub fn error_reply(number: u64, room: usize) -> Result<Vec<u8>, Refusal> {
    written(Reply::Error(number), room)
}

fn written(reply: Reply, room: usize) -> Result<Vec<u8>, Refusal> {
    if !reply.keeps_rules() {
        return Err(BREAKS_ITS_RULE);
    }
    fitting(reply.to_bytes(), room)
}

fn fitting(bytes: Vec<u8>, room: usize) -> Result<Vec<u8>, Refusal> {
    if bytes.len() > room {
        return Err(OUTPUT_TOO_SHORT);
    }
    Ok(bytes)
}

/// Kind and number of a reply, or refusal 3.
pub fn read_reply(bytes: &[u8]) -> Result<(u64, u64), Refusal> {
    Ok(read(bytes).map_err(|Refused| BREAKS_ITS_RULE)?.kind_and_number())
}

/// The message at a place of a range reply, from 0, as its ID and a slip; none past the end; refusal 3 for anything else than a range
/// reply, and 8 for a message that is longer than the output.
pub fn reply_message(bytes: &[u8], place: u64, room: usize) -> Result<Option<(Id, Vec<u8>)>, Refusal> {
    let Ok(Reply::Range(messages)) = read(bytes) else { return Err(BREAKS_ITS_RULE) };
    let message = usize::try_from(place).ok().and_then(|place| messages.get(place));
    message.map(|(id, pairs)| Ok((*id, fitting(slip::write(pairs), room)?))).transpose()
}

#[cfg(test)]
mod tests;
