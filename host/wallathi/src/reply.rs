//! Replies in RESP2, the Redis protocol of version 2, for clients that speak it. None needs a store; [`Store::range_reply`] writes those
//! that have messages.
//!
//! [`Store::range_reply`]: crate::Store::range_reply

use crate::raw;
use crate::store::{answered, found, length_of};
use crate::{Id, Refusal};
#[cfg(feature = "alloc")]
use crate::{Slip, LONGEST_SLIP};

/// The number of an integer reply is 0 to this one.
pub const LARGEST_INTEGER_REPLY: u64 = 6_400;

/// The number of an error reply is 1 to this one.
pub const LAST_ERROR_REPLY: u64 = 18;

/// An output of this length suffices for every integer reply and every error reply.
pub const LONGEST_NUMBER_REPLY: usize = 9;

/// What a reply is ([`read_reply`]).
#[derive(Clone, Copy, Debug, PartialEq, Eq, Hash)]
pub enum Reply {
    /// A list of so many messages ([`reply_message`]).
    Range(u64),
    /// A count, 0 to [`LARGEST_INTEGER_REPLY`].
    Integer(u64),
    /// A refusal's number, 1 to [`LAST_ERROR_REPLY`] ([`Refusal::from_number`]; 18 is one of the index).
    Error(u64),
}

/// The integer reply, as to delete, trim and acknowledge, at the start of `out`; the answer is its length.
///
/// ```
/// use wallathi::{integer_reply, read_reply, Reply, LONGEST_NUMBER_REPLY};
/// let mut out = [0; LONGEST_NUMBER_REPLY];
/// let length = integer_reply(12, &mut out)?;
/// assert_eq!(&out[..length], b":12\r\n");
/// assert_eq!(read_reply(&out[..length])?, Reply::Integer(12));
/// # Ok::<(), wallathi::Refusal>(())
/// ```
///
/// # Errors
///
/// [`Refusal::BadArgument`] above [`LARGEST_INTEGER_REPLY`]; [`Refusal::ShortOutput`] where `out` is shorter.
pub fn integer_reply(number: u64, out: &mut [u8]) -> Result<usize, Refusal> {
    let mut length = 0;
    answered(raw::integer_reply(number, out, &mut length))?;
    Ok(length_of(length))
}

/// The error reply of a refusal's number, at the start of `out`; the answer is its length.
///
/// ```
/// use wallathi::{error_reply, Refusal, LONGEST_NUMBER_REPLY};
/// let mut out = [0; LONGEST_NUMBER_REPLY];
/// let length = error_reply(Refusal::NotLive.number().into(), &mut out)?;
/// assert_eq!(&out[..length], b"-ERR 14\r\n");
/// # Ok::<(), wallathi::Refusal>(())
/// ```
///
/// # Errors
///
/// [`Refusal::BadArgument`] where the number is not 1 to [`LAST_ERROR_REPLY`]; [`Refusal::ShortOutput`] where `out` is shorter.
pub fn error_reply(number: u64, out: &mut [u8]) -> Result<usize, Refusal> {
    let mut length = 0;
    answered(raw::error_reply(number, out, &mut length))?;
    Ok(length_of(length))
}

/// What a reply is. It is read strictly: exactly what is written for some list of messages that may live, in rising order, for a count or
/// for a refusal's number is one.
///
/// # Errors
///
/// [`Refusal::BadArgument`] for anything else.
pub fn read_reply(reply: &[u8]) -> Result<Reply, Refusal> {
    let mut values = [0; 2];
    answered(raw::read_reply(reply, &mut values))?;
    Ok(match values {
        [raw::RANGE_REPLY, messages] => Reply::Range(messages),
        [raw::INTEGER_REPLY, number] => Reply::Integer(number),
        [_, number] => Reply::Error(number),
    })
}

/// The message at a place of a range reply, from 0; none past its end. Each call reads the whole reply.
///
/// # Errors
///
/// [`Refusal::BadArgument`] for anything else than a range reply.
#[cfg(feature = "alloc")]
pub fn reply_message(reply: &[u8], place: u64) -> Result<Option<(Id, Slip)>, Refusal> {
    let mut out = [0; LONGEST_SLIP];
    let message = reply_message_into(reply, place, &mut out)?;
    Ok(message.map(|(id, length)| (id, Slip::as_written(&out[..length]))))
}

/// The same as the bytes of a slip at the start of `out`; the answer is the ID and their number.
///
/// # Errors
///
/// [`Refusal::BadArgument`] for anything else than a range reply; [`Refusal::ShortOutput`] where there is such a message and `out` is
/// shorter.
pub fn reply_message_into(reply: &[u8], place: u64, out: &mut [u8]) -> Result<Option<(Id, usize)>, Refusal> {
    let mut values = [0; 3];
    let code = raw::reply_message(reply, place, out, &mut values);
    let [ms, seq, length] = values;
    found(code, raw::NONE, (Id::new(ms, seq), length_of(length)))
}
