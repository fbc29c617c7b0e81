//! Replies in RESP2 (02, CR 4): writing, and strict reading in one pass.
//!
//! ```text
//! range     *number of messages CRLF | message | message | ...
//! message   *2 CRLF | ID | *twice the number of pairs CRLF | field | value | field | value | ...
//! ID        the bulk string ms-seq
//! bulk      $length CRLF | bytes CRLF
//! integer   :number CRLF
//! error     -ERR number CRLF
//! ```

use wallathi_model::id::Id;
use wallathi_model::message::{LONGEST_FIELD, MOST_PAIRS};
use wallathi_model::reply::{LAST_REFUSAL, MOST_COUNTED};

use crate::listpack::string_size;
use crate::node::writing::ALONE_BYTES;
use crate::node::MOST_BYTES;
use crate::store::NONE;

const RANGE: u64 = 1;
const INTEGER: u64 = 2;
const ERROR: u64 = 3;

#[inline(always)]
pub fn digit_count(number: u64) -> usize {
    if number < 10 {
        1
    } else {
        1 + number.ilog10() as usize
    }
}

/// The bytes of a number with what is before and after it.
#[inline(always)]
pub fn line_size(number: u64) -> usize {
    1 + digit_count(number) + 2
}

/// The bytes of a bulk string of this length.
#[inline(always)]
pub fn bulk_size(length: usize) -> usize {
    line_size(length as u64) + length + 2
}

#[inline(always)]
fn two_digits(number: u64) -> [u8; 2] {
    [b'0' + (number / 10) as u8, b'0' + (number % 10) as u8]
}

/// Writes one thing after the other into an output that is long enough.
pub struct Writer<'a> {
    out: &'a mut [u8],
    at: usize,
}

impl<'a> Writer<'a> {
    pub fn new(out: &'a mut [u8]) -> Writer<'a> {
        Writer { out, at: 0 }
    }

    #[inline(always)]
    fn put(&mut self, bytes: &[u8]) {
        self.out[self.at..self.at + bytes.len()].copy_from_slice(bytes);
        self.at += bytes.len();
    }

    /// Two digits at a time.
    #[inline(always)]
    fn number(&mut self, number: u64) {
        let end = self.at + digit_count(number);
        let digits = &mut self.out[self.at..end];
        let (mut left, mut rest) = (digits.len(), number);
        while left >= 2 {
            left -= 2;
            digits[left..left + 2].copy_from_slice(&two_digits(rest % 100));
            rest /= 100;
        }
        if left == 1 {
            digits[0] = b'0' + rest as u8;
        }
        self.at = end;
    }

    /// A number after the byte that says what it is. It seldom has more than two digits.
    #[inline(always)]
    pub fn line(&mut self, kind: u8, number: u64) {
        if number < 10 {
            return self.put(&[kind, b'0' + number as u8, b'\r', b'\n']);
        }
        if number < 100 {
            let [high, low] = two_digits(number);
            return self.put(&[kind, high, low, b'\r', b'\n']);
        }
        self.put(&[kind]);
        self.number(number);
        self.put(b"\r\n");
    }

    #[inline(always)]
    pub fn bulk(&mut self, string: &[u8]) {
        self.line(b'$', string.len() as u64);
        self.put(string);
        self.put(b"\r\n");
    }

    /// The bulk string of an integer's text.
    #[inline(always)]
    pub fn bulk_integer(&mut self, integer: i64) {
        let number = integer.unsigned_abs();
        self.line(b'$', (usize::from(integer < 0) + digit_count(number)) as u64);
        if integer < 0 {
            self.put(b"-");
        }
        self.number(number);
        self.put(b"\r\n");
    }

    /// The begin of an entry: that it has two parts, and its ID.
    #[inline(always)]
    pub fn id(&mut self, id: Id) {
        self.put(b"*2\r\n");
        self.line(b'$', (digit_count(id.ms) + 1 + digit_count(id.seq)) as u64);
        self.number(id.ms);
        self.put(b"-");
        self.number(id.seq);
        self.put(b"\r\n");
    }
}

/// Writes a number with what is before and after it, unless the output is too short.
fn write_number(before: &[u8], number: u64, out: &mut [u8], length: &mut u64) -> u32 {
    let size = before.len() + digit_count(number) + 2;
    let Some(out) = out.get_mut(..size) else { return 8 };
    let mut writer = Writer::new(out);
    writer.put(before);
    writer.number(number);
    writer.put(b"\r\n");
    *length = size as u64;
    0
}

/// The integer reply.
pub fn integer_reply(number: u64, out: &mut [u8], length: &mut u64) -> u32 {
    if number > MOST_COUNTED {
        return 3;
    }
    write_number(b":", number, out, length)
}

/// The error reply.
pub fn error_reply(number: u64, out: &mut [u8], length: &mut u64) -> u32 {
    if !(1..=LAST_REFUSAL).contains(&number) {
        return 3;
    }
    write_number(b"-ERR ", number, out, length)
}

/// What is not read yet.
struct Reader<'a> {
    rest: &'a [u8],
}

/// A message of a reply: its ID, how many strings it has, and their bulk strings.
#[derive(Clone, Copy)]
struct Message<'a> {
    id: Id,
    strings: usize,
    bulks: &'a [u8],
}

impl<'a> Reader<'a> {
    #[inline(always)]
    fn pass(&mut self, bytes: &[u8]) -> Option<()> {
        self.rest = self.rest.strip_prefix(bytes)?;
        Some(())
    }

    /// A number without leading zero. What follows a zero is no digit, for no number ends before one.
    #[inline(always)]
    fn number(&mut self) -> Option<u64> {
        let (&first, mut rest) = self.rest.split_first()?;
        let mut number = u64::from(first.wrapping_sub(b'0'));
        if number > 9 {
            return None;
        }
        while number != 0 {
            let Some((&byte, after)) = rest.split_first() else { break };
            let digit = byte.wrapping_sub(b'0');
            if digit > 9 {
                break;
            }
            number = number.checked_mul(10)?.checked_add(u64::from(digit))?;
            rest = after;
        }
        self.rest = rest;
        Some(number)
    }

    #[inline(always)]
    fn line(&mut self, kind: u8) -> Option<u64> {
        self.pass(&[kind])?;
        let number = self.number()?;
        self.pass(b"\r\n")?;
        Some(number)
    }

    /// A bulk string of at most 1,000 bytes.
    #[inline(always)]
    fn bulk(&mut self) -> Option<&'a [u8]> {
        let length = self.line(b'$')?;
        if length > LONGEST_FIELD as u64 {
            return None;
        }
        let (string, rest) = self.rest.split_at_checked(length as usize)?;
        self.rest = rest;
        self.pass(b"\r\n")?;
        Some(string)
    }

    #[inline(always)]
    fn id(&mut self) -> Option<Id> {
        let length = self.line(b'$')?;
        let from = self.rest.len();
        let ms = self.number()?;
        self.pass(b"-")?;
        let seq = self.number()?;
        if (from - self.rest.len()) as u64 != length {
            return None;
        }
        self.pass(b"\r\n")?;
        Some(Id::new(ms, seq))
    }

    /// A message that may live, but for its ID.
    #[inline(always)]
    fn message(&mut self) -> Option<Message<'a>> {
        self.pass(b"*2\r\n")?;
        let id = self.id()?;
        let strings = self.line(b'*')?;
        if strings % 2 != 0 || !(2..=2 * MOST_PAIRS as u64).contains(&strings) {
            return None;
        }
        let (from, mut size) = (self.rest, ALONE_BYTES);
        for _ in 0..strings {
            size += string_size(self.bulk()?);
        }
        let bulks = &from[..from.len() - self.rest.len()];
        (size <= MOST_BYTES).then_some(Message { id, strings: strings as usize, bulks })
    }
}

/// How many messages a range reply has, and the one at a place.
#[inline(always)]
fn read_range(reply: &[u8], place: u64) -> Option<(u64, Option<Message<'_>>)> {
    let mut reader = Reader { rest: reply };
    let count = reader.line(b'*')?;
    let (mut above, mut found) = (Id::LEAST, None);
    for at in 0..count {
        let message = reader.message()?;
        if message.id <= above {
            return None;
        }
        above = message.id;
        if at == place {
            found = Some(message);
        }
    }
    reader.rest.is_empty().then_some((count, found))
}

/// A number of a reply that has nothing else.
fn read_number(reply: &[u8], before: &[u8]) -> Option<u64> {
    let mut reader = Reader { rest: reply };
    reader.pass(before)?;
    let number = reader.number()?;
    (reader.rest == b"\r\n").then_some(number)
}

fn read(reply: &[u8]) -> Option<(u64, u64)> {
    match reply.first()? {
        b'*' => read_range(reply, u64::MAX).map(|(count, _)| (RANGE, count)),
        b':' => {
            read_number(reply, b":").filter(|&number| number <= MOST_COUNTED).map(|number| (INTEGER, number))
        }
        _ => {
            let number = read_number(reply, b"-ERR ")?;
            (1..=LAST_REFUSAL).contains(&number).then_some((ERROR, number))
        }
    }
}

/// The kind of a reply, and how many messages it has or its number.
pub fn read_reply(reply: &[u8], kind: &mut u64, number: &mut u64) -> u32 {
    let Some(found) = read(reply) else { return 3 };
    (*kind, *number) = found;
    0
}

/// The message at a place of a range reply, as a slip.
pub fn reply_message(reply: &[u8], place: u64, out: &mut [u8], id: &mut Id, length: &mut u64) -> u32 {
    let Some((_, found)) = read_range(reply, place) else { return 3 };
    let Some(message) = found else { return NONE };
    let Some(written) = write_slip(&message, out) else { return 8 };
    *id = message.id;
    *length = written as u64;
    0
}

/// Writes the message as a slip to the start of the output, unless that is too short; the slip's length.
fn write_slip(message: &Message, out: &mut [u8]) -> Option<usize> {
    let strings = || {
        let mut reader = Reader { rest: message.bulks };
        (0..message.strings).map_while(move |_| reader.bulk())
    };
    let length = 1 + strings().map(|string| 2 + string.len()).sum::<usize>();
    let mut writer = Writer::new(out.get_mut(..length)?);
    writer.put(&[(message.strings / 2) as u8]);
    for string in strings() {
        writer.put(&(string.len() as u16).to_le_bytes());
        writer.put(string);
    }
    Some(length)
}
