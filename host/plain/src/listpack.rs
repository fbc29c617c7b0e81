//! The strict listpack reader and writer in plain Rust, written for speed from document 01
//! ("Listpack elements"). What is called for each element is always inlined: the compiler, left to itself,
//! calls it once it has several callers, and its answer then goes through memory.

const HEADER_BYTES: usize = 6;
const END: u8 = 0xFF;
/// The length of the longest string that has an element.
const LONGEST: usize = 4095;

#[derive(Clone, Copy, Debug, PartialEq, Eq)]
pub enum Element<'a> {
    Integer(i64),
    Text(&'a [u8]),
}

/// The integer that a string is stored as.
#[inline(always)]
pub fn integer(string: &[u8]) -> Option<i64> {
    let (negative, digits) = match string {
        [b'-', digits @ ..] => (true, digits),
        digits => (false, digits),
    };
    match digits {
        [b'0'] if !negative => return Some(0),
        [b'1'..=b'9', ..] if digits.len() <= 19 => {}
        _ => return None,
    }
    // 19 digits fit 64 bits.
    let mut magnitude = 0u64;
    for &byte in digits {
        let digit = byte.wrapping_sub(b'0');
        if digit > 9 {
            return None;
        }
        magnitude = magnitude * 10 + u64::from(digit);
    }
    if negative {
        (magnitude <= 1 << 63).then(|| (magnitude as i64).wrapping_neg())
    } else {
        i64::try_from(magnitude).ok()
    }
}

/// The element that starts the slice, and its size.
#[inline(always)]
pub fn read_element(bytes: &[u8]) -> Option<(Element<'_>, usize)> {
    let &first = bytes.first()?;
    let (number, wide_enough, size) = match first {
        0x00..=0x7F => {
            let &[number, 1, ..] = bytes else { return None };
            (i64::from(number), true, 2)
        }
        0x80..=0xBF => return text(bytes, 1, usize::from(first & 0x3F)),
        0xC0..=0xDF => {
            let &[_, second, 2, ..] = bytes else { return None };
            let pattern = u16::from(first) << 8 | u16::from(second);
            let number = i64::from((pattern << 3) as i16 >> 3);
            (number, !(0..=127).contains(&number), 3)
        }
        0xE0..=0xEF => {
            let &[_, second, ..] = bytes else { return None };
            let length = usize::from(first & 0x0F) << 8 | usize::from(second);
            if length < 64 {
                return None;
            }
            return text(bytes, 2, length);
        }
        0xF1 => {
            let &[_, a, b, 3, ..] = bytes else { return None };
            let number = i64::from(i16::from_le_bytes([a, b]));
            (number, !(-4096..=4095).contains(&number), 4)
        }
        0xF2 => {
            let &[_, a, b, c, 4, ..] = bytes else { return None };
            let number = i64::from(i32::from_le_bytes([0, a, b, c]) >> 8);
            (number, i64::from(number as i16) != number, 5)
        }
        0xF3 => {
            let &[_, a, b, c, d, 5, ..] = bytes else { return None };
            let number = i64::from(i32::from_le_bytes([a, b, c, d]));
            (number, number << 40 >> 40 != number, 6)
        }
        0xF4 => {
            let &[_, a, b, c, d, e, f, g, h, 9, ..] = bytes else { return None };
            let number = i64::from_le_bytes([a, b, c, d, e, f, g, h]);
            (number, i64::from(number as i32) != number, 10)
        }
        _ => return None,
    };
    wide_enough.then_some((Element::Integer(number), size))
}

/// A text of `length` bytes after a head of `head` bytes.
#[inline(always)]
fn text(bytes: &[u8], head: usize, length: usize) -> Option<(Element<'_>, usize)> {
    let body = head + length;
    let (content, back) = bytes.split_at_checked(body)?;
    let size = if body < 128 {
        if usize::from(*back.first()?) != body {
            return None;
        }
        body + 1
    } else {
        let &[high, low, ..] = back else { return None };
        if usize::from(high) != body >> 7 || usize::from(low) != 128 | body & 127 {
            return None;
        }
        body + 2
    };
    let string = &content[head..];
    // No integer has more than 20 bytes.
    if length <= 20 && integer(string).is_some() {
        return None;
    }
    Some((Element::Text(string), size))
}

/// Whether the whole slice is a listpack.
pub fn check(bytes: &[u8]) -> bool {
    let &[t0, t1, t2, t3, c0, c1, ref elements @ ..] = bytes else { return false };
    if u32::from_le_bytes([t0, t1, t2, t3]) as usize != bytes.len() {
        return false;
    }
    let mut rest = elements;
    for _ in 0..u16::from_le_bytes([c0, c1]) {
        match read_element(rest) {
            Some((_, size)) => rest = &rest[size..],
            None => return false,
        }
    }
    rest == [END]
}

/// The size of an element that is in order.
#[inline(always)]
pub fn element_size(bytes: &[u8]) -> usize {
    let first = bytes[0];
    let body = match first {
        0x00..=0x7F => return 2,
        0x80..=0xBF => 1 + usize::from(first & 0x3F),
        0xC0..=0xDF => return 3,
        0xE0..=0xEF => 2 + (usize::from(first & 0x0F) << 8 | usize::from(bytes[1])),
        0xF1 => return 4,
        0xF2 => return 5,
        0xF3 => return 6,
        _ => return 10,
    };
    if body < 128 {
        body + 1
    } else {
        body + 2
    }
}

/// A number of two's complement, little-endian.
#[inline]
fn signed(bytes: &[u8]) -> i64 {
    let fill = if bytes[bytes.len() - 1] & 0x80 == 0 { 0 } else { 0xFF };
    let mut whole = [fill; 8];
    whole[..bytes.len()].copy_from_slice(bytes);
    i64::from_le_bytes(whole)
}

/// Where a text starts and its length, if the element there, which is in order, is one.
#[inline(always)]
pub fn text_at(bytes: &[u8], at: usize) -> Option<(usize, usize)> {
    let first = bytes[at];
    match first {
        0x80..=0xBF => Some((at + 1, usize::from(first & 0x3F))),
        0xE0..=0xEF => Some((at + 2, usize::from(first & 0x0F) << 8 | usize::from(bytes[at + 1]))),
        _ => None,
    }
}

/// An integer that is in order, and the place after it.
#[inline(always)]
pub fn integer_at(bytes: &[u8], at: usize) -> (i64, usize) {
    let first = bytes[at];
    match first {
        0x00..=0x7F => (i64::from(first), at + 2),
        0xC0..=0xDF => {
            let pattern = u16::from(first) << 8 | u16::from(bytes[at + 1]);
            (i64::from((pattern << 3) as i16 >> 3), at + 3)
        }
        _ => {
            let next = at + element_size(&bytes[at..]);
            (signed(&bytes[at + 1..next - 1]), next)
        }
    }
}

/// So many bytes there.
#[inline(always)]
fn bytes_at<const N: usize>(bytes: &[u8], at: usize) -> [u8; N] {
    bytes[at..at + N].try_into().expect("as many")
}

/// The integer of a string that is in order, none where it is a text, and the place after it. Values are long integers more often than
/// differences are, so each form is read by itself.
#[inline(always)]
pub fn value_at(bytes: &[u8], at: usize) -> (Option<i64>, usize) {
    match bytes[at] {
        0x80..=0xBF | 0xE0..=0xEF => (None, at + element_size(&bytes[at..])),
        0xF1 => (Some(i64::from(i16::from_le_bytes(bytes_at(bytes, at + 1)))), at + 4),
        // 24 bits, with the byte before them, which is shifted out.
        0xF2 => (Some(i64::from(i32::from_le_bytes(bytes_at(bytes, at)) >> 8)), at + 5),
        0xF3 => (Some(i64::from(i32::from_le_bytes(bytes_at(bytes, at + 1)))), at + 6),
        0xF4 => (Some(i64::from_le_bytes(bytes_at(bytes, at + 1))), at + 10),
        _ => {
            let (integer, next) = integer_at(bytes, at);
            (Some(integer), next)
        }
    }
}

/// The size of an integer's element.
#[inline]
pub fn integer_size(number: i64) -> usize {
    match number {
        0..=127 => 2,
        -4096..=4095 => 3,
        _ if i64::from(number as i16) == number => 4,
        _ if number << 40 >> 40 == number => 5,
        _ if i64::from(number as i32) == number => 6,
        _ => 10,
    }
}

/// The size of a string's element.
#[inline]
pub fn string_size(string: &[u8]) -> usize {
    if let Some(number) = integer(string) {
        return integer_size(number);
    }
    let length = string.len();
    let body = if length < 64 { 1 + length } else { 2 + length };
    body + if body < 128 { 1 } else { 2 }
}

/// Writes an integer's element at the start of the slice, unless it is too small; the element's size.
#[inline(always)]
pub fn write_integer(out: &mut [u8], number: i64) -> Option<usize> {
    if (0..=127).contains(&number) {
        out.get_mut(..2)?.copy_from_slice(&[number as u8, 1]);
        return Some(2);
    }
    if (-4096..=4095).contains(&number) {
        let pattern = number as u16 & 0x1FFF;
        out.get_mut(..3)?.copy_from_slice(&[0xC0 | (pattern >> 8) as u8, pattern as u8, 2]);
        return Some(3);
    }
    let bytes = number.to_le_bytes();
    if i64::from(number as i16) == number {
        out.get_mut(..4)?.copy_from_slice(&[0xF1, bytes[0], bytes[1], 3]);
        return Some(4);
    }
    if number << 40 >> 40 == number {
        out.get_mut(..5)?.copy_from_slice(&[0xF2, bytes[0], bytes[1], bytes[2], 4]);
        return Some(5);
    }
    if i64::from(number as i32) == number {
        out.get_mut(..6)?.copy_from_slice(&[0xF3, bytes[0], bytes[1], bytes[2], bytes[3], 5]);
        return Some(6);
    }
    let out = out.get_mut(..10)?;
    out[0] = 0xF4;
    out[1..9].copy_from_slice(&bytes);
    out[9] = 9;
    Some(10)
}

/// The same for a string.
#[inline(always)]
pub fn write_string(out: &mut [u8], string: &[u8]) -> Option<usize> {
    if let Some(number) = integer(string) {
        return write_integer(out, number);
    }
    let length = string.len();
    if length > LONGEST {
        return None;
    }
    let head = if length < 64 { 1 } else { 2 };
    let body = head + length;
    let size = if body < 128 { body + 1 } else { body + 2 };
    let out = out.get_mut(..size)?;
    if length < 64 {
        out[0] = 0x80 | length as u8;
    } else {
        out[..2].copy_from_slice(&[0xE0 | (length >> 8) as u8, length as u8]);
    }
    out[head..body].copy_from_slice(string);
    if body < 128 {
        out[body] = body as u8;
    } else {
        out[body..].copy_from_slice(&[(body >> 7) as u8, 128 | body as u8]);
    }
    Some(size)
}

/// A listpack of elements, each written by `write` into the room that is left, as many as fit;
/// its size, or 0 where no listpack fits.
#[inline]
fn fill(out: &mut [u8], mut write: impl FnMut(&mut [u8]) -> Option<usize>) -> usize {
    let Some(room) = out.len().checked_sub(1).filter(|&room| room >= HEADER_BYTES) else { return 0 };
    let mut at = HEADER_BYTES;
    let mut count = 0u16;
    while count < u16::MAX {
        let Some(size) = write(&mut out[at..room]) else { break };
        at += size;
        count += 1;
    }
    out[at] = END;
    out[..4].copy_from_slice(&(at as u32 + 1).to_le_bytes());
    out[4..6].copy_from_slice(&count.to_le_bytes());
    at + 1
}

/// A listpack of the integers first, first + step, .. modulo 2^64, as many as fit; its size.
pub fn write_integers(out: &mut [u8], first: u64, step: u64) -> usize {
    let mut number = first;
    fill(out, |out| {
        let size = write_integer(out, number as i64)?;
        number = number.wrapping_add(step);
        Some(size)
    })
}

/// A listpack of as many copies of the string as fit; its size. A string that has no element gives 0.
pub fn write_texts(out: &mut [u8], string: &[u8]) -> usize {
    if string.len() > LONGEST {
        return 0;
    }
    fill(out, |out| write_string(out, string))
}
