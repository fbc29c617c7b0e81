//! Listpacks (01, Listpack elements).
//!
//! ```text
//! listpack   total bytes (4, LE) | element count (2, LE) | elements | FF
//! element    encoding | content | back length
//!
//! 0xxxxxxx                  0 to 127
//! 110xxxxx xxxxxxxx         -4,096 to 4,095, high 5 bits first
//! F1 | F2 | F3 | F4         then 2 | 3 | 4 | 8 bytes, two's complement, little-endian
//! 10xxxxxx                  string of 0 to 63 bytes follows
//! 1110xxxx xxxxxxxx         string of 64 to 4,095 bytes follows, high 4 bits first
//! ```

use crate::bytes::Reader;
use crate::decimal;
use crate::refusal::Refused;

/// The length of the longest string that has an element.
pub const LONGEST_STRING: usize = 4_095;
pub const HEADER_BYTES: usize = 6;
pub const END: u8 = 0xFF;

/// First byte and width of the integer forms F1 to F4.
const WIDE_FORMS: [(u8, usize); 4] = [(0xF1, 2), (0xF2, 3), (0xF3, 4), (0xF4, 8)];

/// The element of a string; none for a string over 4,095 bytes.
pub fn element(string: &[u8]) -> Option<Vec<u8>> {
    let mut bytes = match decimal::parse(string) {
        Some(number) => integer_body(number),
        None => string_body(string)?,
    };
    bytes.extend(back_length(bytes.len()));
    Some(bytes)
}

pub fn element_size(string: &[u8]) -> Option<usize> {
    element(string).map(|bytes| bytes.len())
}

/// Encoding and content of an integer, in the first form that fits.
fn integer_body(number: i64) -> Vec<u8> {
    if (0..=127).contains(&number) {
        return vec![number as u8];
    }
    if (-4096..=4095).contains(&number) {
        let pattern = number & 0x1FFF;
        return vec![0xC0 | (pattern >> 8) as u8, pattern as u8];
    }
    let (first, width) =
        WIDE_FORMS.into_iter().find(|&(_, width)| fits(number, width)).expect("64 bits fit every i64");
    let mut bytes = vec![first];
    bytes.extend(&number.to_le_bytes()[..width]);
    bytes
}

/// Whether a signed number of `width` bytes holds the number.
fn fits(number: i64, width: usize) -> bool {
    let half = 1i128 << (8 * width - 1);
    (-half..half).contains(&i128::from(number))
}

/// Encoding and content of a string that is not an integer.
fn string_body(string: &[u8]) -> Option<Vec<u8>> {
    let length = string.len();
    let mut bytes = match length {
        0..=63 => vec![0x80 | length as u8],
        64..=LONGEST_STRING => vec![0xE0 | (length >> 8) as u8, length as u8],
        _ => return None,
    };
    bytes.extend(string);
    Some(bytes)
}

/// The back length of an element whose encoding and content have this size.
pub fn back_length(size: usize) -> Vec<u8> {
    if size <= 127 {
        vec![size as u8]
    } else {
        vec![(size / 128) as u8, 128 + (size % 128) as u8]
    }
}

/// The string of the element that starts the slice, and the element's size.
pub fn read_element(bytes: &[u8]) -> Result<(Vec<u8>, usize), Refused> {
    let string = decode(bytes)?;
    let element = element(&string).ok_or(Refused)?;
    if bytes.starts_with(&element) {
        Ok((string, element.len()))
    } else {
        Err(Refused)
    }
}

/// The string that encoding and content stand for, whether or not the form is the right one.
fn decode(bytes: &[u8]) -> Result<Vec<u8>, Refused> {
    let mut reader = Reader::new(bytes);
    let first = reader.byte()?;
    match first {
        0x00..=0x7F => Ok(decimal::text(i64::from(first))),
        0x80..=0xBF => Ok(reader.take(usize::from(first & 0x3F))?.to_vec()),
        0xC0..=0xDF => {
            let pattern = i64::from(first & 0x1F) << 8 | i64::from(reader.byte()?);
            Ok(decimal::text(if pattern < 4096 { pattern } else { pattern - 8192 }))
        }
        0xE0..=0xEF => {
            let length = usize::from(first & 0x0F) << 8 | usize::from(reader.byte()?);
            Ok(reader.take(length)?.to_vec())
        }
        _ => {
            let (_, width) = WIDE_FORMS.into_iter().find(|form| form.0 == first).ok_or(Refused)?;
            Ok(decimal::text(sign_extended(reader.number(width)?, width)))
        }
    }
}

/// The signed number of a two's complement pattern of `width` bytes.
fn sign_extended(pattern: u64, width: usize) -> i64 {
    let unused = 64 - 8 * width as u32;
    (pattern << unused) as i64 >> unused
}

/// Total bytes and element count.
pub fn header(total: u32, count: u16) -> [u8; HEADER_BYTES] {
    let mut bytes = [0; HEADER_BYTES];
    bytes[..4].copy_from_slice(&total.to_le_bytes());
    bytes[4..].copy_from_slice(&count.to_le_bytes());
    bytes
}

/// The listpack of a list of strings; none where a string has no element or the header cannot
/// hold the figures.
pub fn listpack<S: AsRef<[u8]>>(strings: &[S]) -> Option<Vec<u8>> {
    let mut elements = Vec::new();
    for string in strings {
        elements.extend(element(string.as_ref())?);
    }
    let total = u32::try_from(HEADER_BYTES + elements.len() + 1).ok()?;
    let count = u16::try_from(strings.len()).ok()?;
    Some([&header(total, count)[..], &elements, &[END]].concat())
}

/// The strings of a listpack that is the whole slice.
pub fn read_listpack(bytes: &[u8]) -> Result<Vec<Vec<u8>>, Refused> {
    let mut reader = Reader::new(bytes);
    let _total = reader.number(4)?;
    let count = reader.number(2)?;
    let mut strings = Vec::new();
    for _ in 0..count {
        let (string, size) = read_element(reader.rest())?;
        reader.take(size)?;
        strings.push(string);
    }
    if listpack(&strings).as_deref() == Some(bytes) {
        Ok(strings)
    } else {
        Err(Refused)
    }
}

#[cfg(test)]
mod tests;
