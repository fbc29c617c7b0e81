//! Slips: a message as it travels.

#[cfg(feature = "alloc")]
use alloc::{vec, vec::Vec};

use crate::Refusal;

/// A message has 1 to this many pairs.
pub const MOST_PAIRS: usize = 32;
/// A field or a value has at most this many bytes.
pub const LONGEST_STRING: usize = 1000;

/// The pairs of a message in borrowed bytes: a field and its value, in order. Names may repeat.
///
/// ```
/// use wallathi::SlipRef;
/// let mut bytes = [0; 64];
/// let slip = SlipRef::write([("west", "-120"), ("east", "0")], &mut bytes)?;
/// assert_eq!(slip.value(b"east"), Some(&b"0"[..]));
/// assert_eq!(slip.value(b"middle"), None);
/// # Ok::<(), wallathi::Refusal>(())
/// ```
#[derive(Clone, Copy, Debug, PartialEq, Eq, Hash)]
pub struct SlipRef<'a> {
    bytes: &'a [u8],
}

impl<'a> SlipRef<'a> {
    /// Bytes that came from elsewhere.
    ///
    /// # Errors
    ///
    /// [`Refusal::BadArgument`] where they are no slip.
    pub fn from_bytes(bytes: &'a [u8]) -> Result<SlipRef<'a>, Refusal> {
        is_slip(bytes).then_some(SlipRef { bytes }).ok_or(Refusal::BadArgument)
    }

    /// The slip of these pairs, written to the start of `out`.
    ///
    /// # Errors
    ///
    /// [`Refusal::BadArgument`] for no pair, over 32 of them, or a string of over 1,000 bytes; [`Refusal::ShortOutput`] where `out` is
    /// shorter than the slip. Some of `out` is then written.
    pub fn write<F, V>(
        pairs: impl IntoIterator<Item = (F, V)>,
        out: &'a mut [u8],
    ) -> Result<SlipRef<'a>, Refusal>
    where
        F: AsRef<[u8]>,
        V: AsRef<[u8]>,
    {
        let mut length = 0;
        let mut put = |bytes: &[u8]| {
            let place = out.get_mut(length..).and_then(|rest| rest.get_mut(..bytes.len()));
            place.ok_or(Refusal::ShortOutput)?.copy_from_slice(bytes);
            length += bytes.len();
            Ok(())
        };
        let count = put_pairs(pairs, &mut put)?;
        out[0] = count;
        Ok(SlipRef { bytes: &out[..length] })
    }

    /// The bytes that travel.
    #[must_use]
    pub fn as_bytes(self) -> &'a [u8] {
        self.bytes
    }

    /// The pairs, in order.
    pub fn pairs(self) -> Pairs<'a> {
        Pairs { rest: &self.bytes[1..] }
    }

    /// The value of the first pair with that name; none where the message lacks it.
    #[must_use]
    pub fn value(self, name: &[u8]) -> Option<&'a [u8]> {
        self.pairs().find(|&(field, _)| field == name).map(|(_, value)| value)
    }
}

/// The pairs of a message: a field and its value, in order. Names may repeat.
///
/// ```
/// use wallathi::Slip;
/// let slip = Slip::of([("west", "-120"), ("east", "0")])?;
/// let pairs: Vec<_> = slip.pairs().collect();
/// assert_eq!(pairs, [(&b"west"[..], &b"-120"[..]), (b"east", b"0")]);
/// assert_eq!(slip.value(b"middle"), None);
/// # Ok::<(), wallathi::Refusal>(())
/// ```
#[cfg(feature = "alloc")]
#[derive(Clone, Debug, PartialEq, Eq, Hash)]
pub struct Slip {
    bytes: Vec<u8>,
}

#[cfg(feature = "alloc")]
impl Slip {
    /// The slip of these pairs.
    ///
    /// # Errors
    ///
    /// [`Refusal::BadArgument`] for no pair, over 32 of them, or a string of over 1,000 bytes.
    pub fn of<F, V>(pairs: impl IntoIterator<Item = (F, V)>) -> Result<Slip, Refusal>
    where
        F: AsRef<[u8]>,
        V: AsRef<[u8]>,
    {
        let mut bytes = vec![];
        let mut put = |more: &[u8]| {
            bytes.extend_from_slice(more);
            Ok(())
        };
        let count = put_pairs(pairs, &mut put)?;
        bytes[0] = count;
        Ok(Slip { bytes })
    }

    /// Bytes that came from elsewhere.
    ///
    /// # Errors
    ///
    /// [`Refusal::BadArgument`] where they are no slip.
    pub fn from_bytes(bytes: Vec<u8>) -> Result<Slip, Refusal> {
        is_slip(&bytes).then_some(Slip { bytes }).ok_or(Refusal::BadArgument)
    }

    /// What the library wrote, which is a slip by its promise.
    pub(crate) fn as_written(bytes: &[u8]) -> Slip {
        debug_assert!(is_slip(bytes));
        Slip { bytes: bytes.to_vec() }
    }

    /// The same, borrowed.
    #[must_use]
    pub fn borrowed(&self) -> SlipRef<'_> {
        SlipRef { bytes: &self.bytes }
    }

    /// The bytes that travel.
    #[must_use]
    pub fn as_bytes(&self) -> &[u8] {
        &self.bytes
    }

    /// The pairs, in order.
    pub fn pairs(&self) -> Pairs<'_> {
        self.borrowed().pairs()
    }

    /// The value of the first pair with that name; none where the message lacks it.
    #[must_use]
    pub fn value(&self, name: &[u8]) -> Option<&[u8]> {
        self.borrowed().value(name)
    }
}

#[cfg(feature = "alloc")]
impl<'a> From<&'a Slip> for SlipRef<'a> {
    fn from(slip: &'a Slip) -> SlipRef<'a> {
        slip.borrowed()
    }
}

/// Hands over a byte for the number of pairs, then the pairs; the answer is their number, which belongs into that byte.
fn put_pairs<F, V>(
    pairs: impl IntoIterator<Item = (F, V)>,
    put: &mut impl FnMut(&[u8]) -> Result<(), Refusal>,
) -> Result<u8, Refusal>
where
    F: AsRef<[u8]>,
    V: AsRef<[u8]>,
{
    let mut count = 0;
    put(&[0])?;
    for (field, value) in pairs {
        if usize::from(count) == MOST_PAIRS {
            return Err(Refusal::BadArgument);
        }
        count += 1;
        put_string(field.as_ref(), put)?;
        put_string(value.as_ref(), put)?;
    }
    match count {
        0 => Err(Refusal::BadArgument),
        _ => Ok(count),
    }
}

fn put_string(string: &[u8], put: &mut impl FnMut(&[u8]) -> Result<(), Refusal>) -> Result<(), Refusal> {
    let length = u16::try_from(string.len()).map_err(|_| Refusal::BadArgument)?;
    if LONGEST_STRING < string.len() {
        return Err(Refusal::BadArgument);
    }
    put(&length.to_le_bytes())?;
    put(string)
}

fn is_slip(bytes: &[u8]) -> bool {
    let Some((&pairs, mut rest)) = bytes.split_first() else { return false };
    for _ in 0..2 * usize::from(pairs) {
        match cut_string(rest) {
            Some((string, after)) if string.len() <= LONGEST_STRING => rest = after,
            _ => return false,
        }
    }
    (1..=MOST_PAIRS).contains(&usize::from(pairs)) && rest.is_empty()
}

/// A string with its length before it, and what follows.
fn cut_string(bytes: &[u8]) -> Option<(&[u8], &[u8])> {
    let (length, rest) = bytes.split_first_chunk::<2>()?;
    rest.split_at_checked(usize::from(u16::from_le_bytes(*length)))
}

/// The pairs of a slip, in order.
#[derive(Clone, Debug)]
#[must_use = "pairs are read as they are asked for"]
pub struct Pairs<'a> {
    rest: &'a [u8],
}

impl<'a> Iterator for Pairs<'a> {
    type Item = (&'a [u8], &'a [u8]);

    fn next(&mut self) -> Option<Self::Item> {
        let (field, rest) = cut_string(self.rest)?;
        let (value, rest) = cut_string(rest)?;
        self.rest = rest;
        Some((field, value))
    }
}

#[cfg(all(test, feature = "alloc"))]
mod tests {
    use super::*;

    #[test]
    fn bytes_go_there_and_back() {
        let slip = Slip::of([("a", "1"), ("", "")]).unwrap();
        assert_eq!(slip.as_bytes(), [2, 1, 0, b'a', 1, 0, b'1', 0, 0, 0, 0]);
        assert_eq!(Slip::from_bytes(slip.as_bytes().to_vec()), Ok(slip));
    }

    #[test]
    fn limits() {
        let long = [0; 1001];
        assert!(Slip::of([(&long[..1000], &long[..1000]); 32]).is_ok());
        assert_eq!(Slip::of([(&long[..1001], &long[..0])]), Err(Refusal::BadArgument));
        assert_eq!(Slip::of([("", ""); 33]), Err(Refusal::BadArgument));
        assert_eq!(Slip::of::<&str, &str>([]), Err(Refusal::BadArgument));
    }

    #[test]
    fn bytes_that_are_no_slip() {
        for bytes in [&[][..], &[0], &[1], &[1, 0, 0], &[1, 0, 0, 0, 0, 0], &[1, 0, 0, 1, 0], &[33]] {
            assert_eq!(Slip::from_bytes(bytes.to_vec()), Err(Refusal::BadArgument), "{bytes:?}");
            assert_eq!(SlipRef::from_bytes(bytes), Err(Refusal::BadArgument), "{bytes:?}");
        }
    }

    #[test]
    fn written_where_there_is_room() {
        let slip = Slip::of([("a", "1"), ("", "")]).unwrap();
        for room in 0..=12 {
            let mut out = [7; 12];
            let written = SlipRef::write([("a", "1"), ("", "")], &mut out[..room]);
            match room {
                11.. => assert_eq!(written, Ok(slip.borrowed())),
                _ => assert_eq!(written, Err(Refusal::ShortOutput)),
            }
        }
    }
}
