//! Reading a byte slice from front to back.

use crate::id::Id;
use crate::refusal::Refused;

/// The part of a slice that is not read yet.
#[derive(Clone, Copy, Debug)]
pub struct Reader<'a> {
    rest: &'a [u8],
}

impl<'a> Reader<'a> {
    pub fn new(bytes: &'a [u8]) -> Self {
        Reader { rest: bytes }
    }

    pub fn rest(&self) -> &'a [u8] {
        self.rest
    }

    pub fn is_at_end(&self) -> bool {
        self.rest.is_empty()
    }

    /// The next `count` bytes; refused where fewer are left.
    pub fn take(&mut self, count: usize) -> Result<&'a [u8], Refused> {
        let (taken, rest) = self.rest.split_at_checked(count).ok_or(Refused)?;
        self.rest = rest;
        Ok(taken)
    }

    pub fn byte(&mut self) -> Result<u8, Refused> {
        Ok(self.take(1)?[0])
    }

    /// An unsigned little-endian number of `width` bytes, `width` at most 8.
    pub fn number(&mut self, width: usize) -> Result<u64, Refused> {
        let mut wide = [0; 8];
        wide[..width].copy_from_slice(self.take(width)?);
        Ok(u64::from_le_bytes(wide))
    }

    /// A little-endian number of `width` bytes as a length, `width` at most 4.
    pub fn length(&mut self, width: usize) -> Result<usize, Refused> {
        usize::try_from(self.number(width)?).map_err(|_| Refused)
    }

    /// An ID of 16 big-endian bytes.
    pub fn id(&mut self) -> Result<Id, Refused> {
        let bytes = self.take(16)?.try_into().map_err(|_| Refused)?;
        Ok(Id::from_bytes(bytes))
    }
}

#[cfg(test)]
mod tests {
    use super::*;

    #[test]
    fn reads_in_order() {
        let mut reader = Reader::new(&[7, 1, 2, 3, 0, 0, 9]);
        assert_eq!(reader.byte(), Ok(7));
        assert_eq!(reader.number(2), Ok(0x0201));
        assert_eq!(reader.length(3), Ok(3));
        assert_eq!(reader.rest(), [9]);
        assert!(!reader.is_at_end());
        assert_eq!(reader.take(1), Ok(&[9][..]));
        assert!(reader.is_at_end());
    }

    #[test]
    fn refuses_past_the_end() {
        let mut reader = Reader::new(&[1, 2]);
        assert_eq!(reader.take(3), Err(Refused));
        assert_eq!(reader.number(4), Err(Refused));
        assert_eq!(reader.id(), Err(Refused));
        assert_eq!(reader.take(2), Ok(&[1, 2][..]));
        assert_eq!(reader.byte(), Err(Refused));
    }
}
