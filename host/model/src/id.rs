//! Message IDs (01, The ledger).

/// Two unsigned 64-bit numbers, ordered by `ms`, then `seq`.
#[derive(Clone, Copy, Debug, PartialEq, Eq, PartialOrd, Ord, Hash)]
pub struct Id {
    pub ms: u64,
    pub seq: u64,
}

impl Id {
    /// 0-0.
    pub const LEAST: Id = Id::new(0, 0);
    /// Both halves 2^64 - 1.
    pub const GREATEST: Id = Id::new(u64::MAX, u64::MAX);

    pub const fn new(ms: u64, seq: u64) -> Id {
        Id { ms, seq }
    }

    /// From `ms`, then `seq`, big-endian.
    pub fn from_bytes(bytes: [u8; 16]) -> Id {
        let both = u128::from_be_bytes(bytes);
        Id::new((both >> 64) as u64, both as u64)
    }

    /// The IDs that stand one after another, 16 bytes each.
    pub fn list(bytes: &[u8]) -> Vec<Id> {
        bytes.chunks(16).map(|id| Id::from_bytes(id.try_into().expect("16 bytes each"))).collect()
    }

    pub fn to_bytes(self) -> [u8; 16] {
        (u128::from(self.ms) << 64 | u128::from(self.seq)).to_be_bytes()
    }

    /// The ID that follows this one; none after the greatest.
    pub fn following(self) -> Option<Id> {
        if self.seq < u64::MAX {
            Some(Id::new(self.ms, self.seq + 1))
        } else {
            Some(Id::new(self.ms.checked_add(1)?, 0))
        }
    }

    /// The differences to a node's key, modulo 2^64, read as signed numbers.
    pub fn difference(self, key: Id) -> (i64, i64) {
        (self.ms.wrapping_sub(key.ms) as i64, self.seq.wrapping_sub(key.seq) as i64)
    }

    /// The ID with these differences to this key.
    pub fn with_difference(self, ms: i64, seq: i64) -> Id {
        Id::new(self.ms.wrapping_add(ms as u64), self.seq.wrapping_add(seq as u64))
    }
}

#[cfg(test)]
mod tests {
    use super::*;

    #[test]
    fn is_ordered_by_ms_then_seq() {
        assert!(Id::new(5, 9) < Id::new(6, 0));
        assert!(Id::new(5, 8) < Id::new(5, 9));
        assert!(Id::LEAST < Id::new(0, 1));
        assert!(Id::new(u64::MAX, 0) < Id::GREATEST);
    }

    #[test]
    fn following_is_the_next_in_order() {
        assert_eq!(Id::LEAST.following(), Some(Id::new(0, 1)));
        assert_eq!(Id::new(7, u64::MAX).following(), Some(Id::new(8, 0)));
        assert_eq!(Id::new(u64::MAX, 3).following(), Some(Id::new(u64::MAX, 4)));
        assert_eq!(Id::GREATEST.following(), None);
    }

    #[test]
    fn bytes_are_big_endian() {
        let id = Id::new(0x0102, 0xA0B0);
        let bytes = [0, 0, 0, 0, 0, 0, 1, 2, 0, 0, 0, 0, 0, 0, 0xA0, 0xB0];
        assert_eq!(id.to_bytes(), bytes);
        assert_eq!(Id::from_bytes(bytes), id);
        assert_eq!(Id::from_bytes([0xFF; 16]), Id::GREATEST);
        assert_eq!(Id::list(&[bytes, [0; 16]].concat()), [id, Id::LEAST]);
        assert_eq!(Id::list(&[]), []);
    }

    #[test]
    fn a_seq_difference_may_be_negative() {
        let key = Id::new(5, 9);
        assert_eq!(Id::new(6, 0).difference(key), (1, -9));
        assert_eq!(key.with_difference(1, -9), Id::new(6, 0));
    }

    #[test]
    fn differences_wrap() {
        let key = Id::new(1, 0);
        assert_eq!(Id::GREATEST.difference(key), (-2, -1));
        assert_eq!(key.with_difference(-2, -1), Id::GREATEST);
        assert_eq!(Id::new(1 << 63, 1 << 63).difference(Id::LEAST), (i64::MIN, i64::MIN));
    }
}
