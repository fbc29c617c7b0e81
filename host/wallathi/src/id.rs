//! Message IDs.

use core::error::Error;
use core::fmt;
use core::str::FromStr;

/// How many bytes an ID has where a command writes it.
pub const ID_BYTES: usize = 16;

/// A message's ID: ms, then seq. It is written `ms-seq`.
///
/// ```
/// use wallathi::Id;
/// let id: Id = "1763000000000-7".parse()?;
/// assert_eq!(id, Id::new(1_763_000_000_000, 7));
/// assert_eq!(id.to_string(), "1763000000000-7");
/// assert!(Id::LEAST < id && id < Id::GREATEST);
/// # Ok::<(), wallathi::NotAnId>(())
/// ```
#[derive(Clone, Copy, Debug, Default, PartialEq, Eq, PartialOrd, Ord, Hash)]
pub struct Id {
    /// Milliseconds, where the host's clock gave the ID.
    pub ms: u64,
    /// The number among the IDs of one ms.
    pub seq: u64,
}

impl Id {
    /// 0-0, which no message has.
    pub const LEAST: Id = Id::new(0, 0);
    /// The ID after which there is none.
    pub const GREATEST: Id = Id::new(u64::MAX, u64::MAX);

    /// The ID of these two numbers.
    #[must_use]
    pub const fn new(ms: u64, seq: u64) -> Id {
        Id { ms, seq }
    }

    /// The ID of 16 bytes: ms, then seq, each big-endian.
    #[must_use]
    pub const fn from_bytes(bytes: [u8; ID_BYTES]) -> Id {
        let both = u128::from_be_bytes(bytes);
        #[allow(clippy::cast_possible_truncation)] // the lower half
        Id::new((both >> 64) as u64, both as u64)
    }

    /// The ID that follows; none after the greatest.
    #[must_use]
    pub fn following(self) -> Option<Id> {
        match self.seq.checked_add(1) {
            Some(seq) => Some(Id::new(self.ms, seq)),
            None => self.ms.checked_add(1).map(|ms| Id::new(ms, 0)),
        }
    }
}

impl fmt::Display for Id {
    fn fmt(&self, f: &mut fmt::Formatter<'_>) -> fmt::Result {
        write!(f, "{}-{}", self.ms, self.seq)
    }
}

/// The text is not two decimal numbers of 64 bits with a hyphen between them.
#[derive(Clone, Copy, Debug, PartialEq, Eq)]
pub struct NotAnId;

impl fmt::Display for NotAnId {
    fn fmt(&self, f: &mut fmt::Formatter<'_>) -> fmt::Result {
        f.write_str("an ID is written ms-seq, two decimal numbers of 64 bits")
    }
}

impl Error for NotAnId {}

impl FromStr for Id {
    type Err = NotAnId;

    fn from_str(text: &str) -> Result<Id, NotAnId> {
        let number = |digits: &str| {
            let is_unsigned = digits.bytes().all(|byte| byte.is_ascii_digit());
            is_unsigned.then(|| digits.parse().ok()).flatten().ok_or(NotAnId)
        };
        let (ms, seq) = text.split_once('-').ok_or(NotAnId)?;
        Ok(Id::new(number(ms)?, number(seq)?))
    }
}
