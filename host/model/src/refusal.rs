//! The refusal numbers (01, Refusal numbers), and the answer of a strict reader that refuses.

/// A number of the table in 01.
pub type Refusal = u32;

pub const STORE_TOO_SHORT: Refusal = 1;
pub const NOT_AN_IMAGE: Refusal = 2;
pub const BREAKS_ITS_RULE: Refusal = 3;
pub const ID_NOT_ABOVE_LAST: Refusal = 4;
pub const NO_ID_LEFT: Refusal = 5;
pub const MESSAGE_TOO_LONG: Refusal = 6;
pub const NO_FREE_SLOT: Refusal = 7;
pub const OUTPUT_TOO_SHORT: Refusal = 8;
pub const NO_SUCH_GROUP: Refusal = 9;
pub const GROUP_EXISTS: Refusal = 10;
pub const TOO_MANY_GROUPS: Refusal = 11;
pub const TOO_MANY_CONSUMERS: Refusal = 12;
pub const TOO_MANY_PENDING: Refusal = 13;
pub const ID_NOT_LIVE: Refusal = 14;
pub const TOO_MANY_NODES: Refusal = 15;
pub const NOT_A_SNAPSHOT: Refusal = 16;
pub const MORE_NODES_THAN_SLOTS: Refusal = 17;
pub const TOO_MANY_KEYS: Refusal = 18;

/// The bytes are not the encoding of any value that keeps its rules.
#[derive(Clone, Copy, Debug, PartialEq, Eq)]
pub struct Refused;
