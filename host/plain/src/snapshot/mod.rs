//! Snapshots (01, Snapshot): contents first, then bodies.
//!
//! ```text
//! snapshot   version 1 (1) | entry count (2) | entries: kind (1), offset (4), length (4) | bodies back to back
//! kind 1     last ID 16                         once, first
//! kind 2     key 16 | listpack                  by rising key, from the fresh cut
//! kind 3     a group's body                     by rising name
//! ```

mod live;
mod load;
mod save;

pub use load::load;
pub use save::save;

const VERSION: u8 = 1;
const LAST_ID: u8 = 1;
const NODE: u8 = 2;
const GROUP: u8 = 3;
const CONTENTS: usize = 3;
const ENTRY: usize = 9;
const ID_BYTES: usize = 16;
