//! Refusals, by the number and the text of the rules.

use core::error::Error;
use core::fmt;

/// Why a command was refused. Nothing has changed then. Later versions may refuse for further reasons.
#[derive(Clone, Copy, Debug, PartialEq, Eq, Hash)]
#[non_exhaustive]
pub enum Refusal {
    /// 1: the store is shorter than one slot (set up, load).
    NoSlot,
    /// 2: store and state are the image of no messages and groups: damaged, or never set up.
    Damaged,
    /// 3: a slip or a reply is none, a name does not have its length, a batch is to have over 256 messages, or there is no reply of a
    /// number.
    BadArgument,
    /// 4: the ID is not above the last one.
    LowId,
    /// 5: no ID is left above the last one.
    NoIdLeft,
    /// 6: the message is too long for a slot.
    LongMessage,
    /// 7: the message needs a slot of its own and none is free.
    Full,
    /// 8: the output is shorter than the answer, or in a batch than as many IDs as are asked for.
    ShortOutput,
    /// 9: there is no such group.
    NoGroup,
    /// 10: the group exists.
    GroupExists,
    /// 11: there are 8 groups.
    MostGroups,
    /// 12: the consumer is new and there are 16.
    MostConsumers,
    /// 13: 256 entries are pending.
    MostPending,
    /// 14: no live message has this ID.
    NotLive,
    /// 15: the snapshot would need over 64 nodes.
    MostNodes,
    /// 16: the file is not a snapshot.
    NoSnapshot,
    /// 17: the snapshot has more nodes than the store has slots.
    SmallStore,
}

/// By their numbers, from 1.
const ALL: [(Refusal, &str); 17] = [
    (Refusal::NoSlot, "the store is shorter than one slot of 4,096 bytes"),
    (Refusal::Damaged, "store and state are not the image of any ledger: damaged, or never set up"),
    (Refusal::BadArgument, "a slip, a name, a key, a batch's number, a reply or its number breaks its rule"),
    (Refusal::LowId, "the ID is not above the last ID"),
    (Refusal::NoIdLeft, "the last ID is the greatest, and the time is not above its ms"),
    (Refusal::LongMessage, "the message is too large: a node of it alone exceeds 4,095 bytes"),
    (Refusal::Full, "the store is full: a new node is needed and no slot is free"),
    (Refusal::ShortOutput, "the output is shorter than the answer, or in a batch than the IDs asked for"),
    (Refusal::NoGroup, "no such group"),
    (Refusal::GroupExists, "the group exists"),
    (Refusal::MostGroups, "there are 8 groups already"),
    (Refusal::MostConsumers, "the group has 16 consumers already"),
    (Refusal::MostPending, "the group has 256 pending entries already"),
    (Refusal::NotLive, "no live message has this ID"),
    (Refusal::MostNodes, "the snapshot would need over 64 nodes"),
    (Refusal::NoSnapshot, "the file is not a snapshot"),
    (Refusal::SmallStore, "the snapshot has more nodes than the store has slots"),
];

impl Refusal {
    /// The number in the rules' table, 1 to 17.
    #[must_use]
    pub fn number(self) -> u32 {
        1 + self as u32
    }

    /// The refusal of a number; none for a number that is no refusal of the store.
    #[must_use]
    pub fn from_number(number: u32) -> Option<Refusal> {
        let place = usize::try_from(number).ok()?.checked_sub(1)?;
        ALL.get(place).map(|&(refusal, _)| refusal)
    }

    /// What it says, without its number.
    #[must_use]
    pub fn text(self) -> &'static str {
        ALL[self as usize].1
    }
}

impl fmt::Display for Refusal {
    fn fmt(&self, f: &mut fmt::Formatter<'_>) -> fmt::Result {
        write!(f, "{} ({})", self.text(), self.number())
    }
}

impl Error for Refusal {}

#[cfg(test)]
mod tests {
    use super::*;

    #[test]
    fn numbers_go_there_and_back() {
        for (place, &(refusal, _)) in ALL.iter().enumerate() {
            assert_eq!(refusal.number() as usize, place + 1);
            assert_eq!(Refusal::from_number(refusal.number()), Some(refusal));
        }
        assert_eq!([0, 18, 32, 33, 34, 35].map(Refusal::from_number), [None; 6]);
    }
}
