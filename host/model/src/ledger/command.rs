//! The commands of 01 and of 02, and their answers.

use crate::id::Id;
use crate::message::Name;
use crate::refusal::Refusal;

use super::Report;

/// A command with its arguments. `room` is the length of the output.
#[derive(Clone, Debug, PartialEq, Eq)]
pub enum Command {
    SetUp,
    Add { id: Id, slip: Vec<u8> },
    AddByClock { time: u64, slip: Vec<u8> },
    Delete { id: Id },
    Trim { keep: u64 },
    Next { id: Id },
    Read { id: Id, room: usize },
    Field { id: Id, name: Vec<u8>, room: usize },
    Report { name: Vec<u8>, first: Id, last: Id },
    RangeReply { first: Id, last: Id, room: usize },
    CreateGroup { group: Name, start: Id },
    DestroyGroup { group: Name },
    GroupRead { group: Name, consumer: Name, now: u64 },
    GroupReadMany { group: Name, consumer: Name, now: u64, n: u64, room: usize },
    Acknowledge { group: Name, id: Id },
    Claim { group: Name, consumer: Name, least_idle: u64, id: Id, now: u64 },
    NextPending { group: Name, consumer: Name, after: Id },
    DropConsumer { group: Name, consumer: Name },
    Save { room: usize },
    Load { file: Vec<u8> },
}

#[derive(Clone, Debug, PartialEq, Eq)]
pub enum Answer {
    /// Set up, load, create group, destroy group.
    Done,
    /// Both adds, next, group read.
    Id(Id),
    /// Delete, trim, acknowledge, drop consumer.
    Count(u64),
    /// Read, field, range reply, save, batch reading: what starts the output.
    Written(Vec<u8>),
    Report(Report),
    /// Claim.
    Moved,
    /// Next pending.
    Pending {
        id: Id,
        time: u64,
        count: u16,
        lives: bool,
    },
    /// Next, next pending: there is none.
    NoneFound,
    /// Group read: nothing new.
    NothingNew,
    /// Field: the message lacks it.
    Absent,
    /// Claim: not moved.
    NotMoved,
    Refused(Refusal),
}

impl Answer {
    /// What the C function returns.
    pub fn code(&self) -> u32 {
        match self {
            Answer::NoneFound | Answer::NothingNew => 32,
            Answer::Absent => 33,
            Answer::NotMoved => 34,
            Answer::Report(report) if report.integers == 0 => 35,
            Answer::Refused(number) => *number,
            _ => 0,
        }
    }

    /// Whether this answer to this command leaves ledger and cut as they were. A drop that answers 0 may still remove a consumer
    /// without entries.
    pub fn changes_nothing(&self, command: &Command) -> bool {
        match (command, self) {
            (Command::GroupReadMany { .. }, Answer::Written(ids)) => ids.is_empty(),
            (Command::DropConsumer { .. }, Answer::Count(_)) => false,
            (Command::Next { .. } | Command::Report { .. }, _) => true,
            (_, Answer::Count(0) | Answer::Written(_) | Answer::Pending { .. }) => true,
            _ => self.code() != 0,
        }
    }
}

#[cfg(test)]
mod tests {
    use super::*;

    #[test]
    fn codes() {
        assert_eq!(Answer::Done.code(), 0);
        assert_eq!(Answer::Count(0).code(), 0);
        assert_eq!(Answer::NoneFound.code(), 32);
        assert_eq!(Answer::NothingNew.code(), 32);
        assert_eq!(Answer::Absent.code(), 33);
        assert_eq!(Answer::NotMoved.code(), 34);
        assert_eq!(Answer::Report(Report { integers: 1, ..Report::default() }).code(), 0);
        assert_eq!(Answer::Report(Report { other: 1, ..Report::default() }).code(), 35);
        assert_eq!(Answer::Refused(7).code(), 7);
    }
}
