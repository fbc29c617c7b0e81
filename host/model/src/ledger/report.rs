//! The channel report (02, CR 2): what messages hold in the first pair of a name.

use crate::decimal;
use crate::message::{value_of, Message};

/// Integers from minus this to this are reported.
pub const LARGEST_REPORTED: i64 = 1_000_000_000;

/// Each message is in one of the three counts.
#[derive(Clone, Debug, Default, PartialEq, Eq)]
pub struct Report {
    pub lacking: u64,
    pub other: u64,
    pub integers: u64,
    pub sum: i64,
    /// None where there is no integer.
    pub smallest: Option<i64>,
    pub largest: Option<i64>,
}

impl Report {
    pub fn of<'a>(messages: impl IntoIterator<Item = &'a Message>, name: &[u8]) -> Report {
        let mut report = Report::default();
        for pairs in messages {
            match value_of(pairs, name) {
                None => report.lacking += 1,
                Some(value) => report.count(value),
            }
        }
        report
    }

    fn count(&mut self, value: &[u8]) {
        match decimal::parse(value) {
            Some(integer) if (-LARGEST_REPORTED..=LARGEST_REPORTED).contains(&integer) => {
                self.integers += 1;
                self.sum += integer;
                self.smallest = Some(self.smallest.map_or(integer, |smallest| smallest.min(integer)));
                self.largest = Some(self.largest.map_or(integer, |largest| largest.max(integer)));
            }
            _ => self.other += 1,
        }
    }

    /// How many messages it is over.
    pub fn messages(&self) -> u64 {
        self.lacking + self.other + self.integers
    }

    /// The report over the messages of both.
    pub fn with(&self, more: &Report) -> Report {
        Report {
            lacking: self.lacking + more.lacking,
            other: self.other + more.other,
            integers: self.integers + more.integers,
            sum: self.sum + more.sum,
            smallest: [self.smallest, more.smallest].into_iter().flatten().min(),
            largest: [self.largest, more.largest].into_iter().flatten().max(),
        }
    }
}

#[cfg(test)]
mod tests {
    use super::*;

    /// The report of "a" over messages that have these values there, and b before it.
    fn of(values: &[&str]) -> Report {
        let pair = |name: &str, value: &str| (name.as_bytes().to_vec(), value.as_bytes().to_vec());
        let message = |value: &&str| vec![pair("b", "9"), pair("a", value), pair("a", "5")];
        let messages: Vec<Message> = values.iter().map(message).collect();
        Report::of(&messages, b"a")
    }

    #[test]
    fn integers() {
        let three =
            Report { lacking: 0, other: 0, integers: 3, sum: -1, smallest: Some(-8), largest: Some(7) };
        assert_eq!(of(&["0", "7", "-8"]), three);
        let zero = Report { integers: 1, smallest: Some(0), largest: Some(0), ..Report::default() };
        assert_eq!(of(&["0"]), zero);
        assert_eq!(of(&[]), Report::default());
    }

    #[test]
    fn the_range_of_integers_ends_included() {
        let ends = of(&["1000000000", "-1000000000", "1000000000"]);
        assert_eq!((ends.integers, ends.other, ends.sum), (3, 0, 1_000_000_000));
        assert_eq!((ends.smallest, ends.largest), (Some(-1_000_000_000), Some(1_000_000_000)));
        let beyond = of(&["1000000001", "-1000000001", "9223372036854775807", "-9223372036854775808"]);
        assert_eq!(beyond, Report { other: 4, ..Report::default() });
    }

    #[test]
    fn texts_are_other() {
        let texts = ["", "-0", "007", "+1", " 1", "1.0", "no sample", "9223372036854775808"];
        assert_eq!(of(&texts), Report { other: 8, ..Report::default() });
    }

    #[test]
    fn a_message_without_the_name_lacks_it() {
        let messages: [Message; 2] = [vec![(b"b".to_vec(), b"1".to_vec())], vec![(vec![], b"2".to_vec())]];
        let lacking = Report { lacking: 2, ..Report::default() };
        assert_eq!(Report::of(&messages, b"a"), lacking);
        assert_eq!(Report::of(&messages, b"").integers, 1);
    }

    #[test]
    fn two_together() {
        let (one, other) = (of(&["3", "x", "-2"]), of(&["11", "y", ""]));
        assert_eq!(one.with(&other), of(&["3", "x", "-2", "11", "y", ""]));
        assert_eq!(one.with(&Report::default()), one);
        assert_eq!(one.messages(), 3);
    }
}
