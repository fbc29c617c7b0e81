//! Messages and names (01, The ledger).

/// Field name and value.
pub type Pair = (Vec<u8>, Vec<u8>);

/// The pairs of a message in order; field names may repeat.
pub type Message = Vec<Pair>;

/// The name of a group or a consumer.
pub type Name = Vec<u8>;

pub const MOST_PAIRS: usize = 32;
pub const LONGEST_FIELD: usize = 1_000;
pub const LONGEST_NAME: usize = 16;

/// The rule of a message: 1 to 32 pairs, strings of 0 to 1,000 bytes.
pub fn is_message(pairs: &[Pair]) -> bool {
    let strings_fit = |(field, value): &Pair| is_field(field) && is_field(value);
    (1..=MOST_PAIRS).contains(&pairs.len()) && pairs.iter().all(strings_fit)
}

/// The rule of a field name, and of any string in a message: 0 to 1,000 bytes.
pub fn is_field(string: &[u8]) -> bool {
    string.len() <= LONGEST_FIELD
}

/// The rule of a group's or a consumer's name: 1 to 16 bytes.
pub fn is_name(name: &[u8]) -> bool {
    (1..=LONGEST_NAME).contains(&name.len())
}

/// The value of the first pair with this field name.
pub fn value_of<'a>(pairs: &'a [Pair], field: &[u8]) -> Option<&'a [u8]> {
    let (_, value) = pairs.iter().find(|(name, _)| name == field)?;
    Some(value)
}

#[cfg(test)]
mod tests {
    use super::*;

    fn pair(field: &[u8], value: &[u8]) -> Pair {
        (field.to_vec(), value.to_vec())
    }

    #[test]
    fn message_rule() {
        assert!(!is_message(&[]));
        assert!(is_message(&[pair(b"", b"")]));
        assert!(is_message(&vec![pair(b"a", b"1"); 32]));
        assert!(!is_message(&vec![pair(b"a", b"1"); 33]));
        assert!(is_message(&[pair(&[0; 1000], &[0; 1000])]));
        assert!(!is_message(&[pair(&[0; 1001], b"")]));
        assert!(!is_message(&[pair(b"", &[0; 1001])]));
    }

    #[test]
    fn name_rule() {
        assert!(!is_name(b""));
        assert!(is_name(b"a") && is_name(&[0; 16]));
        assert!(!is_name(&[0; 17]));
    }

    #[test]
    fn the_first_pair_of_a_name_counts() {
        let pairs = [pair(b"a", b"1"), pair(b"b", b""), pair(b"a", b"2")];
        assert_eq!(value_of(&pairs, b"a"), Some(&b"1"[..]));
        assert_eq!(value_of(&pairs, b"b"), Some(&b""[..]));
        assert_eq!(value_of(&pairs, b"c"), None);
    }
}
