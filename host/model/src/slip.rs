//! Slips (01, The ledger): how a message travels.
//!
//! ```text
//! slip   number of pairs (1) | field, value, field, value, ...
//! each   length (2, LE) | bytes
//! ```

use crate::bytes::Reader;
use crate::message::{is_message, Message, Pair};
use crate::refusal::Refused;

/// The slip of a message. The pairs keep the rule of a message.
pub fn write(pairs: &[Pair]) -> Vec<u8> {
    let mut slip = vec![pairs.len() as u8];
    for (field, value) in pairs {
        write_string(&mut slip, field);
        write_string(&mut slip, value);
    }
    slip
}

fn write_string(slip: &mut Vec<u8>, string: &[u8]) {
    slip.extend((string.len() as u16).to_le_bytes());
    slip.extend(string);
}

/// The message of a slip that is the whole slice.
pub fn read(slip: &[u8]) -> Result<Message, Refused> {
    let mut reader = Reader::new(slip);
    let count = reader.byte()?;
    let mut pairs = Message::new();
    for _ in 0..count {
        pairs.push((read_string(&mut reader)?, read_string(&mut reader)?));
    }
    if reader.is_at_end() && is_message(&pairs) {
        Ok(pairs)
    } else {
        Err(Refused)
    }
}

fn read_string(reader: &mut Reader) -> Result<Vec<u8>, Refused> {
    let length = reader.length(2)?;
    Ok(reader.take(length)?.to_vec())
}

#[cfg(test)]
mod tests {
    use super::*;
    use crate::generate;
    use crate::rng::Rng;

    #[test]
    fn a_slip_byte_by_byte() {
        let pairs = vec![(b"ab".to_vec(), b"1".to_vec()), (b"".to_vec(), b"".to_vec())];
        let slip = [2, 2, 0, b'a', b'b', 1, 0, b'1', 0, 0, 0, 0];
        assert_eq!(write(&pairs), slip);
        assert_eq!(read(&slip), Ok(pairs));
    }

    #[test]
    fn other_bytes_are_refused() {
        let long = |length: usize| {
            let field = [&[1, 0, 0][..], &(length as u16).to_le_bytes()].concat();
            [field, vec![b'x'; length]].concat()
        };
        assert_eq!(read(&[]), Err(Refused));
        assert_eq!(read(&[0]), Err(Refused));
        assert_eq!(read(&[1, 0, 0, 0]), Err(Refused));
        assert_eq!(read(&[1, 0, 0, 0, 0, 0]), Err(Refused));
        assert_eq!(read(&[1, 1, 0, b'a', 2, 0, b'b']), Err(Refused));
        assert!(read(&long(1000)).is_ok());
        assert_eq!(read(&long(1001)), Err(Refused));
    }

    #[test]
    fn at_most_32_pairs() {
        let of = |count: usize| [&[count as u8][..], &vec![0; 4 * count]].concat();
        assert!(read(&of(32)).is_ok());
        assert_eq!(read(&of(33)), Err(Refused));
        assert_eq!(read(&of(255)), Err(Refused));
    }

    #[test]
    fn read_and_write_are_inverse() {
        let mut rng = Rng::new(3);
        for _ in 0..2_000 {
            let pairs = generate::message(&mut rng);
            let slip = write(&pairs);
            assert_eq!(read(&slip), Ok(pairs));
            let mut changed = slip;
            let place = rng.size_below(changed.len());
            changed[place] = rng.byte();
            if let Ok(pairs) = read(&changed) {
                assert_eq!(write(&pairs), changed);
            }
        }
    }
}
