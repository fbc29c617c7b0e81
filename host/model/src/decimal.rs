//! Which byte strings are stored as integers (01, Listpack elements).

/// The form: 0, or an optional minus and a digit 1-9 followed by digits.
fn has_form(string: &[u8]) -> bool {
    let digits = string.strip_prefix(b"-").unwrap_or(string);
    let no_leading_zero = matches!(digits.first(), Some(b'1'..=b'9'));
    string == b"0" || no_leading_zero && digits.iter().all(u8::is_ascii_digit)
}

/// The integer that a string stands for; none where the string has another form or the number is
/// outside the signed 64-bit range.
pub fn parse(string: &[u8]) -> Option<i64> {
    if !has_form(string) {
        return None;
    }
    std::str::from_utf8(string).ok()?.parse().ok()
}

/// The two's complement pattern of the integer that a string stands for.
pub fn pattern(string: &[u8]) -> Option<u64> {
    parse(string).map(|number| number as u64)
}

/// The string that stands for an integer.
pub fn text(number: i64) -> Vec<u8> {
    number.to_string().into_bytes()
}

/// The string that stands for the integer of a two's complement pattern.
pub fn text_of_pattern(pattern: u64) -> Vec<u8> {
    text(pattern as i64)
}

#[cfg(test)]
mod tests {
    use super::*;
    use crate::rng::Rng;

    #[test]
    fn integers() {
        let cases: [(&[u8], i64); 12] = [
            (b"0", 0),
            (b"7", 7),
            (b"127", 127),
            (b"128", 128),
            (b"-1", -1),
            (b"-4096", -4096),
            (b"-4097", -4097),
            (b"4095", 4095),
            (b"32768", 32768),
            (b"8388608", 8388608),
            (b"9223372036854775807", i64::MAX),
            (b"-9223372036854775808", i64::MIN),
        ];
        for (string, number) in cases {
            assert_eq!(parse(string), Some(number));
            assert_eq!(text(number), string);
        }
    }

    #[test]
    fn other_strings() {
        let cases: [&[u8]; 22] = [
            b"",
            b"-",
            b"--1",
            b"-0",
            b"00",
            b"007",
            b"-01",
            b"+1",
            b" 1",
            b"1 ",
            b"1.0",
            b"1e3",
            b"0x1",
            b"1_0",
            b"a",
            b"12a",
            b"1-",
            b"\xFF",
            b"1\0",
            b"9223372036854775808",
            b"-9223372036854775809",
            b"99999999999999999999999999",
        ];
        for string in cases {
            assert_eq!(parse(string), None, "{string:?}");
        }
    }

    #[test]
    fn patterns_are_twos_complement() {
        assert_eq!(pattern(b"-1"), Some(u64::MAX));
        assert_eq!(pattern(b"-9223372036854775808"), Some(1 << 63));
        assert_eq!(pattern(b"-0"), None);
        assert_eq!(text_of_pattern(u64::MAX), b"-1");
        assert_eq!(text_of_pattern(5), b"5");
    }

    #[test]
    fn text_and_parse_are_inverse() {
        let mut rng = Rng::new(1);
        for _ in 0..10_000 {
            let pattern = rng.next() >> rng.below(64);
            assert_eq!(super::pattern(&text_of_pattern(pattern)), Some(pattern));
            let length = rng.below(5);
            let string: Vec<u8> = (0..length).map(|_| *rng.pick(b"-+0123")).collect();
            if let Some(number) = parse(&string) {
                assert_eq!(text(number), string);
            }
        }
    }
}
