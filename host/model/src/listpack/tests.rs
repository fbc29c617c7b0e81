use super::*;
use crate::rng::Rng;

/// Every element of "Examples by byte" in 01, and the ends of the forms not shown there.
const EXAMPLES: [(&[u8], &[u8]); 28] = [
    (b"0", &[0x00, 0x01]),
    (b"", &[0x80, 0x01]),
    (b"127", &[0x7F, 0x01]),
    (b"128", &[0xC0, 0x80, 0x02]),
    (b"-1", &[0xDF, 0xFF, 0x02]),
    (b"-4096", &[0xD0, 0x00, 0x02]),
    (b"4095", &[0xCF, 0xFF, 0x02]),
    (b"4096", &[0xF1, 0x00, 0x10, 0x03]),
    (b"-4097", &[0xF1, 0xFF, 0xEF, 0x03]),
    (b"32768", &[0xF2, 0x00, 0x80, 0x00, 0x04]),
    (b"8388608", &[0xF3, 0x00, 0x00, 0x80, 0x00, 0x05]),
    (b"007", &[0x83, 0x30, 0x30, 0x37, 0x04]),
    (b"-0", &[0x82, 0x2D, 0x30, 0x03]),
    (b"1", &[0x01, 0x01]),
    (b"a", &[0x81, 0x61, 0x02]),
    (b"32767", &[0xF1, 0xFF, 0x7F, 0x03]),
    (b"-32768", &[0xF1, 0x00, 0x80, 0x03]),
    (b"-32769", &[0xF2, 0xFF, 0x7F, 0xFF, 0x04]),
    (b"8388607", &[0xF2, 0xFF, 0xFF, 0x7F, 0x04]),
    (b"-8388608", &[0xF2, 0x00, 0x00, 0x80, 0x04]),
    (b"-8388609", &[0xF3, 0xFF, 0xFF, 0x7F, 0xFF, 0x05]),
    (b"2147483647", &[0xF3, 0xFF, 0xFF, 0xFF, 0x7F, 0x05]),
    (b"-2147483648", &[0xF3, 0x00, 0x00, 0x00, 0x80, 0x05]),
    (b"2147483648", &[0xF4, 0, 0, 0, 0x80, 0, 0, 0, 0, 0x09]),
    (b"-2147483649", &[0xF4, 0xFF, 0xFF, 0xFF, 0x7F, 0xFF, 0xFF, 0xFF, 0xFF, 0x09]),
    (b"9223372036854775807", &[0xF4, 0xFF, 0xFF, 0xFF, 0xFF, 0xFF, 0xFF, 0xFF, 0x7F, 0x09]),
    (b"-9223372036854775808", &[0xF4, 0, 0, 0, 0, 0, 0, 0, 0x80, 0x09]),
    (b"+1", &[0x82, 0x2B, 0x31, 0x03]),
];

#[test]
fn examples() {
    for (string, bytes) in EXAMPLES {
        assert_eq!(element(string).as_deref(), Some(bytes), "{string:?}");
        assert_eq!(element_size(string), Some(bytes.len()));
        assert_eq!(read_element(bytes), Ok((string.to_vec(), bytes.len())));
        let followed = [bytes, &[0xAA]].concat();
        assert_eq!(read_element(&followed), Ok((string.to_vec(), bytes.len())));
    }
}

#[test]
fn an_integer_just_outside_64_bits_is_a_string() {
    let bytes = element(b"9223372036854775808").unwrap();
    assert_eq!((bytes[0], bytes[20], bytes.len()), (0x80 | 19, 20, 21));
    let bytes = element(b"-9223372036854775809").unwrap();
    assert_eq!((bytes[0], bytes[21], bytes.len()), (0x80 | 20, 21, 22));
}

#[test]
fn string_forms() {
    let of = |length| element(&vec![b'x'; length]).unwrap();
    assert_eq!((of(63)[0], of(63).len()), (0xBF, 65));
    assert_eq!((&of(64)[..2], of(64).len()), (&[0xE0, 0x40][..], 67));
    assert_eq!(of(125).last(), Some(&0x7F));
    assert_eq!(of(125).len(), 128);
    assert_eq!(of(126)[128..], [0x01, 0x80]);
    assert_eq!(&of(4095)[..2], [0xEF, 0xFF]);
    assert_eq!(of(4095)[4097..], [0x20, 0x81]);
    assert_eq!(element(&[b'x'; 4096]), None);
    assert_eq!(element_size(&[b'9'; 4096]), None);
}

#[test]
fn back_lengths() {
    assert_eq!(back_length(1), [0x01]);
    assert_eq!(back_length(127), [0x7F]);
    assert_eq!(back_length(128), [0x01, 0x80]);
    assert_eq!(back_length(136), [0x01, 0x88]);
    assert_eq!(back_length(4097), [0x20, 0x81]);
}

#[test]
fn other_forms_are_refused() {
    let cases: [&[u8]; 22] = [
        &[],
        &[0x00],
        &[0x00, 0x02],
        &[0x80],
        &[0x80, 0x00],
        &[0x81, 0x31, 0x02],       // the string "1"
        &[0x82, 0x2D, 0x31, 0x03], // the string "-1"
        &[0xC0, 0x05, 0x02],       // 5 in 13 bits
        &[0xC0, 0x7F, 0x02],       // 127 in 13 bits
        &[0xC0, 0x80],
        &[0xE0, 0x01, 0x61, 0x03],       // one byte with a 12-bit length
        &[0xF0, 0x01, 0, 0, 0, 0x61, 6], // 32-bit string length
        &[0xF1, 0x05, 0x00, 0x03],       // 5 in 16 bits
        &[0xF1, 0xFF, 0xFF, 0x03],       // -1 in 16 bits
        &[0xF2, 0x00, 0x10, 0x00, 0x04], // 4096 in 24 bits
        &[0xF3, 0x00, 0x80, 0x00, 0x00, 0x05],
        &[0xF4, 0, 0, 0x80, 0, 0, 0, 0, 0, 0x09],
        &[0xF4, 0, 0, 0, 0x80, 0, 0, 0, 0],
        &[0xF5, 0x00, 0x02],
        &[0xFE, 0x01],
        &[0xFF],
        &[0xFF, 0x01],
    ];
    for bytes in cases {
        assert_eq!(read_element(bytes), Err(Refused), "{bytes:?}");
    }
}

#[test]
fn a_back_length_in_another_form_is_refused() {
    let mut bytes = element(&[b'x'; 125]).unwrap();
    bytes.pop();
    bytes.extend([0x00, 0xFF]);
    assert_eq!(read_element(&bytes), Err(Refused));
    let mut bytes = element(&[b'x'; 126]).unwrap();
    bytes[129] = 0x00;
    assert_eq!(read_element(&bytes), Err(Refused));
}

#[test]
fn empty_listpack() {
    let bytes = [0x07, 0x00, 0x00, 0x00, 0x00, 0x00, 0xFF];
    assert_eq!(listpack::<&[u8]>(&[]).as_deref(), Some(&bytes[..]));
    assert_eq!(read_listpack(&bytes), Ok(vec![]));
}

#[test]
fn whole_listpack() {
    let bytes = listpack(&[&b"127"[..], b"a", b""]).unwrap();
    assert_eq!(bytes, [14, 0, 0, 0, 3, 0, 0x7F, 0x01, 0x81, 0x61, 0x02, 0x80, 0x01, 0xFF]);
    assert_eq!(read_listpack(&bytes).unwrap(), [&b"127"[..], b"a", b""]);
    assert_eq!(listpack(&[vec![b'x'; 4096]]), None);
}

#[test]
fn header_and_end_are_judged() {
    let good = listpack(&[b"a"]).unwrap();
    let changed = |place: usize, byte: u8| {
        let mut bytes = good.clone();
        bytes[place] = byte;
        read_listpack(&bytes)
    };
    assert!(read_listpack(&good).is_ok());
    assert_eq!(changed(0, 9), Err(Refused));
    assert_eq!(changed(4, 0), Err(Refused));
    assert_eq!(changed(4, 2), Err(Refused));
    assert_eq!(changed(9, 0), Err(Refused));
    assert_eq!(read_listpack(&good[..9]), Err(Refused));
    assert_eq!(read_listpack(&[&good[..], &[0]].concat()), Err(Refused));
}

#[test]
fn a_count_of_65535_is_exact() {
    let most = vec![b"0"; 65_535];
    assert_eq!(read_listpack(&listpack(&most).unwrap()).unwrap().len(), 65_535);
    assert_eq!(listpack(&vec![b"0"; 65_536]), None);
    let mut unknown = listpack(&[b"0"]).unwrap();
    unknown[4..6].fill(0xFF);
    assert_eq!(read_listpack(&unknown), Err(Refused));
}

#[test]
fn random_bytes_are_read_only_as_an_element() {
    let mut rng = Rng::new(2);
    let mut read = 0;
    for _ in 0..50_000 {
        let length = 1 + rng.size_below(12);
        let mut bytes = rng.bytes(length);
        if rng.one_in(2) {
            bytes[0] = *rng.pick(&[0x05, 0x82, 0xC1, 0xDF, 0xE0, 0xF1, 0xF2, 0xF3, 0xF4]);
            let size = rng.size_below(length);
            bytes[size] = size as u8;
        }
        if let Ok((string, size)) = read_element(&bytes) {
            assert_eq!(element(&string).unwrap(), &bytes[..size]);
            read += 1;
        }
    }
    assert!(read > 500);
}
