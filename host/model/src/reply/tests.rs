use super::*;
use crate::generate;
use crate::rng::Rng;

fn message(pairs: &[(&str, &str)]) -> Message {
    pairs.iter().map(|(field, value)| (field.as_bytes().to_vec(), value.as_bytes().to_vec())).collect()
}

/// The texts between the bars, where a tilde is the end of a line.
fn cases(texts: &str) -> Vec<String> {
    texts.split('|').map(|text| text.replace('~', "\r\n")).collect()
}

/// A range reply of one message with this ID and one pair.
fn with_id(id: &str) -> Vec<u8> {
    let length = id.len();
    format!("*1\r\n*2\r\n${length}\r\n{id}\r\n*2\r\n$1\r\na\r\n$1\r\n1\r\n").into_bytes()
}

/// Each is written, and read again.
#[test]
fn replies_byte_by_byte() {
    let two = vec![
        (Id::new(5, 0), message(&[("a", "1")])),
        (Id::new(5, 10), message(&[("temp", "-12"), ("", "0123456789")])),
    ];
    let greatest = vec![(Id::GREATEST, message(&[("\r\n", "$1\r\n")]))];
    let cases: [(&str, Reply); 11] = [
        ("*0\r\n", Reply::Range(vec![])),
        (
            "*2\r\n\
             *2\r\n$3\r\n5-0\r\n*2\r\n$1\r\na\r\n$1\r\n1\r\n\
             *2\r\n$4\r\n5-10\r\n*4\r\n$4\r\ntemp\r\n$3\r\n-12\r\n$0\r\n\r\n$10\r\n0123456789\r\n",
            Reply::Range(two),
        ),
        (
            "*1\r\n*2\r\n$41\r\n18446744073709551615-18446744073709551615\r\n*2\r\n$2\r\n\r\n\r\n$4\r\n$1\r\n\r\n",
            Reply::Range(greatest),
        ),
        (":0\r\n", Reply::Integer(0)),
        (":1\r\n", Reply::Integer(1)),
        (":10\r\n", Reply::Integer(10)),
        (":6400\r\n", Reply::Integer(6_400)),
        ("-ERR 1\r\n", Reply::Error(1)),
        ("-ERR 9\r\n", Reply::Error(9)),
        ("-ERR 10\r\n", Reply::Error(10)),
        ("-ERR 18\r\n", Reply::Error(18)),
    ];
    for (text, reply) in cases {
        assert_eq!(String::from_utf8(reply.to_bytes()).unwrap(), text);
        assert_eq!(read(text.as_bytes()), Ok(reply));
    }
}

#[test]
fn other_numbers_are_refused() {
    let integers = ":6401~|:00~|:07~|:+1~|:-1~|:-0~|:~|: 1~|:1 ~|:0x1~|:4294967296~|:18446744073709551616~";
    let errors =
        "-ERR 0~|-ERR 19~|-ERR 01~|-ERR +1~|-ERR -1~|-ERR ~|-ERR  1~|-ERR 1 ~|-ERR 3 bad~|-ERR 4294967297~|\
                  -ERR~|-err 1~|-1~|ERR 1~|-ERR 1\n|-ERR 1\r~|-ERR 1~~";
    for text in cases(integers).into_iter().chain(cases(errors)) {
        assert_eq!(read(text.as_bytes()), Err(Refused), "{text:?}");
    }
}

/// What the protocol has and the store never writes.
#[test]
fn other_forms_are_refused() {
    let outer = "|\n|~|*|*~|*0|*0\r|*0\n|*0\r\r|0~|*00~|*-1~|*+0~|*0~ |*0~*0~|+OK~|$-1~|$0~~|$1~a~|*1~|*1~*0~|*1~:1~|\
                 *1~*1~*1~*1~*0~|*2~$3~5-0~*2~$1~a~$1~1~|*18446744073709551615~|*18446744073709551616~|\
                 *000000000000000000000000000000~";
    let inner = "*2~$3~5-0~*0~|*2~$3~5-0~*-1~|*2~$3~5-0~*1~$1~a~|*2~$3~5-0~*3~$1~a~$1~a~$1~a~|*3~$3~5-0~*2~$1~a~$1~1~$0~~|\
                 *2~$3~5-0~*2~$1~a~:1~|*2~$3~5-0~*2~$1~a~$-1~|*2~$3~5-0~*2~$01~a~$1~1~|*2~$3~5-0~*2~$1~a~$1~1\n\n|\
                 *02~$3~5-0~*2~$1~a~$1~1~|*2~*2~$1~a~$1~1~$3~5-0~|*2~$18446744073709551615~5-0~|*2~$1000~5-0~";
    let inner = cases(inner).into_iter().map(|text| format!("*1\r\n{text}"));
    for text in cases(outer).into_iter().chain(inner) {
        assert_eq!(read(text.as_bytes()), Err(Refused), "{text:?}");
    }
}

#[test]
fn ids_are_above_the_least_and_strict() {
    for id in cases("0-1|1-0|0-18446744073709551615|18446744073709551615-0") {
        assert!(read(&with_id(&id)).is_ok(), "{id}");
    }
    let others = "0-0||-|1|1-|-1|01-0|1-00|00-1|+1-0|1-+1|1--1|1-1-1| 1-0|1 -0|1-0 |1_0|1-a|\
                  18446744073709551616-0|0-18446744073709551616";
    for id in cases(others) {
        assert_eq!(read(&with_id(&id)), Err(Refused), "{id}");
    }
}

#[test]
fn ids_rise() {
    let of = |ids: &[(u64, u64)]| {
        let one = |&(ms, seq): &(u64, u64)| (Id::new(ms, seq), message(&[("a", "1")]));
        read(&Reply::Range(ids.iter().map(one).collect()).to_bytes()).is_ok()
    };
    assert!(of(&[(0, 1), (0, 2), (1, 0), (1, u64::MAX), (u64::MAX, 0)]));
    assert!(!of(&[(1, 1), (1, 1)]));
    assert!(!of(&[(1, 1), (1, 0)]));
    assert!(!of(&[(9, 0), (10, 0), (8, 5)]));
}

/// Any list length, where no store has so many messages.
#[test]
fn a_list_that_is_longer_than_a_store() {
    let messages: Vec<(Id, Message)> =
        (1..=7_000).map(|ms| (Id::new(ms, 0), message(&[("a", "1")]))).collect();
    let bytes = Reply::Range(messages).to_bytes();
    assert_eq!(read_reply(&bytes), Ok((1, 7_000)));
    assert_eq!(
        reply_message(&bytes, 6_999, 7),
        Ok(Some((Id::new(7_000, 0), vec![1, 1, 0, b'a', 1, 0, b'1'])))
    );
}

/// Pairs, strings and the size alone in a node, at their limits and one beyond.
#[test]
fn messages_that_may_live() {
    let of = |pairs: Message| read(&Reply::Range(vec![(Id::new(1, 0), pairs)]).to_bytes()).is_ok();
    let pair = |field: usize, value: usize| (vec![b'f'; field], vec![b'v'; value]);
    assert!(!of(vec![]));
    assert!(of(vec![pair(0, 0); 32]));
    assert!(!of(vec![pair(0, 0); 33]));
    for (field, value) in [(1_000, 0), (0, 1_000), (1_000, 1_000), (9, 10), (99, 100), (999, 999)] {
        assert!(of(vec![pair(field, value)]));
    }
    assert!(!of(vec![pair(1_001, 0)]));
    assert!(!of(vec![pair(0, 1_001)]));
    // 23 bytes, five names of 2, values of 1,004 and 504: with the last one, 4 bytes longer than its string, 4,095 or 4,096.
    let sized = |last: usize| [vec![pair(0, 1_000); 3], vec![pair(0, 500), pair(0, last)]].concat();
    assert!(of(sized(542)));
    assert!(!of(sized(543)));
}

#[test]
fn numbers_and_outputs() {
    assert_eq!(integer_reply(6_400, 7), Ok(b":6400\r\n".to_vec()));
    assert_eq!(integer_reply(6_400, 6), Err(8));
    assert_eq!(integer_reply(6_401, 0), Err(3));
    assert_eq!(integer_reply(1 << 32, 99), Err(3));
    assert_eq!(error_reply(18, 9), Ok(b"-ERR 18\r\n".to_vec()));
    assert_eq!(error_reply(18, 8), Err(8));
    assert_eq!(error_reply(0, 0), Err(3));
    assert_eq!(error_reply(19, 99), Err(3));
    assert_eq!(read_reply(b":12\r\n"), Ok((2, 12)));
    assert_eq!(read_reply(b"-ERR 3\r\n"), Ok((3, 3)));
    assert_eq!(read_reply(b"*0\r\n"), Ok((1, 0)));
    assert_eq!(read_reply(b"*1\r\n"), Err(3));
}

#[test]
fn messages_of_a_reply() {
    let slip = vec![1, 1, 0, b'a', 1, 0, b'1'];
    let reply = with_id("7-9");
    assert_eq!(reply_message(&reply, 0, 7), Ok(Some((Id::new(7, 9), slip))));
    assert_eq!(reply_message(&reply, 0, 6), Err(8));
    assert_eq!(reply_message(&reply, 1, 0), Ok(None));
    assert_eq!(reply_message(&reply, u64::MAX, 0), Ok(None));
    assert_eq!(reply_message(b"*0\r\n", 0, 0), Ok(None));
    assert_eq!(reply_message(b":1\r\n", 0, 0), Err(3));
    assert_eq!(reply_message(b"-ERR 1\r\n", 1, 0), Err(3));
    assert_eq!(reply_message(&reply[1..], 0, 0), Err(3));
}

/// What is read is written again byte for byte; most changes are refused.
#[test]
fn read_and_write_are_inverse() {
    let mut rng = Rng::new(4);
    let mut refused = 0;
    for _ in 0..2_000 {
        let bytes = generate::reply(&mut rng).to_bytes();
        let mut changed = bytes.clone();
        let place = rng.size_below(changed.len());
        changed[place] = rng.byte();
        match read(&changed) {
            Ok(reply) => assert_eq!(reply.to_bytes(), changed),
            Err(Refused) => refused += 1,
        }
        assert_eq!(read(&bytes).map(|reply| reply.to_bytes()), Ok(bytes));
    }
    assert!(refused > 200, "{refused}");
}
