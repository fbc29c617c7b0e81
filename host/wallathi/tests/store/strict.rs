//! The strict reader of replies (02, CR 4) beside the model: other forms, hostile numbers, replies that are changed, cut and mixed up.

use std::time::{Duration, Instant};

use wallathi_model::generate;
use wallathi_model::id::Id;
use wallathi_model::message::Message;
use wallathi_model::reply::Reply;
use wallathi_model::rng::Rng;
use wallathi_model::slip;

use crate::amount;
use crate::damage::others;
use crate::limits::{filling, message as pairs, one};
use crate::readers::{message, read};
use crate::replies::{alone, reply_of, value};

/// The texts between the bars, where a tilde is the end of a line.
fn cases(texts: &str) -> Vec<String> {
    texts.split('|').map(|text| text.replace('~', "\r\n")).collect()
}

/// What the protocol has and no reply of a store is.
#[test]
fn other_forms() {
    let outer = "|~|\n|*|*~|*0|*0\r|*0\n|*0\r~|*0 ~|* 0~|*00~|*-0~|*-1~|*+0~|*0~~|0~|$0~~|$-1~|$1~a~|+OK~|+0~|#t~|_~|\
                 :~|:-1~|:-0~|:+1~|:00~|:01~|:1|:1\r|:1\n|:1~ |:1 ~|: 1~|:1.0~|:1e3~|::1~|\
                 -~|-ERR~|-ERR ~|-ERR 0~|-ERR 01~|-ERR +1~|-ERR -1~|-ERR  1~|-ERR1~|-ERR 1 ~|-ERR 1\n|-ERR 1\r|-ERR 1 no slot~|\
                 -err 1~|-WRONGTYPE 1~|ERR 1~|-ERR 1~-ERR 1~|-ERR 3a~|\
                 *1~|*1~*0~|*1~*-1~|*1~:1~|*1~$3~5-0~|*1~*1~$3~5-0~|*1~-ERR 1~";
    for text in cases(outer) {
        assert_eq!(read(text.as_bytes()), Err(3), "{text:?}");
    }
}

/// A part of a message in another form.
#[test]
fn other_messages() {
    let message = "*2\r\n$3\r\n5-0\r\n*2\r\n$1\r\na\r\n$1\r\n1\r\n";
    assert_eq!(read(format!("*1\r\n{message}").as_bytes()), Ok((1, 1)));
    let changes = [
        ("*2~$3", "*3~$3|*1~$3|*02~$3|*+2~$3|$3"),
        ("*2~$1", "*0~$1|*1~$1|*3~$1|*4~$1|*02~$1|*-1~$1|*66~$1|*18446744073709551618~$1|$2~$1"),
        ("$1~a", "$01~a|$+1~a|$~a|$0~a|$2~a|$-1~a|$1\na|$1\r~a|$18446744073709551617~a|:1"),
        ("a~", "a\n\n|a\r\r|a~~|aa|a|~"),
        ("$1~1~", "|$-1~|:1~|+1~|$1~1~$0~~|*0~"),
    ];
    for (from, others) in changes {
        let from = from.replace('~', "\r\n");
        assert!(message.contains(&from), "{from:?}");
        for to in cases(others) {
            let bytes = format!("*1\r\n{}", message.replacen(&from, &to, 1));
            assert_eq!(read(bytes.as_bytes()), Err(3), "{bytes:?}");
        }
    }
}

/// Texts that are nearly an ID, and lengths that are not its own.
#[test]
fn ids_that_are_none() {
    let reply = |id: &str| format!("*1\r\n*2\r\n${}\r\n{id}\r\n*2\r\n$1\r\na\r\n$1\r\n1\r\n", id.len());
    assert_eq!(read(reply("7-1").as_bytes()), Ok((1, 1)));
    let texts = "|-|7|7-|-7|07-1|7-01|00-1|7-00|+7-1|7-+1|7--1|-7-1|7-1-1| 7-1|7 -1|7-1 |7_1|7-a|a-7|0-0|0-00|7-1\r|7\n-1|\
                 18446744073709551616-0|0-18446744073709551616|18446744073709551615-18446744073709551616|\
                 28446744073709551615-0|99999999999999999999-0|184467440737095516150-0|000000000000000000000-1|\
                 100000000000000000000000000000-0|0-100000000000000000000000000000";
    for id in cases(texts) {
        assert_eq!(read(reply(&id).as_bytes()), Err(3), "{id:?}");
    }
    for length in cases("2|4|03|3 ||-1|18446744073709551615|18446744073709551619") {
        let bytes = reply("7-1").replacen("$3", &format!("${length}"), 1);
        assert_eq!(read(bytes.as_bytes()), Err(3), "{length:?}");
    }
}

#[test]
fn ids_rise() {
    let ids = [
        Id::new(0, 1),
        Id::new(0, 2),
        Id::new(0, u64::MAX),
        Id::new(1, 0),
        Id::new(9, 9),
        Id::new(10, 0),
        Id::GREATEST,
    ];
    for first in ids {
        for second in ids {
            let bytes = reply_of(&[(first, one("1")), (second, one("2"))]);
            assert_eq!(read(&bytes).is_ok(), first < second, "{first:?} {second:?}");
            let three = reply_of(&[(Id::new(0, 1), one("0")), (first, one("1")), (second, one("2"))]);
            assert_eq!(read(&three).is_ok(), Id::new(0, 1) < first && first < second);
        }
    }
}

/// More messages than any store holds.
#[test]
fn a_list_longer_than_any_store() {
    let messages: Vec<(Id, Message)> = (1..=10_000).map(|ms| (Id::new(ms, 0), one("1"))).collect();
    let reply = reply_of(&messages);
    assert_eq!(read(&reply), Ok((1, 10_000)));
    for place in [0, 6_399, 6_400, 9_999] {
        assert_eq!(message(&reply, place, 7), Ok(Some((Id::new(place + 1, 0), slip::write(&one("1"))))));
    }
    for count in [0, 1, 9_999, 10_001, 99_999, 100_000, 10_000 + (1 << 32), u64::MAX] {
        let other = [format!("*{count}\r\n").as_bytes(), &reply[8..]].concat();
        assert_eq!(read(&other), Err(3), "{count}");
    }
}

/// Counts and lengths that the bytes do not bear out are refused at once.
#[test]
fn hostile_numbers() {
    let numbers = "2|1000|1001|4095|65536|4294967295|4294967296|4294967297|9223372036854775807|9223372036854775808|\
                   18446744073709551614|18446744073709551615|18446744073709551616|18446744073709551617|99999999999999999999|\
                   100000000000000000000000000000|000000000000000000000000000001|340282366920938463463374607431768211457";
    let texts = "*N~|*N~*2~$3~5-0~*2~$1~a~$1~1~|*1~*N~$3~5-0~*4~$1~a~$1~1~|*1~*2~$N~5-0~*2~$1~a~$1~1~|*1~*2~$3~5-0~*N~$1~a~|\
                 *1~*2~$3~5-0~*2~$N~a~$1~1~|*1~*2~$3~5-0~*2~$1~a~$N~1~|*1~*2~$3~5-0~*2~$1~a~$N~|-ERR NN~|:NNN~";
    let start = Instant::now();
    for number in cases(numbers) {
        for text in cases(texts) {
            let bytes = text.replace('N', &number);
            assert_eq!(read(bytes.as_bytes()).is_ok(), bytes == ":222\r\n", "{bytes:?}");
            assert_eq!(message(bytes.as_bytes(), 0, 9), Err(3), "{bytes:?}");
        }
    }
    for digits in [b'0', b'1', b'9'] {
        let long = vec![digits; 100_000];
        for before in ["*", ":", "-ERR ", "*1\r\n*2\r\n$", "*1\r\n*2\r\n$41\r\n"] {
            assert_eq!(read(&[before.as_bytes(), &long, b"\r\n"].concat()), Err(3));
        }
    }
    assert_eq!(read(&b"*1\r\n".repeat(50_000)), Err(3));
    assert!(start.elapsed() < Duration::from_secs(5), "{:?}", start.elapsed());
}

/// Replies to damage: short ones, and ones of messages of every kind.
fn replies() -> Vec<Vec<u8>> {
    let mut rng = Rng::new(4_001);
    let two =
        reply_of(&[(Id::new(9, 10), pairs(&[(b"a", b"1"), (b"", b"-12")])), (Id::new(10, 0), one("x\r\n"))]);
    let short = [
        b"*0\r\n".to_vec(),
        b":6400\r\n".to_vec(),
        b":0\r\n".to_vec(),
        b"-ERR 18\r\n".to_vec(),
        b"-ERR 1\r\n".to_vec(),
        two,
    ];
    let ten = reply_of(&(1..=12).map(|seq| (Id::new(99, seq), one(&seq.to_string()))).collect::<Vec<_>>());
    let greatest = reply_of(&[(Id::new(u64::MAX, u64::MAX - 1), value(9)), (Id::GREATEST, value(100))]);
    let wide = alone((0..32).map(|field| (vec![b'a' + field], vec![b'1'; 1 + usize::from(field)])).collect());
    let fits = alone(filling(None, Id::new(7, 1), 4_095));
    let random = (0..amount(3, 12)).map(|_| generate::reply(&mut rng).to_bytes()).collect::<Vec<_>>();
    short.into_iter().chain([ten, greatest, wide, fits]).chain(random).collect()
}

/// Every byte: all other values in short replies, some in longer ones. What is accepted is another reply.
#[test]
fn each_byte_changed() {
    let mut rng = Rng::new(4_002);
    let (mut accepted, mut refused) = (0, 0);
    for good in replies() {
        assert!(read(&good).is_ok());
        let is_short = good.len() < amount(120, 1_000);
        for at in (0..good.len()).step_by(if is_short { 1 } else { 1 + good.len() / amount(600, 10_000) }) {
            let values =
                if is_short { (0..=255).collect() } else { others(&mut rng, good[at], amount(2, 4)) };
            for byte in values {
                let mut bad = good.clone();
                bad[at] = byte;
                *(if read(&bad).is_ok() { &mut accepted } else { &mut refused }) += 1;
            }
        }
    }
    assert!(accepted > 2_000 && refused > 20_000, "{accepted} {refused}");
}

/// No reply begins another.
#[test]
fn cut_at_every_length() {
    for good in replies() {
        (0..good.len()).for_each(|length| assert_eq!(read(&good[..length]), Err(3), "{length}"));
        for after in [b'\0', b'\n', b'\r', b'*', b'0', b' '] {
            assert_eq!(read(&[&good[..], &[after]].concat()), Err(3));
        }
        for more in [&b"\r\n"[..], b"*0\r\n", &good] {
            assert_eq!(read(&[&good[..], more].concat()), Err(3));
        }
    }
}

/// A byte left out, put in or said twice; two exchanged; a line taken from elsewhere.
#[test]
fn bytes_moved() {
    let mut rng = Rng::new(4_003);
    let replies = replies();
    let (mut accepted, mut refused) = (0, 0);
    for _ in 0..amount(20_000, 400_000) {
        let mut bytes = rng.pick(&replies).clone();
        let (at, other) = (rng.size_below(bytes.len()), rng.size_below(bytes.len()));
        match rng.below(6) {
            0 => drop(bytes.remove(at)),
            1 => bytes.insert(at, *rng.pick(b"0123456789*$:-\r\n ")),
            2 => bytes.insert(at, bytes[at]),
            3 => bytes.swap(at, other),
            4 => bytes[at] = *rng.pick(b"0123456789*$:-\r\n"),
            _ => {
                let line = |bytes: &[u8], at: usize| {
                    bytes[..at].iter().rposition(|&byte| byte == b'\n').map_or(0, |end| end + 1)
                };
                let (from, to) = (line(&bytes, at), line(&bytes, other));
                let end = bytes[from..]
                    .iter()
                    .position(|&byte| byte == b'\n')
                    .map_or(bytes.len(), |end| from + end + 1);
                let copy = bytes[from..end].to_vec();
                bytes.splice(to..to, copy);
            }
        }
        *(if read(&bytes).is_ok() { &mut accepted } else { &mut refused }) += 1;
    }
    assert!(accepted > 500 && refused > 5_000, "{accepted} {refused}");
}

/// Random replies, whole, at each place.
#[test]
fn random_replies() {
    let mut rng = Rng::new(4_004);
    for _ in 0..amount(1_000, 20_000) {
        let reply = generate::reply(&mut rng);
        let bytes = reply.to_bytes();
        assert_eq!(read(&bytes), Ok(reply.kind_and_number()));
        let Reply::Range(messages) = reply else { continue };
        for ((id, pairs), place) in messages.iter().zip(0..) {
            let slip = slip::write(pairs);
            assert_eq!(message(&bytes, place, slip.len() - 1), Err(8));
            assert_eq!(message(&bytes, place, slip.len()), Ok(Some((*id, slip))));
        }
        assert_eq!(message(&bytes, messages.len() as u64, 0), Ok(None));
    }
}
