//! The safe crate, as a Rust user meets it.
#![cfg(feature = "alloc")]

use wallathi::{
    error_reply, integer_reply, read_reply, reply_message, Borrowed, Id, Integers, Owned, Pending, Refusal,
    Reply, Report, Slip, ID_BYTES, SLOT_BYTES, STATE_BYTES,
};

fn slip(field: &str, value: &str) -> Slip {
    Slip::of([(field, value)]).unwrap()
}

#[test]
fn an_absent_field_is_none() {
    let mut store = Owned::new(1).unwrap();
    let id = store.add(Id::new(5, 0), &Slip::of([("west", ""), ("east", "0")]).unwrap()).unwrap();
    assert_eq!(store.field(id, b"east").unwrap().as_deref(), Some(&b"0"[..]));
    assert_eq!(store.field(id, b"west").unwrap().as_deref(), Some(&b""[..]));
    assert_eq!(store.field(id, b"middle").unwrap(), None);
    assert_eq!(store.field(Id::new(6, 0), b"east"), Err(Refusal::NotLive));
}

#[test]
fn messages_and_deletes() {
    let mut store = Owned::new(2).unwrap();
    for ms in 1..=9 {
        store.add_by_clock(ms, &slip("n", &ms.to_string())).unwrap();
    }
    assert_eq!(store.add_by_clock(3, &slip("n", "back")), Ok(Id::new(9, 1)));
    assert_eq!(store.delete(Id::new(4, 0)), Ok(true));
    assert_eq!(store.delete(Id::new(4, 0)), Ok(false));
    assert_eq!(store.trim(6), Ok(3));
    let ids: Vec<Id> = store.messages(Id::LEAST).map(|message| message.unwrap().0).collect();
    assert_eq!(ids, [(5, 0), (6, 0), (7, 0), (8, 0), (9, 0), (9, 1)].map(|(ms, seq)| Id::new(ms, seq)));
    assert_eq!(store.add(Id::new(9, 1), &slip("n", "again")), Err(Refusal::LowId));
    assert_eq!(store.read(Id::new(9, 1)).unwrap().value(b"n"), Some(&b"back"[..]));
}

#[test]
fn groups() {
    let mut store = Owned::new(1).unwrap();
    for ms in 1..=3 {
        store.add_by_clock(ms, &slip("n", "1")).unwrap();
    }
    store.create_group(b"curves", Id::LEAST).unwrap();
    assert_eq!(store.create_group(b"curves", Id::LEAST), Err(Refusal::GroupExists));
    for _ in 0..3 {
        store.group_read(b"curves", b"analyst", 10).unwrap().unwrap();
    }
    assert_eq!(store.group_read(b"curves", b"analyst", 10), Ok(None));
    assert_eq!(store.acknowledge(b"curves", Id::new(1, 0)), Ok(true));
    assert_eq!(store.claim(b"curves", b"relief", 5, Id::new(2, 0), 12), Ok(false));
    assert_eq!(store.claim(b"curves", b"relief", 5, Id::new(2, 0), 15), Ok(true));
    store.delete(Id::new(2, 0)).unwrap();
    let relief: Vec<Pending> = store.pending(b"curves", b"relief").map(Result::unwrap).collect();
    assert_eq!(relief, [Pending { id: Id::new(2, 0), time: 15, count: 2, lives: false }]);
    assert_eq!(store.pending(b"curves", b"nobody").count(), 0);
    assert_eq!(store.drop_consumer(b"curves", b"analyst"), Ok(1));
    store.destroy_group(b"curves").unwrap();
    assert_eq!(store.next_pending(b"curves", b"relief", Id::LEAST), Err(Refusal::NoGroup));
}

#[test]
fn batches() {
    let mut store = Owned::new(4).unwrap();
    let ids: Vec<Id> = (1..=300).map(|ms| store.add_by_clock(ms, &slip("n", "1")).unwrap()).collect();
    store.create_group(b"curves", Id::LEAST).unwrap();
    assert_eq!(store.group_read_many(b"curves", b"analyst", 10, 0), Ok(vec![]));
    assert_eq!(store.group_read_many(b"curves", b"analyst", 10, 3).unwrap(), ids[..3]);
    assert_eq!(store.pending(b"curves", b"analyst").count(), 3);
    assert_eq!(store.group_read(b"curves", b"relief", 11), Ok(Some(ids[3])));
    // As many as entries are free.
    assert_eq!(store.group_read_many(b"curves", b"analyst", 12, 256).unwrap(), ids[4..256]);
    assert_eq!(store.group_read_many(b"curves", b"analyst", 12, 1), Err(Refusal::MostPending));
    store.drop_consumer(b"curves", b"analyst").unwrap();
    assert_eq!(store.group_read_many(b"curves", b"analyst", 13, 256).unwrap(), ids[256..]);
    assert_eq!(store.group_read_many(b"curves", b"nobody", 13, 256), Ok(vec![]));
    assert_eq!(store.pending(b"curves", b"nobody").count(), 0);
    for n in [257, (1 << 32) + 1, u64::MAX] {
        assert_eq!(store.group_read_many(b"curves", b"analyst", 13, n), Err(Refusal::BadArgument));
    }
    assert_eq!(store.group_read_many(b"other", b"analyst", 13, 1), Err(Refusal::NoGroup));
    assert_eq!(store.group_read_many_into(b"other", b"a", 13, 2, &mut [0; 31]), Err(Refusal::ShortOutput));
}

#[test]
fn reports() {
    let mut store = Owned::new(2).unwrap();
    for (ms, value) in [(1, "5"), (2, "-7"), (3, "clipped"), (4, "1000000000"), (5, "1000000001")] {
        store.add_by_clock(ms, &slip("east", value)).unwrap();
    }
    store.add_by_clock(6, &slip("west", "0")).unwrap();
    let over = |name: &[u8], first, last| store.report(name, Id::new(first, 0)..=Id::new(last, 0));
    let integers = Integers { count: 3, sum: 999_999_998, smallest: -7, largest: 1_000_000_000 };
    assert_eq!(over(b"east", 0, 9), Ok(Report { lacking: 1, other: 2, integers: Some(integers) }));
    assert_eq!(over(b"east", 5, 6), Ok(Report { lacking: 1, other: 1, integers: None }));
    let zero = Integers { count: 1, sum: 0, smallest: 0, largest: 0 };
    assert_eq!(over(b"west", 0, 9), Ok(Report { lacking: 5, other: 0, integers: Some(zero) }));
    let empty = Report { lacking: 0, other: 0, integers: None };
    assert_eq!(over(b"east", 3, 2), Ok(empty));
    assert_eq!(store.report(b"", Id::LEAST..=Id::GREATEST).unwrap().lacking, 6);
    assert_eq!(over(&[b'x'; 1_000], 3, 2), Ok(empty));
    assert_eq!(over(&[b'x'; 1_001], 3, 2), Err(Refusal::BadArgument));
}

#[test]
fn range_replies() {
    let mut store = Owned::new(2).unwrap();
    let ids: Vec<Id> = (1..=150).map(|ms| store.add_by_clock(ms, &slip("east", "7")).unwrap()).collect();
    let mut out = vec![0; 10_000];
    let length = store.range_reply(Id::LEAST..=Id::GREATEST, &mut out).unwrap();
    assert_eq!(read_reply(&out[..length]), Ok(Reply::Range(150)));
    for (&id, place) in ids.iter().zip(0..) {
        assert_eq!(reply_message(&out[..length], place), Ok(Some((id, slip("east", "7")))));
    }
    assert_eq!(reply_message(&out[..length], 150), Ok(None));
    assert_eq!(
        store.range_reply(Id::LEAST..=Id::GREATEST, &mut out[..length - 1]),
        Err(Refusal::ShortOutput)
    );
    let length = store.range_reply(ids[2]..=ids[1], &mut out).unwrap();
    assert_eq!(out[..length], *b"*0\r\n");
    assert_eq!(read_reply(&out[..length - 1]), Err(Refusal::BadArgument));
}

#[test]
fn replies_of_numbers() {
    let mut out = [0; 9];
    for (number, text) in [(0, &b":0\r\n"[..]), (10, b":10\r\n"), (6_400, b":6400\r\n")] {
        let length = integer_reply(number, &mut out).unwrap();
        assert_eq!(&out[..length], text);
        assert_eq!(read_reply(text), Ok(Reply::Integer(number)));
        assert_eq!(reply_message(text, 0), Err(Refusal::BadArgument));
    }
    for (number, text) in [(1, &b"-ERR 1\r\n"[..]), (18, b"-ERR 18\r\n")] {
        let length = error_reply(number, &mut out).unwrap();
        assert_eq!(&out[..length], text);
        assert_eq!(read_reply(text), Ok(Reply::Error(number)));
    }
    assert_eq!(integer_reply(6_401, &mut []), Err(Refusal::BadArgument));
    assert_eq!(integer_reply(6_400, &mut [0; 6]), Err(Refusal::ShortOutput));
    assert_eq!([0, 19].map(|number| error_reply(number, &mut [])), [Err(Refusal::BadArgument); 2]);
    assert_eq!(error_reply(18, &mut [0; 8]), Err(Refusal::ShortOutput));
}

#[test]
fn save_and_load_in_borrowed_bytes() {
    let mut store = Owned::new(3).unwrap();
    store.add_by_clock(7, &slip("east", "-3")).unwrap();
    let file = store.save().unwrap();
    let mut bytes = vec![255; 2 * 4096 + 5];
    let mut state = [255; STATE_BYTES];
    let mut other = Borrowed::from_parts(&mut bytes[..], &mut state);
    assert_eq!(other.next(Id::LEAST), Err(Refusal::Damaged));
    assert_eq!(other.report(b"east", Id::LEAST..=Id::GREATEST), Err(Refusal::Damaged));
    assert_eq!(other.range_reply(Id::LEAST..=Id::GREATEST, &mut []), Err(Refusal::Damaged));
    assert_eq!(other.load(&file[1..]), Err(Refusal::NoSnapshot));
    other.load(&file).unwrap();
    assert_eq!(other.save().unwrap(), file);
    assert_eq!(other.save_into(&mut [0; 30]), Err(Refusal::ShortOutput));
    assert_eq!(bytes[2 * 4096..], [255; 5]);
}

#[test]
fn at_most_64_slots() {
    for (slots, made) in [(1, 1), (64, 64), (65, 64), (usize::MAX, 64)] {
        assert_eq!(Owned::new(slots).unwrap().into_parts().0.len(), made * SLOT_BYTES);
    }
}

#[test]
fn refusals_have_numbers_and_words() {
    assert_eq!(Owned::new(0).unwrap_err().number(), 1);
    assert_eq!(Refusal::Full.to_string(), "the store is full: a new node is needed and no slot is free (7)");
}

#[test]
fn ids_as_text() {
    assert_eq!("5-9".parse(), Ok(Id::new(5, 9)));
    assert_eq!("18446744073709551615-18446744073709551615".parse(), Ok(Id::GREATEST));
    for text in ["", "5", "-", "5-", "-9", "+5-9", "5-9-1", "18446744073709551616-0", " 5-9"] {
        assert!(text.parse::<Id>().is_err(), "{text}");
    }
    assert_eq!(Id::GREATEST.following(), None);
    assert_eq!(Id::new(1, u64::MAX).following(), Some(Id::new(2, 0)));
}

#[test]
fn ids_as_bytes() {
    let bytes = [0, 0, 0, 0, 0, 0, 1, 2, 0xA0, 0, 0, 0, 0, 0, 0, 3];
    assert_eq!(Id::from_bytes(bytes), Id::new(0x0102, 0xA000_0000_0000_0003));
    assert_eq!(Id::from_bytes([255; ID_BYTES]), Id::GREATEST);
}
