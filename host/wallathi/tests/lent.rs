//! The crate without an allocator: a store, slips and answers in lent bytes.

use wallathi::{
    error_reply, integer_reply, read_reply, reply_message_into, Borrowed, Id, Integers, Pending, Refusal,
    Reply, SlipRef, ID_BYTES, LONGEST_SLIP, SLOT_BYTES, STATE_BYTES,
};

#[test]
fn a_store_in_lent_bytes() {
    let (mut bytes, mut state) = ([7; 2 * SLOT_BYTES + 5], [7; STATE_BYTES]);
    let mut store = Borrowed::from_parts(&mut bytes[..], &mut state);
    assert_eq!(store.next(Id::LEAST), Err(Refusal::Damaged));
    store.set_up().unwrap();
    let (mut lent, mut out) = ([0; 64], [0; LONGEST_SLIP]);
    let slip = SlipRef::write([("west", "-120"), ("east", "0")], &mut lent).unwrap();
    let id = store.add_by_clock(5, slip).unwrap();
    let length = store.read_into(id, &mut out).unwrap();
    assert_eq!(SlipRef::from_bytes(&out[..length]), Ok(slip));
    assert_eq!(store.field_into(id, b"east", &mut out), Ok(Some(1)));
    assert_eq!(out[0], b'0');
    assert_eq!(store.field_into(id, b"middle", &mut out), Ok(None));
    assert_eq!(store.field_into(id, b"west", &mut out[..3]), Err(Refusal::ShortOutput));
    let west = Integers { count: 1, sum: -120, smallest: -120, largest: -120 };
    assert_eq!(store.report(b"west", id..=id).unwrap().integers, Some(west));
    store.create_group(b"curves", Id::LEAST).unwrap();
    assert_eq!(store.group_read(b"curves", b"analyst", 9), Ok(Some(id)));
    let entry = Pending { id, time: 9, count: 1, lives: true };
    assert!(store.pending(b"curves", b"analyst").eq([Ok(entry)]));
    let next = store.add_by_clock(6, slip).unwrap();
    assert_eq!(
        store.group_read_many_into(b"curves", b"relief", 9, 2, &mut out[..31]),
        Err(Refusal::ShortOutput)
    );
    assert_eq!(store.group_read_many_into(b"curves", b"relief", 9, 2, &mut out), Ok(ID_BYTES));
    assert_eq!(out.first_chunk().map(|&bytes| Id::from_bytes(bytes)), Some(next));
    let length = store.save_into(&mut out).unwrap();
    store.set_up().unwrap();
    store.load(&out[..length]).unwrap();
    assert!(store.pending(b"curves", b"analyst").eq([Ok(entry)]));
    assert_eq!(bytes[2 * SLOT_BYTES..], [7; 5]);
}

#[test]
fn replies_in_lent_bytes() {
    let (mut bytes, mut state) = ([0; SLOT_BYTES], [0; STATE_BYTES]);
    let mut store = Borrowed::from_parts(&mut bytes[..], &mut state);
    let (mut lent, mut reply, mut out) = ([0; 64], [0; 100], [0; LONGEST_SLIP]);
    store.set_up().unwrap();
    let slip = SlipRef::write([("west", "-120")], &mut lent).unwrap();
    let id = store.add_by_clock(5, slip).unwrap();
    assert_eq!(store.range_reply(id..=id, &mut reply), Ok(41));
    assert_eq!(reply[..41], *b"*1\r\n*2\r\n$3\r\n5-0\r\n*2\r\n$4\r\nwest\r\n$4\r\n-120\r\n");
    assert_eq!(store.range_reply(id..=id, &mut out[..40]), Err(Refusal::ShortOutput));
    assert_eq!(read_reply(&reply[..41]), Ok(Reply::Range(1)));
    let (found, length) = reply_message_into(&reply[..41], 0, &mut out).unwrap().unwrap();
    assert_eq!((found, SlipRef::from_bytes(&out[..length])), (id, Ok(slip)));
    assert_eq!(reply_message_into(&reply[..41], 1, &mut []), Ok(None));
    assert_eq!(reply_message_into(&reply[..41], 0, &mut out[..length - 1]), Err(Refusal::ShortOutput));
    let length = integer_reply(1, &mut reply).unwrap();
    assert_eq!(read_reply(&reply[..length]), Ok(Reply::Integer(1)));
    assert_eq!(reply_message_into(&reply[..length], 0, &mut out), Err(Refusal::BadArgument));
    let length = error_reply(2, &mut reply).unwrap();
    assert_eq!(read_reply(&reply[..length]), Ok(Reply::Error(2)));
}
