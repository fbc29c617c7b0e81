use std::iter::successors;

use super::*;
use crate::generate;
use crate::rng::Rng;

fn group() -> Group {
    let mut group = Group::new(Id::new(4, 0));
    group.deliver(b"zed", Id::new(5, 0), 100).unwrap();
    group.deliver(b"amy", Id::new(6, 1), 200).unwrap();
    group
}

#[test]
fn deliver_makes_the_consumer_and_the_entry() {
    let group = group();
    assert_eq!(group.last_delivered, Id::new(6, 1));
    assert!(group.consumers.iter().eq([b"amy", b"zed"]));
    let entry = Pending { consumer: b"zed".to_vec(), time: 100, count: 1 };
    assert_eq!(group.pending[&Id::new(5, 0)], entry);
    assert!(group.keeps_rules());
}

/// One deliver after another, up to the first refusal, leaves the same; a batch is refused where the first one is.
#[test]
fn a_batch_is_as_many_delivers() {
    let mut rng = Rng::new(8);
    for turn in 0..200 {
        let (_, mut batch) = generate::group(&mut rng);
        let consumer: &[u8] = if turn % 2 == 0 { b"consumer7" } else { b"new" };
        let following = successors(batch.last_delivered.following(), |id| id.following());
        let ids: Vec<Id> = following.take(rng.size_below(300)).collect();
        let mut single = batch.clone();
        let count = ids.iter().take_while(|&&id| single.deliver(consumer, id, 7).is_ok()).count();
        let expected = match ids.first() {
            Some(&id) if count == 0 => single.deliver(consumer, id, 7).map(|()| &ids[..0]),
            _ => Ok(&ids[..count]),
        };
        assert_eq!(batch.deliver_batch(consumer, &ids, 7), expected);
        assert_eq!(batch, single);
    }
}

#[test]
fn claim_moves_an_entry_that_is_idle_long_enough() {
    let mut group = group();
    assert_eq!(group.claim(b"bob", 51, Id::new(5, 0), 150), Ok(false));
    assert_eq!(group.claim(b"bob", 0, Id::new(9, 0), 150), Ok(false));
    assert!(!group.consumers.contains(&b"bob"[..]));
    assert_eq!(group.claim(b"bob", 50, Id::new(5, 0), 150), Ok(true));
    let entry = Pending { consumer: b"bob".to_vec(), time: 150, count: 2 };
    assert_eq!(group.pending[&Id::new(5, 0)], entry);
    assert!(group.consumers.contains(&b"zed"[..]));
}

#[test]
fn idle_is_0_when_the_clock_went_back() {
    let mut group = group();
    assert_eq!(group.claim(b"zed", 1, Id::new(5, 0), 99), Ok(false));
    assert_eq!(group.claim(b"zed", 0, Id::new(5, 0), 99), Ok(true));
    assert_eq!(group.pending[&Id::new(5, 0)].time, 99);
}

#[test]
fn the_delivery_count_stays_at_65535() {
    let mut group = group();
    for _ in 0..65_540 {
        assert_eq!(group.claim(b"zed", 0, Id::new(5, 0), 0), Ok(true));
    }
    assert_eq!(group.pending[&Id::new(5, 0)].count, 65_535);
}

#[test]
fn acknowledge_and_drop() {
    let mut group = group();
    assert_eq!(group.acknowledge(Id::new(5, 0)), 1);
    assert_eq!(group.acknowledge(Id::new(5, 0)), 0);
    assert_eq!(group.drop_consumer(b"zed"), 0);
    assert_eq!(group.drop_consumer(b"amy"), 1);
    assert_eq!(group.drop_consumer(b"amy"), 0);
    assert_eq!(group, Group::new(Id::new(6, 1)));
}

#[test]
fn next_pending_is_above_the_id_and_of_the_consumer() {
    let mut group = group();
    group.deliver(b"zed", Id::new(7, 0), 300).unwrap();
    let next = |consumer: &[u8], after| group.next_pending(consumer, after).map(|(id, _)| id);
    assert_eq!(next(b"zed", Id::LEAST), Some(Id::new(5, 0)));
    assert_eq!(next(b"zed", Id::new(5, 0)), Some(Id::new(7, 0)));
    assert_eq!(next(b"zed", Id::new(7, 0)), None);
    assert_eq!(next(b"zed", Id::GREATEST), None);
    assert_eq!(next(b"amy", Id::LEAST), Some(Id::new(6, 1)));
    assert_eq!(next(b"bob", Id::LEAST), None);
}

#[test]
fn refusals_12_and_13() {
    let mut group = Group::new(Id::LEAST);
    for seq in 1..=256 {
        group.deliver(&[(seq % 16) as u8], Id::new(0, seq), 0).unwrap();
    }
    assert_eq!(group.deliver(&[16], Id::new(0, 257), 0), Err(12));
    assert_eq!(group.deliver(&[15], Id::new(0, 257), 0), Err(13));
    assert_eq!(group.deliver_batch(&[16], &[Id::new(0, 257)], 0), Err(12));
    assert_eq!(group.deliver_batch(&[15], &[Id::new(0, 257)], 0), Err(13));
    assert_eq!(group.deliver_batch(&[16], &[], 0), Ok(&[][..]));
    assert_eq!(group.claim(&[16], 0, Id::new(0, 1), 0), Err(12));
    assert_eq!(group.claim(&[15], 0, Id::new(0, 1), 0), Ok(true));
    assert!(group.keeps_rules());
    assert_eq!(read_region(&region(b"g", &group)), Ok(Some((b"g".to_vec(), group.clone()))));
    assert_eq!(read_body(&body(b"g", &group)), Ok((b"g".to_vec(), group)));
}

#[test]
fn body_byte_by_byte() {
    let mut expected = vec![1, b'g'];
    expected.extend([0, 0, 0, 0, 0, 0, 0, 6, 0, 0, 0, 0, 0, 0, 0, 1]);
    expected.extend([2, 3, b'a', b'm', b'y', 3, b'z', b'e', b'd', 2, 0]);
    expected.extend([0, 0, 0, 0, 0, 0, 0, 5, 0, 0, 0, 0, 0, 0, 0, 0]);
    expected.extend([1, 100, 0, 0, 0, 0, 0, 0, 0, 1, 0]);
    expected.extend([0, 0, 0, 0, 0, 0, 0, 6, 0, 0, 0, 0, 0, 0, 0, 1]);
    expected.extend([0, 200, 0, 0, 0, 0, 0, 0, 0, 1, 0]);
    assert_eq!(body(b"g", &group()), expected);
    assert_eq!(read_body(&expected), Ok((b"g".to_vec(), group())));
}

#[test]
fn region_offsets() {
    let bytes = region(b"g", &group());
    assert_eq!(bytes.len(), REGION_BYTES);
    assert_eq!(bytes[..3], [1, b'g', 0]);
    assert_eq!(bytes[17..33], Id::new(6, 1).to_bytes());
    assert_eq!(bytes[33..39], [2, 3, b'a', b'm', b'y', 0]);
    assert_eq!(bytes[51..55], [3, b'z', b'e', b'd']);
    assert_eq!(bytes[306..308], [2, 0]);
    assert_eq!(bytes[308..324], Id::new(5, 0).to_bytes());
    assert_eq!(bytes[324..335], [1, 100, 0, 0, 0, 0, 0, 0, 0, 1, 0]);
    assert_eq!(bytes[335..351], Id::new(6, 1).to_bytes());
    assert!(bytes[362..].iter().all(|&byte| byte == 0));
}

#[test]
fn a_free_region_is_zero() {
    assert_eq!(read_region(&[0; REGION_BYTES]), Ok(None));
    assert_eq!(read_region(&[0; REGION_BYTES - 1]), Err(Refused));
    for place in [1, 17, 33, 40, 306, 308, 7219] {
        let mut bytes = vec![0; REGION_BYTES];
        bytes[place] = 1;
        assert_eq!(read_region(&bytes), Err(Refused));
    }
}

#[test]
fn groups_that_break_a_rule_are_refused() {
    let refused = |name: &[u8], change: fn(&mut Group)| {
        let mut group = group();
        change(&mut group);
        assert_eq!(read_body(&body(name, &group)), Err(Refused));
        if name.len() <= LONGEST_NAME && group.consumers.iter().all(|name| name.len() <= LONGEST_NAME) {
            assert_eq!(read_region(&region(name, &group)), Err(Refused));
        }
    };
    refused(b"", |_| ());
    refused(&[b'g'; 17], |_| ());
    refused(b"g", |group| group.last_delivered = Id::new(6, 0));
    refused(b"g", |group| group.pending.get_mut(&Id::new(5, 0)).unwrap().count = 0);
    refused(b"g", |group| assert!(group.consumers.insert(vec![])));
    refused(b"g", |group| assert!(group.consumers.insert(vec![b'z'; 17])));
    refused(b"g", |group| {
        let entry = group.pending[&Id::new(5, 0)].clone();
        group.pending.insert(Id::LEAST, entry);
    });
}

#[test]
fn orders_and_places_are_judged() {
    let good = body(b"g", &group());
    let changed = |change: fn(&mut [u8])| {
        let mut bytes = good.clone();
        change(&mut bytes);
        read_body(&bytes)
    };
    assert_eq!(changed(|bytes| bytes[20] = b'z'), Err(Refused)); // consumers fall
    assert_eq!(changed(|bytes| bytes.copy_within(20..23, 24)), Err(Refused)); // equal consumers
    assert_eq!(changed(|bytes| bytes[45] = 2), Err(Refused)); // no such place
    assert!(changed(|bytes| bytes[45] = 0).is_ok());
    assert_eq!(changed(|bytes| bytes[36] = 7), Err(Refused)); // IDs fall
    assert_eq!(changed(|bytes| bytes[27] = 3), Err(Refused)); // an entry more
    assert_eq!(changed(|bytes| bytes[27] = 1), Err(Refused)); // an entry fewer
}

#[test]
fn regions_and_bodies_are_inverse() {
    let mut rng = Rng::new(6);
    for _ in 0..200 {
        let (name, group) = generate::group(&mut rng);
        assert!(group.keeps_rules());
        assert_eq!(read_region(&region(&name, &group)), Ok(Some((name.clone(), group.clone()))));
        assert_eq!(read_body(&body(&name, &group)), Ok((name, group)));
    }
}
