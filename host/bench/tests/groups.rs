//! The proved functions on groups, the plain ones and the model give the same answers and leave the same bytes.

use std::collections::BTreeMap;

use bench::{plain_groups, proved_groups};
use wallathi_model::generate;
use wallathi_model::groups::{self, Group, MOST_GROUPS, REGION_BYTES};
use wallathi_model::id::Id;
use wallathi_model::image;
use wallathi_model::message::Name;
use wallathi_model::rng::Rng;

type Change<'a> = &'a dyn Fn(&mut [u8]) -> u64;

/// Both answer this and leave these bytes.
fn same_change(bytes: &[u8], answer: u64, after: &[u8], changes: [Change; 2]) {
    for change in changes {
        let mut copy = bytes.to_vec();
        assert_eq!(change(&mut copy), answer);
        assert_eq!(copy, after);
    }
}

fn same_verdict(area: &[u8], last: Id) -> bool {
    let verdict = proved_groups::judge(area, last);
    assert_eq!(verdict, plain_groups::judge(area, last));
    assert_eq!(verdict, image::read_groups(area, last).is_ok());
    verdict
}

fn area(rng: &mut Rng, count: usize) -> BTreeMap<Name, Group> {
    (0..count).map(|_| generate::group(rng)).collect()
}

/// An ID of the group, the last delivered one, or one near it.
fn some_id(rng: &mut Rng, group: &Group) -> Id {
    let pending: Vec<Id> = group.pending.keys().copied().collect();
    match rng.below(4) {
        0 => group.last_delivered,
        1 => group.last_delivered.following().unwrap_or(Id::LEAST),
        _ if pending.is_empty() => Id::new(rng.below(9), rng.below(9)),
        _ => *rng.pick(&pending),
    }
}

fn some_name(rng: &mut Rng) -> Name {
    match rng.below(12) {
        0 => Vec::new(),
        1 => vec![b'x'; 17],
        number => format!("consumer{}", number * 7 % 23).into_bytes(),
    }
}

fn same_deliver(name: &[u8], group: &Group, consumer: &[u8], time: u64, id: Id) {
    let mut after = group.clone();
    let answer = match consumer.len() {
        1..=16 if id <= group.last_delivered => 4,
        1..=16 => after.deliver(consumer, id, time).map_or_else(u64::from, |()| 0),
        _ => 3,
    };
    same_change(
        &groups::region(name, group),
        answer,
        &groups::region(name, &after),
        [&|region| u64::from(proved_groups::deliver(region, consumer, time, id)), &|region| {
            u64::from(plain_groups::deliver(region, consumer, time, id))
        }],
    );
}

fn same_claim(name: &[u8], group: &Group, consumer: &[u8], least_idle: u64, id: Id, now: u64) {
    let mut after = group.clone();
    let answer = match consumer.len() {
        1..=16 => match after.claim(consumer, least_idle, id, now) {
            Ok(moved) => {
                if moved {
                    0
                } else {
                    34
                }
            }
            Err(number) => u64::from(number),
        },
        _ => 3,
    };
    same_change(
        &groups::region(name, group),
        answer,
        &groups::region(name, &after),
        [&|region| u64::from(proved_groups::claim(region, consumer, least_idle, id, now)), &|region| {
            u64::from(plain_groups::claim(region, consumer, least_idle, id, now))
        }],
    );
}

fn same_acknowledge(name: &[u8], group: &Group, id: Id) {
    let mut after = group.clone();
    let answer = after.acknowledge(id);
    same_change(
        &groups::region(name, group),
        answer,
        &groups::region(name, &after),
        [&|region| proved_groups::acknowledge(region, id), &|region| plain_groups::acknowledge(region, id)],
    );
}

fn same_drop(name: &[u8], group: &Group, consumer: &[u8]) {
    let mut after = group.clone();
    let answer = 1 + after.drop_consumer(consumer);
    same_change(
        &groups::region(name, group),
        answer,
        &groups::region(name, &after),
        [&|region| proved_groups::drop_consumer(region, consumer), &|region| {
            plain_groups::drop_consumer(region, consumer)
        }],
    );
}

#[test]
fn regions_are_changed() {
    let mut rng = Rng::new(51);
    for _ in 0..400 {
        let (name, group) = generate::group(&mut rng);
        for _ in 0..6 {
            let (id, consumer, time) = (some_id(&mut rng, &group), some_name(&mut rng), rng.next());
            same_deliver(&name, &group, &consumer, time, id);
            let least_idle = if rng.one_in(3) { rng.next() } else { 0 };
            same_claim(&name, &group, &consumer, least_idle, id, time);
            same_acknowledge(&name, &group, id);
            same_drop(&name, &group, &consumer);
        }
    }
}

#[test]
fn areas_are_judged_and_changed() {
    let mut rng = Rng::new(52);
    for turn in 0..90 {
        let groups = area(&mut rng, turn % (MOST_GROUPS + 1));
        let bytes = image::regions(&groups);
        assert!(same_verdict(&bytes, Id::GREATEST));
        same_verdict(&bytes, Id::new(rng.next(), 0));
        let known = groups.keys().nth(rng.size_below(MOST_GROUPS)).cloned();
        for name in [known.unwrap_or(b"?".to_vec()), some_name(&mut rng)] {
            let (mut made, mut gone) = (groups.clone(), groups.clone());
            let created = match name.len() {
                1..=16 if groups.contains_key(&name) => 10,
                1..=16 if groups.len() == MOST_GROUPS => 11,
                1..=16 => {
                    made.insert(name.clone(), Group::new(Id::new(7, 8)));
                    0
                }
                _ => 3,
            };
            same_change(
                &bytes,
                created,
                &image::regions(&made),
                [&|area| u64::from(proved_groups::create(area, &name, Id::new(7, 8))), &|area| {
                    u64::from(plain_groups::create(area, &name, Id::new(7, 8)))
                }],
            );
            let destroyed = if gone.remove(&name).is_some() { 0 } else { 9 };
            same_change(
                &bytes,
                destroyed,
                &image::regions(&gone),
                [&|area| u64::from(proved_groups::destroy(area, &name)), &|area| {
                    u64::from(plain_groups::destroy(area, &name))
                }],
            );
        }
    }
}

/// A byte of a region's used parts, or right after them, changed a little.
fn damage(rng: &mut Rng, area: &mut [u8]) {
    let region = rng.size_below(MOST_GROUPS) * REGION_BYTES;
    let entries = usize::from(u16::from_le_bytes([area[region + 306], area[region + 307]])).min(256);
    let at = region
        + match rng.below(6) {
            0 => rng.size_below(34),
            1 => 33 + rng.size_below(273),
            2 => 306 + rng.size_below(2),
            3 => rng.size_below(REGION_BYTES),
            _ => 308 + rng.size_below(27 * entries + 1).min(6_911),
        };
    area[at] = match rng.below(4) {
        0 => 0,
        1 => rng.byte(),
        2 => area[at].wrapping_sub(1),
        _ => area[at].wrapping_add(1),
    };
}

#[test]
fn damaged_areas() {
    let mut rng = Rng::new(53);
    let mut refused = 0;
    for turn in 0..60 {
        let bytes = image::regions(&area(&mut rng, turn % (MOST_GROUPS + 1)));
        for _ in 0..60 {
            let mut copy = bytes.clone();
            damage(&mut rng, &mut copy);
            let sound = same_verdict(&copy, Id::GREATEST);
            refused += usize::from(!sound);
            for region in copy.chunks(REGION_BYTES).filter(|region| groups::read_region(region).is_err()) {
                let id = Id::new(1, 1);
                same_change(
                    region,
                    2,
                    region,
                    [&|region| proved_groups::acknowledge(region, id), &|region| {
                        plain_groups::acknowledge(region, id)
                    }],
                );
            }
            if !sound {
                same_change(
                    &copy,
                    2,
                    &copy,
                    [&|area| u64::from(proved_groups::create(area, b"new", Id::LEAST)), &|area| {
                        u64::from(plain_groups::create(area, b"new", Id::LEAST))
                    }],
                );
            }
        }
    }
    assert!((1_500..3_500).contains(&refused), "{refused}");
}

#[test]
fn other_lengths() {
    let bytes = image::regions(&BTreeMap::new());
    assert!(same_verdict(&bytes, Id::LEAST));
    for length in [0, 1, 7_220, 57_759] {
        assert!(!proved_groups::judge(&bytes[..length], Id::LEAST));
        assert!(!plain_groups::judge(&bytes[..length], Id::LEAST));
    }
}
