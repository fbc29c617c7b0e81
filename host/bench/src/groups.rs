//! What is measured of groups. Each call judges the region or the area first, on both sides.

use std::collections::BTreeMap;
use std::hint::black_box;

use bench::{plain_groups, proved_groups};
use wallathi_model::groups::{self, Group, MOST_GROUPS};
use wallathi_model::id::Id;
use wallathi_model::image;
use wallathi_model::message::Name;

use crate::{Run, Task};

const START: u64 = 1_763_000_000_000;
/// Of an entry in the middle, and above all of them.
const MIDDLE: Id = Id::new(START + 300, 0);
const NEW: Id = Id::new(START + 10_000, 0);

fn consumer(number: u64) -> Name {
    format!("station {:02}", number).into_bytes()
}

/// A group of so many consumers and entries.
fn group(consumers: u64, entries: u64) -> Group {
    let mut group = Group::new(Id::new(START, 0));
    for entry in 1..=entries {
        let id = Id::new(START + entry * 3, entry % 5);
        group.deliver(&consumer(entry * 7 % consumers), id, START + entry * 5).expect("there is room");
    }
    group
}

fn area(groups: u64, consumers: u64, entries: u64) -> Vec<u8> {
    let named = |number| (format!("group {number}").into_bytes(), group(consumers, entries));
    image::regions(&(0..groups).map(named).collect::<BTreeMap<Name, Group>>())
}

fn judgement(name: &str, area: Vec<u8>) -> Task {
    let (last, again) = (Id::GREATEST, area.clone());
    assert!(proved_groups::judge(&area, last) && plain_groups::judge(&area, last));
    Task {
        name: format!("groups, {name}"),
        bytes: Some(area.len()),
        proved: Box::new(move |times| {
            for _ in 0..times {
                black_box(proved_groups::judge(black_box(&area), black_box(last)));
            }
        }),
        plain: Box::new(move |times| {
            for _ in 0..times {
                black_box(plain_groups::judge(black_box(&again), black_box(last)));
            }
        }),
    }
}

/// Each call on a fresh copy.
fn on_copies(bytes: &[u8], answer: u64, change: impl Fn(&mut [u8]) -> u64 + 'static) -> Run {
    let (bytes, mut copy) = (bytes.to_vec(), bytes.to_vec());
    assert_eq!(change(&mut copy), answer);
    Box::new(move |times| {
        for _ in 0..times {
            copy.copy_from_slice(black_box(&bytes));
            black_box(change(black_box(&mut copy)));
        }
    })
}

type Change = fn(&mut [u8]) -> u64;

fn changed(name: &str, bytes: &[u8], answer: u64, proved: Change, plain: Change) -> Task {
    Task {
        name: format!("groups, {name}"),
        bytes: None,
        proved: on_copies(bytes, answer, proved),
        plain: on_copies(bytes, answer, plain),
    }
}

/// Changes of a region with 8 consumers and 200 entries.
fn region_tasks() -> Vec<Task> {
    let region = groups::region(b"group", &group(8, 200));
    vec![
        changed(
            "deliver",
            &region,
            0,
            |region| u64::from(proved_groups::deliver(region, b"station 03", 7, NEW)),
            |region| u64::from(plain_groups::deliver(region, b"station 03", 7, NEW)),
        ),
        changed(
            "deliver, new consumer",
            &region,
            0,
            |region| u64::from(proved_groups::deliver(region, b"station 0", 7, NEW)),
            |region| u64::from(plain_groups::deliver(region, b"station 0", 7, NEW)),
        ),
        changed(
            "acknowledge the middle one",
            &region,
            1,
            |region| proved_groups::acknowledge(region, MIDDLE),
            |region| plain_groups::acknowledge(region, MIDDLE),
        ),
        changed(
            "claim the middle one",
            &region,
            0,
            |region| u64::from(proved_groups::claim(region, b"station 05", 1, MIDDLE, START * 2)),
            |region| u64::from(plain_groups::claim(region, b"station 05", 1, MIDDLE, START * 2)),
        ),
        changed(
            "drop a consumer",
            &region,
            26,
            |region| proved_groups::drop_consumer(region, b"station 03"),
            |region| plain_groups::drop_consumer(region, b"station 03"),
        ),
    ]
}

pub fn tasks() -> Vec<Task> {
    let mut tasks = vec![
        judgement("an empty area", area(0, 1, 0)),
        judgement("8 regions of 20 entries", area(MOST_GROUPS as u64, 4, 20)),
        judgement("8 full regions", area(MOST_GROUPS as u64, 16, 256)),
    ];
    tasks.extend(region_tasks());
    let area = area(4, 4, 20);
    tasks.push(changed(
        "create",
        &area,
        0,
        |area| u64::from(proved_groups::create(area, b"group 1a", Id::new(5, 5))),
        |area| u64::from(plain_groups::create(area, b"group 1a", Id::new(5, 5))),
    ));
    tasks.push(changed(
        "destroy",
        &area,
        0,
        |area| u64::from(proved_groups::destroy(area, b"group 1")),
        |area| u64::from(plain_groups::destroy(area, b"group 1")),
    ));
    tasks
}
