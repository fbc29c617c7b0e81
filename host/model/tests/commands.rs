//! Random lists of commands from fresh stores.

use std::collections::{BTreeMap, BTreeSet};

use wallathi_model::generate::Commands;
use wallathi_model::id::Id;
use wallathi_model::image;
use wallathi_model::ledger::{Answer, Command, Ledger, Model, Report, Store};
use wallathi_model::reply;
use wallathi_model::slip;
use wallathi_model::snapshot;

fn model(store: &Store) -> &Model {
    store.model.as_ref().expect("an image")
}

fn ledger(store: &Store) -> &Ledger {
    &model(store).ledger
}

/// A batch is so many single reads in a row, and where it is shorter than n, the next one delivers nothing. (02, CR 1)
fn check_batch(before: &Store, command: &Command, answer: &Answer, after: &Store) {
    let Command::GroupReadMany { group, consumer, now, n, .. } = command else { return };
    let single = Command::GroupRead { group: group.clone(), consumer: consumer.clone(), now: *now };
    let mut store = before.clone();
    match answer {
        Answer::Written(bytes) => {
            let ids = Id::list(bytes);
            ids.iter().for_each(|&id| assert_eq!(store.run(&single), Answer::Id(id)));
            assert!(store == *after);
            let is_whole = ids.len() as u64 == *n;
            let next = store.run(&single);
            let is_full = !ids.is_empty() && next == Answer::Refused(13);
            assert!(is_whole || is_full || next == Answer::NothingNew, "{command:?}, then {next:?}");
        }
        Answer::Refused(12 | 13) => assert_eq!(store.run(&single), *answer),
        _ => assert!(matches!(answer, Answer::Refused(3 | 8 | 9))),
    }
}

/// The report of a range.
fn report_of(store: &mut Store, name: &[u8], first: Id, last: Id) -> Report {
    match store.run(&Command::Report { name: name.to_vec(), first, last }) {
        Answer::Report(report) => report,
        other => panic!("{other:?}"),
    }
}

/// A report counts each live message of its range once, and is those of both sides of any ID together. (02, CR 2)
fn check_report(store: &mut Store, command: &Command, answer: &Answer) {
    let (Command::Report { name, first, last }, Answer::Report(report)) = (command, answer) else { return };
    assert_eq!(report.messages(), ledger(store).range(*first, *last).count() as u64);
    for id in [*first, *last, ledger(store).last_id, Id::new(first.ms / 2 + last.ms / 2, 1)] {
        let Some(above) = id.following() else { continue };
        let below = report_of(store, name, *first, id.min(*last));
        assert_eq!(below.with(&report_of(store, name, above.max(*first), *last)), *report, "{id:?}");
    }
}

/// A range reply reads back as the messages of its range, each by its place. (02, CR 4)
fn check_reply(store: &Store, command: &Command, answer: &Answer) {
    let (Command::RangeReply { first, last, .. }, Answer::Written(bytes)) = (command, answer) else { return };
    let messages: Vec<_> = ledger(store).range(*first, *last).collect();
    assert_eq!(reply::read_reply(bytes), Ok((1, messages.len() as u64)));
    assert_eq!(reply::reply_message(bytes, messages.len() as u64, 0), Ok(None));
    for (&(id, pairs), place) in messages.iter().zip(0..).take(3) {
        assert_eq!(reply::reply_message(bytes, place, 6_000), Ok(Some((id, slip::write(pairs)))));
    }
}

/// Runs one command and checks what holds after any command.
fn checked_run(store: &mut Store, command: &Command) -> Answer {
    let before = store.clone();
    let answer = store.run(command);
    if answer.changes_nothing(command) {
        assert!(*store == before, "{command:?} answered {answer:?}");
    }
    check_batch(&before, command, &answer, store);
    check_report(store, command, &answer);
    check_reply(store, command, &answer);
    answer
}

/// The store's bytes are the image of the store's ledger and cut, and of no other.
fn check_image(store: &Store) {
    let Model { ledger, cut } = model(store);
    let regions = image::regions(&ledger.groups);
    let read = image::read(&image::slots(cut), ledger.last_id, &image::index(cut), &regions);
    assert_eq!(read.as_ref(), Ok(model(store)));
}

/// A saved file gives the ledger back, in a store that held something else.
fn check_saved(store: &Store, file: &[u8]) {
    assert_eq!(snapshot::read(file).as_ref(), Ok(ledger(store)));
    let mut other = Store::damaged(64 * 4096);
    assert_eq!(other.run(&Command::Load { file: file.to_vec() }), Answer::Done);
    assert_eq!(ledger(&other), ledger(store));
    assert_eq!(other.run(&Command::Save { room: file.len() }), Answer::Written(file.to_vec()));
}

/// Runs a list of commands from a fresh store of each length. Answers how often each code came.
fn run_lists(lengths: &[usize], commands: usize) -> BTreeMap<u32, usize> {
    let mut codes = BTreeMap::new();
    for (&length, seed) in lengths.iter().zip(0..) {
        let mut store = Store::fresh(length);
        let mut next = Commands::new(seed);
        for number in 0..commands {
            let command = next.next(&store);
            let answer = checked_run(&mut store, &command);
            // Large stores are checked now and then, to save time.
            if store.slot_count() <= 3 || number % 25 == 0 {
                assert!(model(&store).keeps_rules(), "{command:?}");
            }
            *codes.entry(answer.code()).or_insert(0) += 1;
            if let (Command::Save { .. }, Answer::Written(file)) = (&command, &answer) {
                check_saved(&store, file);
                check_image(&store);
            }
        }
        check_image(&store);
    }
    codes
}

#[test]
fn rules_hold_over_random_lists_and_every_code_comes_up() {
    let few = [4096, 8192, 3 * 4096 + 100];
    let many = [6 * 4096, 15 * 4096, 64 * 4096, 70 * 4096];
    let codes = run_lists(&[&few[..], &many].concat(), 3_000);
    let seen: BTreeSet<u32> = codes.keys().copied().collect();
    // 1 and 2 need a store that is too short or damaged, 15 a list of its own, 18 the index alone.
    let expected = [0, 3, 4, 5, 6, 7, 8, 9, 10, 11, 12, 13, 14, 16, 17, 32, 33, 34, 35];
    assert_eq!(seen, expected.into(), "{codes:?}");
}

#[test]
fn a_store_too_short_for_a_slot_keeps_the_rules() {
    let codes = run_lists(&[0, 4095], 500);
    assert!(codes.contains_key(&1) && codes.contains_key(&7));
}

#[test]
fn a_pending_id_has_one_consumer_and_is_delivered_once() {
    let mut store = Store::fresh(16 * 4096);
    let mut next = Commands::new(77);
    let mut delivered: BTreeMap<Vec<u8>, Id> = BTreeMap::new();
    for _ in 0..3_000 {
        let command = next.next(&store);
        let answer = checked_run(&mut store, &command);
        match (&command, &answer) {
            (Command::GroupRead { group, .. }, Answer::Id(id)) => {
                let last = delivered.insert(group.clone(), *id);
                assert!(last.is_none_or(|last| last < *id));
            }
            (Command::GroupReadMany { group, .. }, Answer::Written(ids)) => {
                for id in Id::list(ids) {
                    let last = delivered.insert(group.clone(), id);
                    assert!(last.is_none_or(|last| last < id));
                }
            }
            (Command::CreateGroup { group, .. } | Command::DestroyGroup { group }, Answer::Done) => {
                delivered.remove(group);
            }
            (Command::SetUp | Command::Load { .. }, Answer::Done) => delivered.clear(),
            _ => (),
        }
    }
}

/// Equal ledgers with different cuts answer alike, as long as neither lacks a slot.
#[test]
fn answers_do_not_depend_on_the_cut_but_for_refusal_7() {
    let mut compared = 0;
    for seed in 100..106 {
        let mut store = Store::fresh(64 * 4096);
        let mut next = Commands::new(seed);
        for _ in 0..300 {
            store.run(&next.next(&store));
        }
        let file = snapshot::snapshot(ledger(&store)).unwrap();
        let mut other = Store::fresh(64 * 4096);
        assert_eq!(other.run(&Command::Load { file }), Answer::Done);
        for _ in 0..300 {
            let command = next.next(&store);
            let answers = (store.run(&command), other.run(&command));
            assert!(answers.0 != Answer::Refused(7) && answers.1 != Answer::Refused(7));
            assert_eq!(answers.0, answers.1, "{command:?}");
            assert!(ledger(&store) == ledger(&other), "{command:?}");
            compared += usize::from(model(&store).cut != model(&other).cut);
        }
    }
    assert!(compared > 200, "{compared}");
}

/// Two stores hold the same ledger exactly when their snapshots are equal.
#[test]
fn snapshots_are_equal_exactly_for_equal_ledgers() {
    let mut seen: Vec<(Ledger, Vec<u8>)> = Vec::new();
    for seed in [5, 5, 6] {
        let mut store = Store::fresh(4 * 4096);
        let mut next = Commands::new(seed);
        for _ in 0..80 {
            store.run(&next.next(&store));
            seen.push((ledger(&store).clone(), snapshot::snapshot(ledger(&store)).unwrap()));
        }
    }
    for (ledger, file) in &seen {
        for (other_ledger, other_file) in &seen {
            assert_eq!(ledger == other_ledger, file == other_file);
        }
    }
}

/// The bytes of a saved file follow from the messages alone, not from the order of other commands.
#[test]
fn orders_of_arrival_are_no_part_of_the_ledger() {
    let name = |text: &str| text.as_bytes().to_vec();
    let run = |order: [&str; 2]| {
        let mut store = Store::fresh(4096);
        store.run(&Command::AddByClock { time: 1, slip: vec![1, 0, 0, 0, 0] });
        store.run(&Command::AddByClock { time: 1, slip: vec![1, 0, 0, 0, 0] });
        for group in order {
            store.run(&Command::CreateGroup { group: name(group), start: Id::LEAST });
            store.run(&Command::GroupRead { group: name(group), consumer: name("x"), now: 5 });
            store.run(&Command::GroupRead { group: name(group), consumer: name("x"), now: 5 });
        }
        for consumer in order {
            let claim =
                |id| Command::Claim { group: name("a"), consumer: name(consumer), least_idle: 0, id, now: 5 };
            store.run(&claim(if consumer == "a" { Id::new(1, 0) } else { Id::new(1, 1) }));
        }
        store.run(&Command::Save { room: 10_000 })
    };
    assert!(matches!(run(["a", "b"]), Answer::Written(_)));
    assert_eq!(run(["a", "b"]), run(["b", "a"]));
}
