//! Random lists of commands from fresh stores.

use std::collections::BTreeMap;

use wallathi_model::generate::{Commands, Mood};

use crate::beside::Beside;
use crate::{amount, Progress};

const SLOT: usize = 4_096;

/// How often each code came.
type Codes = BTreeMap<u32, usize>;

/// Runs lists of commands, one for each length, and answers how often each code came and how full a store was at the most.
fn run_lists(name: &'static str, mood: Mood, lengths: &[usize], commands: usize) -> (Codes, usize) {
    let (mut codes, mut fullest) = (Codes::new(), 0);
    let mut progress = Progress::new(name, lengths.len() * commands);
    for (&length, seed) in lengths.iter().zip(0..) {
        let mut beside = Beside::fresh(length);
        let mut next = Commands::with_mood(1_000 * seed + mood as u64, mood);
        for number in 0..commands {
            let answer = beside.run(&next.next(&beside.model));
            *codes.entry(answer.code()).or_insert(0) += 1;
            if number % 50 == 0 {
                fullest = fullest.max(beside.model().cut.nodes().len());
            }
            if number % 1_000 == 999 {
                beside.check();
            }
            progress.step();
        }
        beside.check();
    }
    (codes, fullest)
}

/// Stores of 1 to 3 slots with odd lengths, each so many times.
fn small_lengths(times: usize) -> Vec<usize> {
    let lengths = [SLOT, 2 * SLOT, 3 * SLOT, SLOT + 1, 2 * SLOT - 1, 3 * SLOT + 77, 4 * SLOT - 1];
    lengths.into_iter().cycle().take(times).collect()
}

/// Stores of 63, 64 and more slots, of which 64 count.
fn large_lengths(times: usize) -> Vec<usize> {
    let lengths = [64 * SLOT, 65 * SLOT, 64 * SLOT + 4_095, 63 * SLOT + 1, 70 * SLOT + 9];
    lengths.into_iter().cycle().take(times).collect()
}

#[test]
fn small_stores() {
    let (mut codes, mut fullest) = (Codes::new(), 0);
    for mood in [Mood::Mixed, Mood::Fills, Mood::FillsSmall, Mood::FillsLong, Mood::Rolls] {
        let (more, full) =
            run_lists("small stores", mood, &small_lengths(amount(7, 42)), amount(1_000, 5_000));
        more.into_iter().for_each(|(code, times)| *codes.entry(code).or_insert(0) += times);
        fullest = fullest.max(full);
    }
    let seen: Vec<u32> = codes.keys().copied().collect();
    // 1 and 2 need a store that is too short or damaged, 11 and 13 a longer list, 15 one of its own, 18 the index alone.
    let expected = [0, 3, 4, 5, 6, 7, 8, 9, 10, 12, 14, 16, 17, 32, 33, 34, 35];
    assert!(expected.iter().all(|code| seen.contains(code)), "{codes:?}");
    assert_eq!(fullest, 3);
    // Long lists on full stores: half of the answers, all but a little, are accepted, and most others are 7.
    assert!(codes[&0] > codes.values().sum::<usize>() * 2 / 5, "{codes:?}");
}

#[test]
fn large_stores() {
    run_lists("large stores, mixed", Mood::Mixed, &large_lengths(amount(1, 5)), amount(1_500, 20_000));
    let (codes, fullest) = run_lists(
        "large stores, long messages",
        Mood::FillsLong,
        &large_lengths(amount(2, 5)),
        amount(2_000, 20_000),
    );
    assert!(fullest == 64 && codes.contains_key(&7), "{fullest} {codes:?}");
    let lengths = large_lengths(amount(1, 5));
    let (codes, fullest) =
        run_lists("large stores, small messages", Mood::FillsSmall, &lengths, amount(3_000, 40_000));
    assert!(fullest >= amount(3, 20), "{fullest}");
    assert!(codes.contains_key(&11) && codes.contains_key(&13), "{codes:?}");
}

#[test]
fn stores_without_a_slot() {
    let (codes, _) = run_lists("no slot", Mood::Mixed, &[0, 1, 4_095], amount(400, 5_000));
    assert!(codes.contains_key(&1) && codes.contains_key(&7), "{codes:?}");
}
