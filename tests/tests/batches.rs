//! Batches over whole histories beside the plain stack: numbers, answers, bytes, residents, totals and soundness.
mod examples;

use cache_tests::reference::beside::{Beside, Seen};
use cache_tests::reference::builder::Totals;
use cache_tests::reference::directory::word;
use cache_tests::reference::rng::Rng;
use cache_tests::reference::settings::{sum_limit, MAX_AMAX, MAX_B, MAX_CMAX, MAX_COUNT, MAX_M, MAX_N};
use cache_tests::reference::stack::{work, MOST_TOTAL};
use cache_tests::reference::{histories, samples};
use cache_tests::{Settings, LIBRARY};
use std::collections::BTreeMap;

/// Corners that histories have reached, each counted.
#[derive(Default)]
struct Corners(BTreeMap<&'static str, u64>);

impl Corners {
    const NAMES: [&'static str; 17] = [
        "N 1", "Nnew 0", "N - Nold 0", "no middle section", "Cmax 1", "Cmax 64", "Amax 1", "B 1", "B above 1", "M 1",
        "M below N", "full at the end", "sum at Amax x N", "seen at the end", "unseen at the end",
        "some pinned at the end", "all pinned at the end",
    ];
    fn count(&mut self, s: Settings, beside: &Beside) {
        let residents = &beside.stack.residents;
        let sum: u64 = residents.iter().map(|resident| u64::from(resident.count)).sum();
        let reached = [
            s.n == 1,
            s.nnew == 0,
            s.nold == s.n,
            s.nnew + s.nold == s.n,
            s.cmax == 1,
            s.cmax == MAX_CMAX,
            s.amax == 1,
            s.b == 1,
            s.b > 1,
            s.m == 1,
            s.m < s.n,
            residents.len() as u32 == s.n,
            sum == sum_limit(s),
            residents.iter().any(|resident| resident.marks.seen),
            residents.iter().any(|resident| resident.marks.modified && !resident.marks.seen),
            residents.iter().any(|resident| resident.marks.pinned),
            residents.len() as u32 == s.n && residents.iter().all(|resident| resident.marks.pinned),
        ];
        for (name, _) in Self::NAMES.into_iter().zip(reached).filter(|corner| corner.1) {
            *self.0.entry(name).or_default() += 1;
        }
    }
    fn all_reached(&self, times: u64) {
        println!("  corners: {:?}", self.0);
        for name in Self::NAMES {
            assert!(self.0.get(name).is_some_and(|&reached| reached >= times), "{name} was hardly reached");
        }
    }
}

fn print(histories: usize, seen: &Seen) {
    println!("{histories} histories; calls that returned 0 to 12: {:?}; {} looks", seen.numbers, seen.looks);
    println!(
        "  answers 1 to 9: {:?}, {} halved, {} victims written out, up to {} chains",
        &seen.answers[1..],
        seen.halved,
        seen.written_out,
        seen.most_chains
    );
    println!("  {:?}; {:?}", seen.ticks, seen.pins);
}

#[test]
fn fresh_then_batches() {
    let mut rng = Rng::announced("fresh_then_batches", 81);
    let (mut seen, mut corners) = (Seen::default(), Corners::default());
    let histories = 5_000;
    for _ in 0..histories {
        let n = if rng.one_in(10) { 1 } else { rng.within(1, 40) };
        let s = histories::settings(&mut rng, n);
        let mut beside = histories::fresh(&mut rng, LIBRARY, s);
        let most = if rng.one_in(40) { 1_024 } else { 60 };
        histories::go_on(&mut rng, &mut beside, 10, most);
        corners.count(s, &beside);
        seen.add(&beside.seen);
    }
    print(histories, &seen);
    corners.all_reached(50);
    // 11 needs totals that no such history reaches
    assert!((0..=10).chain([12]).all(|number| seen.numbers[number] > 100));
    assert_eq!(seen.longer_looks, histories as u64);
    assert!(seen.answers[1..].iter().all(|&times| times > 5_000) && seen.halved > 5_000 && seen.written_out > 5_000);
    assert!(seen.ticks.all_above(2_000) && seen.pins.all_above(1_000));
    assert!(seen.most_chains > 10);
}

#[test]
fn batches_from_built_directories() {
    let mut rng = Rng::announced("batches_from_built_directories", 82);
    let (mut seen, mut corners) = (Seen::default(), Corners::default());
    let histories = 4_000;
    for _ in 0..histories {
        let n = if rng.one_in(10) { 1 } else { rng.within(1, 40) };
        let s = histories::settings(&mut rng, n);
        let mut beside = histories::built(&mut rng, LIBRARY, s);
        histories::go_on(&mut rng, &mut beside, 8, 60);
        corners.count(s, &beside);
        seen.add(&beside.seen);
    }
    print(histories, &seen);
    corners.all_reached(30);
    assert!(seen.numbers.iter().all(|&times| times > 100));
    assert_eq!(seen.longer_looks, histories as u64);
    assert!(seen.answers[1..].iter().all(|&times| times > 3_000) && seen.halved > 3_000 && seen.written_out > 3_000);
    assert!(seen.ticks.all_above(1_000) && seen.pins.all_above(500));
    assert_eq!(seen.most_chains, MAX_CMAX);
}

#[test]
fn larger_caches() {
    let mut rng = Rng::announced("larger_caches", 83);
    for (times, low, high, calls) in [(60, 64, 200, 10), (20, 512, 1_000, 10), (12, MAX_N, MAX_N, 12)] {
        let mut seen = Seen::default();
        for history in 0..times {
            let n = rng.within(low, high);
            let mut s = histories::settings(&mut rng, n);
            (s.b, s.m) = (rng.pick(&[1, 5, 16]), rng.within(n, 2 * n));
            // from fresh, or from a full cache with totals so small that every batch is due
            let mut beside = match history % 2 {
                0 => histories::fresh(&mut rng, LIBRARY, s),
                _ => {
                    let mut plan = samples::plan_of(&mut rng, s, n);
                    plan.totals = Totals { reads: 9, writes: 10_000, ins: 9, outs: 5_000 };
                    histories::built_of(&mut rng, LIBRARY, &plan)
                }
            };
            histories::go_on(&mut rng, &mut beside, calls, 1_024);
            seen.add(&beside.seen);
        }
        println!("N {low} to {high}:");
        print(times, &seen);
        assert!(seen.numbers[0] > 10 && seen.answers[1..4].iter().all(|&times| times > 100), "N {low} to {high}");
        assert!(seen.ticks.wrote_out > 0 && seen.ticks.did_both > 0, "N {low} to {high}");
    }
}

/// The greatest settings, and blocks up to 262,143 in the answers.
#[test]
fn limits_of_the_settings() {
    let mut rng = Rng::announced("limits_of_the_settings", 87);
    let mut seen = Seen::default();
    let cases =
        [(5, 1, MAX_M, 40), (1, MAX_B, 1, 10), (33, MAX_B, 200, 10), (MAX_N, 64, 8_192, 4), (MAX_N, 1, MAX_M, 4)];
    for (n, b, m, calls) in cases {
        for (nnew, nold, cmax, amax) in [(0, n, MAX_CMAX, MAX_AMAX), (n / 2, n - n / 2, 1, 1), (n / 4, 1, 3, 100)] {
            let s = Settings { n, nnew, nold, cmax, amax, b, m };
            let mut beside = histories::fresh(&mut rng, LIBRARY, s);
            histories::go_on(&mut rng, &mut beside, calls, if n == MAX_N { 1_024 } else { 100 });
            seen.add(&beside.seen);
        }
    }
    print(3 * cases.len(), &seen);
    println!("  the highest victim was block {}", seen.highest_victim);
    assert!(seen.answers[1..].iter().all(|&times| times > 20) && seen.highest_victim > MAX_M - 10);
}

/// Blocks of few buckets, so that lists of synonyms are long and change at their front, amid and at their end.
#[test]
fn crowded_buckets() {
    let mut rng = Rng::announced("crowded_buckets", 88);
    let mut seen = Seen::default();
    let histories = 60;
    for _ in 0..histories {
        let n = rng.within(2, 40);
        let s = Settings { b: 1, m: MAX_M, ..histories::settings(&mut rng, n) };
        let blocks = samples::crowded_blocks(&mut rng, s, 2 * n);
        let mut beside = histories::fresh(&mut rng, LIBRARY, s);
        for _ in 0..10 {
            let pinning = samples::Pinning::drawn(&mut rng);
            let one = |rng: &mut Rng| {
                let (kind, block) = (rng.pick(&[work::READ, work::READ, work::WRITE, work::PURGE]), rng.pick(&blocks));
                pinning.word(rng, block).unwrap_or(word(kind, block))
            };
            let mut words: Vec<u32> = (0..60).map(|_| one(&mut rng)).collect();
            words.insert(rng.below(60) as usize, word(work::TICK, 0));
            let call = histories::call_of(&mut rng, &beside, words);
            assert_eq!(beside.call(&call), 0);
        }
        beside.look_at_every_block();
        seen.add(&beside.seen);
    }
    print(histories, &seen);
    assert!(seen.answers[1..].iter().all(|&times| times > 200) && seen.ticks.wrote_out > 100);
}

/// Reads + writes that leave room for exactly `room` words.
fn near_the_limit(rng: &mut Rng, s: Settings, room: u64, split: u64) -> Beside {
    let mut plan = samples::plan(rng, s);
    let (references, modified) = (MOST_TOTAL - room, plan.modified());
    let (reads, writes) = match split {
        // the high word of reads is 2^28 - 1; that of writes; both have half
        0 => (references - modified, modified),
        1 => (0, references),
        _ => (references / 2, references - references / 2),
    };
    let ins = if rng.one_in(2) { reads } else { 0 };
    let outs = if rng.one_in(2) { writes - modified } else { 0 };
    plan.totals = Totals { reads, writes, ins, outs };
    histories::built_of(rng, LIBRARY, &plan)
}

#[test]
fn totals_on_and_beside_the_limit_of_11() {
    let mut rng = Rng::announced("totals_on_and_beside_the_limit_of_11", 84);
    let (mut seen, mut carried_out_on_the_limit) = (Seen::default(), 0);
    for case in 0..900 {
        let n = rng.within(1, 12);
        let s = histories::settings(&mut rng, n);
        let length = rng.pick(&[0, 1, 2, 7, 40]);
        let work = histories::work_words(&mut rng, s, length);
        // one word too many, just enough room, one to spare
        for (room, expected) in [(length as i64 - 1, 11), (length as i64, 0), (length as i64 + 1, 0)] {
            if room < 0 {
                continue;
            }
            let mut beside = near_the_limit(&mut rng, s, room as u64, case % 3);
            let call = histories::call_of(&mut rng, &beside, work.clone());
            assert_eq!(beside.call(&call), expected, "{length} words, room for {room}");
            // the other words use up no room: only reads and writes count in the totals
            let left = MOST_TOTAL - beside.stack.reads - beside.stack.writes;
            carried_out_on_the_limit += u32::from(expected == 0 && left == 0);
            for (length, number) in [(left, 0), (left + 1, 11)] {
                let idle = word(rng.pick(&[work::PURGE, work::FLUSH, work::TICK, work::PIN, work::UNPIN]), 0);
                let call = histories::call_of(&mut rng, &beside, vec![idle; length as usize]);
                assert_eq!(beside.call(&call), number);
            }
            beside.look_at_every_block();
            seen.add(&beside.seen);
        }
    }
    print(900, &seen);
    println!("  {carried_out_on_the_limit} batches ended on the limit itself");
    assert!(seen.numbers[11] > 1_000 && seen.numbers[0] > 1_000 && carried_out_on_the_limit > 50);
}

/// Above the limit even the empty batch gives 11; an earlier row of the table still comes first.
#[test]
fn totals_above_the_limit() {
    let mut rng = Rng::announced("totals_above_the_limit", 85);
    let mut cases = 0;
    for _ in 0..200 {
        let n = rng.within(1, 8);
        let s = histories::settings(&mut rng, n);
        let mut plan = samples::plan(&mut rng, s);
        let writes = plan.modified() + 1 + rng.below(1 << 55);
        plan.totals = Totals { reads: MOST_TOTAL - rng.below(writes), writes, ins: 5, outs: 0 };
        let mut beside = histories::built_of(&mut rng, LIBRARY, &plan);
        let work = histories::work_words(&mut rng, s, 3);
        for (words, shorter, number) in [(vec![], false, 11), (work.clone(), false, 11), (work, true, 10)] {
            let mut call = histories::call_of(&mut rng, &beside, words);
            if shorter {
                call.answers.truncate(2);
            }
            assert_eq!(beside.call(&call), number);
            cases += 1;
        }
        beside.look_at_every_block();
    }
    println!("{cases} calls above the limit");
}

/// Hits at the highest count, and halving from counts of which many exceed Cmax.
#[test]
fn high_counts() {
    let mut rng = Rng::announced("high_counts", 86);
    let (mut at_most, mut halved, mut cases) = (0, 0, 0);
    for _ in 0..400 {
        let n = rng.within(70, 130);
        let s = Settings { amax: 1_000, b: 2, m: 2 * n, ..samples::settings(&mut rng, n) };
        let mut plan = samples::plan_of(&mut rng, s, n);
        plan.totals = Totals { reads: 0, writes: 1_000, ins: 0, outs: 0 };
        if rng.one_in(2) {
            // room to raise the others
            plan.residents.iter_mut().for_each(|resident| resident.count = rng.within(1, 5));
            plan.residents[rng.below(u64::from(n)) as usize].count = MAX_COUNT;
        }
        let mut beside = histories::built_of(&mut rng, LIBRARY, &plan);
        let held = |beside: &Beside| beside.stack.residents.iter().any(|resident| resident.count == MAX_COUNT);
        let before = held(&beside);
        let mut words: Vec<u32> = plan.residents.iter().map(|held| word(work::READ, held.block)).collect();
        words.push(word(work::TICK, 0));
        let call = histories::call_of(&mut rng, &beside, words);
        assert_eq!(beside.call(&call), 0);
        at_most += u32::from(before && held(&beside));
        beside.look_at_every_block();
        halved += beside.seen.halved;
        cases += 1;
    }
    println!("{cases} caches, {at_most} with a count of 65,535 kept, {halved} halvings");
    assert!(at_most > 20 && halved > 20);
}
