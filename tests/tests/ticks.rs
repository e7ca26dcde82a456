//! Ticks beside the plain stack: what they write out, what they mark, the words that are none, and the modified words
//! that are sound.
use cache_tests::reference::beside::{Beside, Call};
use cache_tests::reference::builder::Totals;
use cache_tests::reference::directory::{entry, header, number, word, Map, MAX_VALUE, NUMBER};
use cache_tests::reference::marks;
use cache_tests::reference::rng::Rng;
use cache_tests::reference::stack::words::{FLUSH, PURGE, READ, TICK, WRITE};
use cache_tests::reference::stack::{answer, work, Lent, MOST_TOTAL};
use cache_tests::reference::{c_judge, fast_judge, histories, judge, samples};
use cache_tests::{batch, look_number, sound, table, totals, Settings, BELT, LIBRARY};
use std::collections::BTreeSet;

const ONE: Settings = Settings { n: 1, nnew: 0, nold: 1, cmax: 1, amax: 10, b: 8, m: 64 };

fn start(s: Settings, seed: u64) -> Beside {
    histories::fresh(&mut Rng::announced("an example", seed), LIBRARY, s)
}
fn run(beside: &mut Beside, work: &[u32]) -> Vec<(u32, u32)> {
    beside.answered(work)
}
fn modified_words(beside: &Beside) -> Vec<u32> {
    beside.modified_words()
}

#[test]
fn in_an_empty_cache() {
    let mut belt = start(BELT, 301);
    let before = (belt.dir.clone(), belt.data.clone(), belt.store.clone());
    assert_eq!(run(&mut belt, &[TICK, TICK, TICK]), [(6, 0); 3]);
    assert!((belt.dir, belt.data, belt.store) == before);
}

/// The first tick answers 0, though it marks three: what counts is what was written out.
#[test]
fn twice() {
    let mut belt = start(BELT, 302);
    let before = belt.store.clone();
    run(&mut belt, &[WRITE + 1, READ + 2, WRITE + 3, WRITE + 4]);
    assert_eq!(modified_words(&belt), [1, 1, 0, 1]);
    assert_eq!(run(&mut belt, &[TICK]), [(6, 0)]);
    assert_eq!(modified_words(&belt), [3, 3, 0, 3]);
    assert!(belt.store == before);
    assert_eq!(run(&mut belt, &[TICK]), [(6, 3)]);
    assert_eq!(modified_words(&belt), [0; 4]);
    assert_eq!(belt.store[8..16], [1; 8]);
    assert_eq!(belt.store[24..40], [[2; 8], [3; 8]].concat());
    assert_eq!(run(&mut belt, &[TICK, FLUSH]), [(6, 0), (6, 0)]);
}

/// A further write keeps the seen mark, and the store gets its bytes.
#[test]
fn writes_between_two_ticks() {
    let mut belt = start(BELT, 303);
    assert_eq!(run(&mut belt, &[WRITE + 9, TICK, WRITE + 9, TICK]), [(2, 0), (6, 0), (1, 1), (6, 1)]);
    assert_eq!((&belt.store[72..80], modified_words(&belt)), (&[2; 8][..], vec![0]));
    // a stream of writes, and a tick after every third
    let mut stream = vec![];
    for _ in 0..6 {
        stream.extend([WRITE + 9, WRITE + 9, WRITE + 9, TICK]);
    }
    let answers = run(&mut belt, &stream);
    let ticked: Vec<(u32, u32)> = answers.into_iter().skip(3).step_by(4).collect();
    assert_eq!(ticked, [(6, 0), (6, 1), (6, 0), (6, 1), (6, 0), (6, 1)]);
    assert_eq!(belt.store[72..80], [18; 8]);
}

#[test]
fn a_flush_between() {
    let mut belt = start(BELT, 304);
    let words = [WRITE + 9, FLUSH, WRITE + 9, TICK, TICK];
    assert_eq!(run(&mut belt, &words), [(2, 0), (6, 1), (1, 1), (6, 0), (6, 1)]);
    assert_eq!(belt.store[72..80], [2; 8]);
    // a flush takes a seen mark away
    let words = [WRITE + 9, TICK, FLUSH, WRITE + 9, TICK];
    assert_eq!(run(&mut belt, &words), [(1, 1), (6, 0), (6, 1), (1, 1), (6, 0)]);
    assert_eq!(modified_words(&belt), [3]);
}

#[test]
fn a_victim_that_enters_again() {
    let mut one = start(ONE, 305);
    let written_out = |block: u32| (3, block + answer::CHAIN + answer::WRITTEN_OUT);
    assert_eq!(run(&mut one, &[WRITE + 3, TICK, READ + 5]), [(2, 0), (6, 0), written_out(3)]);
    assert_eq!(one.store[24..32], [1; 8]);
    assert_eq!(run(&mut one, &[READ + 3, WRITE + 3, TICK]), [(3, 5 + answer::CHAIN), (1, 2), (6, 0)]);
    assert_eq!(modified_words(&one), [3]);
    // so does another block in its place
    assert_eq!(run(&mut one, &[WRITE + 5, TICK, TICK]), [written_out(3), (6, 0), (6, 1)]);
}

#[test]
fn a_purge_of_a_seen_block() {
    let mut one = start(ONE, 306);
    let before = one.store.clone();
    let words = [WRITE + 3, TICK, PURGE + 3, PURGE + 3, TICK];
    assert_eq!(run(&mut one, &words), [(2, 0), (6, 0), (4, 1), (5, 0), (6, 0)]);
    assert!(one.store == before && one.stack.outs == 0);
    assert_eq!(run(&mut one, &[WRITE + 3, TICK, TICK, PURGE + 3]), [(2, 0), (6, 0), (6, 1), (4, 0)]);
}

#[test]
fn a_batch_of_1_024_ticks() {
    let mut belt = start(BELT, 307);
    run(&mut belt, &[WRITE + 1, WRITE + 2, WRITE + 3, WRITE + 4]);
    let answers = run(&mut belt, &[TICK; 1_024]);
    assert_eq!((answers[0], answers[1]), ((6, 0), (6, 4)));
    assert!(answers[2..].iter().all(|&answer| answer == (6, 0)));
    let call = belt.exact(&[TICK; 1_025]);
    assert_eq!(belt.call(&call), 8);
    let mut out = [0; 4];
    assert_eq!((totals(&belt.dir, &mut out), out), (0, [0, 4, 0, 4]));
}

/// Every count that ticks leave in the totals, by hand: a tick is neither a read nor a write, and each block that it
/// writes out is one block out.
#[test]
fn totals_after_ticks() {
    let mut belt = start(BELT, 308);
    let words = [WRITE + 1, TICK, WRITE + 2, TICK, READ + 1, TICK, TICK, READ + 7];
    for (length, expected) in [(3, [0, 2, 0, 0]), (4, [0, 2, 0, 1]), (6, [1, 2, 0, 2]), (8, [2, 2, 1, 2])] {
        let mut belt = start(BELT, 308);
        run(&mut belt, &words[..length]);
        let mut out = [9; 4];
        assert_eq!((totals(&belt.dir, &mut out), out), (0, expected), "{length} words");
    }
    run(&mut belt, &[TICK; 100]);
    let mut out = [9; 4];
    assert_eq!((totals(&belt.dir, &mut out), out), (0, [0; 4]));
}

/// 9 for a tick with a value and for kinds above 7, alone, beside a good tick, and where a later number holds as well.
#[test]
fn words_that_are_no_tick() {
    let mut belt = start(BELT, 309);
    run(&mut belt, &[WRITE + 1, TICK]);
    let values = [1, 2, 63, 64, 1 << 27, MAX_VALUE].map(|value| TICK + value);
    let kinds = (8..16).chain([0]).flat_map(|kind| [0, 1, 5].map(|value| word(kind, value)));
    for w in values.into_iter().chain(kinds) {
        for words in [vec![w], vec![TICK, w], vec![w, TICK]] {
            let call = belt.exact(&words);
            assert_eq!(belt.call(&call), 9, "{w:#x}");
            let short = Call { answers: vec![], ..call.clone() };
            assert_eq!(belt.call(&short), 9, "{w:#x} before 10");
            let longer = Call { lent: Lent { store: call.lent.store + 1, ..call.lent }, ..call.clone() };
            assert_eq!(belt.call(&longer), 12, "12 before {w:#x}");
            let shorter = Call { lent: Lent { data: call.lent.data - 1, ..call.lent }, ..call };
            assert_eq!(belt.call(&shorter), 7, "7 before {w:#x}");
        }
        let many = belt.exact(&[&[TICK; 1_024][..], &[w]].concat());
        assert_eq!(belt.call(&many), 8, "8 before {w:#x}");
    }
    let short = Call { answers: vec![0; 2], ..belt.exact(&[TICK; 3]) };
    assert_eq!(belt.call(&short), 10);
    assert_eq!(modified_words(&belt), [3], "none of these ticks was carried out");
}

/// A tick counts in the batch's length: 11 where the totals leave no room for it.
#[test]
fn ticks_at_the_limit_of_11() {
    let mut rng = Rng::announced("ticks_at_the_limit_of_11", 310);
    let mut plan = samples::plan_of(&mut rng, BELT, 4);
    plan.residents.iter_mut().for_each(|resident| resident.marks = 3);
    plan.totals = Totals { reads: MOST_TOTAL - 6, writes: 4, ins: 0, outs: 0 };
    let mut belt = histories::built_of(&mut rng, LIBRARY, &plan);
    let call = belt.exact(&[TICK; 3]);
    assert_eq!(belt.call(&call), 11);
    assert_eq!(run(&mut belt, &[TICK; 2]), [(6, 4), (6, 0)]);
    let call = belt.exact(&[TICK, TICK + 1, TICK]);
    assert_eq!(belt.call(&call), 9, "9 before 11");
}

/// All calls of a directory that is not sound give 6.
fn declined(beside: &Beside, words: &[u32]) {
    assert!(!sound(words) && !judge::sound(words) && !fast_judge::sound(words) && !c_judge::sound(words));
    let whole = beside.stack.whole();
    let (mut dir, mut data, mut store) = (words.to_vec(), beside.data.clone(), beside.store[..whole.store].to_vec());
    let (mut answers, mut out) = ([7], [7; 4]);
    assert_eq!(batch(&mut dir, &mut data, &mut store, &[TICK], &[], &mut answers, &mut []), 6);
    assert!(dir == words && data == beside.data && store == beside.store[..whole.store] && answers == [7]);
    assert_eq!((look_number(words, &data, &store, 0), totals(words, &mut out), table(words).0), (6, 6, 6));
}

/// Every modified word of a resident in turn: 0, 1, 3, 4, 5 and 7 of kind 1 are accepted, if the totals have room, and
/// nothing else is. A pin takes no room.
#[test]
fn modified_words_that_are_sound() {
    let mut rng = Rng::announced("modified_words_that_are_sound", 311);
    let values: Vec<u32> = (0..=64).chain((7..28).map(|bit| 1 << bit)).chain([MAX_VALUE - 1, MAX_VALUE]).collect();
    let (mut accepted, mut refused) = (0, 0);
    for roomy in [true, false] {
        let mut plan = samples::plan_of(&mut rng, BELT, 3);
        plan.residents.iter_mut().zip([0, 1, 7]).for_each(|(resident, marks)| resident.marks = marks);
        plan.totals = Totals { reads: 9, writes: if roomy { 9 } else { 2 }, ins: 9, outs: 0 };
        let beside = histories::built_of(&mut rng, LIBRARY, &plan);
        for (position, &e) in plan.arrangement.entries.iter().enumerate() {
            for (kind, &value) in (0..16).flat_map(|kind| values.iter().map(move |value| (kind, value))) {
                let mut words = plan.build();
                words[plan.map().entry(e, entry::MODIFIED)] = word(kind, value);
                let fits = roomy || position > 0 || value % 2 == 0;
                if kind == NUMBER && marks::LEGAL.contains(&value) && fits {
                    let judged = [sound(&words), judge::sound(&words), fast_judge::sound(&words)];
                    assert!(judged == [true; 3] && c_judge::sound(&words), "{value} at position {position}");
                    accepted += 1;
                } else {
                    declined(&beside, &words);
                    refused += 1;
                }
            }
        }
        for &value in &values[1..] {
            let mut words = plan.build();
            words[plan.map().entry(plan.arrangement.unused[0], entry::MODIFIED)] = number(value);
            declined(&beside, &words);
        }
    }
    println!("{accepted} words accepted, {refused} refused");
    // with room, six words at each of three positions; without, no modified mark more than there is
    assert_eq!(accepted, 18 + 14);
}

/// A tick and a flush change the modified words and the total of outs, and no other word.
#[test]
fn ticks_and_flushes_change_marks_and_outs_alone() {
    let mut rng = Rng::announced("ticks_and_flushes_change_marks_and_outs_alone", 312);
    let (mut changed, mut written) = (0, 0);
    for _ in 0..2_000 {
        let n = rng.within(1, 40);
        let s = histories::settings(&mut rng, n);
        let mut plan = samples::plan(&mut rng, s);
        plan.totals = Totals { reads: 0, writes: plan.modified() + rng.below(1 << 29), ins: 0, outs: 0 };
        for k in [work::TICK, work::FLUSH] {
            let mut beside = histories::built_of(&mut rng, LIBRARY, &plan);
            let (before, map) = (beside.dir.clone(), Map::of(s));
            written += run(&mut beside, &[word(k, 0)])[0].1;
            let mut may: BTreeSet<usize> = (1..=s.n).map(|e| map.entry(e, entry::MODIFIED)).collect();
            may.extend([header::OUTS_LOW, header::OUTS_HIGH]);
            for address in (0..before.len()).filter(|&address| beside.dir[address] != before[address]) {
                assert!(may.contains(&address), "word {address}: {s:?}");
                changed += 1;
            }
        }
    }
    println!("4,000 ticks and flushes, {changed} words changed, {written} blocks written out");
    assert!(changed > 10_000 && written > 10_000);
}
