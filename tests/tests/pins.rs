//! Pins beside the plain stack: what they bind, what they leave alone, the misses that they refuse, and every small
//! state with every set of pinned positions.
use cache_tests::reference::beside::{Beside, Call, Met, Seen};
use cache_tests::reference::builder::{Plan, Resident, Totals};
use cache_tests::reference::directory::{entry, header, value, word, Map, MAX_VALUE};
use cache_tests::reference::marks::PINNED;
use cache_tests::reference::rng::Rng;
use cache_tests::reference::stack::words::{FLUSH, PIN, PURGE, READ, TICK, UNPIN, WRITE};
use cache_tests::reference::stack::{answer, work, Lent, MOST_TOTAL};
use cache_tests::reference::{histories, samples};
use cache_tests::{look_into, table, totals, Settings, BELT, LIBRARY};

const ONE: Settings = Settings { n: 1, nnew: 0, nold: 1, cmax: 1, amax: 10, b: 8, m: 64 };
/// Halves as soon as one count is 2.
const TWO: Settings = Settings { n: 2, nnew: 0, nold: 1, cmax: 1, amax: 1, b: 8, m: 64 };

fn start(s: Settings, seed: u64) -> Beside {
    histories::fresh(&mut Rng::announced("an example", seed), LIBRARY, s)
}
fn blocks(beside: &Beside) -> Vec<u32> {
    beside.stack.residents.iter().map(|resident| resident.block).collect()
}
fn totals_of(beside: &Beside) -> [u64; 4] {
    let mut out = [9; 4];
    assert_eq!(totals(&beside.dir, &mut out), 0);
    out
}
/// The addresses of the words that a batch changes; data and store stay.
fn changed(beside: &mut Beside, words: &[u32]) -> Vec<usize> {
    let (dir, data, store) = (beside.dir.clone(), beside.data.clone(), beside.store.clone());
    beside.answered(words);
    assert!(beside.data == data && beside.store == store);
    (0..dir.len()).filter(|&address| beside.dir[address] != dir[address]).collect()
}

/// A pin changes the block's modified word and nothing else; the second one changes nothing.
#[test]
fn pin_and_unpin() {
    let mut belt = start(BELT, 321);
    belt.answered(&[READ + 1, WRITE + 2, READ + 3]);
    let (before, occupied) = (belt.dir.clone(), table(&belt.dir));
    let e = (1..=4).find(|&e| value(before[Map::of(BELT).entry(e, entry::BLOCK)]) == 2).unwrap();
    let modified = Map::of(BELT).entry(e, entry::MODIFIED);
    assert_eq!(changed(&mut belt, &[PIN + 2]), [modified]);
    assert_eq!((belt.modified_words(), belt.last_answers[0]), (vec![0, 5, 0], word(8, 1)));
    assert_eq!(table(&belt.dir), occupied);
    assert_eq!(changed(&mut belt, &[PIN + 2, PIN + 2]), [0; 0]);
    assert_eq!(belt.last_answers, [word(8, 1); 2]);
    assert_eq!(changed(&mut belt, &[UNPIN + 2, UNPIN + 2]), [modified]);
    assert_eq!(belt.last_answers, [word(8, 0); 2]);
    assert!(belt.dir == before);
    // one that was never pinned, and blocks that are absent
    assert_eq!(changed(&mut belt, &[UNPIN + 1, PIN + 9, UNPIN + 9, PIN + 63]), [0; 0]);
    assert_eq!(belt.last_answers, [word(8, 0), word(5, 0), word(5, 0), word(5, 0)]);
}

/// Every kind of word, and what it leaves of the pins of blocks 1 and 2: block 2 is modified.
#[test]
fn a_pin_outlasts_every_word() {
    let before = [READ + 1, WRITE + 2, PIN + 1, PIN + 2];
    let cases: [(&[u32], &[u32]); 10] = [
        (&[READ + 2], &[5, 4]),
        (&[READ + 1], &[4, 5]),
        (&[WRITE + 1], &[5, 5]),
        (&[TICK], &[7, 4]),
        (&[TICK, WRITE + 2], &[7, 4]),
        (&[TICK, TICK], &[4, 4]),
        (&[FLUSH], &[4, 4]),
        (&[PURGE + 1, PURGE + 2, PURGE + 3], &[5, 4]),
        (&[READ + 3, PIN + 3, UNPIN + 3], &[0, 5, 4]),
        (&[WRITE + 3, WRITE + 4, WRITE + 5, READ + 6], &[0, 1, 5, 4]),
    ];
    for (words, expected) in cases {
        let mut belt = start(BELT, 322);
        belt.answered(&before);
        belt.answered(words);
        assert_eq!(belt.modified_words(), expected, "{words:x?}");
    }
    // and halving
    let mut two = start(TWO, 323);
    let halved = (1, 2 + answer::HALVED);
    assert_eq!(two.answered(&[READ, PIN, READ, WRITE]), [(2, 0), (8, 1), halved, halved]);
    assert_eq!(two.modified_words(), [5]);
    assert_eq!(two.answered(&[READ + 1, READ, PURGE]), [(2, 0), halved, (9, 0)]);
}

/// A flush and the second tick write out pinned blocks like others.
#[test]
fn pinned_blocks_are_written_out() {
    for words in [&[FLUSH][..], &[TICK, TICK]] {
        let mut belt = start(BELT, 324);
        belt.answered(&[WRITE + 1, WRITE + 2, PIN + 1]);
        assert_eq!(belt.answered(words).last(), Some(&(6, 2)));
        assert_eq!((&belt.store[8..24], belt.modified_words()), (&[[1; 8], [2; 8]].concat()[..], vec![0, 4]));
    }
}

#[test]
fn a_purge_of_a_pinned_block() {
    let mut one = start(ONE, 325);
    one.answered(&[WRITE + 3, PIN + 3]);
    assert_eq!(changed(&mut one, &[PURGE + 3, PURGE + 3]), [0; 0]);
    assert_eq!(one.last_answers, [word(9, 0); 2]);
    let store = one.store.clone();
    assert_eq!(one.answered(&[UNPIN + 3, PURGE + 3, PURGE + 3]), [(8, 0), (4, 1), (5, 0)]);
    assert!(one.store == store);
    // what entered again is unpinned, and so is what takes its place
    assert_eq!(one.answered(&[READ + 3, PURGE + 3]), [(2, 0), (4, 0)]);
    assert_eq!(
        one.answered(&[READ + 3, PIN + 3, UNPIN + 3, READ + 5, READ + 3])[3..],
        [(3, 3 + answer::CHAIN), (3, 5 + answer::CHAIN)]
    );
    assert_eq!(one.modified_words(), [0]);
}

/// A look at a pinned block gives the resident's bytes.
#[test]
fn a_look_at_a_pinned_block() {
    let mut one = start(ONE, 326);
    one.answered(&[WRITE + 3, PIN + 3, READ + 5]);
    let (mut out, store) = ([0; 8], one.stack.whole().store);
    assert_eq!(look_into(&one.dir, &one.data, &one.store[..store], 3, &mut out), 8);
    assert_eq!(out, [1; 8]);
    one.look_at_every_block();
}

/// A full cache whose four blocks, 10 to 13, were written and are pinned.
fn all_pinned(seed: u64) -> Beside {
    let mut belt = start(BELT, seed);
    let words = [10, 11, 12, 13].map(|block| [WRITE + block, PIN + block]);
    belt.answered(&words.concat());
    belt
}

/// Of a read the total of reads and the outgoing bytes change, of a write the total of writes.
#[test]
fn misses_beside_pinned_blocks_alone() {
    let mut belt = all_pinned(327);
    assert_eq!(changed(&mut belt, &[READ + 20]), [header::READS_LOW]);
    assert_eq!((belt.last_answers[0], &belt.last_outgoing[..]), (word(7, 0), &[0; 8][..]));
    assert_eq!(changed(&mut belt, &[WRITE + 20]), [header::WRITES_LOW]);
    assert_eq!(belt.last_answers, [word(7, 0)]);
    assert_eq!(totals_of(&belt), [1, 5, 0, 0]);
    // the zeros stand in the place of their read, whatever was there
    assert_eq!(belt.answered(&[READ + 10, READ + 20, READ + 13]), [(1, 2), (7, 0), (1, 2)]);
    assert_eq!(belt.last_outgoing, [[1; 8], [0; 8], [4; 8]].concat());
    // the next write takes the next bytes
    assert_eq!(
        belt.answered(&[WRITE + 20, WRITE + 10, WRITE + 21, WRITE + 21, WRITE + 11])[1..4],
        [(1, 3), (7, 0), (7, 0)]
    );
    let bytes: Vec<u8> = belt.stack.residents.iter().map(|resident| resident.bytes[0]).collect();
    assert_eq!((blocks(&belt), bytes), (vec![11, 10, 13, 12], vec![5, 2, 4, 3]));
    assert_eq!(totals_of(&belt), [4, 10, 0, 0]);
    // and the store has 20's own bytes still
    assert_eq!(belt.answered(&[UNPIN + 13, READ + 20]), [(8, 0), (3, 13 + 2 * answer::CHAIN + answer::WRITTEN_OUT)]);
    assert_eq!(belt.last_outgoing[..8], belt.store[160..168]);
}

/// With an entry unused a block enters, though all residents are pinned.
#[test]
fn a_part_full_cache_refuses_no_miss() {
    let mut belt = start(BELT, 328);
    let words = [READ + 1, PIN + 1, WRITE + 2, PIN + 2, READ + 3, PIN + 3, READ + 4];
    assert_eq!(belt.answered(&words), [(2, 0), (8, 1), (2, 0), (8, 1), (2, 0), (8, 1), (2, 0)]);
    assert_eq!(
        belt.answered(&[PIN + 4, READ + 5, UNPIN + 4, PURGE + 4, READ + 5])[1..],
        [(7, 0), (8, 0), (4, 0), (2, 0)]
    );
}

/// A refused miss carries into the high word of its total.
#[test]
fn totals_of_refused_misses() {
    let mut rng = Rng::announced("totals_of_refused_misses", 329);
    let low = (1 << 28) - 1;
    for (w, before, after) in
        [(READ + 9, [low, 7, 5, 0], [low + 1, 7, 5, 0]), (WRITE + 9, [7, low, 5, 3], [7, low + 1, 5, 3])]
    {
        let mut plan = state(&mut rng, ONE, &[1], 1);
        plan.residents[0].block = 3;
        plan.totals = Totals { reads: before[0], writes: before[1], ins: before[2], outs: before[3] };
        let mut one = histories::built_of(&mut rng, LIBRARY, &plan);
        assert_eq!(one.answered(&[w]), [(7, 0)]);
        assert_eq!(totals_of(&one), after);
    }
}

/// A full directory of blocks 0 to N - 1 by position, entries at random; bit p of `pinned` pins position p.
fn state(rng: &mut Rng, s: Settings, counts: &[u32], pinned: u32) -> Plan {
    let resident = |(p, &count): (usize, &u32)| {
        let pin = if pinned >> p & 1 == 1 { PINNED } else { 0 };
        Resident { block: p as u32, count, marks: rng.pick(&[0, 1, 3]) + pin }
    };
    let residents = counts.iter().enumerate().map(resident).collect();
    let totals = Totals { reads: 20, writes: 20, ins: 10, outs: 1 };
    Plan { settings: s, residents, totals, arrangement: samples::arrangement(rng, s.n, s.n) }
}

/// All but one pinned: that one leaves, at every position. The chains are its count if it is old and has one up to Cmax.
#[test]
fn all_but_one_pinned() {
    let mut rng = Rng::announced("all_but_one_pinned", 330);
    let s = Settings { n: 6, nnew: 2, nold: 2, cmax: 3, amax: 100, b: 2, m: 20 };
    for (position, chains) in [(0, 3), (1, 3), (2, 3), (3, 3), (4, 2), (5, 3)] {
        let plan = state(&mut rng, s, &[1, 1, 1, 1, 2, 9], 0b11_1111 ^ 1 << position);
        let mut beside = histories::built_of(&mut rng, LIBRARY, &plan);
        let written_out = if plan.residents[position as usize].is_modified() { answer::WRITTEN_OUT } else { 0 };
        assert_eq!(beside.answered(&[READ + 9]), [(3, position + chains * answer::CHAIN + written_out)]);
        assert_eq!(beside.modified_words()[0], 0);
    }
}

/// All legal sections of N cache blocks.
fn sections(n: u32) -> Vec<(u32, u32)> {
    (1..=n).flat_map(|nold| (0..=n - nold).map(move |nnew| (nnew, nold))).collect()
}
/// Counts by position. Of up to three residents every choice from 1, 2, 3 and 5; of more: all alike, rising, falling,
/// ties at both ends, some or all above a small Cmax.
fn counts(n: usize) -> Vec<Vec<u32>> {
    if n <= 3 {
        let digits = |i: usize| (0..n).map(|p| [1, 2, 3, 5][i / 4usize.pow(p as u32) % 4]).collect();
        return (0..4usize.pow(n as u32)).map(digits).collect();
    }
    let patterns: [fn(u32) -> u32; 12] = [
        |_| 1,
        |_| 2,
        |_| 9,
        |p| p + 1,
        |p| 7 - p,
        |p| 1 + p % 2,
        |p| 2 - p % 2,
        |p| [3, 1, 2][p as usize % 3],
        |p| [1, 9][p as usize % 2],
        |p| [9, 1][p as usize % 2],
        |p| [5, 4, 9, 4, 5, 3][p as usize % 6],
        |p| [1, 1, 1, 2, 2, 9][p as usize % 6],
    ];
    patterns.iter().map(|pattern| (0..n as u32).map(pattern).collect()).collect()
}

/// One miss from every small state: N up to 6, every split into sections, every set of pinned positions, counts below,
/// at and above Cmax; a read and a write each. Answer, victim, chains, words and bytes are the plain stack's.
#[test]
fn every_small_state() {
    let mut rng = Rng::announced("every_small_state", 340);
    let (mut seen, mut groups) = (Seen::default(), 0);
    for n in 1..=6 {
        for ((nnew, nold), counts, cmax) in cases(n) {
            let s = Settings { n, nnew, nold, cmax, amax: 100, b: 2, m: 8 };
            for pinned in 0..1 << n {
                let plan = state(&mut rng, s, &counts, pinned);
                for w in [READ + 7, WRITE + 7] {
                    let mut beside = histories::built_of(&mut rng, LIBRARY, &plan);
                    beside.answered(&[w]);
                    seen.add(&beside.seen);
                }
            }
            groups += 1;
        }
    }
    let met = |met: Met| seen.pins.0.get(&met).copied().unwrap_or(0);
    println!("{groups} groups of sections, counts and Cmax; {:?}", seen.pins);
    // each group has one state in which all are pinned
    assert_eq!((met(Met::ReadRefused), met(Met::WriteRefused), seen.answers[7]), (groups, groups, 2 * groups));
    let victims = [Met::SmallestCount, Met::LeastRecentOld, Met::LeastRecent].map(met);
    assert_eq!((victims.iter().sum::<u64>(), seen.answers[2]), (seen.answers[3], 0));
    assert!(victims.iter().all(|&times| times > 10_000) && met(Met::Passed) > 10_000 && seen.written_out > 10_000);
}
fn cases(n: u32) -> impl Iterator<Item = ((u32, u32), Vec<u32>, u32)> {
    let with_sections = sections(n).into_iter();
    let with_counts = with_sections.flat_map(move |split| counts(n as usize).into_iter().map(move |c| (split, c)));
    with_counts.flat_map(|(split, c)| [1, 2, 4, 64].map(|cmax| (split, c.clone(), cmax)))
}

/// Every kind with a block of 0, of M - 1, of M and beyond: 9, or what the kind asks for.
#[test]
fn every_kind_of_word() {
    let mut belt = start(BELT, 341);
    for kind in 0..16 {
        for value in [0, 1, BELT.m - 1, BELT.m, BELT.m + 1, 1 << 27, MAX_VALUE] {
            let meant = match kind {
                1..=3 | 6 | 7 => value < BELT.m,
                4 | 5 => value == 0,
                _ => false,
            };
            let w = word(kind, value);
            for words in [vec![w], vec![PIN, w], vec![w, UNPIN + 63]] {
                let call = belt.exact(&words);
                assert_eq!(belt.call(&call), if meant { 0 } else { 9 }, "{w:#x}");
                let short = Call { answers: vec![], ..call.clone() };
                assert_eq!(belt.call(&short), if meant { 10 } else { 9 }, "{w:#x} before 10");
                let longer = Call { lent: Lent { store: call.lent.store + 1, ..call.lent }, ..call };
                assert_eq!(belt.call(&longer), 12, "12 before {w:#x}");
            }
        }
    }
}

/// Pins count in the batch's length, and bring and take no bytes.
#[test]
fn pins_in_a_batch() {
    let mut belt = all_pinned(342);
    assert_eq!(belt.answered(&[PIN + 10; 1_024]), [(8, 1); 1_024]);
    let call = belt.exact(&[UNPIN + 10; 1_025]);
    assert_eq!(belt.call(&call), 8);
    let none = Call { incoming: vec![], outgoing: vec![], ..belt.exact(&[UNPIN + 10, PIN + 11]) };
    assert_eq!(belt.call(&none), 0);

    let mut rng = Rng::announced("pins_in_a_batch", 343);
    let mut plan = state(&mut rng, ONE, &[1], 0);
    plan.totals = Totals { reads: MOST_TOTAL - 6, writes: 4, ins: 0, outs: 0 };
    let mut one = histories::built_of(&mut rng, LIBRARY, &plan);
    let call = one.exact(&[PIN, UNPIN, PIN]);
    assert_eq!(one.call(&call), 11);
    assert_eq!(one.answered(&[PIN, UNPIN]), [(8, 1), (8, 0)]);
    // a refused read counts too: then there is room for no more than one word
    assert_eq!(one.answered(&[PIN, READ + 1]), [(8, 1), (7, 0)]);
    let call = one.exact(&[UNPIN, UNPIN]);
    assert_eq!(one.call(&call), 11);
    assert_eq!(one.answered(&[UNPIN]), [(8, 0)]);
}

/// Pins alone change no other word, in any directory: many at once, at every position.
#[test]
fn pins_change_modified_words_alone() {
    let mut rng = Rng::announced("pins_change_modified_words_alone", 344);
    let mut all = 0;
    for _ in 0..2_000 {
        let n = rng.within(1, 40);
        let s = histories::settings(&mut rng, n);
        let mut plan = samples::plan(&mut rng, s);
        plan.totals = Totals { reads: 0, writes: plan.modified(), ins: 0, outs: 0 };
        let mut beside = histories::built_of(&mut rng, LIBRARY, &plan);
        let words: Vec<u32> =
            (0..60).map(|_| word(rng.pick(&[work::PIN, work::UNPIN]), rng.within(0, s.m - 1))).collect();
        let may: Vec<usize> = (1..=s.n).map(|e| Map::of(s).entry(e, entry::MODIFIED)).collect();
        let changed = changed(&mut beside, &words);
        assert!(changed.iter().all(|address| may.contains(address)), "{s:?}, {words:x?}");
        all += changed.len();
    }
    println!("2,000 batches of 60 words, {all} words changed");
    assert!(all > 5_000);
}
