//! The examples of the scope, those with a letter and the others.
use super::words::{FLUSH, PIN, PURGE, READ, TICK, UNPIN, WRITE};
use super::*;
use crate::reference::rng::Rng;
use crate::reference::samples;
use crate::BELT;

/// Modified, and no tick seen.
const UNSEEN: Marks = Marks { modified: true, ..Marks::NONE };
const SEEN: Marks = Marks { modified: true, seen: true, pinned: false };
const PINNED: Marks = Marks { pinned: true, ..Marks::NONE };
const ONE: Settings = Settings { n: 1, nnew: 0, nold: 1, cmax: 1, amax: 10, b: 8, m: 64 };

fn start(settings: Settings) -> PlainStack {
    // every block's bytes differ
    let store = (0..settings.m * settings.b).map(|i| (i / settings.b + 100 * (i % settings.b)) as u8).collect();
    PlainStack::new(settings, store)
}
fn reads(blocks: &[u32]) -> Vec<u32> {
    blocks.iter().map(|&block| word(work::READ, block)).collect()
}
/// Runs an accepted batch whose j-th write is all bytes j, and gives answers and outgoing bytes.
fn run(stack: &mut PlainStack, work: &[u32]) -> (Vec<u32>, Vec<u8>) {
    let b = stack.settings.b as usize;
    let incoming: Vec<u8> = (0..work.len() * b).map(|i| (i / b + 1) as u8).collect();
    let (mut answers, mut outgoing) = (vec![0; work.len()], vec![9; work.len() * b]);
    let lent = stack.whole();
    assert_eq!(stack.batch(lent, work, &incoming, &mut answers, &mut outgoing), 0);
    (answers, outgoing)
}
fn blocks(stack: &PlainStack) -> Vec<u32> {
    stack.residents.iter().map(|resident| resident.block).collect()
}
fn counts(stack: &PlainStack) -> Vec<u32> {
    stack.residents.iter().map(|resident| resident.count).collect()
}

#[test]
fn a_and_b() {
    let mut belt = start(BELT);
    let (answers, outgoing) = run(&mut belt, &reads(&[10, 11, 12, 13, 10, 10, 14]));
    let entered = word(2, 0);
    assert_eq!(answers, [entered, entered, entered, entered, word(1, 2), word(1, 2), word(3, 262_155)]);
    assert_eq!(outgoing[..8], belt.store[80..88]);
    assert_eq!(outgoing[48..56], belt.store[112..120]);
    assert_eq!((belt.reads, belt.writes, belt.ins, belt.outs), (7, 0, 5, 0));
    // the victims of the next reads; block 10 stands at position 3 when 14 leaves
    let mut victims = Vec::new();
    for block in [15, 16, 17, 18] {
        if block == 17 {
            assert_eq!((belt.residents[3].block, belt.residents[3].count), (10, 2));
        }
        let (answers, _) = run(&mut belt, &reads(&[block]));
        assert_eq!(kind(answers[0]), answer::REPLACED);
        victims.push(value(answers[0]) % answer::CHAIN);
    }
    assert_eq!(victims, [12, 13, 14, 15]);
    assert!(blocks(&belt).contains(&10));
}

#[test]
fn c() {
    let mut two = start(Settings { n: 2, nnew: 0, nold: 1, cmax: 1, amax: 1, b: 8, m: 64 });
    let (answers, _) = run(&mut two, &reads(&[0, 0, 0]));
    assert_eq!(answers, [word(2, 0), word(1, 67_108_866), word(1, 67_108_866)]);
    assert_eq!(counts(&two), [1]);
}

#[test]
fn d_e_f() {
    assert_eq!(run(&mut start(ONE), &reads(&[0, 0, 1])).0[2], word(3, 262_144));

    let mut one = start(ONE);
    let (answers, outgoing) = run(&mut one, &[word(work::WRITE, 3), word(work::READ, 5)]);
    assert_eq!(answers[1], word(3, 33_816_579));
    assert_eq!((one.ins, one.outs), (1, 1));
    assert_eq!(one.store[24..32], [1; 8]);
    assert_eq!(outgoing[..8], one.store[40..48]);

    let mut one = start(ONE);
    let before = one.store.clone();
    let (answers, _) = run(&mut one, &[word(work::WRITE, 3), word(work::PURGE, 3), word(work::PURGE, 3)]);
    assert_eq!(answers, [word(2, 0), word(4, 1), word(5, 0)]);
    assert_eq!((one.store, one.outs), (before, 0));
}

#[test]
fn g_and_h() {
    let mut belt = start(BELT);
    let mut words = reads(&[10, 11, 12, 13]);
    words.extend([word(work::PURGE, 13), word(work::READ, 12)]);
    let (answers, _) = run(&mut belt, &words);
    assert_eq!(answers[4..], [word(4, 0), word(1, 1)]);

    let before = belt.clone();
    assert_eq!(run(&mut belt, &[]), (vec![], vec![]));
    assert_eq!(belt, before);
}

#[test]
fn flush_writes_each_modified_resident_once() {
    let mut belt = start(BELT);
    let words = [word(work::WRITE, 1), word(work::READ, 2), word(work::WRITE, 3), word(work::FLUSH, 0)];
    assert_eq!(run(&mut belt, &words).0[3], word(6, 2));
    assert_eq!((belt.store[8..16].to_vec(), belt.store[24..32].to_vec()), (vec![1; 8], vec![2; 8]));
    assert_eq!((blocks(&belt), counts(&belt), belt.outs), (vec![3, 2, 1], vec![1, 1, 1], 2));
    assert_eq!(run(&mut belt, &words[3..]).0[0], word(6, 0));
}

fn marks(stack: &PlainStack) -> Vec<Marks> {
    stack.residents.iter().map(|resident| resident.marks).collect()
}

/// The first tick marks, the second writes out; block 2 is not modified, and block 3 is a tick behind.
#[test]
fn ticks_by_hand() {
    let mut belt = start(BELT);
    let before = belt.store.clone();
    let (answers, _) = run(&mut belt, &[TICK, WRITE + 1, READ + 2, TICK]);
    assert_eq!((answers[0], answers[3]), (word(6, 0), word(6, 0)));
    assert_eq!((marks(&belt), belt.outs), (vec![Marks::NONE, SEEN], 0));
    assert_eq!(belt.store, before);
    let (answers, _) = run(&mut belt, &[WRITE + 3, TICK]);
    assert_eq!(answers[1], word(6, 1));
    assert_eq!((blocks(&belt), counts(&belt)), (vec![3, 2, 1], vec![1, 1, 1]));
    assert_eq!((marks(&belt), belt.outs), (vec![SEEN, Marks::NONE, Marks::NONE], 1));
    assert_eq!((&belt.store[8..16], &belt.store[24..32]), (&[1; 8][..], &before[24..32]));
    assert_eq!(run(&mut belt, &[TICK, TICK]).0, [word(6, 1), word(6, 0)]);
    assert_eq!((marks(&belt), belt.outs), (vec![Marks::NONE; 3], 2));
    assert_eq!((belt.reads, belt.writes, belt.ins), (1, 2, 1));
}

/// The second write's bytes are in the store at the second tick: no stream of writes puts it off.
#[test]
fn a_further_write_keeps_the_seen_mark() {
    let mut belt = start(BELT);
    let (answers, _) = run(&mut belt, &[WRITE + 9, TICK, WRITE + 9, TICK]);
    assert_eq!(answers, [word(2, 0), word(6, 0), word(1, 1), word(6, 1)]);
    assert_eq!((&belt.store[72..80], marks(&belt)), (&[2; 8][..], vec![Marks::NONE]));
    // and what was written out starts unseen again
    assert_eq!(run(&mut belt, &[WRITE + 9]).0, [word(1, 1)]);
    assert_eq!(marks(&belt), [UNSEEN]);
}

#[test]
fn every_write_out_clears_both_marks() {
    // a flush between the ticks
    let mut belt = start(BELT);
    let (answers, _) = run(&mut belt, &[WRITE + 9, TICK, FLUSH, WRITE + 9, TICK, TICK]);
    assert_eq!(answers[1..], [word(6, 0), word(6, 1), word(1, 1), word(6, 0), word(6, 1)]);
    assert_eq!(belt.store[72..80], [2; 8]);
    // a victim that had seen a tick enters again and starts unseen
    let mut one = start(ONE);
    let written_out = |block| word(3, block + answer::CHAIN + answer::WRITTEN_OUT);
    let (answers, _) = run(&mut one, &[WRITE + 3, TICK, READ + 5, WRITE + 3, TICK, TICK]);
    let replaced = word(3, 5 + answer::CHAIN);
    assert_eq!(answers, [word(2, 0), word(6, 0), written_out(3), replaced, word(6, 0), word(6, 1)]);
    // so does the block that takes its place
    let (answers, _) = run(&mut one, &[WRITE + 3, TICK, WRITE + 5, TICK, TICK]);
    assert_eq!(answers[1..], [word(6, 0), written_out(3), word(6, 0), word(6, 1)]);
    // and one that was purged
    let mut one = start(ONE);
    let (answers, _) = run(&mut one, &[WRITE + 3, TICK, PURGE + 3, TICK, WRITE + 3, TICK, PURGE + 3, PURGE + 3]);
    assert_eq!(answers[1..4], [word(6, 0), word(4, 1), word(6, 0)]);
    assert_eq!(answers[4..], [word(2, 0), word(6, 0), word(4, 1), word(5, 0)]);
}

/// Pin, pin again, unpin, unpin again, absent; order, counts and totals stay.
#[test]
fn pins_by_hand() {
    let mut belt = start(BELT);
    run(&mut belt, &reads(&[1, 2, 3]));
    let before = belt.clone();
    let words = [PIN + 2, PIN + 2, PIN + 9, UNPIN + 9, UNPIN + 1];
    assert_eq!(run(&mut belt, &words).0, [word(8, 1), word(8, 1), word(5, 0), word(5, 0), word(8, 0)]);
    assert_eq!(marks(&belt), [Marks::NONE, PINNED, Marks::NONE]);
    assert_eq!(run(&mut belt, &[UNPIN + 2, UNPIN + 2]).0, [word(8, 0); 2]);
    assert_eq!(belt, before);
}

/// A pin outlasts hits, writes, ticks and a flush, binds a purge, and is gone with the block.
#[test]
fn a_pin_stays() {
    let mut one = start(ONE);
    let words = [WRITE + 3, PIN + 3, READ + 3, WRITE + 3, TICK, TICK, WRITE + 3, FLUSH, PURGE + 3];
    let (answers, _) = run(&mut one, &words);
    assert_eq!(answers[1..4], [word(8, 1), word(1, 2), word(1, 3)]);
    assert_eq!(answers[4..], [word(6, 0), word(6, 1), word(1, 4), word(6, 1), word(9, 0)]);
    assert_eq!((marks(&one), one.outs), (vec![PINNED], 2));
    assert_eq!(
        run(&mut one, &[UNPIN + 3, PURGE + 3, READ + 3, PURGE + 3]).0[1..],
        [word(4, 0), word(2, 0), word(4, 0)]
    );
}

/// All pinned: a miss changes the total of reads or writes alone, and the next write takes the next bytes.
#[test]
fn all_pinned_by_hand() {
    let mut one = start(ONE);
    run(&mut one, &[WRITE + 3, PIN + 3]);
    let before = one.clone();
    let (answers, outgoing) = run(&mut one, &[READ + 5, WRITE + 5, READ + 3, WRITE + 3]);
    assert_eq!(answers, [word(7, 0), word(7, 0), word(1, 2), word(1, 3)]);
    assert_eq!((&outgoing[..8], &outgoing[8..16]), (&[0; 8][..], &[1; 8][..]));
    assert_eq!((one.reads, one.writes, one.ins, one.outs), (2, 3, 0, 0));
    assert_eq!((&one.residents[0].bytes[..], one.store), (&[2; 8][..], before.store));
}

/// Counts and pins by position; the victim's position, and the chains.
#[test]
fn the_victim_beside_pinned_residents() {
    let settings = Settings { n: 4, nnew: 1, nold: 2, cmax: 2, amax: 100, b: 8, m: 64 };
    let cases = [
        // by count: past a pinned one of the same count, of a smaller one
        ([1, 1, 1, 1], "...p", 2, 1),
        ([1, 1, 2, 1], "...p", 2, 2),
        // the least recent old one: past a pinned one, of a count above Cmax
        ([1, 1, 9, 1], "...p", 2, 2),
        ([1, 1, 9, 5], "..p.", 3, 2),
        // no old one is left: the least recent, whatever the counts
        ([1, 1, 1, 1], "..pp", 1, 2),
        ([1, 9, 1, 1], "..pp", 1, 2),
        ([1, 1, 1, 1], ".ppp", 0, 2),
    ];
    for (counts, pins, expected_victim, chains) in cases {
        let mut stack = start(settings);
        let pinned = pins.chars().map(|pin| Marks { pinned: pin == 'p', ..Marks::NONE });
        stack.residents = with_counts(counts).zip(pinned).map(|(held, marks)| Resident { marks, ..held }).collect();
        let (answers, _) = run(&mut stack, &reads(&[10]));
        assert_eq!(answers, [word(3, expected_victim + chains * answer::CHAIN)], "{counts:?}, {pins}");
    }
}
/// Residents with these counts, their blocks named by their positions.
fn with_counts<const N: usize>(counts: [u32; N]) -> impl Iterator<Item = Resident> {
    let resident = |(p, count)| Resident { block: p as u32, count, marks: Marks::NONE, bytes: vec![0; 8] };
    counts.into_iter().enumerate().map(resident)
}

#[test]
fn a_write_makes_no_block_in() {
    let mut one = start(ONE);
    let (answers, _) = run(&mut one, &[word(work::WRITE, 1), word(work::WRITE, 1), word(work::WRITE, 2)]);
    let replaced = 1 + answer::CHAIN + answer::WRITTEN_OUT;
    assert_eq!(answers, [word(2, 0), word(1, 2), word(3, replaced)]);
    assert_eq!((one.ins, one.outs, one.store[8..16].to_vec()), (0, 1, vec![2; 8]));
}

/// A smallest count of Cmax is chosen by count, one above Cmax by position.
#[test]
fn the_victim_around_the_chain_limit() {
    let settings = Settings { n: 3, nnew: 0, nold: 2, cmax: 2, amax: 100, b: 8, m: 64 };
    let cases = [([1, 2, 5], 1, 2), ([1, 3, 5], 2, 2), ([1, 2, 2], 2, 2), ([9, 1, 2], 1, 1), ([1, 9, 3], 2, 2)];
    for (counts, expected_victim, chains) in cases {
        let mut stack = start(settings);
        stack.residents = with_counts(counts).collect();
        let (answers, _) = run(&mut stack, &reads(&[10]));
        assert_eq!(answers, [word(3, expected_victim + chains * answer::CHAIN)], "{counts:?}");
    }
}

#[test]
fn a_count_of_65_535_stays() {
    let mut stack = start(Settings { n: 100, nnew: 0, nold: 1, cmax: 3, amax: 1_000, b: 8, m: 128 });
    // beside so many residents that the average allows it
    let blocks: Vec<u32> = (0..66).collect();
    run(&mut stack, &reads(&blocks));
    let words = reads(&[7; 1_024]);
    for _ in 0..64 {
        run(&mut stack, &words);
    }
    assert_eq!(stack.residents[0].count, 65_535);
    assert_eq!(run(&mut stack, &reads(&[7])).0, [word(1, 65_535)]);
    assert_eq!(stack.residents[0].count, 65_535);
    // one resident fewer, and the next read halves: 65,535 + 64 exceeds 1,000 x 65
    assert_eq!(run(&mut stack, &[word(work::PURGE, 9), reads(&[7])[0]]).0[1], word(1, 65_535 + answer::HALVED));
    assert_eq!(stack.residents[0].count, 32_768);
}

#[test]
fn numbers_7_to_12_on_and_beside_their_limits() {
    let mut belt = start(BELT);
    let whole = belt.whole();
    assert_eq!(whole, Lent { data: 32, store: 512 });
    let before = belt.clone();
    let mut number = |lent: Lent, work: &[u32], incoming: usize, answers: usize, outgoing: usize| {
        let (mut answers, mut outgoing) = (vec![9; answers], vec![9; outgoing]);
        let number = belt.batch(lent, work, &vec![0; incoming], &mut answers, &mut outgoing);
        assert!(answers.iter().all(|&a| a == 9) && outgoing.iter().all(|&o| o == 9));
        number
    };
    assert_eq!(number(Lent { data: 31, ..whole }, &[], 0, 0, 0), 7);
    assert_eq!(number(Lent { store: 511, ..whole }, &vec![0; 1_025], 0, 0, 0), 7);
    assert_eq!(number(Lent { data: 31, store: 513 }, &[], 0, 0, 0), 7);
    for store in [513, 520, 1_024, usize::MAX] {
        assert_eq!(number(Lent { store, ..whole }, &[], 0, 0, 0), 12, "{store} bytes");
        assert_eq!(number(Lent { store, ..whole }, &vec![0; 1_025], 0, 0, 0), 12, "{store} bytes");
    }
    assert_eq!(number(whole, &vec![0; 1_025], 0, 0, 0), 8);
    let kinds = [word(0, 0), word(0, 1), word(8, 0), word(9, 0), word(15, 1)];
    let blocks = [1, 2, 3, 6, 7].map(|kind| word(kind, 64));
    let values = [word(4, 1), word(5, 1), word(5, 63), word(5, 64)].into_iter().chain(blocks);
    for wrong in kinds.into_iter().chain(values) {
        assert_eq!(number(whole, &[wrong], 0, 0, 0), 9, "{wrong:#x}");
    }
    assert_eq!(number(whole, &[word(1, 63)], 0, 0, 8), 10);
    assert_eq!(number(whole, &[word(1, 63)], 0, 1, 7), 10);
    assert_eq!(number(whole, &[word(2, 63)], 7, 1, 0), 10);
    assert_eq!(belt, before);

    belt.reads = MOST_TOTAL - 1;
    let (mut answers, purge) = ([0; 2], word(work::PURGE, 0));
    assert_eq!(belt.batch(Lent { store: 513, ..whole }, &[purge; 2], &[], &mut answers, &mut []), 12);
    assert_eq!(belt.batch(Lent { data: 33, ..whole }, &[], &[], &mut answers, &mut []), 0);
    assert_eq!(belt.batch(whole, &[purge; 2], &[], &mut answers, &mut []), 11);
    assert_eq!(belt.batch(whole, &[purge], &[], &mut answers, &mut []), 0);
}

/// One word, the bytes that it brought and gave, its answer, and the stack before and after it.
struct Step<'a> {
    w: u32,
    incoming: [u8; 2],
    outgoing: [u8; 2],
    answered: u32,
    before: &'a PlainStack,
    after: &'a PlainStack,
}

/// What a word of its kind must do, `present` being what readers see; how many blocks a tick wrote out and marked.
fn by_kind(step: &Step, present: &mut [Vec<u8>]) -> (u32, usize) {
    let (block, before, after) = (value(step.w) as usize, step.before, step.after);
    match kind(step.w) {
        _ if kind(step.answered) == answer::ALL_PINNED => all_pinned(step),
        work::PURGE if kind(step.answered) == answer::PURGE_REFUSED => assert_eq!(after, before),
        work::READ => assert_eq!(step.outgoing, present[block][..]),
        work::WRITE => present[block] = step.incoming.to_vec(),
        // modified bytes are given up
        work::PURGE => present[block] = after.store[2 * block..2 * block + 2].to_vec(),
        work::FLUSH => {
            let cleared: Vec<Marks> = before.residents.iter().map(|was| was.marks.written_out()).collect();
            assert_eq!(after.residents.iter().map(|is| is.marks).collect::<Vec<_>>(), cleared);
        }
        work::TICK => {
            let unseen = |marks: Marks| marks.modified && !marks.seen;
            let after_tick = |was: Marks| Marks { modified: unseen(was), seen: unseen(was), ..was };
            let pairs = before.residents.iter().zip(&after.residents);
            assert!(pairs.clone().all(|(was, is)| is.marks == after_tick(was.marks)));
            assert_eq!(u64::from(value(step.answered)), after.outs - before.outs);
            return (value(step.answered), pairs.filter(|(was, _)| unseen(was.marks)).count());
        }
        pin => {
            let mut expected = before.clone();
            let held = expected.residents.iter_mut().find(|held| held.block as usize == block);
            held.into_iter().for_each(|held| held.marks.pinned = pin == work::PIN);
            assert_eq!(*after, expected);
        }
    }
    (0, 0)
}

/// Nothing changes but the total of reads or writes.
fn all_pinned(step: &Step) {
    let (before, mut expected) = (step.before, step.before.clone());
    match kind(step.w) {
        work::READ => expected.reads += 1,
        _ => expected.writes += 1,
    }
    assert_eq!(*step.after, expected);
    assert!(before.residents.len() == before.settings.n as usize && kind(step.w) != work::PURGE);
    assert!(before.residents.iter().all(|held| held.marks.pinned) && before.position(value(step.w)).is_none());
    assert!(kind(step.w) == work::WRITE || step.outgoing == [0; 2]);
}

/// The victim was unpinned and is gone; it was old unless all old ones were pinned. The chains reported are its count
/// or Cmax, and Cmax where it was not old.
fn replaced_fairly(step: &Step) {
    let (s, victim) = (step.before.settings, value(step.answered) % answer::CHAIN);
    let (p, first_old) = (step.before.position(victim).unwrap(), (s.n - s.nold) as usize);
    let chains = value(step.answered) / answer::CHAIN % 128;
    assert!(!step.before.residents[p].marks.pinned && step.after.position(victim).is_none());
    if p >= first_old {
        assert_eq!(chains, step.before.residents[p].count.min(s.cmax));
    } else {
        assert!(step.before.residents[p + 1..].iter().all(|held| held.marks.pinned));
        assert_eq!(chains, s.cmax);
    }
}

/// 300 words: a third that pins may be followed by one that unpins.
fn words_in_thirds(rng: &mut Rng, s: Settings) -> Vec<u32> {
    (0..3).flat_map(|_| samples::work_words(rng, s, 100)).collect()
}

/// What the scope says of every history: the chains reported are the victim's count or Cmax, the victim is old if one
/// of the old is unpinned, the sum keeps its limit, totals fit together, and a read gives what was last written or stood
/// in the store.
#[test]
fn random_batches_keep_the_invariants() {
    let mut rng = Rng::announced("random_batches_keep_the_invariants", 51);
    let mut seen = [0u32; answer::KINDS];
    let (mut halved, mut written_by_ticks, mut marked_by_ticks) = (0, 0, 0);
    for _ in 0..600 {
        let n = rng.within(1, 20);
        let s = Settings { b: 2, m: rng.within(1, 3 * n), ..samples::settings(&mut rng, n) };
        let mut stack = start(s);
        let mut present: Vec<Vec<u8>> = stack.store.chunks(2).map(|bytes| bytes.to_vec()).collect();
        for (i, w) in words_in_thirds(&mut rng, s).into_iter().enumerate() {
            let (before, bytes) = (stack.clone(), [i as u8, (i / 256) as u8]);
            let (mut answers, mut outgoing, lent) = ([0], [9; 2], stack.whole());
            assert_eq!(stack.batch(lent, &[w], &bytes, &mut answers, &mut outgoing), 0);
            let answered = kind(answers[0]);
            seen[answered as usize] += 1;
            halved +=
                u32::from(matches!(answered, answer::HIT | answer::ENTERED) && value(answers[0]) >= answer::HALVED);
            let step = Step { w, incoming: bytes, outgoing, answered: answers[0], before: &before, after: &stack };
            let (written, marked) = by_kind(&step, &mut present);
            (written_by_ticks, marked_by_ticks) = (written_by_ticks + written, marked_by_ticks + marked);
            if kind(w) >= work::FLUSH {
                let order = |stack: &PlainStack| (blocks(stack), counts(stack), stack.reads, stack.writes, stack.ins);
                assert_eq!(order(&stack), order(&before));
            }
            assert!(stack.residents.iter().all(|resident| resident.marks.modified || !resident.marks.seen));
            if answered == answer::REPLACED {
                replaced_fairly(&step);
            }
            let sum: u64 = stack.residents.iter().map(|resident| u64::from(resident.count)).sum();
            assert!(sum <= u64::from(s.amax * s.n) && stack.residents.len() <= s.n as usize);
            let modified = stack.residents.iter().filter(|resident| resident.marks.modified).count() as u64;
            assert!(stack.ins <= stack.reads && stack.outs + modified <= stack.writes);
        }
    }
    println!("answers 1 to 9: {:?}, {halved} with counts halved", &seen[1..]);
    println!("ticks wrote out {written_by_ticks} blocks and marked {marked_by_ticks}");
    assert!(seen[1..].iter().all(|&times| times > 500) && halved > 1_000);
    assert!(written_by_ticks > 1_000 && marked_by_ticks > 1_000);
}

#[test]
fn a_batch_of_1_024_words_passes() {
    let mut belt = start(BELT);
    run(&mut belt, &reads(&[3; 1_024]));
    assert_eq!((belt.reads, belt.ins), (1_024, 1));
    // the first position is new: no hit raised the count
    assert_eq!(counts(&belt), [1]);
}
