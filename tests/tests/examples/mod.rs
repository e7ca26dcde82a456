//! The examples of the scope, those with a letter and the others, each beside the plain stack.
use cache_tests::reference::beside::{Beside, Call};
use cache_tests::reference::builder::{Plan, Resident, Totals};
use cache_tests::reference::directory::{fresh_words, header, value, word, MAX_VALUE};
use cache_tests::reference::rng::Rng;
use cache_tests::reference::settings::directory_length;
use cache_tests::reference::stack::{answer, work, Lent};
use cache_tests::reference::{fast_judge, histories, samples};
use cache_tests::{batch, fresh, Settings, BELT, LIBRARY};

const ONE: Settings = Settings { n: 1, nnew: 0, nold: 1, cmax: 1, amax: 10, b: 8, m: 64 };

fn start(s: Settings, seed: u64) -> Beside {
    histories::fresh(&mut Rng::announced("an example", seed), LIBRARY, s)
}
fn reads(blocks: &[u32]) -> Vec<u32> {
    blocks.iter().map(|&block| word(work::READ, block)).collect()
}
fn run(beside: &mut Beside, work: &[u32]) -> Vec<(u32, u32)> {
    beside.answered(work)
}
fn blocks(beside: &Beside) -> Vec<u32> {
    beside.stack.residents.iter().map(|resident| resident.block).collect()
}

#[test]
fn a_and_b() {
    let mut belt = start(BELT, 201);
    let answers = run(&mut belt, &reads(&[10, 11, 12, 13, 10, 10, 14]));
    assert_eq!(answers, [(2, 0), (2, 0), (2, 0), (2, 0), (1, 2), (1, 2), (3, 262_155)]);
    assert_eq!((value(belt.dir[header::READS_LOW]), value(belt.dir[header::INS_LOW])), (7, 5));
    let answers = run(&mut belt, &reads(&[15, 16, 17, 18]));
    let victims: Vec<u32> = answers.iter().map(|answer| answer.1 % answer::CHAIN).collect();
    assert!(answers.iter().all(|answer| answer.0 == 3));
    assert_eq!(victims, [12, 13, 14, 15]);
    assert!(blocks(&belt).contains(&10));
}

/// Block 10, count 2, stands at position 3 when 14 leaves.
#[test]
fn b_word_by_word() {
    let mut belt = start(BELT, 202);
    run(&mut belt, &reads(&[10, 11, 12, 13, 10, 10, 14, 15, 16]));
    assert_eq!((belt.stack.residents[3].block, belt.stack.residents[3].count), (10, 2));
    assert_eq!(run(&mut belt, &reads(&[17])), [(3, 14 + answer::CHAIN)]);
    assert_eq!(run(&mut belt, &reads(&[18])), [(3, 15 + answer::CHAIN)]);
}

#[test]
fn c_to_f() {
    let mut two = start(Settings { n: 2, nnew: 0, nold: 1, cmax: 1, amax: 1, b: 8, m: 64 }, 203);
    assert_eq!(run(&mut two, &reads(&[0, 0, 0])), [(2, 0), (1, 67_108_866), (1, 67_108_866)]);
    assert_eq!(two.stack.residents[0].count, 1);
    assert_eq!(value(two.dir[header::SUM]), 1);

    assert_eq!(run(&mut start(ONE, 204), &reads(&[0, 0, 1]))[2], (3, 262_144));

    let mut one = start(ONE, 205);
    assert_eq!(run(&mut one, &[word(work::WRITE, 3), word(work::READ, 5)])[1], (3, 33_816_579));
    assert_eq!((value(one.dir[header::INS_LOW]), value(one.dir[header::OUTS_LOW])), (1, 1));
    assert_eq!(one.store[24..32], [1; 8]);

    let mut one = start(ONE, 206);
    let (write, purge) = (word(work::WRITE, 3), word(work::PURGE, 3));
    assert_eq!(run(&mut one, &[write, purge, purge]), [(2, 0), (4, 1), (5, 0)]);
}

#[test]
fn g_and_h() {
    let mut belt = start(BELT, 207);
    let mut words = reads(&[10, 11, 12, 13]);
    words.extend([word(work::PURGE, 13), word(work::READ, 12)]);
    assert_eq!(run(&mut belt, &words)[5], (1, 1));

    let mut belt = start(BELT, 208);
    let before = (belt.dir.clone(), belt.data.clone(), belt.store.clone());
    assert_eq!(run(&mut belt, &[]), []);
    assert!((belt.dir, belt.data, belt.store) == before);
}

/// Example h past fresh: purges have put the unused list out of its rising order, and an empty batch leaves it so,
/// however long the data and the buffers that it is lent.
#[test]
fn an_empty_batch_changes_nothing() {
    let mut belt = start(BELT, 209);
    let mut words = reads(&[10, 11, 12, 13]);
    words.extend([word(work::PURGE, 10), word(work::PURGE, 12), word(work::WRITE, 11)]);
    run(&mut belt, &words);
    let before = (belt.dir.clone(), belt.data.clone(), belt.store.clone());
    let (mut answers, mut outgoing) = ([7; 3], [9; 16]);
    let store = &mut belt.store[..512];
    let number = batch(&mut belt.dir, &mut belt.data, store, &[], &[5; 8], &mut answers, &mut outgoing);
    assert_eq!((number, answers, outgoing), (0, [7; 3], [9; 16]));
    assert!((belt.dir, belt.data, belt.store) == before);
}

/// The same example over words written by hand: no helper of the histories is used.
#[test]
fn a_by_hand() {
    let mut dir = vec![0; 70];
    assert_eq!(fresh(BELT, &mut dir), 0);
    let (mut data, mut store) = (vec![9; 32], (0..512).map(|i| (i / 8) as u8).collect::<Vec<u8>>());
    let work = [10, 11, 12, 13, 10, 10, 14].map(|block| 0x1000_0000 + block);
    let (mut answers, mut outgoing) = ([0; 7], [0; 56]);
    assert_eq!(batch(&mut dir, &mut data, &mut store, &work, &[], &mut answers, &mut outgoing), 0);
    let entered = 0x2000_0000;
    assert_eq!(answers, [entered, entered, entered, entered, 0x1000_0002, 0x1000_0002, 0x3000_0000 + 262_155]);
    let bytes: Vec<u8> = [10, 11, 12, 13, 10, 10, 14].into_iter().flat_map(|block| [block; 8]).collect();
    assert_eq!(outgoing[..], bytes);
    assert!(fast_judge::sound(&dir));
}

#[test]
fn sections_as_wide_as_the_cache() {
    let mut dir = vec![0; directory_length(BELT) as usize];
    assert_eq!(fresh(Settings { nnew: 2, ..BELT }, &mut dir), 0);
    assert_eq!(dir, fresh_words(Settings { nnew: 2, ..BELT }));
    assert_eq!(fresh(Settings { nnew: 3, ..BELT }, &mut dir), 2);
}

#[test]
fn words_of_a_batch() {
    let mut belt = start(BELT, 209);
    let call = belt.exact(&reads(&[3; 1_025]));
    assert_eq!(belt.call(&call), 8);
    let answers = run(&mut belt, &reads(&[3; 1_024]));
    // position 0 is new: no hit raises the count
    assert!(answers[0] == (2, 0) && answers[1..].iter().all(|&answer| answer == (1, 1)));
}

#[test]
fn a_count_of_65_535_stays() {
    let s = Settings { n: 100, nnew: 1, nold: 1, cmax: 3, amax: 1_000, b: 8, m: 128 };
    let mut rng = Rng::announced("a_count_of_65_535_stays", 210);
    let resident = |block, count| Resident { block, count, marks: 0 };
    // the others are so many that the average allows such counts
    let others = (10..95).map(|block| resident(block, 1));
    let residents: Vec<Resident> =
        [resident(7, 1), resident(9, 65_534), resident(8, 20_000)].into_iter().chain(others).collect();
    let arrangement = samples::arrangement(&mut rng, s.n, residents.len() as u32);
    let plan = Plan { settings: s, residents, totals: Totals::default(), arrangement };
    let mut beside = histories::built_of(&mut rng, LIBRARY, &plan);
    let answers = run(&mut beside, &reads(&[9, 7, 9, 7, 9]));
    assert_eq!(answers, [(1, 65_535), (1, 2), (1, 65_535), (1, 3), (1, 65_535)]);
    assert_eq!(beside.stack.residents[0].count, 65_535);

    // the same from fresh: 66 blocks enter, and one is read until it stays
    let mut beside = start(Settings { nnew: 0, ..s }, 211);
    let all: Vec<u32> = (0..66).collect();
    run(&mut beside, &reads(&all));
    for _ in 0..64 {
        run(&mut beside, &reads(&[7; 1_024]));
    }
    assert_eq!(run(&mut beside, &reads(&[7])), [(1, 65_535)]);
}

/// Each number on its limit, and every condition that comes later met as well.
#[test]
fn numbers_in_the_order_of_the_table() {
    let mut belt = start(BELT, 212);
    let whole = Lent { data: 32, store: 512 };
    let call = |lent: Lent, work: Vec<u32>, incoming: usize, answers: usize, outgoing: usize| Call {
        lent,
        work,
        incoming: vec![5; incoming],
        answers: vec![6; answers],
        outgoing: vec![7; outgoing],
    };
    let (read, write) = (word(work::READ, 63), word(work::WRITE, 63));
    let many = vec![word(0, 0); 1_025];
    let mut number = |call: Call| belt.call(&call);
    assert_eq!(number(call(Lent { data: 31, ..whole }, many.clone(), 0, 0, 0)), 7);
    assert_eq!(number(call(Lent { store: 511, ..whole }, many.clone(), 0, 0, 0)), 7);
    assert_eq!(number(call(Lent { data: 0, store: 0 }, vec![], 0, 0, 0)), 7);
    assert_eq!(number(call(Lent { data: 31, store: 513 }, many.clone(), 0, 0, 0)), 7);
    assert_eq!(number(call(Lent { store: 513, ..whole }, many.clone(), 0, 0, 0)), 12);
    assert_eq!(number(call(whole, many, 0, 0, 0)), 8);
    let kinds = [word(0, 0), word(0, 1), word(8, 0), word(8, 1), word(9, 0), word(15, 1)];
    let blocks = [1, 2, 3, 6, 7].map(|kind| word(kind, 64));
    let values = [word(4, 1), word(5, 1), word(5, 63), word(5, MAX_VALUE)];
    for w in kinds.into_iter().chain(blocks).chain(values) {
        assert_eq!(number(call(whole, vec![w], 0, 0, 0)), 9, "{w:#x}");
        assert_eq!(number(call(whole, vec![read, write, w], 8, 3, 8)), 9, "{w:#x}");
    }
    assert_eq!(number(call(whole, vec![read], 0, 0, 8)), 10);
    assert_eq!(number(call(whole, vec![read], 0, 1, 7)), 10);
    assert_eq!(number(call(whole, vec![write], 7, 1, 0)), 10);
    assert_eq!(number(call(whole, vec![read, write], 8, 2, 8)), 0);
    let damaged = [&belt.dir[..7], &[0], &belt.dir[8..]].concat();
    for store in [0, 512, 513] {
        belt.call_over(damaged.clone(), &call(Lent { data: 0, store }, vec![0; 1_025], 0, 0, 0));
    }
    println!("numbers returned: {:?}", belt.seen.numbers);
    assert_eq!(belt.seen.numbers, [1, 0, 0, 0, 0, 0, 3, 4, 1, 30, 3, 0, 1]);
}
