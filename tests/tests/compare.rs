//! The comparison of a trace beside the reference's, beside every scheme that there is, and beside the cache itself.
use cache_tests::reference::compare::{
    self as reference, all_schemes, improvement, lru, number, opt, stack_ins, Figures, BAD_TRACE, FIGURES, MOST_WORDS,
};
use cache_tests::reference::directory::{kind, value, word};
use cache_tests::reference::histories;
use cache_tests::reference::rng::Rng;
use cache_tests::reference::settings::{directory_length, MAX_B, MAX_M, MAX_N};
use cache_tests::reference::stack::{words, work};
use cache_tests::tree::root;
use cache_tests::{batch, compare, compared, fresh, totals, Settings, BELT};
use std::collections::VecDeque;
use std::fs;
use std::time::Instant;

/// A comparison: its number and figures.
type Compare = fn(Settings, &[u32]) -> (u32, Figures);

fn reads(blocks: impl IntoIterator<Item = u32>) -> Vec<u32> {
    blocks.into_iter().map(|block| words::READ + block).collect()
}

/// A trace of one of several kinds: any blocks, about as many as the cache holds, a loop, hot ones beside a sweep, or
/// hot ones and then others, for which LRU gives up the hot ones no later than OPT.
fn trace(rng: &mut Rng, n: u32, m: u32) -> Vec<u32> {
    let length = match rng.below(100) {
        0 => MOST_WORDS as u32,
        1..=5 => rng.within(0, 2),
        6..=15 => rng.within(200, 900),
        _ => rng.within(3, 80),
    };
    let some = |rng: &mut Rng, most: u32| rng.within(1, most.clamp(1, m));
    let (about, hot) = (some(rng, n.saturating_mul(3)), some(rng, n));
    let how = rng.below(6);
    let block = |at: u32| match how {
        0 => rng.within(0, m - 1),
        1 => rng.within(0, about - 1),
        2 => at % about,
        3 if rng.one_in(3) => at % m,
        3 => rng.within(0, hot - 1),
        4 if at < length / 2 => rng.within(0, hot - 1),
        4 => (hot + at % n.max(1)) % m,
        _ => rng.within(0, about - 1).min(rng.within(0, about - 1)),
    };
    reads((0..length).map(block))
}

/// Settings that are legal, and now and then not.
fn settings(rng: &mut Rng) -> Settings {
    let n = if rng.one_in(20) { rng.within(1, MAX_N) } else { rng.within(1, 12) };
    let drawn = histories::settings(rng, n);
    let s = if rng.one_in(2) { Settings { m: rng.within(n, 4 * n), ..drawn } } else { drawn };
    let bad = rng.pick(&[0, MAX_M + 1, u32::MAX]);
    match rng.below(80) {
        0 => Settings { n: bad, ..s },
        1 => Settings { nold: bad, ..s },
        2 => Settings { nnew: s.n, ..s },
        3 => Settings { cmax: bad, ..s },
        4 => Settings { amax: bad, ..s },
        5 => Settings { b: bad, ..s },
        6 => Settings { m: bad, ..s },
        _ => s,
    }
}

/// A trace that is none: too long, or with a word that is no read of a block below M.
fn spoilt(rng: &mut Rng, m: u32, mut trace: Vec<u32>) -> Vec<u32> {
    let at = rng.below(trace.len() as u64 + 1) as usize;
    match rng.below(4) {
        0 => trace.resize(MOST_WORDS + 1, words::READ),
        1 => trace.insert(at, words::READ + m),
        2 => trace.insert(at, word(rng.pick(&[0, 2, 2, 2, 3, 4, 5, 6, 7, 15]), 0)),
        _ => trace.insert(at, rng.word()),
    }
    trace
}

/// A call of some kind.
fn call(rng: &mut Rng) -> (Settings, Vec<u32>) {
    let s = settings(rng);
    let m = s.m.clamp(1, MAX_M);
    let drawn = trace(rng, s.n, m);
    let drawn = if rng.one_in(12) { spoilt(rng, m, drawn) } else { drawn };
    (s, drawn)
}

/// In how many of so many calls a comparison differs from the reference's.
fn differences(rng: &mut Rng, calls: u32, one: Compare) -> usize {
    let differs = |rng: &mut Rng| {
        let (s, trace) = call(rng);
        one(s, &trace) != reference::compare(s, &trace)
    };
    (0..calls).filter(|_| differs(rng)).count()
}

#[test]
fn comparisons_beside_the_reference() {
    let mut rng = Rng::announced("comparisons_beside_the_reference", 181);
    let (mut numbers, mut signs, mut reads) = ([0_u32; 15], [0; 3], 0);
    for _ in 0..20_000 {
        let (s, trace) = call(&mut rng);
        let expected = reference::compare(s, &trace);
        assert_eq!(compared(s, &trace), expected, "{s:?} {trace:?}");
        let (number, figures) = expected;
        numbers[number as usize] += 1;
        if number == 0 {
            signs[(figures[3].signum() + 1) as usize] += 1;
            reads += trace.len();
        }
    }
    println!("numbers {numbers:?}; worse, even and better {signs:?}; {reads} reads");
    assert!([1, 2, 3, 4].iter().all(|&n: &usize| numbers[n] > 20) && numbers[14] > 500 && numbers[0] > 10_000);
    assert!(signs.iter().all(|&times| times > 500));
}

/// Room that is too short gets 10 before any other number and is left alone; the rest of longer room stays.
#[test]
fn every_room() {
    let mut rng = Rng::announced("every_room", 182);
    for _ in 0..2_000 {
        let (s, trace) = call(&mut rng);
        let (number, figures) = reference::compare(s, &trace);
        for room in [0, 1, FIGURES - 1, FIGURES, FIGURES + 1, 40] {
            let earlier: Vec<i32> = (0..room).map(|_| rng.word() as i32).collect();
            let mut out = earlier.clone();
            let (mut expected, mut then) = (10, earlier);
            if room >= FIGURES {
                then[..FIGURES].copy_from_slice(&figures);
                expected = number;
            }
            assert_eq!((compare(s, &trace, &mut out), out), (expected, then), "room for {room}");
        }
    }
}

/// Each refusal at the least that it takes, with everything that is checked later wrong too.
#[test]
fn refusals_in_their_order() {
    let good = Settings { n: 8, nnew: 2, nold: 3, cmax: 3, amax: 100, b: 8, m: 64 };
    let bad_trace = reads([64]);
    let bad_size = Settings { b: 0, ..good };
    let bad_limit = Settings { amax: 1_001, ..bad_size };
    let bad_sections = Settings { nold: 0, ..bad_limit };
    let bad_n = Settings { n: MAX_N + 1, ..bad_sections };
    for (s, expected) in [(bad_n, 1), (bad_sections, 2), (bad_limit, 3), (bad_size, 4), (good, BAD_TRACE)] {
        assert_eq!(compared(s, &bad_trace), (expected, [0; FIGURES]), "{s:?}");
        assert_eq!(compare(s, &bad_trace, &mut []), 10);
    }
    for bad in [Settings { m: MAX_M + 1, ..good }, Settings { b: MAX_B + 1, ..good }] {
        assert_eq!(compared(bad, &[]), (4, [0; FIGURES]));
    }
    for trace in [reads([63]), reads([]), reads([0; MOST_WORDS])] {
        assert_eq!(compared(good, &trace).0, 0, "{} words", trace.len());
    }
    assert_eq!(compared(good, &reads([0; MOST_WORDS + 1])), (BAD_TRACE, [0; FIGURES]));
    for wrong in 0..16 {
        let trace = [words::READ + 3, word(wrong, 3), words::READ + 3];
        assert_eq!(compared(good, &trace).0, if wrong == work::READ { 0 } else { BAD_TRACE }, "kind {wrong}");
    }
}

/// Every trace of up to 7 reads over up to 4 blocks, with up to 3 cache blocks, beside every scheme: none has fewer ins
/// than OPT, one has as few, and those of LRU and of the chosen settings lie between the fewest and the most.
#[test]
fn all_schemes_of_all_short_traces() {
    let (mut cases, mut apart) = (0, 0);
    for length in 0..=7_u32 {
        for code in 0..4_u32.pow(length) {
            let trace = reads((0..length).map(|at| code / 4_u32.pow(at) % 4));
            for n in 1..=3 {
                let (fewest, most) = all_schemes(n as usize, &trace);
                assert_eq!(opt(n as usize, &trace).1, fewest, "N {n}, {trace:?}");
                let pairs = (0..n).flat_map(|nnew| (1..=n - nnew).map(move |nold| (nnew, nold)));
                for (nnew, nold) in pairs {
                    let s = Settings { n, nnew, nold, cmax: 2, amax: 3, b: 1, m: 4 };
                    let (number, [by_lru, chosen, by_opt, ..]) = compared(s, &trace);
                    assert_eq!((number, by_opt as u64), (0, fewest), "{s:?} {trace:?}");
                    for ins in [by_lru, chosen] {
                        assert!((fewest..=most).contains(&(ins as u64)), "{ins} ins, {s:?} {trace:?}");
                    }
                    cases += 1;
                }
                apart += u32::from(fewest < most);
            }
        }
    }
    println!("{cases} comparisons; schemes differ on {apart} traces and sizes");
    assert_eq!(cases, (1 + 3 + 6) * (0..=7).map(|length| 4_u32.pow(length)).sum::<u32>());
    assert!(apart > 20_000);
}

/// Longer traces, beside every scheme too.
#[test]
fn all_schemes_of_longer_traces() {
    let mut rng = Rng::announced("all_schemes_of_longer_traces", 183);
    for _ in 0..3_000 {
        let n = rng.within(1, 4);
        let s = Settings { n, nnew: 0, nold: 1, cmax: 2, amax: 100, b: 1, m: 6 };
        let length = rng.within(8, 14);
        let trace = reads((0..length).map(|_| rng.within(0, 5)));
        let (fewest, most) = all_schemes(n as usize, &trace);
        let (_, [by_lru, _, by_opt, ..]) = compared(s, &trace);
        assert_eq!(by_opt as u64, fewest, "N {n}, {trace:?}");
        assert!((fewest..=most).contains(&(by_lru as u64)));
    }
}

/// Ties go to the lowest block. Another choice among those never read again has other victims and the same ins, so that
/// the figures do not show it.
#[test]
fn ties_show_in_victims_alone() {
    let mut rng = Rng::announced("ties_show_in_victims_alone", 184);
    let highest = |residents: &[u32], coming: &[u32]| {
        let turned: Vec<u32> = residents.iter().map(|block| 100 - block).collect();
        let coming: Vec<u32> = coming.iter().map(|word| words::READ + 100 - value(*word)).collect();
        100 - reference::opt_victim(&turned, &coming)
    };
    let mut other = 0;
    for _ in 0..3_000 {
        let (n, length) = (rng.within(1, 5) as usize, rng.within(0, 40));
        let trace = reads((0..length).map(|_| rng.within(0, 9)));
        let (victims, ins) = opt(n, &trace);
        let (others, as_many) = reference::opt_by(highest, n, &trace);
        assert_eq!(ins, as_many, "N {n}, {trace:?}");
        other += u32::from(victims != others);
    }
    println!("other victims in {other} of 3,000 traces");
    assert!(other > 1_000);
    // 5, 3 and 8 are never read again
    assert_eq!(reference::opt_victim(&[5, 7, 3, 8], &reads([7])), 3);
    // nor is 4
    assert_eq!(reference::opt_victim(&[9, 4, 7], &reads([7, 7, 9])), 4);
}

/// The ins that a comparison counts are the cache's own: its total, once it has read the trace batch after batch.
#[test]
fn the_cache_counts_the_same_ins() {
    let mut rng = Rng::announced("the_cache_counts_the_same_ins", 185);
    let ins = |s: Settings, trace: &[u32]| {
        let mut dir = vec![0; directory_length(s) as usize];
        assert_eq!(fresh(s, &mut dir), 0);
        let (mut data, mut store) = (vec![0; s.n as usize], vec![0; s.m as usize]);
        for part in trace.chunks(work::MOST_WORDS) {
            let (mut answers, mut outgoing) = (vec![0; part.len()], vec![0; part.len()]);
            assert_eq!(batch(&mut dir, &mut data, &mut store, part, &[], &mut answers, &mut outgoing), 0);
        }
        let mut out = [0; 4];
        assert_eq!(totals(&dir, &mut out), 0);
        out[2] as i32
    };
    for _ in 0..3_000 {
        let n = rng.within(1, 60);
        let s = Settings { b: 1, ..histories::settings(&mut rng, n) };
        let trace = trace(&mut rng, n, s.m);
        let (_, [by_lru, chosen, ..]) = compared(s, &trace);
        assert_eq!((by_lru, chosen), (ins(lru(s), &trace), ins(s, &trace)), "{s:?}");
    }
}

/// LRU is what that name has always meant: a list by last use, whose last leaves.
#[test]
fn lru_is_least_recently_used() {
    let mut rng = Rng::announced("lru_is_least_recently_used", 186);
    for _ in 0..2_000 {
        let n = rng.within(1, 60);
        let s = histories::settings(&mut rng, n);
        let trace = trace(&mut rng, n, s.m);
        let (mut used, mut ins) = (VecDeque::new(), 0);
        for &word in &trace {
            match used.iter().position(|&other| other == word) {
                Some(at) => drop(used.remove(at)),
                None => ins += 1,
            }
            used.push_front(word);
            used.truncate(n as usize);
        }
        assert_eq!(compared(s, &trace).1[0], ins, "{s:?}");
    }
}

/// The longest traces of several kinds at several sizes, and the time that one takes.
#[test]
fn the_longest_traces() {
    let mut rng = Rng::announced("the_longest_traces", 187);
    let mut slowest = 0.0_f64;
    for n in [1, 2, 64, 512, 4_095, 4_096] {
        let kinds: [&mut dyn FnMut(u32) -> u32; 5] = [
            &mut |at| at,
            &mut |at| at % (n + 1),
            &mut |at| at % 1_000,
            &mut |_| rng.within(0, MAX_M - 1),
            &mut |at| at.wrapping_mul(at) % 3_000,
        ];
        for block in kinds {
            let trace = reads((0..MOST_WORDS as u32).map(block));
            for nold in [1, n.div_ceil(2), n] {
                let s = Settings { n, nnew: 0, nold, cmax: 8, amax: 100, b: MAX_B, m: MAX_M };
                let start = Instant::now();
                let found = compared(s, &trace);
                slowest = slowest.max(start.elapsed().as_secs_f64());
                assert_eq!(found, reference::compare(s, &trace), "{s:?}");
            }
        }
    }
    println!("the slowest took {:.1} ms", 1_000.0 * slowest);
}

/// A comparison with another OPT, another LRU or other differences.
fn with(
    s: Settings, trace: &[u32], opt: fn(usize, &[u32]) -> u64, lru: fn(Settings) -> Settings,
    differences: fn(i32, i32, i32) -> [i32; 2],
) -> (u32, Figures) {
    match number(s, trace) {
        0 => {
            let [by_lru, chosen] = [lru(s), s].map(|s| stack_ins(s, trace) as i32);
            let by_opt = opt(s.n as usize, trace) as i32;
            let [gain, possible] = differences(by_lru, chosen, by_opt);
            (0, [by_lru, chosen, by_opt, gain, possible])
        }
        refused => (refused, [0; FIGURES]),
    }
}
fn best(n: usize, trace: &[u32]) -> u64 {
    opt(n, trace).1
}
/// The resident with the greatest measure of its next read.
fn by_next(residents: &[u32], coming: &[u32], measure: fn(Option<usize>) -> i64) -> u32 {
    let next = |block: u32| coming.iter().position(|&word| value(word) == block);
    residents.iter().copied().max_by_key(|&block| measure(next(block))).unwrap()
}

/// What a careless reading makes of the request.
const WRONG: [(&str, Compare); 13] = [
    ("the nearest leaves", |s, trace| {
        fn opt(n: usize, trace: &[u32]) -> u64 {
            let victim = |residents: &[u32], coming: &[u32]| {
                by_next(residents, coming, |next| -next.map_or(i64::MAX, |reads| reads as i64))
            };
            reference::opt_by(victim, n, trace).1
        }
        with(s, trace, opt, lru, improvement)
    }),
    ("never is not furthest", |s, trace| {
        fn opt(n: usize, trace: &[u32]) -> u64 {
            let victim = |residents: &[u32], coming: &[u32]| {
                by_next(residents, coming, |next| next.map_or(-1, |reads| reads as i64))
            };
            reference::opt_by(victim, n, trace).1
        }
        with(s, trace, opt, lru, improvement)
    }),
    ("OPT may bypass", |s, trace| {
        fn opt(n: usize, trace: &[u32]) -> u64 {
            // the block that misses is one of those that may leave
            let (mut residents, mut ins) = (vec![], 0);
            for (at, &word) in trace.iter().enumerate() {
                if !residents.contains(&value(word)) {
                    residents.push(value(word));
                    ins += 1;
                }
                if residents.len() > n {
                    let victim = reference::opt_victim(&residents, &trace[at + 1..]);
                    residents.retain(|&block| block != victim);
                }
            }
            ins
        }
        with(s, trace, opt, lru, improvement)
    }),
    ("OPT with a block more", |s, trace| with(s, trace, |n, trace| best(n + 1, trace), lru, improvement)),
    ("OPT without the first loads", |s, trace| {
        let warm = |n: usize, trace: &[u32]| best(n, trace).saturating_sub(n as u64);
        with(s, trace, warm, lru, improvement)
    }),
    ("LRU with Nold 2", |s, trace| with(s, trace, best, |s| Settings { nnew: 0, nold: s.n.min(2), ..s }, improvement)),
    ("LRU with all blocks old", |s, trace| with(s, trace, best, |s| Settings { nnew: 0, nold: s.n, ..s }, improvement)),
    ("a negative difference cut to 0", |s, trace| {
        with(s, trace, best, lru, |lru, chosen, opt| improvement(lru, chosen, opt).map(|figure| figure.max(0)))
    }),
    ("a difference where LRU = OPT", |s, trace| {
        with(s, trace, best, lru, |lru, chosen, opt| [lru - chosen, lru - opt])
    }),
    ("chosen − LRU", |s, trace| {
        with(s, trace, best, lru, |lru, chosen, opt| match lru - opt {
            0 => [0, 0],
            possible => [chosen - lru, possible],
        })
    }),
    ("a write for a read", |s, trace| {
        let reads: Vec<u32> =
            trace.iter().map(|&word| if kind(word) == work::WRITE { word - words::READ } else { word }).collect();
        reference::compare(s, &reads)
    }),
    ("4,096 reads declined", |s, trace| match trace.len() {
        MOST_WORDS if number(s, trace) == 0 => (BAD_TRACE, [0; FIGURES]),
        _ => reference::compare(s, trace),
    }),
    ("figures beside 14", |s, trace| match reference::compare(s, trace) {
        (BAD_TRACE, _) => (BAD_TRACE, [trace.len() as i32; FIGURES]),
        compared => compared,
    }),
];

/// The calls drawn above tell each of these from the reference.
#[test]
fn wrong_comparisons_are_found_out() {
    let mut rng = Rng::announced("wrong_comparisons_are_found_out", 188);
    for (name, wrong) in WRONG {
        let times = differences(&mut rng, 4_000, wrong);
        println!("{name}: {times} of 4,000 calls differ");
        assert!(times > 5, "{name}");
    }
    assert_eq!(differences(&mut rng, 300, |s, trace| with(s, trace, best, lru, improvement)), 0);
}

/// The samples: the reads of the day that the program runs, and a database's pages.
#[test]
fn sample_traces() {
    let blocks = |name: &str| -> Vec<u32> {
        let text = fs::read_to_string(root().join("samples").join(name)).unwrap();
        text.lines().map(|line| line.parse().unwrap()).collect()
    };
    let day = fs::read(root().join("samples/day.words")).unwrap();
    let day = day.chunks_exact(4).map(|bytes| u32::from_le_bytes(bytes.try_into().unwrap()));
    let read: Vec<u32> = day.filter(|&word| kind(word) == work::READ).map(value).collect();
    assert_eq!(blocks("day.trace"), read);
    assert_eq!(compared(BELT, &reads(read.clone())), reference::compare(BELT, &reads(read)));
    let pages = blocks("pages.trace");
    assert_eq!(pages.len(), MOST_WORDS);
    for n in [16, 128, 1_024] {
        let s = Settings { n, nnew: n / 4, nold: n * 3 / 5, cmax: 8, amax: 100, b: 512, m: 1_519 };
        assert_eq!(compared(s, &reads(pages.clone())), reference::compare(s, &reads(pages.clone())));
    }
}
