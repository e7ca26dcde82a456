//! What pins cost a replacement: a full cache, some percent of whose residents are pinned, and misses alone.
//! Run with `cargo run --release --bin bench_pins`, or with rounds, a percentage and `random` or `tail` for one row, as
//! callgrind needs it.
use cache_tests::reference::builder::{Plan, Totals};
use cache_tests::reference::directory::{kind, word};
use cache_tests::reference::marks::PINNED;
use cache_tests::reference::rng::Rng;
use cache_tests::reference::samples;
use cache_tests::reference::settings::{named, Profile};
use cache_tests::reference::stack::{answer, work};
use cache_tests::{batch, Settings};
use std::hint::black_box;
use std::time::Instant;

const N: u32 = 4_096;
const B: usize = 64;
/// Blocks of the store for each cache block.
const STORE_FACTOR: u32 = 4;
const WORDS: usize = 1_024;
/// Batches of a round: no block is read twice in one, so that every read misses.
const BATCHES: usize = 12;
const ROUNDS: usize = 31;

/// Where the pinned residents stand.
#[derive(Clone, Copy, Debug, PartialEq, Eq)]
enum Where {
    Random,
    Tail,
}

struct Cache {
    dir: Vec<u32>,
    data: Vec<u8>,
    store: Vec<u8>,
    answers: Vec<u32>,
    outgoing: Vec<u8>,
}

impl Cache {
    fn over(s: Settings, dir: Vec<u32>) -> Cache {
        let (data, store) = (vec![0; (s.n * s.b) as usize], vec![0; (s.m * s.b) as usize]);
        Cache { dir, data, store, answers: vec![0; WORDS], outgoing: vec![0; WORDS * B] }
    }
    /// Nanoseconds of these batches, all of whose reads replace.
    fn round(&mut self, words: &[u32]) -> f64 {
        let mut time = 0.0;
        for words in words.chunks(WORDS) {
            let start = Instant::now();
            let (dir, data, store) = (&mut self.dir, &mut self.data, &mut self.store);
            let number = batch(dir, data, store, words, &[], &mut self.answers, &mut self.outgoing);
            time += start.elapsed().as_secs_f64() * 1e9;
            assert_eq!(black_box(number), 0);
            let replaced = self.answers[..words.len()].iter().all(|&w| kind(w) == answer::REPLACED);
            assert!(replaced, "a read did not replace");
        }
        time
    }
}

/// A full cache without marks, counts from 1 to a little above Cmax; the blocks that are not in it, in any order.
fn plan(rng: &mut Rng) -> (Plan, Vec<u32>) {
    let s = named(Profile::Unix, N, B as u32, STORE_FACTOR * N);
    let mut plan = samples::plan_of(rng, s, N);
    plan.totals = Totals::default();
    for resident in &mut plan.residents {
        (resident.count, resident.marks) = (rng.within(1, s.cmax + 4), 0);
    }
    let mut absent: Vec<u32> = (0..s.m).collect();
    plan.residents.iter().for_each(|resident| absent[resident.block as usize] = s.m);
    absent.retain(|&block| block < s.m);
    rng.shuffle(&mut absent);
    (plan, absent)
}

/// The same plan with some of its residents pinned.
fn pinned(rng: &mut Rng, plan: &Plan, percent: u32, place: Where) -> Plan {
    let mut plan = plan.clone();
    let mut positions: Vec<usize> = (0..N as usize).rev().collect();
    if place == Where::Random {
        rng.shuffle(&mut positions);
    }
    positions.truncate((N * percent / 100) as usize);
    positions.iter().for_each(|&position| plan.residents[position].marks = PINNED);
    plan
}

/// Nanoseconds of a replacement, the best of the rounds: a batch's time less that of the check, which is what a batch
/// without words takes.
fn replacement(plan: &Plan, reads: &[u32], rounds: usize) -> f64 {
    let start = plan.build();
    let mut cache = Cache::over(plan.settings, start.clone());
    let (mut of_reads, mut of_checks) = (f64::MAX, f64::MAX);
    for _ in 0..rounds {
        cache.dir.copy_from_slice(&start);
        of_checks = of_checks.min(best_of_checks(&mut cache));
        of_reads = of_reads.min(cache.round(reads));
    }
    (of_reads - BATCHES as f64 * of_checks) / reads.len() as f64
}
fn best_of_checks(cache: &mut Cache) -> f64 {
    let one = |_| {
        let start = Instant::now();
        assert_eq!(batch(&mut cache.dir, &mut cache.data, &mut cache.store, &[], &[], &mut [], &mut []), 0);
        start.elapsed().as_secs_f64() * 1e9
    };
    (0..BATCHES).map(one).fold(f64::MAX, f64::min)
}

fn main() {
    let mut rng = Rng::announced("bench_pins", 45);
    let (plan, absent) = plan(&mut rng);
    let reads: Vec<u32> = absent[..BATCHES * WORDS].iter().map(|&block| word(work::READ, block)).collect();
    let arguments: Vec<String> = std::env::args().skip(1).collect();
    if let [rounds, percent, place] = &arguments[..] {
        let place = if place == "tail" { Where::Tail } else { Where::Random };
        let plan = pinned(&mut rng, &plan, percent.parse().unwrap(), place);
        let mut cache = Cache::over(plan.settings, plan.build());
        for _ in 0..rounds.parse::<usize>().unwrap() {
            cache.dir = plan.build();
            cache.round(&reads);
        }
        return println!("{} replacements a round, in {BATCHES} batches", reads.len());
    }
    println!("UNIX settings, N = {N}, B = {B}, M = {STORE_FACTOR} N, a full cache, reads that all replace;");
    println!("best of {ROUNDS} rounds of {BATCHES} batches of {WORDS} words, the check taken off");
    println!("{:>8} {:>8} {:>18} {:>8}", "pinned", "where", "ns a replacement", "to 0 %");
    let mut of_none = f64::NAN;
    for (percent, place) in [(0, Where::Random), (10, Where::Random), (90, Where::Random), (90, Where::Tail)] {
        let time = replacement(&pinned(&mut rng, &plan, percent, place), &reads, ROUNDS);
        if percent == 0 {
            of_none = time;
        }
        println!("{percent:>6} % {:>8} {time:>18.1} {:>8.2}", format!("{place:?}"), time / of_none);
    }
}
