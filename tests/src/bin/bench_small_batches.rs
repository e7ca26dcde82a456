//! What one batch costs, by its length: microseconds of the batch, nanoseconds of a word, the share of the check that
//! every batch begins with, which is what a batch without words takes. Then an occupancy by count class beside a check,
//! and a flush and ticks over residents that are all modified.
//! Run with `cargo run --release --bin bench_small_batches`.
use cache_tests::reference::directory::{entry, header, settings_of, value, word, Map};
use cache_tests::reference::rng::Rng;
use cache_tests::reference::settings::{directory_length, named, Profile};
use cache_tests::reference::stack::work;
use cache_tests::{batch, fresh, sound, table};
use std::hint::black_box;
use std::time::Instant;

const SIZES: [u32; 3] = [64, 512, 4_096];
const LENGTHS: [usize; 4] = [1, 16, 256, 1_024];
const B: usize = 64;
/// Blocks of the store for each cache block.
const STORE_FACTOR: u32 = 4;
const TRACE: usize = 1 << 16;
const ROUNDS: usize = 301;
/// Entries that the checks of a round go through at most: a round should end before the machine turns to other work.
const ENTRIES: usize = 1 << 17;
const LONGEST: usize = 1_024;

/// The k-th block as often as 1 / k asks for, the blocks in any order; a quarter writes.
fn trace(rng: &mut Rng, m: u32) -> Vec<u32> {
    let mut order: Vec<u32> = (0..m).collect();
    rng.shuffle(&mut order);
    let add = |sum: &mut f64, k: u32| {
        *sum += 1.0 / f64::from(k);
        Some(*sum)
    };
    let ends: Vec<f64> = (1..=m).scan(0.0, add).collect();
    let one = |rng: &mut Rng| {
        let drawn = rng.below(1 << 40) as f64 / (1u64 << 40) as f64 * ends[ends.len() - 1];
        let block = order[ends.partition_point(|&end| end <= drawn).min(order.len() - 1)];
        word(if rng.one_in(4) { work::WRITE } else { work::READ }, block)
    };
    (0..TRACE).map(|_| one(rng)).collect()
}

struct Cache {
    dir: Vec<u32>,
    data: Vec<u8>,
    store: Vec<u8>,
    answers: Vec<u32>,
    incoming: Vec<u8>,
    outgoing: Vec<u8>,
}

impl Cache {
    /// A full cache that has seen the trace.
    fn full(n: u32, trace: &[u32]) -> Cache {
        let s = named(Profile::Unix, n, B as u32, STORE_FACTOR * n);
        let bytes = |blocks: u32| vec![0; blocks as usize * B];
        let (dir, answers) = (vec![0; directory_length(s) as usize], vec![0; LONGEST]);
        let (incoming, outgoing) = (vec![1; LONGEST * B], vec![0; LONGEST * B]);
        let mut cache = Cache { dir, data: bytes(n), store: bytes(s.m), answers, incoming, outgoing };
        assert_eq!(fresh(s, &mut cache.dir), 0);
        cache.round(trace.chunks(LONGEST));
        assert_eq!(value(cache.dir[header::RESIDENTS]), n, "the cache is not full");
        cache
    }
    /// Microseconds of one of these batches.
    fn round<'a>(&mut self, batches: impl ExactSizeIterator<Item = &'a [u32]>) -> f64 {
        let (start, count) = (Instant::now(), batches.len());
        for words in batches {
            let (dir, data, store) = (&mut self.dir, &mut self.data, &mut self.store);
            let number = batch(dir, data, store, words, &self.incoming, &mut self.answers, &mut self.outgoing);
            assert_eq!(black_box(number), 0);
        }
        start.elapsed().as_secs_f64() * 1e6 / count as f64
    }
}

fn row(cache: &mut Cache, n: u32, trace: &[u32], length: usize) {
    // enough words for a fair share of hits and misses, enough batches for the clock
    let batches = (LONGEST / length).min(ENTRIES / n as usize).max(16);
    let (mut of_batch, mut of_check) = (f64::MAX, f64::MAX);
    for words in trace.chunks(batches * length).cycle().take(ROUNDS) {
        of_batch = of_batch.min(cache.round(words.chunks(length)));
        of_check = of_check.min(cache.round(vec![&[][..]; batches].into_iter()));
    }
    let (of_word, share) = (of_batch * 1e3 / length as f64, 100.0 * of_check / of_batch);
    println!("{n:>6} {length:>6} {of_batch:>10.2} {of_word:>10.1} {of_check:>10.2} {share:>6.0} %");
}

/// Microseconds of one of these calls.
fn best(calls: usize, call: impl Fn()) -> f64 {
    let round = |_| {
        let start = Instant::now();
        (0..calls).for_each(|_| call());
        start.elapsed().as_secs_f64() * 1e6 / calls as f64
    };
    (0..ROUNDS).map(round).fold(f64::MAX, f64::min)
}

/// One check and one walk along the residents, beside the check alone.
fn occupancy_row(dir: &[u32], n: u32) {
    let calls = (ENTRIES / n as usize).min(LONGEST);
    let of_check = best(calls, || assert!(black_box(sound(black_box(dir)))));
    let of_table = best(calls, || assert_eq!(black_box(table(black_box(dir))).0, 0));
    println!("{n:>6} {of_table:>14.2} {of_check:>10.2} {:>8.2}", of_table / of_check);
}

/// Microseconds of a batch of one word over this directory, which every round begins with.
fn of_word(cache: &mut Cache, start: &[u32], w: u32, written: u32) -> f64 {
    let mut round = |_| {
        cache.dir.copy_from_slice(start);
        let time = cache.round([&[w][..]].into_iter());
        assert_eq!(value(cache.answers[0]), written);
        time
    };
    (0..ROUNDS).map(&mut round).fold(f64::MAX, f64::min)
}

/// A flush, a tick that marks and a tick that writes out, each over residents that are all modified.
fn tick_row(cache: &mut Cache, n: u32) {
    let (flush, tick) = (word(work::FLUSH, 0), word(work::TICK, 0));
    let map = Map::of(settings_of(&cache.dir));
    let writes: Vec<u32> = (1..=n).map(|e| word(work::WRITE, value(cache.dir[map.entry(e, entry::BLOCK)]))).collect();
    cache.round([&[flush][..]].into_iter());
    cache.round(writes.chunks(LONGEST));
    let modified = cache.dir.clone();
    cache.round([&[tick][..]].into_iter());
    let seen = cache.dir.clone();
    let times = [(&modified, flush, n), (&modified, tick, 0), (&seen, tick, n)];
    let [flush, marks, writes_out] = times.map(|(start, w, written)| of_word(cache, start, w, written));
    println!("{n:>6} {flush:>10.2} {marks:>16.2} {writes_out:>20.2}");
}

fn main() {
    let mut rng = Rng::announced("bench_small_batches", 44);
    println!("UNIX settings, B = {B}, M = {STORE_FACTOR} N, a full cache, skewed blocks, a quarter writes;");
    println!("best of {ROUNDS} rounds; the share is that of the check in the batch");
    println!("{:>6} {:>6} {:>10} {:>10} {:>10} {:>8}", "N", "words", "batch, us", "word, ns", "check, us", "share");
    let mut full = vec![];
    for n in SIZES {
        let trace = trace(&mut rng, STORE_FACTOR * n);
        let mut cache = Cache::full(n, &trace);
        for length in LENGTHS {
            row(&mut cache, n, &trace, length);
        }
        full.push(cache);
    }
    println!("{:>6} {:>14} {:>10} {:>8}", "N", "occupancy, us", "check, us", "ratio");
    full.iter().zip(SIZES).for_each(|(cache, n)| occupancy_row(&cache.dir, n));
    println!("{:>6} {:>10} {:>16} {:>20}", "N", "flush, us", "tick marks, us", "tick writes out, us");
    full.iter_mut().zip(SIZES).for_each(|(cache, n)| tick_row(cache, n));
}
