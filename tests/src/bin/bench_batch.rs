//! Nanoseconds of one reference in batches of 1,024 reads and writes: the library beside the same cache in plain Rust,
//! with the same check before every batch, its bytes copied by the C library, as the library's are, or by a loop; and
//! beside a plain LRU cache, which checks nothing. The library's check of the directory alone; hit ratios.
//! Run with `cargo run --release --bin bench_batch`; then, to look closer, rounds, N and B may follow.
use cache_tests::reference::beside::Batch;
use cache_tests::reference::directory::{fresh_words, kind, value, word};
use cache_tests::reference::fast_cache;
use cache_tests::reference::lru_cache::LruCache;
use cache_tests::reference::rng::Rng;
use cache_tests::reference::settings::{named, Profile};
use cache_tests::reference::stack::{answer, work};
use cache_tests::Settings;
use std::hint::black_box;
use std::time::Instant;

const SIZES: [u32; 3] = [64, 512, 4_096];
const BLOCK_SIZES: [u32; 2] = [64, 4_096];
const WORDS: usize = 1_024;
const BATCHES: usize = 48;
const ROUNDS: usize = 121;
/// Blocks of the store for each cache block.
const STORE_FACTOR: u32 = 4;

type Blocks = fn(&mut Rng, Settings, usize) -> Vec<u32>;

fn uniform(rng: &mut Rng, s: Settings, length: usize) -> Vec<u32> {
    (0..length).map(|_| rng.within(0, s.m - 1)).collect()
}

/// The k-th block as often as 1 / k asks for, the blocks in any order.
fn skewed(rng: &mut Rng, s: Settings, length: usize) -> Vec<u32> {
    let mut order: Vec<u32> = (0..s.m).collect();
    rng.shuffle(&mut order);
    let mut ends = Vec::new();
    let mut end = 0.0;
    for k in 1..=s.m {
        end += 1.0 / f64::from(k);
        ends.push(end);
    }
    let mut one = || {
        let drawn = rng.below(1 << 40) as f64 / (1u64 << 40) as f64 * end;
        order[ends.partition_point(|&e| e <= drawn).min(order.len() - 1)]
    };
    (0..length).map(|_| one()).collect()
}

/// Every other reference goes to a hot set of three quarters of N; the rest sweep over all other blocks in turn.
fn sweep(rng: &mut Rng, s: Settings, length: usize) -> Vec<u32> {
    let hot = (s.n * 3 / 4).max(1);
    let mut next = hot;
    let mut one = || {
        if rng.one_in(2) {
            return rng.within(0, hot - 1);
        }
        next = if next + 1 < s.m { next + 1 } else { hot };
        next
    };
    (0..length).map(|_| one()).collect()
}

const TRACES: [(&str, Blocks); 3] = [("uniform", uniform), ("skewed", skewed), ("sweep", sweep)];

/// Batches of work words, a quarter of them writes.
fn batches(rng: &mut Rng, s: Settings, blocks: Blocks) -> Vec<Vec<u32>> {
    let blocks = blocks(rng, s, WORDS * BATCHES);
    let one = |&block: &u32| word(if rng.one_in(4) { work::WRITE } else { work::READ }, block);
    let words: Vec<u32> = blocks.iter().map(one).collect();
    words.chunks(WORDS).map(|batch| batch.to_vec()).collect()
}

/// A cache over a directory: the library or the plain one.
struct Linked {
    batch: Batch,
    dir: Vec<u32>,
    data: Vec<u8>,
    store: Vec<u8>,
    answers: Vec<u32>,
}

impl Linked {
    fn new(batch: Batch, s: Settings) -> Linked {
        let (data, store) = (vec![0; (s.n * s.b) as usize], vec![0; (s.m * s.b) as usize]);
        Linked { batch, dir: fresh_words(s), data, store, answers: vec![0; WORDS * BATCHES] }
    }
    fn round(&mut self, batches: &[Vec<u32>], incoming: &[u8], outgoing: &mut [u8]) -> f64 {
        let start = Instant::now();
        for (words, answers) in batches.iter().zip(self.answers.chunks_mut(WORDS)) {
            let number =
                (self.batch)(&mut self.dir, &mut self.data, &mut self.store, words, incoming, answers, outgoing);
            assert_eq!(number, 0);
            black_box(&mut *outgoing);
        }
        nanoseconds(start)
    }
    /// Of a batch without words, which is the check alone, for each word of a full one.
    fn check(&mut self) -> f64 {
        let start = Instant::now();
        for _ in 0..BATCHES {
            let number = (self.batch)(&mut self.dir, &mut self.data, &mut self.store, &[], &[], &mut [], &mut []);
            assert_eq!(number, 0);
        }
        nanoseconds(start)
    }
    fn hit_ratio(&self) -> f64 {
        self.answers.iter().filter(|&&a| kind(a) == answer::HIT).count() as f64 / self.answers.len() as f64
    }
}

fn lru_round(lru: &mut LruCache, b: usize, batches: &[Vec<u32>], incoming: &[u8], outgoing: &mut [u8]) -> f64 {
    let start = Instant::now();
    for words in batches {
        let (mut incoming, mut outgoing_blocks) = (incoming.chunks_exact(b), outgoing.chunks_exact_mut(b));
        for &w in words {
            let block = value(w);
            match kind(w) {
                work::READ => lru.read(block, outgoing_blocks.next().unwrap()),
                _ => lru.write(block, incoming.next().unwrap()),
            }
        }
        black_box(&mut *outgoing);
    }
    nanoseconds(start)
}

fn nanoseconds(start: Instant) -> f64 {
    start.elapsed().as_secs_f64() * 1e9 / (WORDS * BATCHES) as f64
}

fn row(rng: &mut Rng, s: Settings, name: &str, blocks: Blocks, rounds: usize) {
    let batches = batches(rng, s, blocks);
    let b = s.b as usize;
    let (incoming, mut outgoing) = (vec![1; WORDS * b], vec![0; WORDS * b]);
    let mut library = Linked::new(cache_tests::batch, s);
    let mut plain = Linked::new(fast_cache::batch, s);
    let mut by_loop = Linked::new(fast_cache::batch_by_loop, s);
    let mut lru = LruCache::new(s.n as usize, b, vec![0; (s.m * s.b) as usize]);
    let (mut best, mut lru_hits) = ([f64::MAX; 5], 0);
    // in turn, so that all meet the same machine; each round goes on from where the last one ended
    for round in 0..=rounds {
        let before = lru.hits;
        let times = [
            library.round(&batches, &incoming, &mut outgoing),
            plain.round(&batches, &incoming, &mut outgoing),
            by_loop.round(&batches, &incoming, &mut outgoing),
            lru_round(&mut lru, b, &batches, &incoming, &mut outgoing),
            library.check(),
        ];
        lru_hits = lru.hits - before;
        assert!(library.answers == plain.answers && library.answers == by_loop.answers, "different answers");
        // the first round fills
        if round > 0 {
            best.iter_mut().zip(times).for_each(|(best, time)| *best = best.min(time));
        }
    }
    let [of_library, of_plain, of_loop, of_lru, of_check] = best;
    print!(
        "{:>6} {b:>6} {name:>8} {of_library:>8.1} {of_check:>6.1} {of_plain:>8.1} {of_loop:>8.1} {of_lru:>8.1}",
        s.n
    );
    print!(" {:>9.2} {:>8.2} {:>7.2}", of_library / of_plain, of_library / of_loop, of_library / of_lru);
    println!(" {:>6.3} {:>8.3}", library.hit_ratio(), lru_hits as f64 / (WORDS * BATCHES) as f64);
}

fn main() {
    let asked: Vec<u32> = std::env::args().skip(1).map(|word| word.parse().unwrap()).collect();
    let of = |place: usize, value: u32| asked.get(place).is_none_or(|&only| only == value);
    let rounds = asked.first().map_or(ROUNDS, |&rounds| rounds as usize);
    let mut rng = Rng::announced("bench_batch", 42);
    println!("UNIX settings, M = {STORE_FACTOR} N, a quarter writes; best of {rounds} rounds of {BATCHES} batches of {WORDS} words;");
    println!("nanoseconds of one reference, the check alone among them; the library's ratio to each other; hit ratios");
    println!(
        "{:>6} {:>6} {:>8} {:>8} {:>6} {:>8} {:>8} {:>8} {:>9} {:>8} {:>7} {:>6} {:>8}",
        "N",
        "B",
        "trace",
        "library",
        "check",
        "plain",
        "by loop",
        "LRU",
        "to plain",
        "to loop",
        "to LRU",
        "hits",
        "LRU hits"
    );
    for n in SIZES.into_iter().filter(|&n| of(1, n)) {
        for b in BLOCK_SIZES.into_iter().filter(|&b| of(2, b)) {
            for (name, blocks) in TRACES {
                row(&mut rng, named(Profile::Unix, n, b, STORE_FACTOR * n), name, blocks, rounds);
            }
        }
    }
}
