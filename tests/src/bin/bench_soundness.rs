//! Microseconds of one soundness check: the library beside C and plain Rust, on the same directories in one process.
//! Run with `cargo run --release --bin bench_soundness`. With a kind and a size, as in `bench_soundness scattered 512`,
//! the library and C check one directory once each, so that their instructions can be counted. `bench_soundness rows`
//! prints the table of the most comparisons for each N, worked out from the hash.
use cache_tests::reference::rng::Rng;
use cache_tests::reference::settings::{named, Profile, MAX_CMAX, MAX_M};
use cache_tests::reference::{c_judge, crowding, fast_judge, samples};
use cache_tests::Settings;
use std::hint::black_box;
use std::time::Instant;

const SIZES: [u32; 3] = [64, 512, 4_096];
/// Entries of all directories of a size: so many directories that no check profits from having learnt them.
const ENTRIES: usize = 1 << 15;
const ROUNDS: usize = 31;
/// Enough to drive a directory out of the caches, a byte of each of their lines.
const SWEPT_BYTES: usize = 128 << 20;
const LINE_BYTES: usize = 64;

/// How the blocks of directories are picked.
struct Kind {
    name: &'static str,
    /// Full directories for so many cache blocks, so many of them.
    directories: fn(&mut Rng, u32, usize) -> Vec<Vec<u32>>,
    /// Entries checked in a round, whatever the size.
    entries_a_round: usize,
}

const SCATTERED: Kind = Kind { name: "scattered", directories: scattered, entries_a_round: 1 << 20 };
/// Each check takes so long that fewer do.
const LONGEST: Kind = Kind { name: "longest", directories: longest, entries_a_round: 1 << 18 };

fn scattered(rng: &mut Rng, n: u32, count: usize) -> Vec<Vec<u32>> {
    let s = named(Profile::Unix, n, 512, MAX_M);
    let directory = |_| {
        let blocks = samples::scattered_blocks(rng, s, n);
        samples::plan_with(rng, s, blocks).build()
    };
    (0..count).map(directory).collect()
}

/// The longest search for second residents that the size allows, as many chains as there can be, and every resident in
/// one of them.
fn longest(rng: &mut Rng, n: u32, count: usize) -> Vec<Vec<u32>> {
    let s = Settings { cmax: MAX_CMAX, ..named(Profile::Unix, n, 512, MAX_M) };
    let mut blocks = samples::crowded_blocks(rng, s, n);
    let directory = |_| {
        rng.shuffle(&mut blocks);
        let mut plan = samples::plan_with(rng, s, blocks.clone());
        plan.residents.iter_mut().for_each(|resident| resident.count = rng.within(1, MAX_CMAX));
        plan.build()
    };
    (0..count).map(directory).collect()
}

/// Microseconds of one check in one round.
fn round(directories: &[Vec<u32>], times: usize, check: fn(&[u32]) -> bool) -> f64 {
    let start = Instant::now();
    for _ in 0..times {
        for words in directories {
            assert!(black_box(check(black_box(words))), "every directory here is sound");
        }
    }
    start.elapsed().as_secs_f64() * 1e6 / (times * directories.len()) as f64
}

/// Microseconds of one check of the library whose directory is in no cache of the processor: the median, and the
/// longest, which may hold what else the machine did.
fn cold(directories: &[Vec<u32>]) -> (f64, f64) {
    let mut memory = vec![0u8; SWEPT_BYTES];
    let mut timed = |i: usize| {
        memory.iter_mut().step_by(LINE_BYTES).for_each(|byte| *byte = black_box(*byte).wrapping_add(1));
        let words = &directories[i % directories.len()];
        let start = Instant::now();
        assert!(black_box(cache_tests::sound(black_box(words))));
        start.elapsed().as_secs_f64() * 1e6
    };
    let mut times: Vec<f64> = (0..ROUNDS).map(&mut timed).collect();
    times.sort_by(f64::total_cmp);
    (times[ROUNDS / 2], times[ROUNDS - 1])
}

/// A row of the table, without an end.
fn row(rng: &mut Rng, n: u32, kind: &Kind) -> String {
    let directories = (kind.directories)(rng, n, ENTRIES / n as usize);
    let times = kind.entries_a_round / ENTRIES;
    let checks = [cache_tests::sound, c_judge::sound, fast_judge::sound];
    let mut best = [f64::MAX; 3];
    // in turn, so that all meet the same machine
    for _ in 0..ROUNDS {
        for (best, check) in best.iter_mut().zip(checks) {
            *best = best.min(round(&directories, times, check));
        }
    }
    let [library, c, plain] = best;
    let (median, longest) = cold(&directories);
    let (name, length, to_c, to_plain) = (kind.name, directories[0].len(), library / c, library / plain);
    format!(
        "{n:>6} {length:>7} {name:>10} {library:>9.2} {c:>9.2} {plain:>11.2} {to_c:>6.2} {to_plain:>8.2} \
         {median:>8.2} {longest:>8.2}"
    )
}

fn table(rng: &mut Rng) {
    println!("full directories, shuffled; microseconds of one check, the best of {ROUNDS} rounds, and their ratios;");
    println!("cold: the library's of {ROUNDS} checks whose directory is in no cache, the median and the longest;");
    println!("compared: comparisons in the search for second residents");
    println!(
        "{:>6} {:>7} {:>10} {:>9} {:>9} {:>11} {:>6} {:>8} {:>8} {:>8} {:>9}",
        "N", "words", "blocks", "library", "C", "plain Rust", "to C", "to Rust", "cold", "longest", "compared"
    );
    for n in SIZES {
        println!("{}", row(rng, n, &SCATTERED));
    }
    for n in crowding::powers() {
        println!("{} {:>9}", row(rng, n, &LONGEST), crowding::comparisons(n, MAX_M));
    }
}

/// One directory, and one check of the library and of C.
fn once(rng: &mut Rng, kind: &str, n: u32) {
    let kind = [SCATTERED, LONGEST].into_iter().find(|one| one.name == kind).expect("scattered or longest");
    let words = &(kind.directories)(rng, n, 1)[0];
    assert!(black_box(cache_tests::sound(black_box(words))) && black_box(c_judge::sound(black_box(words))));
}

fn main() {
    let arguments: Vec<String> = std::env::args().skip(1).collect();
    let mut rng = Rng::announced("bench_soundness", 41);
    match &arguments[..] {
        [] => table(&mut rng),
        [rows] if rows == "rows" => crowding::rows().iter().for_each(|row| println!("{row}")),
        [kind, n] => once(&mut rng, kind, n.parse().expect("a number of cache blocks")),
        _ => panic!("bench_soundness, bench_soundness rows, or bench_soundness KIND N"),
    }
}
