//! What a comparison costs: whole calls over traces of 4,096 reads of several kinds.
//! Run with `cargo run --release --bin bench_compare`, or with rounds, a kind and N for one row, as callgrind needs it.
use cache_tests::reference::compare::MOST_WORDS;
use cache_tests::reference::rng::Rng;
use cache_tests::reference::settings::{named, Profile};
use cache_tests::reference::stack::words;
use cache_tests::tree::root;
use cache_tests::{compared, Settings};
use std::fs;
use std::hint::black_box;
use std::time::Instant;

const ROUNDS: usize = 101;
const M: u32 = 16_384;
const SIZES: [u32; 4] = [1, 64, 512, 4_096];
const KINDS: [&str; 5] = ["pages", "loop", "different", "any", "one"];

/// The blocks read: a database's pages, a loop of N + 1 blocks, no block twice, any blocks, or one block.
fn trace(kind: &str, n: u32) -> Vec<u32> {
    let mut rng = Rng::seeded(1);
    let pages = fs::read_to_string(root().join("samples/pages.trace")).unwrap();
    let pages: Vec<u32> = pages.lines().map(|line| line.parse().unwrap()).collect();
    let block = |at: u32| match kind {
        "pages" => pages[at as usize],
        "loop" => at % (n + 1),
        "different" => at,
        "any" => rng.within(0, M - 1),
        "one" => 0,
        _ => panic!("no such kind: {kind}"),
    };
    (0..MOST_WORDS as u32).map(block).map(|block| words::READ + block).collect()
}

/// The best and the slowest of so many calls, in milliseconds.
fn times(s: Settings, trace: &[u32], rounds: usize) -> (f64, f64) {
    let one = |_| {
        let start = Instant::now();
        assert_eq!(black_box(compared(s, black_box(trace))).0, 0);
        start.elapsed().as_secs_f64() * 1e3
    };
    (0..rounds).map(one).fold((f64::MAX, 0.0), |(best, slowest), time| (time.min(best), time.max(slowest)))
}

fn row(kind: &str, n: u32, rounds: usize) {
    let (best, slowest) = times(named(Profile::Unix, n, 512, M), &trace(kind, n), rounds);
    println!("{kind:>10} {n:>6} {best:>9.2} {slowest:>9.2}");
}

fn main() {
    println!("     trace      N   best ms   slowest");
    let args: Vec<String> = std::env::args().skip(1).collect();
    if let [rounds, kind, n] = &args[..] {
        return row(kind, n.parse().unwrap(), rounds.parse().unwrap());
    }
    for kind in KINDS {
        SIZES.iter().for_each(|&n| row(kind, n, ROUNDS));
    }
}
