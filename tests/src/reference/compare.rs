//! The comparison of a trace of reads, by the request's text alone: block ins of three caches that start empty.
use super::directory::{kind, value};
use super::settings;
use super::stack::{work, PlainStack};
use crate::Settings;

/// The number of a trace that is no trace.
pub const BAD_TRACE: u32 = 14;
/// The most words of a trace.
pub const MOST_WORDS: usize = 4_096;
/// Ins under LRU, under the chosen settings and under OPT; LRU − chosen, LRU − OPT.
pub type Figures = [i32; FIGURES];
pub const FIGURES: usize = 5;

/// The number of a comparison: 0, 1 to 4 for the settings, 14 for the trace.
pub fn number(s: Settings, trace: &[u32]) -> u32 {
    let read = |&word: &u32| kind(word) == work::READ && value(word) < s.m;
    match settings::number(s) {
        0 if trace.len() > MOST_WORDS || !trace.iter().all(read) => BAD_TRACE,
        number => number,
    }
}

/// Block ins of the plain stack, batch after batch. Bytes decide nothing, so blocks of one byte serve.
pub fn stack_ins(s: Settings, trace: &[u32]) -> u64 {
    let s = Settings { b: 1, ..s };
    let mut stack = PlainStack::new(s, vec![0; s.m as usize]);
    let lent = stack.whole();
    for part in trace.chunks(work::MOST_WORDS) {
        let (mut answers, mut outgoing) = (vec![0; part.len()], vec![0; part.len()]);
        assert_eq!(stack.batch(lent, part, &[], &mut answers, &mut outgoing), 0);
    }
    stack.ins
}

/// LRU is the plain stack with Nnew 0 and Nold 1.
pub fn lru(s: Settings) -> Settings {
    Settings { nnew: 0, nold: 1, ..s }
}

/// After how many reads more a block is read next, the first of them at 0; never is none.
fn next_read(coming: &[u32], block: u32) -> Option<usize> {
    coming.iter().position(|&word| value(word) == block)
}

/// The resident that OPT replaces: furthest next read, never being furthest of all, ties to the lowest block.
pub fn opt_victim(residents: &[u32], coming: &[u32]) -> u32 {
    let mut lowest_first = residents.to_vec();
    lowest_first.sort_unstable();
    let reads: Vec<_> = lowest_first.iter().map(|&block| next_read(coming, block)).collect();
    let furthest = match reads.contains(&None) {
        true => None,
        false => reads.iter().copied().max().unwrap(),
    };
    lowest_first[reads.iter().position(|&next| next == furthest).unwrap()]
}

/// The blocks that OPT replaces, one after another, and its block ins.
pub fn opt(n: usize, trace: &[u32]) -> (Vec<u32>, u64) {
    opt_by(opt_victim, n, trace)
}

/// The same where another resident is replaced.
pub fn opt_by(victim: impl Fn(&[u32], &[u32]) -> u32, n: usize, trace: &[u32]) -> (Vec<u32>, u64) {
    let (mut residents, mut victims, mut ins) = (vec![], vec![], 0);
    for (at, &word) in trace.iter().enumerate() {
        if residents.contains(&value(word)) {
            continue;
        }
        if residents.len() == n {
            let victim = victim(&residents, &trace[at + 1..]);
            residents.retain(|&block| block != victim);
            victims.push(victim);
        }
        residents.push(value(word));
        ins += 1;
    }
    (victims, ins)
}

/// LRU less chosen and LRU less OPT, or twice 0 where LRU does as well as OPT.
pub fn improvement(lru: i32, chosen: i32, opt: i32) -> [i32; 2] {
    match lru - opt {
        0 => [0, 0],
        possible => [lru - chosen, possible],
    }
}

/// The number and the five figures; all 0 if refused.
pub fn compare(s: Settings, trace: &[u32]) -> (u32, Figures) {
    let number = number(s, trace);
    if number != 0 {
        return (number, [0; FIGURES]);
    }
    let (lru, chosen) = (stack_ins(lru(s), trace) as i32, stack_ins(s, trace) as i32);
    let opt = opt(s.n as usize, trace).1 as i32;
    let [gained, possible] = improvement(lru, chosen, opt);
    (0, [lru, chosen, opt, gained, possible])
}

/// The fewest and the most ins of all schemes: from empty, the block in at every miss and at no other time, one
/// resident replaced, any of them, where n are there. Every choice is tried.
pub fn all_schemes(n: usize, trace: &[u32]) -> (u64, u64) {
    fn from(n: usize, residents: &[u32], trace: &[u32]) -> (u64, u64) {
        let Some((&word, coming)) = trace.split_first() else {
            return (0, 0);
        };
        if residents.contains(&value(word)) {
            return from(n, residents, coming);
        }
        let entered = |left: Option<usize>| {
            let mut residents = residents.to_vec();
            left.map(|at| residents.remove(at));
            residents.push(value(word));
            from(n, &residents, coming)
        };
        let choices = if residents.len() < n { vec![None] } else { (0..n).map(Some).collect() };
        let (fewest, most): (Vec<_>, Vec<_>) = choices.into_iter().map(entered).unzip();
        (1 + fewest.into_iter().min().unwrap(), 1 + most.into_iter().max().unwrap())
    }
    from(n, &[], trace)
}
