//! Tests of the verified block cache, beside another implementation.
//!
//! This file wraps the functions that `crates/fbr` exports, by the declarations of [`fbr::sys`]: raw numbers and words.
//! [`reference`] is written in plain Rust from the scope alone and shares nothing with the library. The tests run
//! both over the same inputs and compare every number, word and verdict.
use fbr::sys;
use reference::compare::{self, Figures};
use reference::occupancy::{Table, FIGURES};

pub mod reference;
pub mod tree;

/// The settings of a cache. They need not be legal: the tests lend wrong ones too.
#[derive(Clone, Copy, Debug, PartialEq, Eq)]
pub struct Settings {
    /// Cache blocks.
    pub n: u32,
    /// Cache blocks of the new section.
    pub nnew: u32,
    /// Cache blocks of the old section.
    pub nold: u32,
    /// Chain limit.
    pub cmax: u32,
    /// Average limit.
    pub amax: u32,
    /// Block size in bytes.
    pub b: u32,
    /// Blocks of the store.
    pub m: u32,
}

/// The settings of the examples and of the program.
pub const BELT: Settings = Settings { n: 4, nnew: 1, nold: 2, cmax: 3, amax: 100, b: 8, m: 64 };

/// The library, to be run beside the plain stack.
pub const LIBRARY: reference::beside::Tested = reference::beside::Tested {
    fresh,
    batch,
    sound,
    look: |dir, data, store, block, out| look_into(dir, data, store, block, out),
    occupancy: table,
};

/// Writes a fresh directory over `dir`, or returns 1 to 5.
pub fn fresh(s: Settings, dir: &mut [u32]) -> u32 {
    unsafe { sys::fbr_fresh(s.n, s.nnew, s.nold, s.cmax, s.amax, s.b, s.m, dir.as_mut_ptr(), dir.len()) }
}

/// Runs a batch of work words and returns 0, or changes nothing and returns 6 to 12.
#[inline]
pub fn batch(
    dir: &mut [u32], data: &mut [u8], store: &mut [u8], work: &[u32], incoming: &[u8], answers: &mut [u32],
    outgoing: &mut [u8],
) -> u32 {
    unsafe {
        sys::fbr_batch(
            dir.as_mut_ptr(),
            dir.len(),
            data.as_mut_ptr(),
            data.len(),
            store.as_mut_ptr(),
            store.len(),
            work.as_ptr(),
            work.len(),
            incoming.as_ptr(),
            incoming.len(),
            answers.as_mut_ptr(),
            answers.len(),
            outgoing.as_mut_ptr(),
            outgoing.len(),
        )
    }
}

/// The number of a look at a block: 0, or 6, 7, 12 or 9.
#[inline]
pub fn look_number(dir: &[u32], data: &[u8], store: &[u8], block: u32) -> u32 {
    let (d, b, s) = (dir.as_ptr(), data.as_ptr(), store.as_ptr());
    unsafe { sys::fbr_look_number(d, dir.len(), b, data.len(), s, store.len(), block) }
}

/// The length of the part that holds the block's present bytes; the part at the front of `out` if it fits there.
#[inline]
pub fn look_into(dir: &[u32], data: &[u8], store: &[u8], block: u32, out: &mut [u8]) -> usize {
    let (d, b, s) = (dir.as_ptr(), data.as_ptr(), store.as_ptr());
    unsafe { sys::fbr_look_into(d, dir.len(), b, data.len(), s, store.len(), block, out.as_mut_ptr(), out.len()) }
}

/// Whether the directory is sound.
pub fn sound(dir: &[u32]) -> bool {
    match unsafe { sys::fbr_sound(dir.as_ptr(), dir.len()) } {
        0 => false,
        1 => true,
        other => panic!("fbr_sound returned {other}"),
    }
}

/// The totals at the front of `out`: reads, writes, ins, outs; 0, or 6 and four 0s, or 10 where `out` is too short.
pub fn totals(dir: &[u32], out: &mut [u64]) -> u32 {
    unsafe { sys::fbr_totals(dir.as_ptr(), dir.len(), out.as_mut_ptr(), out.len()) }
}

/// The occupancy at the front of `out`: the residents of the eight count classes, then the modified ones; 0, or 6 and
/// sixteen 0s, or 10 where `out` is too short.
pub fn occupancy(dir: &[u32], out: &mut [u32]) -> u32 {
    unsafe { sys::fbr_occupancy(dir.as_ptr(), dir.len(), out.as_mut_ptr(), out.len()) }
}

/// The number and the figures of an occupancy, over words that are no figures.
pub fn table(dir: &[u32]) -> (u32, Table) {
    let mut out = [u32::MAX; FIGURES];
    (occupancy(dir, &mut out), out)
}

/// Writes a load of `count` words to the front of `words` and returns 0, or changes nothing and returns 13.
pub fn load(seed: u32, m: u32, count: u32, words: &mut [u32]) -> u32 {
    unsafe { sys::fbr_load(seed, m, count, words.as_mut_ptr(), words.len()) }
}

/// The state after `count` words of a load; 0 where the seed is 0 or `count` above 1,024.
pub fn load_state(seed: u32, count: u32) -> u32 {
    unsafe { sys::fbr_load_state(seed, count) }
}

/// The comparison of a trace at the front of `out`: ins under LRU, under the settings and under OPT, LRU − chosen,
/// LRU − OPT; 0, or 1 to 4 or 14 and five 0s, or 10 where `out` is too short.
pub fn compare(s: Settings, trace: &[u32], out: &mut [i32]) -> u32 {
    let (t, o) = (trace.as_ptr(), out.as_mut_ptr());
    unsafe { sys::fbr_compare(s.n, s.nnew, s.nold, s.cmax, s.amax, s.b, s.m, t, trace.len(), o, out.len()) }
}

/// The number and the figures of a comparison, over numbers that are no figures.
pub fn compared(s: Settings, trace: &[u32]) -> (u32, Figures) {
    let mut out = [i32::MIN; compare::FIGURES];
    (compare(s, trace, &mut out), out)
}

/// FNV-1a of a block number's four bytes, low byte first.
pub fn hash(block: u32) -> u32 {
    unsafe { sys::fbr_hash(block) }
}

/// The bucket count for `n` cache blocks; 0 for an `n` outside its limits.
pub fn buckets(n: u32) -> u32 {
    unsafe { sys::fbr_buckets(n) }
}

/// The words of a directory; 0 for an `n` or a `cmax` outside its limits.
pub fn directory_words(n: u32, cmax: u32) -> u32 {
    unsafe { sys::fbr_directory_words(n, cmax) }
}

/// Named settings (0 UNIX, 1 C51, 2 CUST11) at the front of `out`, in the order of the header; how many words were
/// written.
pub fn named(which: u32, n: u32, b: u32, m: u32, out: &mut [u32]) -> usize {
    unsafe { sys::fbr_named(which, n, b, m, out.as_mut_ptr(), out.len()) }
}
