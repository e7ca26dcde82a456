//! The C interface, as `include/fbr.h` declares it: raw calls, whose numbers and words are the header's.
//!
//! A slice passes as a pointer, then an element count.
//!
//! # Safety
//!
//! For every call: a pointer is not null and is aligned, also where its count is 0, and as many elements as its count
//! says may be read, and through a `*mut` pointer written, for the length of the call. Memory that a call may write
//! overlaps no other memory of that call, and nothing else uses it meanwhile. The calls keep no pointer.
//!
//! ```
//! assert_eq!(unsafe { fbr::sys::fbr_buckets(100) }, 128);
//! ```
extern "C" {
    /// Writes a fresh directory over `dir`. Returns 0, or 1 to 5 and leaves `dir` as it was.
    pub fn fbr_fresh(
        n: u32, nnew: u32, nold: u32, cmax: u32, amax: u32, b: u32, m: u32, dir: *mut u32, dir_len: usize,
    ) -> u32;

    /// Runs the work words in order. Returns 0, or 6 to 12 and leaves all memory as it was.
    pub fn fbr_batch(
        dir: *mut u32, dir_len: usize, data: *mut u8, data_len: usize, store: *mut u8, store_len: usize,
        work: *const u32, work_len: usize, incoming: *const u8, incoming_len: usize, answers: *mut u32,
        answers_len: usize, outgoing: *mut u8, outgoing_len: usize,
    ) -> u32;

    /// The number of a look at a block: 0, or 6, 7, 12 or 9. Nothing changes.
    pub fn fbr_look_number(
        dir: *const u32, dir_len: usize, data: *const u8, data_len: usize, store: *const u8, store_len: usize,
        block: u32,
    ) -> u32;

    /// Looks at a block: its present bytes to the front of `out` where `out_len` is at least B, else `out` stays.
    /// Returns B either way, or 0 where [`fbr_look_number`] is not 0.
    pub fn fbr_look_into(
        dir: *const u32, dir_len: usize, data: *const u8, data_len: usize, store: *const u8, store_len: usize,
        block: u32, out: *mut u8, out_len: usize,
    ) -> usize;

    /// 1 if the directory is sound, else 0, for any words. Nothing changes.
    pub fn fbr_sound(dir: *const u32, dir_len: usize) -> u32;

    /// The totals since the fresh directory, to the front of `out`: reads, writes, ins, outs; the rest of `out` stays.
    /// Returns 0; 10 where `out_len` is below 4, and leaves `out` as it was; 6 where the directory is not sound, and
    /// writes four 0s.
    pub fn fbr_totals(dir: *const u32, dir_len: usize, out: *mut u64, out_len: usize) -> u32;

    /// The occupancy by count class, to the front of `out`: the residents of the eight classes, then the modified
    /// residents of the eight; the rest of `out` stays. Returns 0; 10 where `out_len` is below 16, and leaves `out` as
    /// it was; 6 where the directory is not sound, and writes sixteen 0s.
    pub fn fbr_occupancy(dir: *const u32, dir_len: usize, out: *mut u32, out_len: usize) -> u32;

    /// A test load: `count` work words to the front of `words`; the rest of `words` stays. Returns 0; or 13 where
    /// `seed` is 0, `m` outside its limits, `count` above 1,024 or `words_len` below `count`, and leaves `words` as
    /// it was.
    pub fn fbr_load(seed: u32, m: u32, count: u32, words: *mut u32, words_len: usize) -> u32;

    /// The state after `count` words of a load, the seed of those that follow; 0 where `seed` is 0 or `count` above
    /// 1,024.
    pub fn fbr_load_state(seed: u32, count: u32) -> u32;

    /// What the new rule gains on a trace of reads, to the front of `out`: block ins under LRU, under these settings
    /// and under OPT, LRU − chosen, LRU − OPT; the rest of `out` stays. Returns 0; 10 where `out_len` is below 5, and
    /// leaves `out` as it was; 1 to 4 for the settings or 14 where the trace is over 4,096 words or has a word other
    /// than a read of a block below M, and writes five 0s.
    pub fn fbr_compare(
        n: u32, nnew: u32, nold: u32, cmax: u32, amax: u32, b: u32, m: u32, trace: *const u32, trace_len: usize,
        out: *mut i32, out_len: usize,
    ) -> u32;

    /// The 32-bit FNV-1a of a block number's four bytes, low byte first.
    pub fn fbr_hash(block: u32) -> u32;

    /// The bucket count: the smallest power of two not below `n`; 0 for an `n` outside its limits.
    pub fn fbr_buckets(n: u32) -> u32;

    /// The words of a directory: 24 + 2 × Cmax + buckets + 9 × N; 0 for an `n` or a `cmax` outside its limits.
    pub fn fbr_directory_words(n: u32, cmax: u32) -> u32;

    /// Named settings (0 UNIX, 1 C51, 2 CUST11) to the front of `out` in the order N, Nnew, Nold, Cmax, Amax, B, M; all
    /// 0 for an `n` outside its limits. Returns 7, or 0 and leaves `out` as it was where `which` is above 2 or `len`
    /// below 7.
    pub fn fbr_named(which: u32, n: u32, b: u32, m: u32, out: *mut u32, len: usize) -> usize;
}
