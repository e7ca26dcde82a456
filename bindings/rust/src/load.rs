use crate::refusal::outcome;
use crate::words::MAX_VALUE;
use crate::{sys, Refusal, Work};

/// A test load that anybody can repeat: batch after batch of reads and writes, drawn from a seed.
///
/// The same seed and M give the same words at every site. Each batch goes on where the one before ended, so that all of
/// them together are one load; the iterator does not end by itself.
///
/// ```
/// use fbr::{Cache, Load, Settings, Work};
///
/// let settings = Settings::unix(64, 8, 1_000);
/// let mut cache = Cache::new(&settings, vec![0; settings.store_bytes()])?;
/// for batch in Load::new(2_463_534_242, settings.m, 1_024)?.take(10) {
///     let writes = batch.iter().filter(|word| matches!(word, Work::Write(_))).count();
///     cache.run(&batch, &vec![b'.'; writes * 8])?;
/// }
/// let totals = cache.totals()?;
/// assert_eq!(totals.reads + totals.writes, 10_240);
/// # Ok::<(), fbr::Refusal>(())
/// ```
///
/// [`Load::state`] is the seed of what follows, to go on at another time:
///
/// ```
/// use fbr::Load;
///
/// let mut load = Load::new(2_463_534_242, 1_000, 16)?;
/// let first = load.next();
/// let mut later = Load::new(load.state(), 1_000, 16)?;
/// assert_eq!(later.next(), load.next());
/// assert_ne!(later.next(), first);
/// # Ok::<(), fbr::Refusal>(())
/// ```
#[derive(Clone, Debug, PartialEq, Eq, Hash)]
pub struct Load {
    state: u32,
    m: u32,
    count: u32,
}

impl Load {
    /// The most words of a batch.
    pub const MOST_WORDS: u32 = 1_024;

    /// A load over a store of `m` blocks, in batches of `count` words. With 0 words every batch is empty, and the state
    /// stays.
    ///
    /// # Errors
    ///
    /// 13 where the seed is 0, `m` is outside 1 to 262,144 or `count` above 1,024.
    pub fn new(seed: u32, m: u32, count: u32) -> Result<Load, Refusal> {
        let load = Load { state: seed, m, count };
        load.words().map(|_| load)
    }

    /// The state after the words drawn so far: the seed from which another load goes on. It is never 0.
    pub fn state(&self) -> u32 {
        self.state
    }

    /// The words of the next batch, without going on.
    fn words(&self) -> Result<Vec<u32>, Refusal> {
        // more words are declined whatever the room
        let mut words = vec![0; self.count.min(Load::MOST_WORDS) as usize];
        // SAFETY: one Rust slice, borrowed alone; the call keeps nothing.
        outcome(unsafe { sys::fbr_load(self.state, self.m, self.count, words.as_mut_ptr(), words.len()) })?;
        Ok(words)
    }

    /// The words of the next batch as they are, for [`Memory::batch`](crate::Memory::batch); none where the archive is
    /// of another version and declines what it has once accepted.
    ///
    /// ```
    /// use fbr::{Load, Work};
    ///
    /// let mut load = Load::new(2_463_534_242, 100, 3)?;
    /// let words = [Work::Read(28), Work::Read(26), Work::Write(0)].map(Work::word);
    /// assert_eq!(load.next_words().as_deref(), Some(&words[..]));
    /// # Ok::<(), fbr::Refusal>(())
    /// ```
    pub fn next_words(&mut self) -> Option<Vec<u32>> {
        let words = self.words().ok()?;
        // SAFETY: numbers alone.
        let state = unsafe { sys::fbr_load_state(self.state, self.count) };
        (state != 0).then(|| {
            self.state = state;
            words
        })
    }
}

/// Batches without end.
impl Iterator for Load {
    type Item = Vec<Work>;

    fn next(&mut self) -> Option<Vec<Work>> {
        self.next_words()?.into_iter().map(access).collect()
    }
}

/// The read or the write that a word of a load is; none for a word of another version.
fn access(word: u32) -> Option<Work> {
    let block = word & MAX_VALUE;
    match word >> 28 {
        1 => Some(Work::Read(block)),
        2 => Some(Work::Write(block)),
        _ => None,
    }
}
