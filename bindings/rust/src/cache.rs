use crate::{fresh, Answer, Memory, Occupancy, Refusal, Settings, Totals, View, Work};
use std::fmt;
use std::slice::ChunksExact;

/// The most words of a batch.
const MAX_WORDS: usize = 1_024;

/// A cache that owns its memory. [`Memory`] is the same over memory that the caller lends.
///
/// ```
/// use fbr::{Answer, Cache, Settings, Work};
///
/// let settings = Settings::c51(100, 8, 1_000);
/// let mut cache = Cache::new(&settings, vec![0; settings.store_bytes()])?;
/// let ran = cache.run(&[Work::Write(7), Work::Read(7), Work::Read(8)], b"8 bytes.")?;
/// assert_eq!(ran.answers[1], Answer::Hit { count: 1, halved: false });
/// assert_eq!(ran.reads().next(), Some(&b"8 bytes."[..]));
/// assert_eq!(cache.totals()?.miss_ratio(), Some(1.0 / 3.0));
/// # Ok::<(), fbr::Refusal>(())
/// ```
#[derive(Clone)]
pub struct Cache {
    parts: Parts,
}

impl Cache {
    /// A cache with no residents over this store of exactly [`Settings::store_bytes`] bytes.
    ///
    /// # Errors
    ///
    /// 1 to 4, 7 where the store is too short, or 12 where it is too long. The error's `parts.store` is the store.
    pub fn new(settings: &Settings, store: Vec<u8>) -> Result<Cache, NotTaken> {
        let mut directory = vec![0; settings.directory_words()];
        // first, so that no data is allocated for sizes outside their limits
        if let Err(refusal) = fresh(settings, &mut directory) {
            return Err(NotTaken { refusal, parts: Parts { directory, data: Vec::new(), store } });
        }
        let data = vec![0; settings.data_bytes()];
        Cache::from_parts(Parts { directory, data, store })
    }

    /// Goes on with the memory of another cache, such as a saved one.
    ///
    /// Only the directory's words and the lengths are checked. Parts of different moments, or with other bytes in data
    /// or store, are not noticed: a checksum over all three, kept beside them, would notice.
    ///
    /// # Errors
    ///
    /// 6, 7 or 12. The error gives the parts back as they were. Where the directory is damaged, the store can still be
    /// used as it is, without what was written since the last flush and not written out by a replacement or a tick:
    ///
    /// ```
    /// use fbr::{Cache, NotTaken, Refusal, Settings, Work};
    ///
    /// let settings = Settings::c51(100, 8, 1_000);
    /// let mut cache = Cache::new(&settings, vec![0; settings.store_bytes()])?;
    /// cache.run(&[Work::Write(7), Work::Flush, Work::Write(8)], b"flushed.not yet.")?;
    ///
    /// let mut parts = cache.into_parts();
    /// parts.directory[9] ^= 1;
    /// let cache = match Cache::from_parts(parts) {
    ///     Err(NotTaken { refusal: Refusal::Unsound, parts }) => Cache::new(&settings, parts.store)?,
    ///     other => other?,
    /// };
    /// assert_eq!(cache.look(7)?, b"flushed.");
    /// assert_eq!(cache.look(8)?, [0; 8]);
    /// # Ok::<(), Refusal>(())
    /// ```
    pub fn from_parts(parts: Parts) -> Result<Cache, NotTaken> {
        // an empty batch would be refused with full totals too, but such a cache can still be looked at
        match parts.view().look_number(0) {
            Ok(()) => Ok(Cache { parts }),
            Err(refusal) => Err(NotTaken { refusal, parts }),
        }
    }

    /// Runs at most 1,024 work words in order. The j-th write takes the j-th B bytes of `incoming`.
    ///
    /// # Errors
    ///
    /// 8 to 11; 6, 7 or 12 only where [`Cache::memory`] was used to change the directory. Nothing has changed then.
    pub fn run(&mut self, work: &[Work], incoming: &[u8]) -> Result<Ran, Refusal> {
        let b = self.parts().block_bytes();
        let words: Vec<u32> = work.iter().map(|word| word.word()).collect();
        let reads = work.iter().filter(|word| matches!(word, Work::Read(_))).count();
        // more words are refused whatever the buffers
        let (mut answers, mut read) = (vec![0; words.len()], vec![0; reads.min(MAX_WORDS) * b]);
        self.memory().batch(&words, incoming, &mut answers, &mut read)?;
        Ok(Ran { answers: answers.into_iter().map(Answer::from_word).collect(), read, b })
    }

    /// A block's present bytes: the resident's if there is one, else the store's. Nothing changes.
    ///
    /// # Errors
    ///
    /// 9 where the block is M or more. 6, 7 or 12 only where [`Cache::memory`] was used to change the directory.
    pub fn look(&self, block: u32) -> Result<Vec<u8>, Refusal> {
        self.parts().look(block)
    }

    /// Reads, writes, ins and outs since the fresh directory.
    ///
    /// # Errors
    ///
    /// 6, only where [`Cache::memory`] was used to change the directory.
    pub fn totals(&self) -> Result<Totals, Refusal> {
        self.parts().totals()
    }

    /// The residents by count class, and how many of each class are modified.
    ///
    /// # Errors
    ///
    /// 6, only where [`Cache::memory`] was used to change the directory.
    pub fn occupancy(&self) -> Result<Occupancy, Refusal> {
        self.parts().occupancy()
    }

    /// The settings that the cache was started with.
    ///
    /// # Errors
    ///
    /// 6, only where [`Cache::memory`] was used to change the directory.
    pub fn settings(&self) -> Result<Settings, Refusal> {
        self.parts().settings()
    }

    /// The store's bytes. After a batch that ends with a flush they are every block's present bytes.
    pub fn store(&self) -> &[u8] {
        &self.parts.store
    }

    /// The three parts that hold the whole state, to be saved together.
    pub fn parts(&self) -> View<'_> {
        self.parts.view()
    }

    /// The three parts that hold the whole state, for [`Cache::from_parts`].
    pub fn into_parts(self) -> Parts {
        self.parts
    }

    /// The memory as a lent one: for batches with buffers of one's own, and for everything else.
    pub fn memory(&mut self) -> Memory<'_> {
        let Parts { directory, data, store } = &mut self.parts;
        Memory { directory, data, store }
    }
}

impl fmt::Debug for Cache {
    fn fmt(&self, f: &mut fmt::Formatter<'_>) -> fmt::Result {
        self.parts().lengths("Cache", f)
    }
}

/// What an accepted batch gave.
#[derive(Clone, Debug, PartialEq, Eq)]
pub struct Ran {
    /// One answer for each work word.
    pub answers: Vec<Answer>,
    /// The bytes read: B for each read, in order; zeros for one answered [`Answer::AllPinned`].
    pub read: Vec<u8>,
    b: usize,
}

impl Ran {
    /// The blocks read, B bytes each, in order.
    pub fn reads(&self) -> ChunksExact<'_, u8> {
        // a sound directory's B is at least 1
        self.read.chunks_exact(self.b.max(1))
    }
}

/// The memory of a cache, owned.
#[derive(Clone, Default, PartialEq, Eq)]
pub struct Parts {
    /// The directory.
    pub directory: Vec<u32>,
    /// The data buffer.
    pub data: Vec<u8>,
    /// The store.
    pub store: Vec<u8>,
}

impl Parts {
    /// The same memory, to be read only.
    pub fn view(&self) -> View<'_> {
        View { directory: &self.directory, data: &self.data, store: &self.store }
    }
}

impl fmt::Debug for Parts {
    fn fmt(&self, f: &mut fmt::Formatter<'_>) -> fmt::Result {
        self.view().lengths("Parts", f)
    }
}

/// Memory that a [`Cache`] was not made of: why, and the memory.
#[derive(Clone, Debug, PartialEq, Eq)]
pub struct NotTaken {
    /// Why.
    pub refusal: Refusal,
    /// What was handed over.
    pub parts: Parts,
}

impl fmt::Display for NotTaken {
    fn fmt(&self, f: &mut fmt::Formatter<'_>) -> fmt::Result {
        self.refusal.fmt(f)
    }
}

impl std::error::Error for NotTaken {}

/// For callers who need the reason alone.
impl From<NotTaken> for Refusal {
    fn from(not_taken: NotTaken) -> Refusal {
        not_taken.refusal
    }
}
