use crate::occupancy;
use crate::refusal::outcome;
use crate::words::MAX_VALUE;
use crate::{sound, sys, Occupancy, Refusal, Settings, Totals};
use std::fmt;

/// The largest block size.
const MAX_B: u32 = 4_096;

/// A call whose first arguments are directory, data and store, each as a pointer and its length.
macro_rules! over {
    ($memory:expr, $pointer:ident, $call:ident($($more:expr),*)) => {
        sys::$call(
            $memory.directory.$pointer(),
            $memory.directory.len(),
            $memory.data.$pointer(),
            $memory.data.len(),
            $memory.store.$pointer(),
            $memory.store.len(),
            $($more),*
        )
    };
}

/// The lent memory that holds the whole state of a cache.
///
/// Keep the three parts together: a directory speaks of the bytes that its own batches left in data and store.
///
/// ```
/// use fbr::{fresh, Answer, Memory, Settings, Work};
///
/// let settings = Settings::c51(100, 8, 1_000);
/// let mut directory = vec![0; settings.directory_words()];
/// let (mut data, mut store) = (vec![0; settings.data_bytes()], vec![0; settings.store_bytes()]);
/// fresh(&settings, &mut directory)?;
/// let mut memory = Memory { directory: &mut directory, data: &mut data, store: &mut store };
///
/// let work = [Work::Write(7), Work::Read(7)].map(Work::word);
/// let (mut answers, mut outgoing) = ([0; 2], [0; 8]);
/// memory.batch(&work, b"8 bytes.", &mut answers, &mut outgoing)?;
/// assert_eq!(Answer::from_word(answers[1]), Answer::Hit { count: 1, halved: false });
/// assert_eq!(&outgoing, b"8 bytes.");
/// assert_eq!(memory.look(7)?, b"8 bytes.");
/// # Ok::<(), fbr::Refusal>(())
/// ```
pub struct Memory<'a> {
    /// The directory, [`Settings::directory_words`] words or more.
    pub directory: &'a mut [u32],
    /// The data buffer, [`Settings::data_bytes`] bytes or more.
    pub data: &'a mut [u8],
    /// The store, exactly [`Settings::store_bytes`] bytes; block k is the B bytes from k × B on. Lend it with the
    /// length that it has: another store is found out by that alone.
    pub store: &'a mut [u8],
}

impl Memory<'_> {
    /// Runs at most 1,024 work words in order.
    ///
    /// The j-th write takes the j-th B bytes of `incoming`, the j-th read fills the j-th B bytes of `outgoing`, and
    /// each work word gets one answer word. A read answered [`Answer::AllPinned`](crate::Answer::AllPinned) has zeros
    /// there. The rest of `answers` and `outgoing` stays as it was.
    ///
    /// # Errors
    ///
    /// 6 to 12; all memory is then as it was.
    pub fn batch(
        &mut self, work: &[u32], incoming: &[u8], answers: &mut [u32], outgoing: &mut [u8],
    ) -> Result<(), Refusal> {
        // SAFETY: seven Rust slices, of which those written to are borrowed alone; the call keeps none.
        outcome(unsafe {
            over!(
                self,
                as_mut_ptr,
                fbr_batch(
                    work.as_ptr(),
                    work.len(),
                    incoming.as_ptr(),
                    incoming.len(),
                    answers.as_mut_ptr(),
                    answers.len(),
                    outgoing.as_mut_ptr(),
                    outgoing.len()
                )
            )
        })
    }

    /// The same memory, to be read only.
    pub fn view(&self) -> View<'_> {
        View { directory: self.directory, data: self.data, store: self.store }
    }

    /// As [`View::look_number`].
    ///
    /// # Errors
    ///
    /// 6, 7, 12 or 9.
    pub fn look_number(&self, block: u32) -> Result<(), Refusal> {
        self.view().look_number(block)
    }

    /// As [`View::look_into`].
    ///
    /// # Errors
    ///
    /// 6, 7, 12, 9 or 10; `out` is then as it was.
    pub fn look_into(&self, block: u32, out: &mut [u8]) -> Result<usize, Refusal> {
        self.view().look_into(block, out)
    }

    /// As [`View::look`].
    ///
    /// # Errors
    ///
    /// 6, 7, 12 or 9.
    pub fn look(&self, block: u32) -> Result<Vec<u8>, Refusal> {
        self.view().look(block)
    }

    /// As [`View::totals`].
    ///
    /// # Errors
    ///
    /// 6.
    pub fn totals(&self) -> Result<Totals, Refusal> {
        self.view().totals()
    }

    /// As [`View::occupancy`].
    ///
    /// # Errors
    ///
    /// 6.
    pub fn occupancy(&self) -> Result<Occupancy, Refusal> {
        self.view().occupancy()
    }

    /// As [`View::settings`].
    ///
    /// # Errors
    ///
    /// 6.
    pub fn settings(&self) -> Result<Settings, Refusal> {
        self.view().settings()
    }
}

/// The memory of a cache, lent to be read only: for looks, totals and occupancy, and for saving.
#[derive(Clone, Copy, PartialEq, Eq)]
pub struct View<'a> {
    /// The directory.
    pub directory: &'a [u32],
    /// The data buffer.
    pub data: &'a [u8],
    /// The store.
    pub store: &'a [u8],
}

impl View<'_> {
    /// Whether a look at a block is accepted.
    ///
    /// # Errors
    ///
    /// 6, 7, 12 or 9.
    pub fn look_number(&self, block: u32) -> Result<(), Refusal> {
        // SAFETY: three Rust slices, which the call only reads.
        outcome(unsafe { over!(self, as_ptr, fbr_look_number(block)) })
    }

    /// Copies a block's present bytes to the front of `out`: the resident's if there is one, else the store's.
    ///
    /// Returns B, how many bytes they are. The rest of `out` stays as it was.
    ///
    /// # Errors
    ///
    /// 6, 7, 12 or 9, and 10 where `out` is shorter than B; `out` is then as it was.
    pub fn look_into(&self, block: u32, out: &mut [u8]) -> Result<usize, Refusal> {
        // SAFETY: three Rust slices, which the call only reads, and `out`, which is borrowed alone.
        let length = unsafe { over!(self, as_ptr, fbr_look_into(block, out.as_mut_ptr(), out.len())) };
        // an accepted look has at least one byte
        if length == 0 {
            self.look_number(block)?;
        }
        if length > out.len() {
            return Err(Refusal::ShortBuffer);
        }
        Ok(length)
    }

    /// A block's present bytes in a vector of their own.
    ///
    /// # Errors
    ///
    /// 6, 7, 12 or 9.
    pub fn look(&self, block: u32) -> Result<Vec<u8>, Refusal> {
        // the bytes fit if the directory is sound, so one call is enough
        let mut out = vec![0; self.block_bytes()];
        let length = self.look_into(block, &mut out)?;
        out.truncate(length);
        Ok(out)
    }

    /// Reads, writes, ins and outs since the fresh directory.
    ///
    /// # Errors
    ///
    /// 6.
    pub fn totals(&self) -> Result<Totals, Refusal> {
        let mut out = [0; 4];
        // SAFETY: a Rust slice, which the call only reads, and `out`, which is borrowed alone.
        outcome(unsafe {
            sys::fbr_totals(self.directory.as_ptr(), self.directory.len(), out.as_mut_ptr(), out.len())
        })?;
        let [reads, writes, ins, outs] = out;
        Ok(Totals { reads, writes, ins, outs })
    }

    /// The residents by count class, and how many of each class are modified.
    ///
    /// # Errors
    ///
    /// 6.
    pub fn occupancy(&self) -> Result<Occupancy, Refusal> {
        let mut out = [0; occupancy::WORDS];
        // SAFETY: a Rust slice, which the call only reads, and `out`, which is borrowed alone.
        outcome(unsafe {
            sys::fbr_occupancy(self.directory.as_ptr(), self.directory.len(), out.as_mut_ptr(), out.len())
        })?;
        Ok(Occupancy::from_words(out))
    }

    /// The settings that the directory was started with.
    ///
    /// # Errors
    ///
    /// 6.
    pub fn settings(&self) -> Result<Settings, Refusal> {
        // the settings are the values of a sound directory's first seven words
        let words = self.directory.first_chunk().filter(|_| sound(self.directory)).ok_or(Refusal::Unsound)?;
        Ok(Settings::from_words(words.map(|word| word & MAX_VALUE)))
    }

    /// B of a sound directory, its word 5. Other words give some number up to the largest B.
    pub(crate) fn block_bytes(&self) -> usize {
        self.directory.get(5).map_or(0, |word| (word & MAX_VALUE).min(MAX_B)) as usize
    }

    /// The lengths alone: a store's bytes would fill pages.
    pub(crate) fn lengths(&self, name: &str, f: &mut fmt::Formatter<'_>) -> fmt::Result {
        let (directory, data, store) = (self.directory.len(), self.data.len(), self.store.len());
        write!(f, "{name} {{ directory: {directory} words, data: {data} bytes, store: {store} bytes }}")
    }
}

impl fmt::Debug for Memory<'_> {
    fn fmt(&self, f: &mut fmt::Formatter<'_>) -> fmt::Result {
        self.view().lengths("Memory", f)
    }
}

impl fmt::Debug for View<'_> {
    fn fmt(&self, f: &mut fmt::Formatter<'_>) -> fmt::Result {
        self.lengths("View", f)
    }
}
