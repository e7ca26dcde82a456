/// The largest value of a word: 28 bits.
pub(crate) const MAX_VALUE: u32 = (1 << 28) - 1;

/// One work word: the kind in the top 4 bits, the value in the low 28.
#[derive(Clone, Copy, Debug, PartialEq, Eq, Hash)]
#[non_exhaustive]
pub enum Work {
    /// Read a block into the next B bytes of outgoing.
    Read(u32),
    /// Write the next B bytes of incoming to a block.
    Write(u32),
    /// Take a block out of the cache, unless it is pinned. Bytes that are not in the store yet are given up.
    Purge(u32),
    /// Write every modified resident to the store.
    Flush,
    /// Write every modified resident that has already seen a tick to the store, and mark every other modified one as
    /// having seen it.
    ///
    /// A block that stays resident is written out at the second tick after its first unsaved write at the latest; no
    /// stream of writes puts that off.
    ///
    /// ```
    /// use fbr::{Answer, Cache, Settings, Work};
    ///
    /// let settings = Settings::c51(100, 8, 1_000);
    /// let mut cache = Cache::new(&settings, vec![0; settings.store_bytes()])?;
    /// let ran = cache.run(&[Work::Write(7), Work::Tick], b"first...")?;
    /// assert_eq!(ran.answers[1], Answer::Flushed { written: 0 });
    /// let ran = cache.run(&[Work::Write(7), Work::Tick], b"second..")?;
    /// assert_eq!(ran.answers[1], Answer::Flushed { written: 1 });
    /// assert_eq!(&cache.store()[56..64], b"second..");
    /// # Ok::<(), fbr::Refusal>(())
    /// ```
    Tick,
    /// Pin a block that is in the cache: it is neither replaced nor purged until it is unpinned.
    ///
    /// ```
    /// use fbr::{Answer, Cache, Settings, Work};
    ///
    /// let settings = Settings { n: 1, nnew: 0, nold: 1, cmax: 1, amax: 100, b: 8, m: 64 };
    /// let mut cache = Cache::new(&settings, vec![b'.'; settings.store_bytes()])?;
    /// let work = [Work::Write(7), Work::Pin(7), Work::Purge(7), Work::Read(9)];
    /// let ran = cache.run(&work, b"8 bytes.")?;
    /// let stays = [Answer::Pinned { pinned: true }, Answer::PurgeRefused, Answer::AllPinned];
    /// assert_eq!(ran.answers[1..], stays);
    /// // a read that found all blocks of the cache pinned gives zeros
    /// assert_eq!(ran.read, [0; 8]);
    /// let ran = cache.run(&[Work::Unpin(7), Work::Read(9)], &[])?;
    /// assert_eq!(ran.answers[0], Answer::Pinned { pinned: false });
    /// assert_eq!(ran.read, b"........");
    /// # Ok::<(), fbr::Refusal>(())
    /// ```
    Pin(u32),
    /// Unpin a block: it may leave the cache again.
    Unpin(u32),
}

impl Work {
    /// The word for a batch. A block that 28 bits don't hold becomes the largest value, which every batch refuses.
    pub const fn word(self) -> u32 {
        let (kind, value) = match self {
            Work::Read(block) => (1, block),
            Work::Write(block) => (2, block),
            Work::Purge(block) => (3, block),
            Work::Flush => (4, 0),
            Work::Tick => (5, 0),
            Work::Pin(block) => (6, block),
            Work::Unpin(block) => (7, block),
        };
        kind << 28 | if value > MAX_VALUE { MAX_VALUE } else { value }
    }
}

/// One answer word. A batch gives one for each work word.
#[derive(Clone, Copy, Debug, PartialEq, Eq, Hash)]
#[non_exhaustive]
pub enum Answer {
    /// The block was in the cache.
    Hit {
        /// The block's count after any rise and before any halving.
        count: u32,
        /// Whether all counts were halved afterwards.
        halved: bool,
    },
    /// The block took an unused entry.
    Entered {
        /// Whether all counts were halved afterwards.
        halved: bool,
    },
    /// The cache was full, and the block took the victim's place.
    Replaced {
        /// The block that left.
        victim: u32,
        /// Count chains looked at to find it.
        chains: u32,
        /// Whether the victim was modified, and so was written to the store.
        written_out: bool,
    },
    /// The purged block left the cache.
    Purged {
        /// Whether modified bytes were given up.
        discarded: bool,
    },
    /// The block to purge, pin or unpin was not in the cache.
    Absent,
    /// The flush or the tick was carried out. One word answers both: which it was, the work word says.
    Flushed {
        /// How many blocks were written to the store. Those that a tick only marked do not count.
        written: u32,
    },
    /// The block was not in the cache, and did not enter, since all N blocks there are pinned.
    ///
    /// A read has given zeros in place of the block's bytes, and a write's bytes are given up. Nothing has changed but
    /// the total of reads or writes.
    AllPinned,
    /// The block was pinned or unpinned.
    Pinned {
        /// Whether it is pinned now.
        pinned: bool,
    },
    /// The block to purge is pinned, and stays as it is.
    PurgeRefused,
    /// A word that this crate doesn't know, as it is: the archive is of another version.
    Unknown(u32),
}

impl Answer {
    /// What an answer word says.
    ///
    /// ```
    /// use fbr::Answer;
    ///
    /// assert_eq!(Answer::from_word(0x1000_0003), Answer::Hit { count: 3, halved: false });
    /// assert_eq!(Answer::from_word(0xf000_0000), Answer::Unknown(0xf000_0000));
    /// ```
    pub const fn from_word(word: u32) -> Answer {
        let (kind, value) = (word >> 28, word & MAX_VALUE);
        let halved = value >> 26 == 1;
        match kind {
            1 if value >> 27 == 0 => Answer::Hit { count: value % (1 << 26), halved },
            2 if value == 0 || value == 1 << 26 => Answer::Entered { halved },
            3 if value >> 26 == 0 => Answer::Replaced {
                victim: value % (1 << 18),
                chains: (value >> 18) % (1 << 7),
                written_out: value >> 25 == 1,
            },
            4 if value <= 1 => Answer::Purged { discarded: value == 1 },
            5 if value == 0 => Answer::Absent,
            6 => Answer::Flushed { written: value },
            7 if value == 0 => Answer::AllPinned,
            8 if value <= 1 => Answer::Pinned { pinned: value == 1 },
            9 if value == 0 => Answer::PurgeRefused,
            _ => Answer::Unknown(word),
        }
    }
}
