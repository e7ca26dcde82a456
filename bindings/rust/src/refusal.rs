use std::fmt;

/// Why a call declined. A declined call has changed nothing.
///
/// The cases are checked in this order, 12 right after 7. [`fresh`](crate::fresh) gives 1 to 5, a batch 6 to 12, a look
/// 6, 7, 12 or 9, a look into a buffer 10 too, totals, occupancy and settings 6, a [`Load`](crate::Load) 13,
/// a [`Comparison`](crate::Comparison) 1 to 4 and 14.
/// [`Cache::new`](crate::Cache::new) gives 1 to 4, 7 and 12, and [`Cache::from_parts`](crate::Cache::from_parts) 6, 7
/// and 12.
#[derive(Clone, Copy, Debug, PartialEq, Eq, Hash)]
#[non_exhaustive]
pub enum Refusal {
    /// 1: N is outside 1 to 4,096.
    BadCacheSize,
    /// 2: Nold is 0, or Nnew + Nold exceeds N.
    BadSections,
    /// 3: Cmax is outside 1 to 64, or Amax outside 1 to 1,000.
    BadCountLimit,
    /// 4: B is outside 1 to 4,096, or M outside 1 to 262,144.
    BadBlockOrStoreSize,
    /// 5: the directory has fewer than [`Settings::directory_words`](crate::Settings::directory_words) words.
    ShortDirectory,
    /// 6: the directory is not sound.
    Unsound,
    /// 7: data has fewer than N × B bytes, or the store fewer than M × B.
    ShortDataOrStore,
    /// 12: the store has more than M × B bytes.
    LongStore,
    /// 8: the batch has more than 1,024 work words.
    TooManyWords,
    /// 9: a work word's kind is outside 1 to 7, a block is M or more, or a flush or a tick has a value.
    BadWord,
    /// 10: answers, incoming or outgoing is shorter than the batch needs, or a look's buffer shorter than B.
    ShortBuffer,
    /// 11: reads + writes + batch length exceeds 2^56 − 1.
    TotalsFull,
    /// 13: a load's seed is 0, its M outside 1 to 262,144, or its words above 1,024 or above the room lent.
    BadLoad,
    /// 14: a trace is over 4,096 words or has a word other than a read of a block below M.
    BadTrace,
    /// A number that this crate doesn't know: the archive is of another version.
    Unknown(u32),
}

impl Refusal {
    /// The refusals that this crate knows, in the order of the checks.
    pub const ALL: &'static [Refusal] = &[
        Refusal::BadCacheSize,
        Refusal::BadSections,
        Refusal::BadCountLimit,
        Refusal::BadBlockOrStoreSize,
        Refusal::ShortDirectory,
        Refusal::Unsound,
        Refusal::ShortDataOrStore,
        Refusal::LongStore,
        Refusal::TooManyWords,
        Refusal::BadWord,
        Refusal::ShortBuffer,
        Refusal::TotalsFull,
        Refusal::BadLoad,
        Refusal::BadTrace,
    ];

    /// The number that the C interface returns.
    pub const fn number(self) -> u32 {
        match self {
            Refusal::BadCacheSize => 1,
            Refusal::BadSections => 2,
            Refusal::BadCountLimit => 3,
            Refusal::BadBlockOrStoreSize => 4,
            Refusal::ShortDirectory => 5,
            Refusal::Unsound => 6,
            Refusal::ShortDataOrStore => 7,
            Refusal::LongStore => 12,
            Refusal::TooManyWords => 8,
            Refusal::BadWord => 9,
            Refusal::ShortBuffer => 10,
            Refusal::TotalsFull => 11,
            Refusal::BadLoad => 13,
            Refusal::BadTrace => 14,
            Refusal::Unknown(number) => number,
        }
    }

    /// The refusal of a number; none for 0, which is no refusal.
    ///
    /// ```
    /// use fbr::Refusal;
    ///
    /// assert_eq!(Refusal::from_number(0), None);
    /// assert_eq!(Refusal::from_number(6), Some(Refusal::Unsound));
    /// assert_eq!(Refusal::from_number(99), Some(Refusal::Unknown(99)));
    /// ```
    pub fn from_number(number: u32) -> Option<Refusal> {
        let known = Refusal::ALL.iter().copied().find(|refusal| refusal.number() == number);
        known.or((number != 0).then_some(Refusal::Unknown(number)))
    }

    const fn text(self) -> &'static str {
        match self {
            Refusal::BadCacheSize => "N is outside 1 to 4,096",
            Refusal::BadSections => "Nold is 0, or Nnew + Nold exceeds N",
            Refusal::BadCountLimit => "Cmax is outside 1 to 64, or Amax outside 1 to 1,000",
            Refusal::BadBlockOrStoreSize => "B is outside 1 to 4,096, or M outside 1 to 262,144",
            Refusal::ShortDirectory => "the directory is too short for the settings",
            Refusal::Unsound => "the directory is not sound",
            Refusal::ShortDataOrStore => "data is shorter than N x B bytes, or the store shorter than M x B",
            Refusal::LongStore => "the store is longer than M x B bytes",
            Refusal::TooManyWords => "the batch has more than 1,024 work words",
            Refusal::BadWord => "a block is M or more, a work word has a wrong kind, or a flush or tick has a value",
            Refusal::ShortBuffer => "a buffer is too short: answers, incoming, outgoing or out",
            Refusal::TotalsFull => "reads + writes + batch length exceeds 2^56 - 1",
            Refusal::BadLoad => "a load has seed 0, M outside 1 to 262,144, or over 1,024 words or more than lent",
            Refusal::BadTrace => "a trace has over 4,096 words, or a word other than a read of a block below M",
            Refusal::Unknown(_) => "unknown to this crate, so the archive is of another version",
        }
    }
}

/// The number and what is wrong, in one line.
impl fmt::Display for Refusal {
    fn fmt(&self, f: &mut fmt::Formatter<'_>) -> fmt::Result {
        write!(f, "{}: {}", self.number(), self.text())
    }
}

impl std::error::Error for Refusal {}

/// The outcome of a call from the number it returned.
pub(crate) fn outcome(number: u32) -> Result<(), Refusal> {
    Refusal::from_number(number).map_or(Ok(()), Err)
}
