use crate::refusal::outcome;
use crate::{sys, Refusal, Settings, Work};
use std::fmt;

/// What the new rule gains on a trace of reads: the block ins of three caches of the same size, each from empty.
///
/// They are those under LRU, those under the settings that you chose, and those under OPT, which knows the reads to
/// come: no cache of N blocks that starts empty, loads at every miss and at no other time, and replaces one block only
/// when full, has fewer.
///
/// ```
/// use fbr::{Comparison, Settings};
///
/// let settings = Settings { n: 4, nnew: 0, nold: 3, cmax: 3, amax: 100, b: 512, m: 8 };
/// let trace = [3, 6, 1, 1, 0, 4, 0, 5, 6, 1, 2, 0, 6, 4, 7, 1, 1, 0, 2, 0, 3, 0, 1, 7];
/// let compared = Comparison::of_blocks(&settings, &trace)?;
/// assert_eq!((compared.lru, compared.chosen, compared.opt), (17, 13, 10));
/// assert_eq!(compared.improvement().to_string(), "57.1%");
/// # Ok::<(), fbr::Refusal>(())
/// ```
#[derive(Clone, Copy, Debug, PartialEq, Eq, Hash)]
pub struct Comparison {
    /// Block ins under LRU: Nnew 0, Nold 1, the rest as chosen.
    pub lru: u32,
    /// Block ins under the chosen settings.
    pub chosen: u32,
    /// Block ins under OPT, the fewest of all such caches.
    pub opt: u32,
    /// LRU less chosen: negative where the chosen settings are worse than LRU. 0 where LRU is as good as OPT.
    pub gain: i32,
    /// LRU less OPT: what the best scheme gains.
    pub possible: u32,
}

/// The relative improvement of the paper: what is gained over LRU, of what can be.
///
/// It prints a percentage with one decimal, as `34.1%`, or `none` where LRU is as good as OPT and nothing can be
/// gained.
#[derive(Clone, Copy, Debug, PartialEq, Eq, Hash)]
pub enum Improvement {
    /// LRU is as good as OPT.
    None,
    /// LRU less chosen, and LRU less OPT, which is not 0.
    Of {
        /// LRU less chosen.
        gain: i32,
        /// LRU less OPT.
        possible: u32,
    },
}

/// The figures that the library writes.
const FIGURES: usize = 5;

impl Comparison {
    /// The most reads of a trace.
    pub const MOST_READS: usize = 4_096;

    /// Compares over a trace of the blocks read.
    ///
    /// # Errors
    ///
    /// 1 to 4 for the settings; 14 for more than 4,096 reads or a block of M or more.
    pub fn of_blocks(settings: &Settings, blocks: &[u32]) -> Result<Comparison, Refusal> {
        let trace: Vec<u32> = blocks.iter().map(|&block| Work::Read(block).word()).collect();
        Comparison::of_words(settings, &trace)
    }

    /// Compares over a trace of work words, all of them reads.
    ///
    /// # Errors
    ///
    /// 1 to 4 for the settings; 14 for more than 4,096 words or a word other than a read of a block below M.
    pub fn of_words(settings: &Settings, trace: &[u32]) -> Result<Comparison, Refusal> {
        let Settings { n, nnew, nold, cmax, amax, b, m } = *settings;
        let (t, len) = (trace.as_ptr(), trace.len());
        let mut out = [0; FIGURES];
        // SAFETY: two Rust slices, one of them borrowed alone; the call keeps nothing.
        let number = unsafe { sys::fbr_compare(n, nnew, nold, cmax, amax, b, m, t, len, out.as_mut_ptr(), out.len()) };
        outcome(number)?;
        let [lru, chosen, opt, gain, possible] = out;
        // ins and LRU less OPT are never negative
        let [lru, chosen, opt, possible] = [lru, chosen, opt, possible].map(i32::unsigned_abs);
        Ok(Comparison { lru, chosen, opt, gain, possible })
    }

    /// The relative improvement: (LRU − chosen) / (LRU − OPT).
    pub fn improvement(&self) -> Improvement {
        match *self {
            Comparison { possible: 0, .. } => Improvement::None,
            Comparison { gain, possible, .. } => Improvement::Of { gain, possible },
        }
    }
}

impl fmt::Display for Improvement {
    fn fmt(&self, f: &mut fmt::Formatter<'_>) -> fmt::Result {
        let Improvement::Of { gain, possible } = *self else {
            return f.pad("none");
        };
        // tenths of a percent, rounded, a half away from 0
        let (gained, possible) = (u64::from(gain.unsigned_abs()), u64::from(possible));
        let tenths = (2_000 * gained + possible) / (2 * possible).max(1);
        let sign = if gain < 0 && tenths > 0 { "-" } else { "" };
        f.pad(&format!("{sign}{}.{}%", tenths / 10, tenths % 10))
    }
}
