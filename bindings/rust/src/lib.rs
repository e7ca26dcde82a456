//! A block cache with frequency-based replacement, over memory of its own ([`Cache`]) or lent ([`Memory`]).
//!
//! The cache itself is the proved static library; this crate gives its C interface ([`sys`]) Rust types.
//! `docs/MANUAL.md` says what the settings, the words and the numbers mean.
//!
//! ```
//! use fbr::{Answer, Cache, Settings, Work};
//!
//! let settings = Settings::c51(100, 8, 1_000);
//! let mut cache = Cache::new(&settings, vec![0; settings.store_bytes()])?;
//! let ran = cache.run(&[Work::Write(7), Work::Read(7)], b"8 bytes.")?;
//! assert_eq!(ran.answers, [Answer::Entered { halved: false }, Answer::Hit { count: 1, halved: false }]);
//! assert_eq!(ran.read, b"8 bytes.");
//! # Ok::<(), fbr::Refusal>(())
//! ```
//!
//! [`Load`] draws a test load that every site can repeat. [`Comparison`] says what the new rule gains on a trace of
//! reads.
//!
//! A call that declines changes nothing and says why by a [`Refusal`], which has a number. Nothing in this crate panics
//! on what an archive returns: numbers and words that this version doesn't know are [`Refusal::Unknown`] and
//! [`Answer::Unknown`].
#![warn(missing_docs)]

mod cache;
mod compare;
mod load;
mod memory;
mod occupancy;
mod refusal;
mod settings;
pub mod sys;
#[cfg(test)]
mod tests;
mod totals;
mod words;

pub use cache::{Cache, NotTaken, Parts, Ran};
pub use compare::{Comparison, Improvement};
pub use load::Load;
pub use memory::{Memory, View};
pub use occupancy::{CountClass, Occupancy};
pub use refusal::Refusal;
pub use settings::Settings;
pub use totals::Totals;
pub use words::{Answer, Work};

/// Writes a fresh directory over the front of `directory`: no residents, totals 0. Earlier words don't matter, and
/// words past [`Settings::directory_words`] stay as they were.
///
/// # Errors
///
/// 1 to 5; the directory is then as it was.
pub fn fresh(settings: &Settings, directory: &mut [u32]) -> Result<(), Refusal> {
    let Settings { n, nnew, nold, cmax, amax, b, m } = *settings;
    // SAFETY: one Rust slice, borrowed alone.
    let number = unsafe { sys::fbr_fresh(n, nnew, nold, cmax, amax, b, m, directory.as_mut_ptr(), directory.len()) };
    refusal::outcome(number)
}

/// Whether these words are a sound directory. Any words may be asked about.
pub fn sound(directory: &[u32]) -> bool {
    // SAFETY: one Rust slice, which the call only reads.
    unsafe { sys::fbr_sound(directory.as_ptr(), directory.len()) == 1 }
}
