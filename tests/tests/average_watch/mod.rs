//! What the request says of the average, watched from outside: words and answers alone, with books of every resident's
//! count. Order, sections and words of the directory are not looked at.
use cache_tests::reference::directory::{kind, value};
use cache_tests::reference::stack::{answer, work};
use std::collections::BTreeMap;

/// What a word can break.
#[derive(Clone, Copy, Debug, PartialEq, Eq, PartialOrd, Ord)]
pub enum Broken {
    /// An answer is marked though the sum did not exceed Amax × r after its word, or not marked though it did.
    OtherMark,
    /// A hit tells a count that is neither the one in the books nor one more.
    OtherCount,
}

/// What a word was, as far as the average is concerned.
#[derive(Clone, Copy, Debug, PartialEq, Eq, PartialOrd, Ord)]
pub enum Met {
    HalvedByARise,
    HalvedWithoutARise,
    HalvedByEntering,
    /// Halved, though the sum was at most Amax × N.
    BelowAllEntries,
    /// The sum exceeded Amax × r after halving too.
    StillOver,
    /// A block entered, and only with it the sum was at most Amax × r.
    EnteredAtTheLimit,
    /// The sum was Amax × r itself.
    OnTheLimit,
    /// A purge left a sum above Amax × r.
    PurgedOver,
    /// A miss was refused.
    Refused,
}

impl Met {
    pub const ALL: [Met; 9] = [
        Met::HalvedByARise,
        Met::HalvedWithoutARise,
        Met::HalvedByEntering,
        Met::BelowAllEntries,
        Met::StillOver,
        Met::EnteredAtTheLimit,
        Met::OnTheLimit,
        Met::PurgedOver,
        Met::Refused,
    ];
}

/// The books of one cache, word by word.
pub struct Watch {
    n: u64,
    amax: u64,
    counts: BTreeMap<u32, u32>,
    pub met: BTreeMap<Met, u64>,
}

impl Watch {
    /// Of a cache with these residents' blocks and counts.
    pub fn new(n: u32, amax: u32, counts: BTreeMap<u32, u32>) -> Watch {
        Watch { n: n.into(), amax: amax.into(), counts, met: BTreeMap::new() }
    }

    pub fn broken_by(&mut self, words: &[u32], answers: &[u32]) -> Vec<Broken> {
        words.iter().zip(answers).flat_map(|(&w, &answered)| self.word(w, answered)).collect()
    }

    fn sum(&self) -> u64 {
        self.counts.values().map(|&count| u64::from(count)).sum()
    }
    fn limit(&self) -> u64 {
        self.amax * self.counts.len() as u64
    }
    fn count(&mut self, met: Met, really: bool) {
        *self.met.entry(met).or_default() += u64::from(really);
    }

    fn word(&mut self, w: u32, answered: u32) -> Vec<Broken> {
        match (kind(w), kind(answered)) {
            (work::READ | work::WRITE, answer::ALL_PINNED) => self.count(Met::Refused, true),
            (work::READ | work::WRITE, _) => return self.access(value(w), answered),
            (work::PURGE, answer::PURGED) => {
                self.counts.remove(&value(w));
                self.count(Met::PurgedOver, self.sum() > self.limit());
            }
            _ => {}
        }
        vec![]
    }

    fn access(&mut self, block: u32, answered: u32) -> Vec<Broken> {
        let (mut broken, mut risen) = (vec![], false);
        match kind(answered) {
            answer::HIT => {
                let (was, told) = (self.counts[&block], value(answered) % answer::HALVED);
                risen = told > was;
                broken.extend((told != was && told != was + 1).then_some(Broken::OtherCount));
                self.counts.insert(block, told);
            }
            answer::REPLACED => {
                self.counts.remove(&(value(answered) % answer::CHAIN));
                self.counts.insert(block, 1);
            }
            _ => {
                self.counts.insert(block, 1);
            }
        }
        let marked = kind(answered) != answer::REPLACED && value(answered) >= answer::HALVED;
        broken.extend((marked != (self.sum() > self.limit())).then_some(Broken::OtherMark));
        self.note(kind(answered), marked, risen);
        broken
    }

    /// Notes what a read or a write was, and halves where it is marked.
    fn note(&mut self, answered: u32, marked: bool, risen: bool) {
        let (sum, limit, entered) = (self.sum(), self.limit(), answered == answer::ENTERED);
        self.count(Met::HalvedByARise, marked && risen);
        self.count(Met::HalvedWithoutARise, marked && answered == answer::HIT && !risen);
        self.count(Met::HalvedByEntering, marked && entered);
        self.count(Met::BelowAllEntries, marked && sum <= self.amax * self.n);
        self.count(Met::EnteredAtTheLimit, entered && sum <= limit && sum > limit - self.amax);
        self.count(Met::OnTheLimit, sum == limit);
        if marked {
            self.counts.values_mut().for_each(|count| *count = count.div_ceil(2));
            self.count(Met::StillOver, self.sum() > limit);
        }
    }
}
