//! The directory's words: kinds, addresses and the fresh words.
use super::settings;
use crate::Settings;

/// Header words.
pub mod header {
    pub const N: usize = 0;
    pub const NNEW: usize = 1;
    pub const NOLD: usize = 2;
    pub const CMAX: usize = 3;
    pub const AMAX: usize = 4;
    pub const B: usize = 5;
    pub const M: usize = 6;
    /// r, the number of residents.
    pub const RESIDENTS: usize = 7;
    pub const SUM: usize = 8;
    pub const HEAD: usize = 9;
    pub const TAIL: usize = 10;
    /// The resident at position Nnew.
    pub const AT_NNEW: usize = 11;
    /// The resident at position N − Nold.
    pub const FIRST_OLD: usize = 12;
    pub const FIRST_UNUSED: usize = 13;
    /// Two numbers that are always 0.
    pub const ZERO_A: usize = 14;
    pub const ZERO_B: usize = 15;
    pub const READS_LOW: usize = 16;
    pub const READS_HIGH: usize = 17;
    pub const WRITES_LOW: usize = 18;
    pub const WRITES_HIGH: usize = 19;
    pub const INS_LOW: usize = 20;
    pub const INS_HIGH: usize = 21;
    pub const OUTS_LOW: usize = 22;
    pub const OUTS_HIGH: usize = 23;
    pub const LENGTH: usize = 24;
    pub const LINKS: std::ops::RangeInclusive<usize> = HEAD..=FIRST_UNUSED;
    pub const NAMES: [&str; LENGTH] = [
        "N", "Nnew", "Nold", "Cmax", "Amax", "B", "M", "residents", "sum", "head", "tail", "at Nnew", "first old",
        "first unused", "zero a", "zero b", "reads low", "reads high", "writes low", "writes high", "ins low",
        "ins high", "outs low", "outs high",
    ];
}

/// Words of an entry.
pub mod entry {
    pub const BLOCK: usize = 0;
    pub const COUNT: usize = 1;
    pub const SECTION: usize = 2;
    /// The marks: modified + 2 × seen + 4 × pinned.
    pub const MODIFIED: usize = 3;
    pub const TOWARDS_HEAD: usize = 4;
    pub const TOWARDS_TAIL: usize = 5;
    pub const CHAIN_TOWARDS_HEAD: usize = 6;
    pub const CHAIN_TOWARDS_TAIL: usize = 7;
    pub const SYNONYM: usize = 8;
    pub const LENGTH: usize = 9;
    pub const LINKS: std::ops::RangeInclusive<usize> = TOWARDS_HEAD..=SYNONYM;
    pub const NAMES: [&str; LENGTH] = [
        "block", "count", "section", "modified", "towards head", "towards tail", "chain towards head",
        "chain towards tail", "synonym",
    ];
}

/// Values of the section word.
pub const NEW: u32 = 0;
pub const MIDDLE: u32 = 1;
pub const OLD: u32 = 2;

/// Kinds of directory words.
pub const NUMBER: u32 = 1;
pub const LINK: u32 = 2;
pub const VALUE_BITS: u32 = 28;
pub const MAX_VALUE: u32 = (1 << VALUE_BITS) - 1;

pub const fn word(kind: u32, value: u32) -> u32 {
    assert!(kind < 16 && value <= MAX_VALUE, "kind and value do not fit a word");
    kind << VALUE_BITS | value
}
pub fn number(value: u32) -> u32 {
    word(NUMBER, value)
}
pub fn link(entry: u32) -> u32 {
    word(LINK, entry)
}
pub fn kind(word: u32) -> u32 {
    word >> VALUE_BITS
}
pub fn value(word: u32) -> u32 {
    word & MAX_VALUE
}

/// Where the words of a directory stand.
#[derive(Clone, Copy, Debug)]
pub struct Map {
    cmax: usize,
    buckets: usize,
    entries: usize,
}

impl Map {
    pub fn of(s: Settings) -> Map {
        Map { cmax: s.cmax as usize, buckets: settings::buckets(s.n) as usize, entries: s.n as usize }
    }
    /// Head of the chain of a count, from 1 to Cmax.
    pub fn chain_head(&self, count: u32) -> usize {
        header::LENGTH + 2 * (count as usize - 1)
    }
    pub fn chain_tail(&self, count: u32) -> usize {
        self.chain_head(count) + 1
    }
    pub fn bucket(&self, bucket: usize) -> usize {
        header::LENGTH + 2 * self.cmax + bucket
    }
    /// A word of entry `e`, from 1 to N.
    pub fn entry(&self, e: u32, word: usize) -> usize {
        self.bucket(self.buckets) + entry::LENGTH * (e as usize - 1) + word
    }
    pub fn length(&self) -> usize {
        self.bucket(self.buckets) + entry::LENGTH * self.entries
    }
    pub fn buckets(&self) -> usize {
        self.buckets
    }

    /// The kind that belongs at an address.
    pub fn kind_at(&self, address: usize) -> u32 {
        let is_link = if address < header::LENGTH {
            header::LINKS.contains(&address)
        } else if address < self.bucket(self.buckets) {
            true
        } else {
            entry::LINKS.contains(&((address - self.bucket(self.buckets)) % entry::LENGTH))
        };
        if is_link {
            LINK
        } else {
            NUMBER
        }
    }
}

/// The seven settings a directory names; `words` holds at least the header.
pub fn settings_of(words: &[u32]) -> Settings {
    let at = |address: usize| value(words[address]);
    Settings {
        n: at(header::N),
        nnew: at(header::NNEW),
        nold: at(header::NOLD),
        cmax: at(header::CMAX),
        amax: at(header::AMAX),
        b: at(header::B),
        m: at(header::M),
    }
}

/// The words of a fresh directory: no residents, totals 0, entries unused in rising order.
pub fn fresh_words(s: Settings) -> Vec<u32> {
    let map = Map::of(s);
    let mut words: Vec<u32> = (0..map.length()).map(|address| word(map.kind_at(address), 0)).collect();
    let settings = [s.n, s.nnew, s.nold, s.cmax, s.amax, s.b, s.m];
    for (address, setting) in (header::N..=header::M).zip(settings) {
        words[address] = number(setting);
    }
    words[header::FIRST_UNUSED] = link(1);
    for e in 1..s.n {
        words[map.entry(e, entry::TOWARDS_TAIL)] = link(e + 1);
    }
    words
}
