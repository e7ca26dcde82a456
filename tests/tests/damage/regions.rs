//! Damages that know no clause: words of every region changed at random, and slices cut, extended and filled at random.
use cache_tests::reference::builder::Plan;
use cache_tests::reference::directory::{entry, header, kind, link, number, value, word, LINK, MAX_VALUE};
use cache_tests::reference::rng::Rng;

#[derive(Clone, Copy)]
pub enum Region {
    Header(usize),
    ChainHead,
    ChainTail,
    Bucket,
    Resident(usize),
    Unused(usize),
}

pub fn all() -> Vec<Region> {
    let mut regions: Vec<Region> = (0..header::LENGTH).map(Region::Header).collect();
    regions.extend([Region::ChainHead, Region::ChainTail, Region::Bucket]);
    regions.extend((0..entry::LENGTH).map(Region::Resident));
    regions.extend((0..entry::LENGTH).map(Region::Unused));
    regions
}

impl Region {
    pub fn name(self) -> String {
        match self {
            Region::Header(address) => format!("header {address:02} {}", header::NAMES[address]),
            Region::ChainHead => "chain head".into(),
            Region::ChainTail => "chain tail".into(),
            Region::Bucket => "bucket".into(),
            Region::Resident(word) => format!("resident {word} {}", entry::NAMES[word]),
            Region::Unused(word) => format!("unused {word} {}", entry::NAMES[word]),
        }
    }

    /// A word of the region, if the directory has one.
    pub fn address(self, plan: &Plan, rng: &mut Rng) -> Option<usize> {
        let map = plan.map();
        let some_entry = |entries: &[u32], rng: &mut Rng| (!entries.is_empty()).then(|| rng.pick(entries));
        Some(match self {
            Region::Header(address) => address,
            Region::ChainHead => map.chain_head(rng.within(1, plan.settings.cmax)),
            Region::ChainTail => map.chain_tail(rng.within(1, plan.settings.cmax)),
            Region::Bucket => map.bucket(rng.below(map.buckets() as u64) as usize),
            Region::Resident(word) => map.entry(some_entry(&plan.arrangement.entries, rng)?, word),
            Region::Unused(word) => map.entry(some_entry(&plan.arrangement.unused, rng)?, word),
        })
    }
}

/// Another word for this address.
pub fn changed(rng: &mut Rng, plan: &Plan, words: &[u32], address: usize) -> u32 {
    let (old_kind, old) = (kind(words[address]), value(words[address]));
    let same_kind = |value: u32| word(old_kind, value & MAX_VALUE);
    loop {
        let new = match rng.below(9) {
            0 => same_kind(old.wrapping_add(1)),
            1 => same_kind(old.wrapping_sub(1)),
            2 => words[address] ^ 1 << rng.below(32),
            3 => word(rng.within(0, 15), old),
            4 => same_kind(rng.within(0, plan.settings.n)),
            5 => same_kind(rng.within(0, 8)),
            6 => rng.word(),
            // a value that stands somewhere else
            7 => same_kind(value(rng.pick(words))),
            _ => same_kind(rng.within(0, plan.settings.n + 1)),
        };
        if new != words[address] {
            return new;
        }
    }
}

/// Makes the slice longer than the directory, so that a damaged N or Cmax finds words to read.
fn maybe_extend(rng: &mut Rng, words: &mut Vec<u32>) {
    if rng.one_in(2) {
        for _ in 0..rng.below(60) {
            let extra = match rng.below(3) {
                0 => rng.word(),
                1 => number(0),
                _ => link(0),
            };
            words.push(extra);
        }
    }
}

/// One word of the region changed.
pub fn one_word(region: Region, plan: &Plan, rng: &mut Rng) -> Option<Vec<u32>> {
    let mut words = plan.build();
    let address = region.address(plan, rng)?;
    words[address] = changed(rng, plan, &words, address);
    maybe_extend(rng, &mut words);
    Some(words)
}

/// One word of the region and one of another region changed.
pub fn two_words(region: Region, plan: &Plan, rng: &mut Rng) -> Option<Vec<u32>> {
    let mut words = one_word(region, plan, rng)?;
    let address = rng.pick(&all()).address(plan, rng)?;
    words[address] = changed(rng, plan, &words, address);
    Some(words)
}

pub type Damage = fn(&Plan, &mut Rng) -> Vec<u32>;

pub const WHOLE_SLICE: [(&str, Damage); 10] = [
    ("several words", several_words),
    ("kinds", kinds),
    ("two words swapped", swapped),
    ("link redirected", redirected),
    ("two entries swapped", entries_swapped),
    ("entry copied over another", entry_copied),
    ("truncated", truncated),
    ("extended", extended),
    ("random words", random_words),
    ("random words after the settings", random_after_settings),
];

fn somewhere(rng: &mut Rng, words: &[u32]) -> usize {
    rng.below(words.len() as u64) as usize
}

fn several_words(plan: &Plan, rng: &mut Rng) -> Vec<u32> {
    let mut words = plan.build();
    for _ in 0..rng.within(3, 8) {
        let address = somewhere(rng, &words);
        words[address] = changed(rng, plan, &words, address);
    }
    words
}

fn kinds(plan: &Plan, rng: &mut Rng) -> Vec<u32> {
    let mut words = plan.build();
    for _ in 0..rng.within(1, 2) {
        let address = somewhere(rng, &words);
        words[address] = word(rng.within(0, 15), value(words[address]));
    }
    words
}

/// Equal words leave the directory as it was.
fn swapped(plan: &Plan, rng: &mut Rng) -> Vec<u32> {
    let mut words = plan.build();
    let a = somewhere(rng, &words);
    let same_kind: Vec<usize> = (0..words.len()).filter(|&b| kind(words[b]) == kind(words[a])).collect();
    words.swap(a, rng.pick(&same_kind));
    words
}

/// To none, to a legal entry, or to the first that doesn't exist.
fn redirected(plan: &Plan, rng: &mut Rng) -> Vec<u32> {
    let mut words = plan.build();
    let links: Vec<usize> = (0..words.len()).filter(|&address| kind(words[address]) == LINK).collect();
    words[rng.pick(&links)] = link(rng.within(0, plan.settings.n + 1));
    words
}

fn entries_swapped(plan: &Plan, rng: &mut Rng) -> Vec<u32> {
    let mut words = plan.build();
    let (map, n) = (plan.map(), plan.settings.n);
    let (a, b) = (rng.within(1, n), rng.within(1, n));
    for word in 0..entry::LENGTH {
        words.swap(map.entry(a, word), map.entry(b, word));
    }
    words
}

fn entry_copied(plan: &Plan, rng: &mut Rng) -> Vec<u32> {
    let mut words = plan.build();
    let (map, n) = (plan.map(), plan.settings.n);
    let from = map.entry(rng.within(1, n), 0);
    words.copy_within(from..from + entry::LENGTH, map.entry(rng.within(1, n), 0));
    words
}

fn truncated(plan: &Plan, rng: &mut Rng) -> Vec<u32> {
    let mut words = plan.build();
    let keep = if rng.one_in(4) { words.len() - 1 } else { somewhere(rng, &words) };
    words.truncate(keep);
    words
}

/// Words past the directory aren't judged.
fn extended(plan: &Plan, rng: &mut Rng) -> Vec<u32> {
    let mut words = plan.build();
    for _ in 0..rng.within(1, 30) {
        words.push(rng.word());
    }
    words
}

fn random_words(plan: &Plan, rng: &mut Rng) -> Vec<u32> {
    let length = rng.below(plan.map().length() as u64 + 10);
    (0..length).map(|_| rng.word()).collect()
}

/// Legal settings and right kinds, all other values at random: the walks meet anything.
fn random_after_settings(plan: &Plan, rng: &mut Rng) -> Vec<u32> {
    let mut words = plan.build();
    for any in &mut words[header::RESIDENTS..] {
        *any = word(kind(*any), rng.within(0, plan.settings.n));
    }
    words
}
