//! Builds the directory words of any list of residents, with entry numbers, synonym order and unused list as asked for,
//! also such as no history of batches leads to.
//!
//! A plan is written down as the layout defines it and isn't judged: one with a block of M or a count of 0 gives words
//! that are wrong in that one respect only.
use super::directory::{entry, header, link, number, word, Map, MAX_VALUE, MIDDLE, NEW, OLD, VALUE_BITS};
use super::stack::{self, PlainStack};
use super::{fnv, settings};
use crate::Settings;

#[derive(Clone, Copy, Debug, PartialEq, Eq)]
pub struct Resident {
    pub block: u32,
    pub count: u32,
    /// The modified word, legal or not.
    pub marks: u32,
}

impl Resident {
    /// Also of a word that is not legal.
    pub fn is_modified(&self) -> bool {
        self.marks % 2 == 1
    }
}

#[derive(Clone, Copy, Debug, Default, PartialEq, Eq)]
pub struct Totals {
    pub reads: u64,
    pub writes: u64,
    pub ins: u64,
    pub outs: u64,
}

/// What the scope leaves open: entry numbers, the order of the unused list, synonym order.
#[derive(Clone, Debug)]
pub struct Arrangement {
    /// The entry of the resident at each position.
    pub entries: Vec<u32>,
    /// The unused entries, first to last.
    pub unused: Vec<u32>,
    /// The order in which positions are listed where they share a bucket.
    pub synonyms: Vec<usize>,
}

#[derive(Clone, Debug)]
pub struct Plan {
    pub settings: Settings,
    /// Most recent first.
    pub residents: Vec<Resident>,
    pub totals: Totals,
    pub arrangement: Arrangement,
}

pub fn section(s: Settings, position: usize) -> u32 {
    if position < s.nnew as usize {
        NEW
    } else if position + s.nold as usize >= s.n as usize {
        OLD
    } else {
        MIDDLE
    }
}

/// The bucket of a block.
pub fn home(s: Settings, block: u32) -> usize {
    home_among(settings::buckets(s.n), block)
}

/// Its bucket, where there are so many.
pub fn home_among(buckets: u64, block: u32) -> usize {
    (u64::from(fnv::of_block(block)) % buckets) as usize
}

impl Plan {
    /// The directory of a plain stack's state.
    pub fn of_stack(stack: &PlainStack, arrangement: Arrangement) -> Plan {
        let resident =
            |held: &stack::Resident| Resident { block: held.block, count: held.count, marks: held.marks.word() };
        Plan {
            settings: stack.settings,
            residents: stack.residents.iter().map(resident).collect(),
            totals: Totals { reads: stack.reads, writes: stack.writes, ins: stack.ins, outs: stack.outs },
            arrangement,
        }
    }
    pub fn map(&self) -> Map {
        Map::of(self.settings)
    }
    pub fn sum(&self) -> u64 {
        self.residents.iter().map(|resident| u64::from(resident.count)).sum()
    }
    pub fn modified(&self) -> u64 {
        self.residents.iter().filter(|resident| resident.is_modified()).count() as u64
    }
    /// The entries of chain `count` in stack order.
    pub fn chain(&self, count: u32) -> Vec<u32> {
        let pairs = self.residents.iter().zip(&self.arrangement.entries);
        pairs.filter(|(resident, _)| resident.count == count).map(|(_, &e)| e).collect()
    }
    /// The entries of a bucket in synonym order.
    pub fn bucket(&self, bucket: usize) -> Vec<u32> {
        let here = |&&position: &&usize| home(self.settings, self.residents[position].block) == bucket;
        self.arrangement.synonyms.iter().filter(here).map(|&p| self.arrangement.entries[p]).collect()
    }

    pub fn build(&self) -> Vec<u32> {
        let map = self.map();
        let mut words: Vec<u32> = (0..map.length()).map(|address| word(map.kind_at(address), 0)).collect();
        self.write_header(&mut words);
        self.write_residents(&mut words);
        self.write_chains(&mut words);
        self.write_buckets(&mut words);
        write_unused(&mut words, map, &self.arrangement.unused);
        words
    }

    fn write_header(&self, words: &mut [u32]) {
        let s = self.settings;
        let numbers = [s.n, s.nnew, s.nold, s.cmax, s.amax, s.b, s.m, self.residents.len() as u32, self.sum() as u32];
        for (address, value) in (header::N..=header::SUM).zip(numbers) {
            words[address] = number(value);
        }
        let entry_at = |position: usize| self.arrangement.entries.get(position).copied().unwrap_or(0);
        words[header::AT_NNEW] = link(entry_at(s.nnew as usize));
        words[header::FIRST_OLD] = link(entry_at(s.n.saturating_sub(s.nold) as usize));
        let t = self.totals;
        let addresses = [header::READS_LOW, header::WRITES_LOW, header::INS_LOW, header::OUTS_LOW];
        for (low, total) in addresses.into_iter().zip([t.reads, t.writes, t.ins, t.outs]) {
            words[low] = number((total & u64::from(MAX_VALUE)) as u32);
            words[low + 1] = number((total >> VALUE_BITS) as u32);
        }
    }

    fn write_residents(&self, words: &mut [u32]) {
        let map = self.map();
        for (position, (resident, &e)) in self.residents.iter().zip(&self.arrangement.entries).enumerate() {
            words[map.entry(e, entry::BLOCK)] = number(resident.block);
            words[map.entry(e, entry::COUNT)] = number(resident.count);
            words[map.entry(e, entry::SECTION)] = number(section(self.settings, position));
            words[map.entry(e, entry::MODIFIED)] = number(resident.marks);
        }
        write_stack(words, map, &self.arrangement.entries[..self.residents.len()]);
    }

    fn write_chains(&self, words: &mut [u32]) {
        for count in 1..=self.settings.cmax {
            write_chain(words, self.map(), count, &self.chain(count));
        }
    }

    fn write_buckets(&self, words: &mut [u32]) {
        let map = self.map();
        let mut listed = vec![Vec::new(); map.buckets()];
        for &position in &self.arrangement.synonyms {
            let bucket = home(self.settings, self.residents[position].block);
            listed[bucket].push(self.arrangement.entries[position]);
        }
        for (bucket, entries) in listed.iter().enumerate() {
            write_bucket(words, map, bucket, entries);
        }
    }
}

/// A list linked one way: the word that starts it, then a word of each entry.
fn write_single(words: &mut [u32], map: Map, start: usize, link_word: usize, entries: &[u32]) {
    words[start] = link(entries.first().copied().unwrap_or(0));
    for (i, &e) in entries.iter().enumerate() {
        words[map.entry(e, link_word)] = link(entries.get(i + 1).copied().unwrap_or(0));
    }
}

/// A list linked both ways is two lists.
fn write_both_ways(words: &mut [u32], map: Map, ends: (usize, usize), links: (usize, usize), entries: &[u32]) {
    let backward: Vec<u32> = entries.iter().rev().copied().collect();
    write_single(words, map, ends.0, links.0, entries);
    write_single(words, map, ends.1, links.1, &backward);
}

pub fn write_stack(words: &mut [u32], map: Map, entries: &[u32]) {
    let ends = (header::HEAD, header::TAIL);
    write_both_ways(words, map, ends, (entry::TOWARDS_TAIL, entry::TOWARDS_HEAD), entries);
}

pub fn write_chain(words: &mut [u32], map: Map, count: u32, entries: &[u32]) {
    let ends = (map.chain_head(count), map.chain_tail(count));
    write_both_ways(words, map, ends, (entry::CHAIN_TOWARDS_TAIL, entry::CHAIN_TOWARDS_HEAD), entries);
}

pub fn write_bucket(words: &mut [u32], map: Map, bucket: usize, entries: &[u32]) {
    write_single(words, map, map.bucket(bucket), entry::SYNONYM, entries);
}

pub fn write_unused(words: &mut [u32], map: Map, entries: &[u32]) {
    write_single(words, map, header::FIRST_UNUSED, entry::TOWARDS_TAIL, entries);
}

#[cfg(test)]
mod tests {
    use super::*;
    use crate::reference::directory::fresh_words;
    use crate::reference::judge;
    use crate::BELT;

    #[test]
    fn no_residents_and_rising_unused_entries_are_the_fresh_words() {
        let arrangement = Arrangement { entries: vec![], unused: vec![1, 2, 3, 4], synonyms: vec![] };
        let plan = Plan { settings: BELT, residents: vec![], totals: Totals::default(), arrangement };
        assert_eq!(plan.build(), fresh_words(BELT));
    }

    #[test]
    fn three_residents_by_hand() {
        let resident = |block, count, marks| Resident { block, count, marks };
        let plan = Plan {
            settings: BELT,
            residents: vec![resident(9, 1, 0), resident(5, 2, 4), resident(7, 1, 7)],
            totals: Totals { reads: 3, writes: 1 << 28, ins: 2, outs: 0 },
            arrangement: Arrangement { entries: vec![4, 1, 2], unused: vec![3], synonyms: vec![2, 0, 1] },
        };
        let words = plan.build();
        let header_numbers = [4, 1, 2, 3, 100, 8, 64, 3, 4].map(number);
        assert_eq!(words[..=header::SUM], header_numbers);
        assert_eq!(words[header::LINKS], [4, 2, 1, 2, 3].map(link));
        assert_eq!(words[header::ZERO_A..header::LENGTH], [0, 0, 3, 0, 0, 1, 2, 0, 0, 0].map(number));
        // chains 1, 2 and 3
        assert_eq!(words[header::LENGTH..header::LENGTH + 6], [4, 2, 1, 1, 0, 0].map(link));
        let entry_2 = plan.map().entry(2, 0);
        assert_eq!(words[entry_2..entry_2 + 4], [7, 1, OLD, 7].map(number));
        assert_eq!(words[entry_2 + 4..entry_2 + 8], [1, 0, 4, 0].map(link));
        assert!(judge::sound(&words));
    }
}
