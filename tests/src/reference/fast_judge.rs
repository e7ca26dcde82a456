//! The same verdict as `judge` in one walk along the stack, the unused list and the buckets, without memory of its own:
//! what a careful Rust programmer would write, and the mark that the library's check is timed against.
//! Every directory that the soundness tests judge is judged by it too.
use super::directory::{entry, header, LINK, MAX_VALUE, MIDDLE, NEW, NUMBER, OLD, VALUE_BITS};
use super::directory::{settings_of, Map};
use super::fnv;
use super::marks::PINNED;
use super::settings::{self, MAX_COUNT};
use crate::Settings;

const CHAIN_SLOTS: usize = settings::MAX_CMAX as usize + 1;

pub fn sound(words: &[u32]) -> bool {
    if words.len() < header::LENGTH {
        return false;
    }
    let s = settings_of(words);
    if settings::number(s) != 0 || (words.len() as u64) < settings::directory_length(s) {
        return false;
    }
    let map = Map::of(s);
    let entries = &words[map.entry(1, 0)..map.length()];
    let check = Check { words, entries, s, map };
    check.kinds() && check.stack() && check.unused() && check.buckets()
}

struct Check<'a> {
    words: &'a [u32],
    entries: &'a [u32],
    s: Settings,
    map: Map,
}

fn is_link(word: u32) -> bool {
    word >> VALUE_BITS == LINK
}
fn is_number(word: u32) -> bool {
    word >> VALUE_BITS == NUMBER
}

impl<'a> Check<'a> {
    fn at(&self, address: usize) -> u32 {
        self.words[address] & MAX_VALUE
    }
    /// The nine words of an entry, 1 to N.
    fn entry(&self, e: u32) -> &'a [u32; entry::LENGTH] {
        let first = (e as usize - 1) * entry::LENGTH;
        self.entries[first..first + entry::LENGTH].try_into().unwrap()
    }
    fn names_an_entry(&self, e: u32) -> bool {
        e != 0 && e <= self.s.n
    }

    fn kinds(&self) -> bool {
        let head = &self.words[..header::LENGTH];
        let numbers = head[..header::HEAD].iter().chain(&head[header::ZERO_A..]);
        numbers.copied().all(is_number)
            && head[header::LINKS].iter().copied().all(is_link)
            && self.words[header::LENGTH..self.map.entry(1, 0)].iter().copied().all(is_link)
            && self.entries.chunks_exact(entry::LENGTH).all(|e| {
                e[..entry::TOWARDS_HEAD].iter().copied().all(is_number)
                    && e[entry::TOWARDS_HEAD..].iter().copied().all(is_link)
            })
    }

    /// Residents, sum, sections, boundaries, chains and totals. Each resident links back to the one before it and the
    /// first links back to none, so r steps that end in 0 meet r different entries.
    fn stack(&self) -> bool {
        let (nnew, first_old) = (self.s.nnew, self.s.n - self.s.nold);
        let r = self.at(header::RESIDENTS);
        if r > self.s.n {
            return false;
        }
        let mut chain_tails = [0u32; CHAIN_SLOTS];
        let (mut sum, mut modified) = (0u64, 0u64);
        let (mut at_nnew, mut at_first_old) = (0, 0);
        let (mut before, mut e) = (0, self.at(header::HEAD));
        for position in 0..r {
            if !self.names_an_entry(e) {
                return false;
            }
            let resident = self.entry(e).map(|word| word & MAX_VALUE);
            let section = match position {
                _ if position < nnew => NEW,
                _ if position < first_old => MIDDLE,
                _ => OLD,
            };
            let (count, marks) = (resident[entry::COUNT], resident[entry::MODIFIED]);
            if resident[entry::TOWARDS_HEAD] != before
                || resident[entry::BLOCK] >= self.s.m
                || !(1..=MAX_COUNT).contains(&count)
                || resident[entry::SECTION] != section
                // a pin apart, 0 alone of the even ones, 1 and 3 of the odd ones
                || marks & !PINNED > 3 * (marks & 1)
                || !self.chained(e, &resident, &mut chain_tails)
            {
                return false;
            }
            if position == nnew {
                at_nnew = e;
            }
            if position == first_old {
                at_first_old = e;
            }
            sum += u64::from(count);
            modified += u64::from(marks & 1);
            (before, e) = (e, resident[entry::TOWARDS_TAIL]);
        }
        e == 0
            && before == self.at(header::TAIL)
            && sum == u64::from(self.at(header::SUM))
            && sum <= settings::sum_limit(self.s)
            && at_nnew == self.at(header::AT_NNEW)
            && at_first_old == self.at(header::FIRST_OLD)
            && self.at(header::ZERO_A) == 0
            && self.at(header::ZERO_B) == 0
            && self.chains_end(&chain_tails)
            && self.totals(modified)
    }

    /// Whether the resident follows the last one seen of its count, in links both ways.
    fn chained(&self, e: u32, resident: &[u32; entry::LENGTH], tails: &mut [u32; CHAIN_SLOTS]) -> bool {
        let count = resident[entry::COUNT];
        if count > self.s.cmax {
            return resident[entry::CHAIN_TOWARDS_HEAD] == 0 && resident[entry::CHAIN_TOWARDS_TAIL] == 0;
        }
        let last = std::mem::replace(&mut tails[count as usize], e);
        let next_of_last = match last {
            0 => self.at(self.map.chain_head(count)),
            _ => self.entry(last)[entry::CHAIN_TOWARDS_TAIL] & MAX_VALUE,
        };
        resident[entry::CHAIN_TOWARDS_HEAD] == last && next_of_last == e
    }

    fn chains_end(&self, tails: &[u32; CHAIN_SLOTS]) -> bool {
        (1..=self.s.cmax).all(|count| {
            let last = tails[count as usize];
            let next_of_last = match last {
                0 => self.at(self.map.chain_head(count)),
                _ => self.entry(last)[entry::CHAIN_TOWARDS_TAIL] & MAX_VALUE,
            };
            next_of_last == 0 && self.at(self.map.chain_tail(count)) == last
        })
    }

    fn totals(&self, modified: u64) -> bool {
        let total = |low: usize| u64::from(self.at(low)) | u64::from(self.at(low + 1)) << VALUE_BITS;
        total(header::INS_LOW) <= total(header::READS_LOW)
            && total(header::OUTS_LOW) + modified <= total(header::WRITES_LOW)
    }

    /// Residents have a count and unused entries have none; a list that ends holds no entry twice.
    fn unused(&self) -> bool {
        let mut e = self.at(header::FIRST_UNUSED);
        for _ in self.at(header::RESIDENTS)..self.s.n {
            if !self.names_an_entry(e) {
                return false;
            }
            let values = self.entry(e).map(|word| word & MAX_VALUE);
            let (front, back) = values.split_at(entry::TOWARDS_TAIL);
            if front.iter().chain(&back[1..]).any(|&value| value != 0) {
                return false;
            }
            e = values[entry::TOWARDS_TAIL];
        }
        e == 0
    }

    /// r listed entries in all, each a resident in its own bucket, are all the residents.
    fn buckets(&self) -> bool {
        let mask = self.map.buckets() - 1;
        let mut left = self.at(header::RESIDENTS);
        for bucket in 0..=mask {
            let first = self.at(self.map.bucket(bucket));
            let mut e = first;
            while e != 0 {
                if left == 0 || !self.names_an_entry(e) {
                    return false;
                }
                let block = self.entry(e)[entry::BLOCK] & MAX_VALUE;
                let resident = self.entry(e)[entry::COUNT] & MAX_VALUE != 0;
                if !resident || fnv::of_block(block) as usize & mask != bucket || self.listed(first, e, block) {
                    return false;
                }
                left -= 1;
                e = self.entry(e)[entry::SYNONYM] & MAX_VALUE;
            }
        }
        left == 0
    }

    /// Whether a bucket lists a block before entry `end`.
    fn listed(&self, first: u32, end: u32, block: u32) -> bool {
        let mut e = first;
        while e != end {
            if self.entry(e)[entry::BLOCK] & MAX_VALUE == block {
                return true;
            }
            e = self.entry(e)[entry::SYNONYM] & MAX_VALUE;
        }
        false
    }
}
