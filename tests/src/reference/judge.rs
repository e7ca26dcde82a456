//! The soundness judge: "Sound means", clause by clause and in that order, as plainly as it can be said.
//! It answers for any slice of any words and is quadratic.
use super::directory::{entry, header, kind, settings_of, value, Map, MIDDLE, NEW, OLD, VALUE_BITS};
use super::fnv;
use super::marks::{self, Marks};
use super::settings::{self, MAX_COUNT};
use crate::Settings;

pub fn sound(words: &[u32]) -> bool {
    // the slice is long enough
    if words.len() < header::LENGTH {
        return false;
    }
    let s = settings_of(words);
    if (words.len() as u64) < settings::directory_length(s) {
        return false;
    }
    let judge = Judge { words, s, map: Map::of(s) };
    judge.verdict().is_some()
}

/// A directory that is long enough for its settings.
struct Judge<'a> {
    words: &'a [u32],
    s: Settings,
    map: Map,
}

/// `Some` if the clause holds, so that clauses follow each other with `?`.
fn hold(clause: bool) -> Option<()> {
    clause.then_some(())
}

impl Judge<'_> {
    fn at(&self, address: usize) -> u32 {
        value(self.words[address])
    }
    fn of(&self, e: u32, word: usize) -> u32 {
        self.at(self.map.entry(e, word))
    }
    fn count(&self, e: u32) -> u32 {
        self.of(e, entry::COUNT)
    }
    fn total(&self, low: usize, high: usize) -> u64 {
        u64::from(self.at(low)) + (u64::from(self.at(high)) << VALUE_BITS)
    }

    /// The different entries from `first` on along a link word; none if a link names no entry or the list comes back.
    fn list(&self, first: u32, link_word: usize) -> Option<Vec<u32>> {
        let mut list = Vec::new();
        let mut e = first;
        while e != 0 {
            hold(e <= self.s.n && !list.contains(&e))?;
            list.push(e);
            e = self.of(e, link_word);
        }
        Some(list)
    }

    /// The list from head to tail, if the list from tail to head is the same.
    fn both_ways(&self, head: usize, tail: usize, to_tail: usize, to_head: usize) -> Option<Vec<u32>> {
        let forward = self.list(self.at(head), to_tail)?;
        let mut backward = self.list(self.at(tail), to_head)?;
        backward.reverse();
        hold(forward == backward)?;
        Some(forward)
    }

    fn verdict(&self) -> Option<()> {
        // every kind is right and the settings legal
        hold((0..self.map.length()).all(|address| kind(self.words[address]) == self.map.kind_at(address)))?;
        hold(settings::number(self.s) == 0)?;
        // the stack links list r different entries, the same both ways
        let stack = self.both_ways(header::HEAD, header::TAIL, entry::TOWARDS_TAIL, entry::TOWARDS_HEAD)?;
        hold(stack.len() == self.at(header::RESIDENTS) as usize)?;
        self.unused(&stack)?;
        self.residents(&stack)?;
        self.sections(&stack)?;
        self.chains(&stack)?;
        self.buckets(&stack)?;
        self.totals(&stack)
    }

    fn unused(&self, stack: &[u32]) -> Option<()> {
        // the other entries stand on the unused list, linked by their stack-towards-tail word, their other values 0
        let unused = self.list(self.at(header::FIRST_UNUSED), entry::TOWARDS_TAIL)?;
        hold((1..=self.s.n).all(|e| stack.contains(&e) != unused.contains(&e)))?;
        let others = (0..entry::LENGTH).filter(|&word| word != entry::TOWARDS_TAIL);
        hold(others.into_iter().all(|word| unused.iter().all(|&e| self.of(e, word) == 0)))
    }

    fn residents(&self, stack: &[u32]) -> Option<()> {
        // resident blocks differ and are below M
        let blocks: Vec<u32> = stack.iter().map(|&e| self.of(e, entry::BLOCK)).collect();
        hold((0..blocks.len()).all(|p| !blocks[..p].contains(&blocks[p])))?;
        hold(blocks.iter().all(|&block| block < self.s.m))?;
        // counts are 1 to 65,535
        hold(stack.iter().all(|&e| (1..=MAX_COUNT).contains(&self.count(e))))?;
        // modified + 2 × seen + 4 × pinned, where seen needs modified
        hold(stack.iter().all(|&e| marks::LEGAL.contains(&self.of(e, entry::MODIFIED))))
    }

    fn sections(&self, stack: &[u32]) -> Option<()> {
        // sum, sections and words 11, 12, 14 and 15 are as defined
        let sum: u64 = stack.iter().map(|&e| u64::from(self.count(e))).sum();
        hold(u64::from(self.at(header::SUM)) == sum)?;
        let first_old = (self.s.n - self.s.nold) as usize;
        let section = |position: usize| match position {
            _ if position < self.s.nnew as usize => NEW,
            _ if position >= first_old => OLD,
            _ => MIDDLE,
        };
        hold(stack.iter().enumerate().all(|(p, &e)| self.of(e, entry::SECTION) == section(p)))?;
        let resident_at = |position: usize| stack.get(position).copied().unwrap_or(0);
        hold(self.at(header::AT_NNEW) == resident_at(self.s.nnew as usize))?;
        hold(self.at(header::FIRST_OLD) == resident_at(first_old))?;
        hold(self.at(header::ZERO_A) == 0 && self.at(header::ZERO_B) == 0)?;
        // sum at most Amax × N
        hold(sum <= settings::sum_limit(self.s))
    }

    fn chains(&self, stack: &[u32]) -> Option<()> {
        // chain i lists exactly the residents of count i in stack order, both ways
        for i in 1..=self.s.cmax {
            let (head, tail) = (self.map.chain_head(i), self.map.chain_tail(i));
            let chain = self.both_ways(head, tail, entry::CHAIN_TOWARDS_TAIL, entry::CHAIN_TOWARDS_HEAD)?;
            let of_this_count: Vec<u32> = stack.iter().copied().filter(|&e| self.count(e) == i).collect();
            hold(chain == of_this_count)?;
        }
        // and a resident in no chain has chain links 0
        let mut in_no_chain = stack.iter().filter(|&&e| self.count(e) > self.s.cmax);
        hold(
            in_no_chain
                .all(|&e| self.of(e, entry::CHAIN_TOWARDS_HEAD) == 0 && self.of(e, entry::CHAIN_TOWARDS_TAIL) == 0),
        )
    }

    fn buckets(&self, stack: &[u32]) -> Option<()> {
        // each bucket lists exactly its residents, in any order
        let buckets = self.map.buckets();
        let home = |e: u32| fnv::of_block(self.of(e, entry::BLOCK)) as usize % buckets;
        let homes: Vec<(usize, u32)> = stack.iter().map(|&e| (home(e), e)).collect();
        for bucket in 0..buckets {
            let mut listed = self.list(self.at(self.map.bucket(bucket)), entry::SYNONYM)?;
            let mut its_residents: Vec<u32> = homes.iter().filter(|h| h.0 == bucket).map(|h| h.1).collect();
            listed.sort_unstable();
            its_residents.sort_unstable();
            hold(listed == its_residents)?;
        }
        Some(())
    }

    fn totals(&self, stack: &[u32]) -> Option<()> {
        // ins at most reads; outs plus modified residents at most writes
        let reads = self.total(header::READS_LOW, header::READS_HIGH);
        let writes = self.total(header::WRITES_LOW, header::WRITES_HIGH);
        let ins = self.total(header::INS_LOW, header::INS_HIGH);
        let outs = self.total(header::OUTS_LOW, header::OUTS_HIGH);
        let modified = stack.iter().filter(|&&e| Marks::of_word(self.of(e, entry::MODIFIED)).modified).count() as u64;
        hold(ins <= reads && outs + modified <= writes)
    }
}

#[cfg(test)]
mod tests {
    use super::sound;
    use crate::reference::directory::{fresh_words, header, number};
    use crate::BELT;

    #[test]
    fn short_slices_and_fresh_words() {
        let words = fresh_words(BELT);
        assert!(sound(&words));
        for length in 0..words.len() {
            assert!(!sound(&words[..length]), "{length} words");
        }
    }

    #[test]
    fn huge_settings_are_judged_without_harm() {
        let mut words = fresh_words(BELT);
        words[header::N] = u32::MAX;
        words[header::CMAX] = u32::MAX;
        assert!(!sound(&words));
        words[header::N] = number(0);
        assert!(!sound(&words));
    }
}
