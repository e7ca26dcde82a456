//! The plain stack: residents with their bytes in recency order, the store, the totals, and batches of work words.
use super::directory::{kind, value, word};
use super::marks::Marks;
use super::settings::MAX_COUNT;
use crate::Settings;

#[cfg(test)]
mod tests;

/// Kinds of work words.
pub mod work {
    pub const READ: u32 = 1;
    pub const WRITE: u32 = 2;
    pub const PURGE: u32 = 3;
    pub const FLUSH: u32 = 4;
    pub const TICK: u32 = 5;
    pub const PIN: u32 = 6;
    pub const UNPIN: u32 = 7;
    pub const MOST_WORDS: usize = 1_024;
}

/// Work words of block 0, to which a block is added.
pub mod words {
    use super::{word, work};
    pub const READ: u32 = word(work::READ, 0);
    pub const WRITE: u32 = word(work::WRITE, 0);
    pub const PURGE: u32 = word(work::PURGE, 0);
    pub const FLUSH: u32 = word(work::FLUSH, 0);
    pub const TICK: u32 = word(work::TICK, 0);
    pub const PIN: u32 = word(work::PIN, 0);
    pub const UNPIN: u32 = word(work::UNPIN, 0);
}

/// Kinds of answer words, and what their values add up.
pub mod answer {
    pub const HIT: u32 = 1;
    pub const ENTERED: u32 = 2;
    pub const REPLACED: u32 = 3;
    pub const PURGED: u32 = 4;
    pub const ABSENT: u32 = 5;
    /// Of a flush or a tick: how many were written out.
    pub const FLUSHED: u32 = 6;
    /// Of a read or a write that found all N residents pinned.
    pub const ALL_PINNED: u32 = 7;
    /// Of a pin or an unpin: 1 if the block is pinned afterwards.
    pub const PINNED: u32 = 8;
    /// Of a purge of a pinned block.
    pub const PURGE_REFUSED: u32 = 9;
    /// The kinds, with none of 0.
    pub const KINDS: usize = 10;
    /// Of a hit or an entered block: counts were halved.
    pub const HALVED: u32 = 1 << 26;
    /// Of a replaced block: one chain looked at.
    pub const CHAIN: u32 = 1 << 18;
    /// Of a replaced block: the victim was written out.
    pub const WRITTEN_OUT: u32 = 1 << 25;
}

/// Reads, writes and batch length together stay at most this.
pub const MOST_TOTAL: u64 = (1 << 56) - 1;

#[derive(Clone, Debug, PartialEq, Eq)]
pub struct Resident {
    pub block: u32,
    pub count: u32,
    pub marks: Marks,
    pub bytes: Vec<u8>,
}

#[derive(Clone, Debug, PartialEq, Eq)]
pub struct PlainStack {
    pub settings: Settings,
    /// Most recent first.
    pub residents: Vec<Resident>,
    /// The memory that the store is at the front of: its first M × B bytes are the blocks, and the rest stays.
    pub store: Vec<u8>,
    pub reads: u64,
    pub writes: u64,
    pub ins: u64,
    pub outs: u64,
}

/// By which of the three rules a victim is found.
#[derive(Clone, Copy, Debug, PartialEq, Eq)]
pub enum Found {
    /// The old section's unpinned resident of smallest count up to Cmax.
    SmallestCount,
    /// The old section's least recent unpinned one.
    LeastRecentOld,
    /// The least recent unpinned one anywhere.
    LeastRecent,
}

/// What is shown the stack on both sides of each word of a batch.
pub trait Watch {
    fn before(&mut self, stack: &PlainStack, w: u32);
    fn after(&mut self, stack: &PlainStack, w: u32, answer: u32);
}

/// Nobody watches.
impl Watch for () {
    fn before(&mut self, _: &PlainStack, _: u32) {}
    fn after(&mut self, _: &PlainStack, _: u32, _: u32) {}
}

/// How many bytes of data and store a call is lent, from their first byte.
#[derive(Clone, Copy, Debug, PartialEq, Eq)]
pub struct Lent {
    pub data: usize,
    pub store: usize,
}

impl PlainStack {
    pub fn new(settings: Settings, store: Vec<u8>) -> PlainStack {
        PlainStack { settings, residents: Vec::new(), store, reads: 0, writes: 0, ins: 0, outs: 0 }
    }

    /// What a batch needs: of data at least, of the store exactly.
    pub fn whole(&self) -> Lent {
        let s = self.settings;
        Lent { data: s.n as usize * s.b as usize, store: s.m as usize * s.b as usize }
    }

    /// Runs a batch and returns 0, or changes nothing and returns 7 to 12.
    pub fn batch(
        &mut self, lent: Lent, work: &[u32], incoming: &[u8], answers: &mut [u32], outgoing: &mut [u8],
    ) -> u32 {
        self.watched_batch(lent, work, incoming, answers, outgoing, &mut ())
    }

    /// The same under watch.
    pub fn watched_batch(
        &mut self, lent: Lent, work: &[u32], incoming: &[u8], answers: &mut [u32], outgoing: &mut [u8],
        watch: &mut impl Watch,
    ) -> u32 {
        let refusal = self.refusal(lent, work, incoming.len(), answers.len(), outgoing.len());
        if refusal != 0 {
            return refusal;
        }
        let b = self.settings.b as usize;
        let mut incoming = incoming.chunks_exact(b);
        let mut outgoing = outgoing.chunks_exact_mut(b);
        for (answer, &w) in answers.iter_mut().zip(work) {
            let block = value(w);
            watch.before(self, w);
            *answer = match kind(w) {
                work::READ => self.read(block, outgoing.next().unwrap()),
                work::WRITE => self.write(block, incoming.next().unwrap()),
                work::PURGE => self.purge(block),
                work::FLUSH => self.flush(),
                work::TICK => self.tick(),
                k => self.pin(block, k == work::PIN),
            };
            watch.after(self, w, *answer);
        }
        0
    }

    /// The first number of the table, 7, 12 or 8 to 11, whose condition is met; else 0.
    fn refusal(&self, lent: Lent, work: &[u32], incoming: usize, answers: usize, outgoing: usize) -> u32 {
        let of_kind = |k: u32| work.iter().filter(|&&w| kind(w) == k).count();
        let b = self.settings.b as usize;
        let whole = self.whole();
        if lent.data < whole.data || lent.store < whole.store {
            7
        } else if lent.store > whole.store {
            12
        } else if work.len() > work::MOST_WORDS {
            8
        } else if !work.iter().all(|&w| self.well_formed(w)) {
            9
        } else if answers < work.len() || incoming < of_kind(work::WRITE) * b || outgoing < of_kind(work::READ) * b {
            10
        } else if self.reads + self.writes + work.len() as u64 > MOST_TOTAL {
            11
        } else {
            0
        }
    }

    fn well_formed(&self, w: u32) -> bool {
        match kind(w) {
            work::READ | work::WRITE | work::PURGE | work::PIN | work::UNPIN => value(w) < self.settings.m,
            work::FLUSH | work::TICK => value(w) == 0,
            _ => false,
        }
    }

    fn read(&mut self, block: u32, out: &mut [u8]) -> u32 {
        self.reads += 1;
        let answer = match self.position(block) {
            Some(p) => self.hit(p),
            None => {
                // what a victim is written out to is in the store before the block comes in
                let Some(answer) = self.make_room() else {
                    out.fill(0);
                    return word(answer::ALL_PINNED, 0);
                };
                self.ins += 1;
                let bytes = self.store[self.place(block)].to_vec();
                self.enter(block, bytes);
                answer
            }
        };
        out.copy_from_slice(&self.residents[0].bytes);
        self.halved_after(answer)
    }

    fn write(&mut self, block: u32, bytes: &[u8]) -> u32 {
        self.writes += 1;
        let answer = match self.position(block) {
            Some(p) => self.hit(p),
            None => {
                let Some(answer) = self.make_room() else {
                    return word(answer::ALL_PINNED, 0);
                };
                self.enter(block, Vec::new());
                answer
            }
        };
        self.residents[0].bytes = bytes.to_vec();
        // a further write keeps the seen mark
        self.residents[0].marks.modified = true;
        self.halved_after(answer)
    }

    fn purge(&mut self, block: u32) -> u32 {
        match self.position(block) {
            Some(p) if self.residents[p].marks.pinned => word(answer::PURGE_REFUSED, 0),
            Some(p) => word(answer::PURGED, u32::from(self.residents.remove(p).marks.modified)),
            None => word(answer::ABSENT, 0),
        }
    }

    /// Pins or unpins a block. Order and counts stay.
    fn pin(&mut self, block: u32, pinned: bool) -> u32 {
        match self.position(block) {
            Some(p) => {
                self.residents[p].marks.pinned = pinned;
                word(answer::PINNED, u32::from(pinned))
            }
            None => word(answer::ABSENT, 0),
        }
    }

    fn flush(&mut self) -> u32 {
        let mut written = 0;
        for p in 0..self.residents.len() {
            if self.residents[p].marks.modified {
                self.write_out(p);
                written += 1;
            }
        }
        word(answer::FLUSHED, written)
    }

    /// Writes out every modified resident that has already seen a tick, and marks every other modified one as having
    /// seen it.
    fn tick(&mut self) -> u32 {
        let mut written = 0;
        for p in 0..self.residents.len() {
            let marks = self.residents[p].marks;
            if marks.modified && marks.seen {
                self.write_out(p);
                written += 1;
            } else if marks.modified {
                self.residents[p].marks.seen = true;
            }
        }
        word(answer::FLUSHED, written)
    }

    pub fn position(&self, block: u32) -> Option<usize> {
        self.residents.iter().position(|resident| resident.block == block)
    }

    fn hit(&mut self, position: usize) -> u32 {
        let mut resident = self.residents.remove(position);
        if position >= self.settings.nnew as usize && resident.count < MAX_COUNT {
            resident.count += 1;
        }
        let answer = word(answer::HIT, resident.count);
        self.residents.insert(0, resident);
        answer
    }

    fn enter(&mut self, block: u32, bytes: Vec<u8>) {
        self.residents.insert(0, Resident { block, count: 1, marks: Marks::NONE, bytes });
    }

    /// The answer of a block that is about to enter; with N residents, one leaves. None if all N are pinned.
    fn make_room(&mut self) -> Option<u32> {
        if self.residents.len() < self.settings.n as usize {
            return Some(word(answer::ENTERED, 0));
        }
        let chains = self.chains_looked_at();
        let (position, _) = self.victim()?;
        let written_out = self.residents[position].marks.modified;
        if written_out {
            self.write_out(position);
        }
        let victim = self.residents.remove(position);
        let mark = if written_out { answer::WRITTEN_OUT } else { 0 };
        Some(word(answer::REPLACED, victim.block + answer::CHAIN * chains + mark))
    }

    pub fn first_old(&self) -> usize {
        (self.settings.n - self.settings.nold) as usize
    }

    /// The unpinned positions from `first` on, the greatest first.
    fn unpinned_from(&self, first: usize) -> impl Iterator<Item = usize> + '_ {
        (first..self.residents.len()).rev().filter(|&p| !self.residents[p].marks.pinned)
    }

    /// The victim's position among N residents, and how it is found.
    pub fn victim(&self) -> Option<(usize, Found)> {
        let count = |p: usize| self.residents[p].count;
        let old = || self.unpinned_from(self.first_old());
        let smallest = old().map(count).filter(|&count| count <= self.settings.cmax).min();
        if let Some(smallest) = smallest {
            return old().find(|&p| count(p) == smallest).map(|p| (p, Found::SmallestCount));
        }
        if let Some(p) = old().next() {
            return Some((p, Found::LeastRecentOld));
        }
        self.unpinned_from(0).next().map(|p| (p, Found::LeastRecent))
    }

    /// From the chain of count 1 to the first with an unpinned old resident, or all Cmax.
    fn chains_looked_at(&self) -> u32 {
        let has_one = |count: u32| self.unpinned_from(self.first_old()).any(|p| self.residents[p].count == count);
        (1..=self.settings.cmax).find(|&count| has_one(count)).unwrap_or(self.settings.cmax)
    }

    /// The answer, after counts were halved, once, if their sum exceeds Amax × r; the block that entered is one of the r.
    /// A replaced block's answer has no mark: with N residents the sum did not rise.
    fn halved_after(&mut self, answer: u32) -> u32 {
        let sum: u64 = self.residents.iter().map(|resident| u64::from(resident.count)).sum();
        if sum <= u64::from(self.settings.amax) * self.residents.len() as u64 {
            return answer;
        }
        for resident in &mut self.residents {
            resident.count = resident.count.div_ceil(2);
        }
        assert_ne!(kind(answer), answer::REPLACED, "a replacement never raises the sum");
        answer + answer::HALVED
    }

    /// The bytes go to the store, and all marks but a pin are cleared.
    fn write_out(&mut self, position: usize) {
        let place = self.place(self.residents[position].block);
        self.store[place].copy_from_slice(&self.residents[position].bytes);
        self.residents[position].marks = self.residents[position].marks.written_out();
        self.outs += 1;
    }

    fn place(&self, block: u32) -> std::ops::Range<usize> {
        let b = self.settings.b as usize;
        block as usize * b..(block as usize + 1) * b
    }
}
