//! The cache over the directory's own links, with the promises of the scope and the check before every batch: what a
//! careful Rust programmer would write, and the mark that the library's batches are timed against.
use super::builder::Totals;
use super::directory::{entry, header, settings_of, Map};
use super::directory::{LINK, MAX_VALUE, MIDDLE, NEW, NUMBER, OLD, VALUE_BITS};
use super::fast_judge;
use super::fnv;
use super::marks::PINNED;
use super::settings::MAX_COUNT;
use super::stack::{answer, work, MOST_TOTAL};
use crate::Settings;
use std::hint::black_box;

mod links;
#[cfg(test)]
mod tests;

/// The modified word is the sum of these and of `PINNED`.
const MODIFIED: u32 = 1;
const SEEN: u32 = 2;

/// Runs a batch and returns 0, or changes nothing and returns 6 to 12.
pub fn batch(
    dir: &mut [u32], data: &mut [u8], store: &mut [u8], work: &[u32], incoming: &[u8], answers: &mut [u32],
    outgoing: &mut [u8],
) -> u32 {
    run::<false>(dir, data, store, work, incoming, answers, outgoing)
}

/// The same, its bytes copied by a loop that the compiler may not turn into a call of the C library.
pub fn batch_by_loop(
    dir: &mut [u32], data: &mut [u8], store: &mut [u8], work: &[u32], incoming: &[u8], answers: &mut [u32],
    outgoing: &mut [u8],
) -> u32 {
    run::<true>(dir, data, store, work, incoming, answers, outgoing)
}

fn run<const LOOP: bool>(
    dir: &mut [u32], data: &mut [u8], store: &mut [u8], work: &[u32], incoming: &[u8], answers: &mut [u32],
    outgoing: &mut [u8],
) -> u32 {
    let s = match settings_if_whole(dir, data.len(), store.len()) {
        Ok(s) => s,
        Err(number) => return number,
    };
    let number = refusal(dir, s, work, incoming.len(), answers.len(), outgoing.len());
    if number != 0 {
        return number;
    }
    let mut cache = Cache::<LOOP>::over(s, dir, data, store);
    let b = cache.s.b as usize;
    let (mut incoming, mut outgoing) = (incoming.chunks_exact(b), outgoing.chunks_exact_mut(b));
    for (answer, &w) in answers.iter_mut().zip(work) {
        let block = w & MAX_VALUE;
        *answer = match w >> VALUE_BITS {
            work::READ => cache.read(block, outgoing.next().unwrap()),
            work::WRITE => cache.write(block, incoming.next().unwrap()),
            work::PURGE => cache.purge(block),
            work::FLUSH => cache.flush(),
            work::TICK => cache.tick(),
            work::PIN => cache.pin(block, PINNED),
            _ => cache.pin(block, 0),
        };
    }
    cache.put_totals();
    0
}

/// The part that holds the block's present bytes, or 6, 7, 12 or 9.
pub fn look<'a>(dir: &[u32], data: &'a [u8], store: &'a [u8], block: u32) -> Result<&'a [u8], u32> {
    let s = settings_if_whole(dir, data.len(), store.len())?;
    if block >= s.m {
        return Err(9);
    }
    let b = s.b as usize;
    Ok(match find(dir, Map::of(s), block) {
        Some(e) => &data[(e as usize - 1) * b..e as usize * b],
        None => &store[block as usize * b..(block as usize + 1) * b],
    })
}

/// The settings of a sound directory with data long enough and a store of the right size, or 6, 7 or 12.
fn settings_if_whole(dir: &[u32], data: usize, store: usize) -> Result<Settings, u32> {
    if !fast_judge::sound(dir) {
        return Err(6);
    }
    let s = settings_of(dir);
    let b = s.b as usize;
    if data < s.n as usize * b || store < s.m as usize * b {
        return Err(7);
    }
    if store > s.m as usize * b {
        return Err(12);
    }
    Ok(s)
}

/// The numbers 8 to 11.
fn refusal(dir: &[u32], s: Settings, work: &[u32], incoming: usize, answers: usize, outgoing: usize) -> u32 {
    if work.len() > work::MOST_WORDS {
        return 8;
    }
    let (mut reads, mut writes) = (0, 0);
    for &w in work {
        let value = w & MAX_VALUE;
        let well_formed = match w >> VALUE_BITS {
            work::READ | work::WRITE | work::PURGE | work::PIN | work::UNPIN => value < s.m,
            work::FLUSH | work::TICK => value == 0,
            _ => false,
        };
        if !well_formed {
            return 9;
        }
        reads += usize::from(w >> VALUE_BITS == work::READ);
        writes += usize::from(w >> VALUE_BITS == work::WRITE);
    }
    let b = s.b as usize;
    if answers < work.len() || incoming < writes * b || outgoing < reads * b {
        return 10;
    }
    let references = total(dir, header::READS_LOW) + total(dir, header::WRITES_LOW);
    if references + work.len() as u64 > MOST_TOTAL {
        return 11;
    }
    0
}

fn total(dir: &[u32], low: usize) -> u64 {
    u64::from(dir[low] & MAX_VALUE) | u64::from(dir[low + 1] & MAX_VALUE) << VALUE_BITS
}

fn bucket_of(map: Map, block: u32) -> usize {
    map.bucket(fnv::of_block(block) as usize & (map.buckets() - 1))
}

fn find(dir: &[u32], map: Map, block: u32) -> Option<u32> {
    let mut e = dir[bucket_of(map, block)] & MAX_VALUE;
    while e != 0 {
        if dir[map.entry(e, entry::BLOCK)] & MAX_VALUE == block {
            return Some(e);
        }
        e = dir[map.entry(e, entry::SYNONYM)] & MAX_VALUE;
    }
    None
}

/// Copies bytes by the C library, or by a loop.
fn copy<const LOOP: bool>(from: &[u8], to: &mut [u8]) {
    if !LOOP {
        return to.copy_from_slice(from);
    }
    assert_eq!(from.len(), to.len());
    // pointers of which nothing is known, or the compiler would call the C library
    let (source, target) = (black_box(from.as_ptr()), black_box(to.as_mut_ptr()));
    for i in 0..from.len() {
        // SAFETY: the pointers of two slices, whose length i is below.
        unsafe { *target.add(i) = *source.add(i) };
    }
}

/// The first position of a section, the word that names the resident there, and the section.
type Boundary = (u32, usize, u32);

struct Cache<'a, const LOOP: bool> {
    words: &'a mut [u32],
    data: &'a mut [u8],
    store: &'a mut [u8],
    s: Settings,
    map: Map,
    boundaries: [Boundary; 2],
    totals: Totals,
}

impl<'a, const LOOP: bool> Cache<'a, LOOP> {
    fn over(s: Settings, dir: &'a mut [u32], data: &'a mut [u8], store: &'a mut [u8]) -> Self {
        let totals = Totals {
            reads: total(dir, header::READS_LOW),
            writes: total(dir, header::WRITES_LOW),
            ins: total(dir, header::INS_LOW),
            outs: total(dir, header::OUTS_LOW),
        };
        let boundaries = [(s.nnew, header::AT_NNEW, MIDDLE), (s.n - s.nold, header::FIRST_OLD, OLD)];
        Cache { words: dir, data, store, s, map: Map::of(s), boundaries, totals }
    }
    fn put_totals(&mut self) {
        let t = self.totals;
        let lows = [header::READS_LOW, header::WRITES_LOW, header::INS_LOW, header::OUTS_LOW];
        for (low, total) in lows.into_iter().zip([t.reads, t.writes, t.ins, t.outs]) {
            self.set_number(low, total as u32 & MAX_VALUE);
            self.set_number(low + 1, (total >> VALUE_BITS) as u32);
        }
    }

    fn at(&self, address: usize) -> u32 {
        self.words[address] & MAX_VALUE
    }
    fn of(&self, e: u32, word: usize) -> u32 {
        self.at(self.map.entry(e, word))
    }
    fn set_number(&mut self, address: usize, value: u32) {
        self.words[address] = NUMBER << VALUE_BITS | value;
    }
    fn set_link(&mut self, address: usize, e: u32) {
        self.words[address] = LINK << VALUE_BITS | e;
    }
    fn number_of(&mut self, e: u32, word: usize, value: u32) {
        self.set_number(self.map.entry(e, word), value);
    }
    fn link_of(&mut self, e: u32, word: usize, to: u32) {
        self.set_link(self.map.entry(e, word), to);
    }
    fn bytes_of(&self, e: u32) -> std::ops::Range<usize> {
        let b = self.s.b as usize;
        (e as usize - 1) * b..e as usize * b
    }
    fn place(&self, block: u32) -> std::ops::Range<usize> {
        let b = self.s.b as usize;
        block as usize * b..(block as usize + 1) * b
    }

    fn read(&mut self, block: u32, out: &mut [u8]) -> u32 {
        self.totals.reads += 1;
        let answer = match find(self.words, self.map, block) {
            Some(e) => self.hit(e),
            None => {
                let Some(answer) = self.enter(block) else {
                    out.fill(0);
                    return answer::ALL_PINNED << VALUE_BITS;
                };
                let (bytes, place) = (self.bytes_of(self.at(header::HEAD)), self.place(block));
                copy::<LOOP>(&self.store[place], &mut self.data[bytes]);
                self.totals.ins += 1;
                answer
            }
        };
        copy::<LOOP>(&self.data[self.bytes_of(self.at(header::HEAD))], out);
        self.halved_after(answer)
    }

    fn write(&mut self, block: u32, bytes: &[u8]) -> u32 {
        self.totals.writes += 1;
        let answer = match find(self.words, self.map, block) {
            Some(e) => self.hit(e),
            None => match self.enter(block) {
                Some(answer) => answer,
                None => return answer::ALL_PINNED << VALUE_BITS,
            },
        };
        let e = self.at(header::HEAD);
        let place = self.bytes_of(e);
        copy::<LOOP>(bytes, &mut self.data[place]);
        // a further write keeps the other marks
        self.words[self.map.entry(e, entry::MODIFIED)] |= MODIFIED;
        self.halved_after(answer)
    }

    fn hit(&mut self, e: u32) -> u32 {
        let count = self.of(e, entry::COUNT);
        let rises = self.of(e, entry::SECTION) != NEW && count < MAX_COUNT;
        self.move_to_front(e);
        self.recount(e, count + u32::from(rises));
        answer::HIT << VALUE_BITS | (count + u32::from(rises))
    }

    /// The block's entry is at position 0 afterwards, count 1 and without a mark; its bytes are still to come. None
    /// where all residents are pinned.
    fn enter(&mut self, block: u32) -> Option<u32> {
        let (e, answer) = match self.at(header::FIRST_UNUSED) {
            0 => self.take_victim()?,
            e => {
                self.set_link(header::FIRST_UNUSED, self.of(e, entry::TOWARDS_TAIL));
                self.put_in_front(e);
                (e, answer::ENTERED << VALUE_BITS)
            }
        };
        self.recount(e, 1);
        self.number_of(e, entry::BLOCK, block);
        self.number_of(e, entry::MODIFIED, 0);
        let bucket = bucket_of(self.map, block);
        self.link_of(e, entry::SYNONYM, self.at(bucket));
        self.set_link(bucket, e);
        Some(answer)
    }

    fn take_victim(&mut self) -> Option<(u32, u32)> {
        let (victim, chains) = self.victim()?;
        let block = self.of(victim, entry::BLOCK);
        let mut value = block + answer::CHAIN * chains;
        if self.of(victim, entry::MODIFIED) & MODIFIED != 0 {
            self.write_out(victim);
            value += answer::WRITTEN_OUT;
        }
        self.unlist(victim);
        self.move_to_front(victim);
        Some((victim, answer::REPLACED << VALUE_BITS | value))
    }

    fn is_pinned(&self, e: u32) -> bool {
        self.of(e, entry::MODIFIED) & PINNED != 0
    }

    /// The first unpinned entry from `e` on along a link word, as long as `within` says.
    fn first_unpinned(&self, mut e: u32, link_word: usize, within: impl Fn(u32) -> bool) -> Option<u32> {
        while e != 0 && within(e) {
            if !self.is_pinned(e) {
                return Some(e);
            }
            e = self.of(e, link_word);
        }
        None
    }

    /// From a chain's tail on positions fall: behind the first that isn't old, none of the chain is. Where no chain has
    /// one, the old ones are still the first to be met from the stack's tail on.
    fn victim(&self) -> Option<(u32, u32)> {
        let old = |e: u32| self.of(e, entry::SECTION) == OLD;
        let of_chain = |count: u32| {
            let last = self.at(self.map.chain_tail(count));
            self.first_unpinned(last, entry::CHAIN_TOWARDS_HEAD, old).map(|e| (e, count))
        };
        let least_recent = || self.first_unpinned(self.at(header::TAIL), entry::TOWARDS_HEAD, |_| true);
        (1..=self.s.cmax).find_map(of_chain).or_else(|| Some((least_recent()?, self.s.cmax)))
    }

    fn purge(&mut self, block: u32) -> u32 {
        let Some(e) = find(self.words, self.map, block) else {
            return answer::ABSENT << VALUE_BITS;
        };
        if self.is_pinned(e) {
            return answer::PURGE_REFUSED << VALUE_BITS;
        }
        let modified = self.of(e, entry::MODIFIED) & MODIFIED;
        self.leave(e);
        self.recount(e, 0);
        self.unlist(e);
        for word in [entry::BLOCK, entry::SECTION, entry::MODIFIED] {
            self.number_of(e, word, 0);
        }
        self.link_of(e, entry::TOWARDS_HEAD, 0);
        self.link_of(e, entry::SYNONYM, 0);
        self.link_of(e, entry::TOWARDS_TAIL, self.at(header::FIRST_UNUSED));
        self.set_link(header::FIRST_UNUSED, e);
        answer::PURGED << VALUE_BITS | modified
    }

    /// Pins by `PINNED`, unpins by 0.
    fn pin(&mut self, block: u32, mark: u32) -> u32 {
        let Some(e) = find(self.words, self.map, block) else {
            return answer::ABSENT << VALUE_BITS;
        };
        self.number_of(e, entry::MODIFIED, self.of(e, entry::MODIFIED) & !PINNED | mark);
        answer::PINNED << VALUE_BITS | u32::from(mark != 0)
    }

    fn flush(&mut self) -> u32 {
        let mut written = 0;
        let mut e = self.at(header::HEAD);
        while e != 0 {
            if self.of(e, entry::MODIFIED) & MODIFIED != 0 {
                self.write_out(e);
                written += 1;
            }
            e = self.of(e, entry::TOWARDS_TAIL);
        }
        answer::FLUSHED << VALUE_BITS | written
    }

    fn tick(&mut self) -> u32 {
        let mut written = 0;
        let mut e = self.at(header::HEAD);
        while e != 0 {
            match self.of(e, entry::MODIFIED) & !PINNED {
                0 => {}
                MODIFIED => self.words[self.map.entry(e, entry::MODIFIED)] |= SEEN,
                _ => {
                    self.write_out(e);
                    written += 1;
                }
            }
            e = self.of(e, entry::TOWARDS_TAIL);
        }
        answer::FLUSHED << VALUE_BITS | written
    }

    fn write_out(&mut self, e: u32) {
        let (bytes, place) = (self.bytes_of(e), self.place(self.of(e, entry::BLOCK)));
        copy::<LOOP>(&self.data[bytes], &mut self.store[place]);
        // a pin stays
        self.number_of(e, entry::MODIFIED, self.of(e, entry::MODIFIED) & PINNED);
        self.totals.outs += 1;
    }

    fn halved_after(&mut self, answer: u32) -> u32 {
        if u64::from(self.at(header::SUM)) <= u64::from(self.s.amax) * u64::from(self.at(header::RESIDENTS)) {
            return answer;
        }
        for count in 1..=self.s.cmax {
            self.set_link(self.map.chain_head(count), 0);
            self.set_link(self.map.chain_tail(count), 0);
        }
        let (mut sum, mut e) = (0, self.at(header::TAIL));
        // from the tail, so that each one goes to the head of its chain
        while e != 0 {
            let count = self.of(e, entry::COUNT).div_ceil(2);
            self.number_of(e, entry::COUNT, count);
            sum += count;
            if count <= self.s.cmax {
                self.push(&self.chain(count), e);
            }
            e = self.of(e, entry::TOWARDS_HEAD);
        }
        self.set_number(header::SUM, sum);
        answer + answer::HALVED
    }
}
