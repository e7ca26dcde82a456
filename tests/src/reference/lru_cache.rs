//! A cache of N blocks that replaces the least recently used: a map from blocks to slots and a list linked both ways.
//! It copies the same bytes as the cache under test and makes no check. Hit ratios and costs are compared with it.
use std::collections::HashMap;

const NONE: usize = usize::MAX;

struct Slot {
    block: u32,
    modified: bool,
    before: usize,
    after: usize,
}

pub struct LruCache {
    n: usize,
    b: usize,
    slots: Vec<Slot>,
    held: HashMap<u32, usize>,
    first: usize,
    last: usize,
    data: Vec<u8>,
    store: Vec<u8>,
    pub hits: u64,
}

impl LruCache {
    pub fn new(n: usize, b: usize, store: Vec<u8>) -> LruCache {
        let (slots, held) = (Vec::with_capacity(n), HashMap::with_capacity(2 * n));
        LruCache { n, b, slots, held, first: NONE, last: NONE, data: vec![0; n * b], store, hits: 0 }
    }

    pub fn read(&mut self, block: u32, out: &mut [u8]) {
        let (slot, hit) = self.bring_to_front(block);
        let bytes = slot * self.b..(slot + 1) * self.b;
        if !hit {
            let place = block as usize * self.b..(block as usize + 1) * self.b;
            self.data[bytes.clone()].copy_from_slice(&self.store[place]);
        }
        out.copy_from_slice(&self.data[bytes]);
    }

    pub fn write(&mut self, block: u32, bytes: &[u8]) {
        let (slot, _) = self.bring_to_front(block);
        self.data[slot * self.b..(slot + 1) * self.b].copy_from_slice(bytes);
        self.slots[slot].modified = true;
    }

    /// The block's slot, first in the list, and whether it was held.
    fn bring_to_front(&mut self, block: u32) -> (usize, bool) {
        if let Some(&slot) = self.held.get(&block) {
            self.hits += 1;
            if slot != self.first {
                self.unlink(slot);
                self.push(slot);
            }
            return (slot, true);
        }
        let slot = if self.slots.len() < self.n {
            self.slots.push(Slot { block, modified: false, before: NONE, after: NONE });
            self.slots.len() - 1
        } else {
            self.give_up_last(block)
        };
        self.push(slot);
        self.held.insert(block, slot);
        (slot, false)
    }

    fn give_up_last(&mut self, block: u32) -> usize {
        let slot = self.last;
        let victim = self.slots[slot].block;
        if self.slots[slot].modified {
            let place = victim as usize * self.b..(victim as usize + 1) * self.b;
            self.store[place].copy_from_slice(&self.data[slot * self.b..(slot + 1) * self.b]);
        }
        self.held.remove(&victim);
        self.unlink(slot);
        self.slots[slot].block = block;
        self.slots[slot].modified = false;
        slot
    }

    fn push(&mut self, slot: usize) {
        (self.slots[slot].before, self.slots[slot].after) = (NONE, self.first);
        match self.first {
            NONE => self.last = slot,
            first => self.slots[first].before = slot,
        }
        self.first = slot;
    }

    fn unlink(&mut self, slot: usize) {
        let (before, after) = (self.slots[slot].before, self.slots[slot].after);
        match before {
            NONE => self.first = after,
            before => self.slots[before].after = after,
        }
        match after {
            NONE => self.last = before,
            after => self.slots[after].before = before,
        }
    }
}

#[cfg(test)]
mod tests {
    use super::LruCache;
    use crate::reference::rng::Rng;

    /// Beside a list of blocks in order of use and the bytes last written.
    #[test]
    fn hits_and_bytes_beside_a_plain_list() {
        let mut rng = Rng::announced("hits_and_bytes_beside_a_plain_list", 71);
        let (mut hits, mut references) = (0, 0);
        for n in 1..20usize {
            let mut present: Vec<[u8; 2]> = (0..40).map(|_| [rng.word() as u8, rng.word() as u8]).collect();
            let mut cache = LruCache::new(n, 2, present.concat());
            let mut used: Vec<u32> = Vec::new();
            let mut expected_hits = 0;
            for _ in 0..2_000 {
                let block = rng.within(0, 39).min(rng.within(0, 39));
                let place = used.iter().position(|&b| b == block);
                expected_hits += u64::from(place.is_some());
                place.map(|p| used.remove(p));
                used.insert(0, block);
                used.truncate(n);
                if rng.one_in(3) {
                    present[block as usize] = [rng.word() as u8, rng.word() as u8];
                    cache.write(block, &present[block as usize]);
                } else {
                    let mut out = [0; 2];
                    cache.read(block, &mut out);
                    assert_eq!(out, present[block as usize], "N {n}, block {block}");
                }
                assert_eq!(cache.hits, expected_hits, "N {n}");
                references += 1;
            }
            hits += cache.hits;
        }
        println!("{references} references, {hits} hits");
        assert!(hits > 1_000 && hits < references - 1_000);
    }
}
