//! What the request says of ticks, watched from outside: words, answers and the store alone, and no mark.
use cache_tests::reference::directory::{kind, value};
use cache_tests::reference::stack::{answer, work};
use std::collections::BTreeMap;

/// What a word can break.
#[derive(Clone, Copy, Debug, PartialEq, Eq, PartialOrd, Ord)]
pub enum Broken {
    /// A block that stayed resident is not in the store at the second tick after its first unsaved write.
    KeptWaiting,
    /// A tick's answer is not how many blocks it was the second tick for.
    OtherNumber,
    /// A victim or a flushed block whose bytes the store does not have.
    NotWrittenOut,
    /// A block without unsaved bytes has others than the store.
    OtherBytes,
    /// The store has bytes that the block has not had since the second last tick.
    LostMore,
}

/// One cache from its fresh start on, word by word.
pub struct Watch {
    b: usize,
    /// The bytes that a reader of each block sees.
    present: Vec<Vec<u8>>,
    /// Each block with bytes that are not in the store: how many ticks since the first write of them.
    unsaved: BTreeMap<u32, u32>,
    /// What each block has been since the last tick, and from the tick before that up to it.
    been: [Vec<Vec<Vec<u8>>>; 2],
    /// Writes to blocks that wait for their second tick.
    pub written_on: u64,
    /// Stores of a block that were older than the last tick.
    pub older_than_a_tick: u64,
    /// Blocks that the last tick wrote out, and the most that two ticks in a row did.
    wrote_out: u32,
    pub most_in_two_ticks: u32,
}

impl Watch {
    pub fn new(store: &[u8], b: u32) -> Watch {
        let b = b as usize;
        let present: Vec<Vec<u8>> = store.chunks_exact(b).map(|bytes| bytes.to_vec()).collect();
        let been = [each(&present), vec![vec![]; present.len()]];
        let unsaved = BTreeMap::new();
        Watch { b, present, unsaved, been, written_on: 0, older_than_a_tick: 0, wrote_out: 0, most_in_two_ticks: 0 }
    }

    /// What a word breaks, by its incoming bytes, its answer and the store after it.
    pub fn broken_by(&mut self, w: u32, incoming: &[u8], answered: u32, store: &[u8]) -> Vec<Broken> {
        let stored: Vec<&[u8]> = store.chunks_exact(self.b).collect();
        let mut broken = vec![];
        if kind(answered) == answer::REPLACED {
            let victim = value(answered) % answer::CHAIN;
            self.unsaved.remove(&victim);
            broken.extend(self.missing(&[victim], &stored, Broken::NotWrittenOut));
        }
        let block = value(w);
        match kind(w) {
            // what found all residents pinned, or was refused, has changed no block
            _ if matches!(kind(answered), answer::ALL_PINNED | answer::PURGE_REFUSED) => {}
            work::WRITE => {
                let ticks = *self.unsaved.entry(block).or_insert(0);
                self.written_on += u64::from(ticks == 1);
                self.becomes(block, incoming);
            }
            // what was not saved is given up
            work::PURGE => {
                self.unsaved.remove(&block);
                self.becomes(block, stored[block as usize]);
            }
            work::FLUSH => {
                let flushed: Vec<u32> = std::mem::take(&mut self.unsaved).into_keys().collect();
                broken.extend(self.missing(&flushed, &stored, Broken::NotWrittenOut));
            }
            work::TICK => broken.extend(self.tick(answered, &stored)),
            _ => {}
        }
        broken.extend(self.compared(&stored));
        broken
    }

    /// The block's bytes from now on.
    fn becomes(&mut self, block: u32, bytes: &[u8]) {
        self.present[block as usize] = bytes.to_vec();
        self.been[0][block as usize].push(bytes.to_vec());
    }

    fn missing(&self, blocks: &[u32], stored: &[&[u8]], broken: Broken) -> Option<Broken> {
        let lacks = |&block: &u32| self.present[block as usize] != stored[block as usize];
        blocks.iter().any(lacks).then_some(broken)
    }

    fn tick(&mut self, answered: u32, stored: &[&[u8]]) -> Vec<Broken> {
        self.unsaved.values_mut().for_each(|ticks| *ticks += 1);
        let due: Vec<u32> = self.unsaved.iter().filter(|(_, &ticks)| ticks == 2).map(|(&block, _)| block).collect();
        self.unsaved.retain(|_, &mut ticks| ticks < 2);
        let other = value(answered) as usize != due.len();
        let broken = [self.missing(&due, stored, Broken::KeptWaiting), other.then_some(Broken::OtherNumber)];
        let wrote_out_before = std::mem::replace(&mut self.wrote_out, value(answered));
        self.most_in_two_ticks = self.most_in_two_ticks.max(wrote_out_before + self.wrote_out);
        // what a block is at a tick, it is since that tick
        self.been[1] = std::mem::replace(&mut self.been[0], each(&self.present));
        broken.into_iter().flatten().collect()
    }

    fn compared(&mut self, stored: &[&[u8]]) -> Vec<Broken> {
        let mut broken = vec![];
        for (block, &bytes) in stored.iter().enumerate() {
            let [since, before] = self.been.each_ref().map(|been| been[block].iter().any(|was| was == bytes));
            self.older_than_a_tick += u64::from(!since && before);
            if !since && !before {
                broken.push(Broken::LostMore);
            }
            if !self.unsaved.contains_key(&(block as u32)) && self.present[block] != bytes {
                broken.push(Broken::OtherBytes);
            }
        }
        broken
    }
}

/// Each block as it is now.
fn each(present: &[Vec<u8>]) -> Vec<Vec<Vec<u8>>> {
    present.iter().map(|bytes| vec![bytes.clone()]).collect()
}
