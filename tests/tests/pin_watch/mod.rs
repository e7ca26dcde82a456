//! What the request says of pins, watched from outside: words, answers, read bytes and totals alone, and no mark.
use cache_tests::reference::directory::{kind, value};
use cache_tests::reference::stack::{answer, work};
use std::collections::BTreeSet;

/// What a word or a batch can break.
#[derive(Clone, Copy, Debug, PartialEq, Eq, PartialOrd, Ord)]
pub enum Broken {
    /// The victim of an answer 3 was pinned.
    PinnedReplaced,
    /// A pinned block left by a purge.
    PinnedPurged,
    /// A purge was refused, and the block was not pinned.
    OtherPurgeRefused,
    /// A miss got answer 7 with a resident that was not pinned, or another answer where N blocks were.
    OtherAllPinned,
    /// A pin or an unpin did not say what the block is afterwards.
    OtherPin,
    /// A read answered 7 gave other bytes than zeros.
    NotZeros,
    /// A read gave other bytes than the block's.
    OtherBytes,
    /// Reads, writes or block ins are not as many as the words and answers say.
    OtherTotals,
}

/// Reads, writes and block ins.
pub type Counts = [u64; 3];

/// One cache from its fresh start on, word by word.
pub struct Watch {
    n: usize,
    b: usize,
    residents: BTreeSet<u32>,
    /// Those that were pinned and not unpinned since; all of them are resident.
    pinned: BTreeSet<u32>,
    /// The bytes that a reader of each block sees; none where a purge gave up bytes.
    present: Vec<Option<Vec<u8>>>,
    counts: Counts,
    /// Victims and purged blocks beside pinned ones: without these nothing was kept.
    pub left_beside_pinned: u64,
}

impl Watch {
    pub fn new(store: &[u8], n: u32, b: u32) -> Watch {
        let b = b as usize;
        let present = store.chunks_exact(b).map(|bytes| Some(bytes.to_vec())).collect();
        let (residents, pinned) = (BTreeSet::new(), BTreeSet::new());
        Watch { n: n as usize, b, residents, pinned, present, counts: [0; 3], left_beside_pinned: 0 }
    }

    /// What a batch breaks. Its j-th write brings the j-th B bytes of `incoming`, whatever the answers are.
    pub fn broken_by(
        &mut self, words: &[u32], incoming: &[u8], answers: &[u32], outgoing: &[u8], counts: Counts,
    ) -> Vec<Broken> {
        let (mut incoming, mut outgoing) = (incoming.chunks_exact(self.b), outgoing.chunks_exact(self.b));
        let mut broken = vec![];
        for (&w, &answered) in words.iter().zip(answers) {
            broken.extend(match kind(w) {
                work::READ => self.read(value(w), answered, outgoing.next().unwrap()),
                work::WRITE => self.write(value(w), answered, incoming.next().unwrap()),
                work::PURGE => self.purge(value(w), answered),
                work::PIN | work::UNPIN => self.pin(w, answered),
                _ => vec![],
            });
        }
        if counts != self.counts {
            broken.push(Broken::OtherTotals);
        }
        broken
    }

    fn read(&mut self, block: u32, answered: u32, bytes: &[u8]) -> Vec<Broken> {
        let (miss, refused) = (!self.residents.contains(&block), kind(answered) == answer::ALL_PINNED);
        self.counts[0] += 1;
        self.counts[2] += u64::from(miss && !refused);
        let mut broken = self.access(block, answered);
        if refused {
            broken.extend(bytes.iter().any(|&byte| byte != 0).then_some(Broken::NotZeros));
            return broken;
        }
        let was = self.present[block as usize].replace(bytes.to_vec());
        broken.extend(was.is_some_and(|was| was != bytes).then_some(Broken::OtherBytes));
        broken
    }

    fn write(&mut self, block: u32, answered: u32, bytes: &[u8]) -> Vec<Broken> {
        self.counts[1] += 1;
        if kind(answered) != answer::ALL_PINNED {
            self.present[block as usize] = Some(bytes.to_vec());
        }
        self.access(block, answered)
    }

    /// Who is resident after a read or a write.
    fn access(&mut self, block: u32, answered: u32) -> Vec<Broken> {
        let due = !self.residents.contains(&block) && self.pinned.len() == self.n;
        let refused = kind(answered) == answer::ALL_PINNED;
        let mut broken: Vec<Broken> = (due != refused).then_some(Broken::OtherAllPinned).into_iter().collect();
        if kind(answered) == answer::REPLACED {
            broken.extend(self.leaves(value(answered) % answer::CHAIN).then_some(Broken::PinnedReplaced));
        }
        if !refused {
            self.residents.insert(block);
        }
        broken
    }

    /// Whether the block that leaves was pinned.
    fn leaves(&mut self, block: u32) -> bool {
        self.residents.remove(&block);
        let was_pinned = self.pinned.remove(&block);
        self.left_beside_pinned += u64::from(!self.pinned.is_empty());
        was_pinned
    }

    fn purge(&mut self, block: u32, answered: u32) -> Vec<Broken> {
        match kind(answered) {
            answer::PURGED => {
                if value(answered) == 1 {
                    self.present[block as usize] = None;
                }
                self.leaves(block).then_some(Broken::PinnedPurged).into_iter().collect()
            }
            answer::PURGE_REFUSED if !self.pinned.contains(&block) => vec![Broken::OtherPurgeRefused],
            _ => vec![],
        }
    }

    fn pin(&mut self, w: u32, answered: u32) -> Vec<Broken> {
        let (block, pins) = (value(w), kind(w) == work::PIN);
        let resident = self.residents.contains(&block);
        if pins && resident {
            self.pinned.insert(block);
        } else {
            self.pinned.remove(&block);
        }
        let expected = if resident { (answer::PINNED, u32::from(pins)) } else { (answer::ABSENT, 0) };
        if (kind(answered), value(answered)) == expected {
            return vec![];
        }
        vec![Broken::OtherPin]
    }
}
