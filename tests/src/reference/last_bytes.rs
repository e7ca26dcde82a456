//! The last bytes of every block: those written to it last, or the first store's. A map, and no cache.
use super::directory::{kind, value};
use super::stack::work;
use std::collections::BTreeMap;

#[derive(Clone, Debug)]
pub struct LastBytes {
    b: usize,
    first: Vec<u8>,
    written: BTreeMap<u32, Vec<u8>>,
}

impl LastBytes {
    /// Over a first store of blocks of `b` bytes.
    pub fn over(first: &[u8], b: u32) -> LastBytes {
        LastBytes { b: b as usize, first: first.to_vec(), written: BTreeMap::new() }
    }

    pub fn of(&self, block: u32) -> &[u8] {
        let first = || &self.first[block as usize * self.b..][..self.b];
        self.written.get(&block).map_or_else(first, Vec::as_slice)
    }

    /// What the reads of a batch give, one after another. Its j-th write brings the j-th block of `incoming`.
    pub fn batch(&mut self, words: &[u32], incoming: &[u8]) -> Vec<u8> {
        let (mut given, mut incoming) = (Vec::new(), incoming.chunks_exact(self.b));
        for &w in words {
            match kind(w) {
                work::READ => given.extend_from_slice(self.of(value(w))),
                work::WRITE => {
                    self.written.insert(value(w), incoming.next().unwrap().to_vec());
                }
                _ => {}
            }
        }
        given
    }

    /// All blocks, as a store that has them.
    pub fn store(&self) -> Vec<u8> {
        (0..self.first.len() / self.b).flat_map(|block| self.of(block as u32).to_vec()).collect()
    }
}

#[cfg(test)]
mod tests {
    use super::{work, LastBytes};
    use crate::reference::directory::word;

    #[test]
    fn the_last_write_or_the_first_store() {
        let mut last = LastBytes::over(b"aabbcc", 2);
        let words = [(work::READ, 1), (work::WRITE, 1), (work::READ, 1), (work::WRITE, 2), (work::WRITE, 1)];
        let words = words.map(|(kind, block)| word(kind, block));
        assert_eq!(last.batch(&words, b"xxyyzz"), b"bbxx");
        assert_eq!(last.batch(&[word(work::READ, 1), word(work::FLUSH, 0), word(work::READ, 0)], b""), b"zzaa");
        assert_eq!(last.store(), b"aazzyy");
    }
}
