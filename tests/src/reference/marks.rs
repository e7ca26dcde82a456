//! A resident's marks, and the modified word that holds them in a directory.

/// Seen: a tick has passed since the first write that is not in the store. It needs modified. Pinned stands alone.
#[derive(Clone, Copy, Debug, Default, PartialEq, Eq)]
pub struct Marks {
    pub modified: bool,
    pub seen: bool,
    pub pinned: bool,
}

/// What the modified word may be.
pub const LEGAL: [u32; 6] = [0, 1, 3, 4, 5, 7];

/// What a pinned resident's modified word has more.
pub const PINNED: u32 = 4;

impl Marks {
    /// Of a resident that has just entered.
    pub const NONE: Marks = Marks { modified: false, seen: false, pinned: false };

    /// Of a resident that has just been written out: a pin stays.
    pub fn written_out(self) -> Marks {
        Marks { pinned: self.pinned, ..Marks::NONE }
    }

    /// modified + 2 × seen + 4 × pinned.
    pub fn word(self) -> u32 {
        u32::from(self.modified) + 2 * u32::from(self.seen) + PINNED * u32::from(self.pinned)
    }

    /// The marks of a legal modified word.
    pub fn of_word(value: u32) -> Marks {
        assert!(LEGAL.contains(&value), "the modified word is {value}");
        Marks { modified: value % 2 == 1, seen: value / 2 % 2 == 1, pinned: value / PINNED == 1 }
    }
}

#[cfg(test)]
mod tests {
    use super::{Marks, LEGAL};

    #[test]
    fn every_mark_and_its_word() {
        let unpinned = [(false, false), (true, false), (true, true)];
        let with = |pinned: bool| unpinned.map(|(modified, seen)| Marks { modified, seen, pinned });
        let marks = [with(false), with(true)].concat();
        assert_eq!(marks.iter().map(|marks| marks.word()).collect::<Vec<u32>>(), LEGAL);
        assert_eq!(LEGAL.map(Marks::of_word)[..], marks);
        assert_eq!(marks[0], Marks::NONE);
        assert_eq!(LEGAL.map(|word| Marks::of_word(word).written_out().word()), [0, 0, 0, 4, 4, 4]);
    }
}
