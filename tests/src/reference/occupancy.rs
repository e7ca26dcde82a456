//! The residents by count class: of the plain stack, and read off a directory's words.
use super::directory::{entry, settings_of, value, Map};
use super::fast_judge;
use super::marks::Marks;
use super::stack::PlainStack;

pub const CLASSES: usize = 8;
/// The residents of each class, then the modified residents of each.
pub const FIGURES: usize = 2 * CLASSES;
pub type Table = [u32; FIGURES];
pub const NONE: Table = [0; FIGURES];

/// "1, 2, 3 to 4, 5 to 8, 9 to 16, 17 to 64, 65 to 1,000 and above": where each class but the last ends.
const ENDS: [u32; CLASSES - 1] = [1, 2, 4, 8, 16, 64, 1_000];

/// The class of a count, from 0: as many classes end before it.
pub fn class(count: u32) -> usize {
    ENDS.iter().filter(|&&end| end < count).count()
}

/// The table of residents, each with its count and its modified mark; the other marks make no difference.
pub fn of_residents(residents: impl Iterator<Item = (u32, bool)>) -> Table {
    let mut table = NONE;
    for (count, modified) in residents {
        table[class(count)] += 1;
        table[CLASSES + class(count)] += u32::from(modified);
    }
    table
}

pub fn of_stack(stack: &PlainStack) -> Table {
    of_residents(stack.residents.iter().map(|resident| (resident.count, resident.marks.modified)))
}

/// The number and the table of any words. No link is followed: an entry is unused where its count is 0.
pub fn of_words(words: &[u32]) -> (u32, Table) {
    if !fast_judge::sound(words) {
        return (6, NONE);
    }
    let s = settings_of(words);
    let at = |e: u32, word: usize| value(words[Map::of(s).entry(e, word)]);
    let used = (1..=s.n).filter(|&e| at(e, entry::COUNT) > 0);
    (0, of_residents(used.map(|e| (at(e, entry::COUNT), Marks::of_word(at(e, entry::MODIFIED)).modified))))
}

/// The sums of both columns.
pub fn sums(table: &Table) -> (u32, u32) {
    let (residents, modified) = table.split_at(CLASSES);
    (residents.iter().sum(), modified.iter().sum())
}

#[cfg(test)]
mod tests {
    use super::*;
    use crate::reference::directory::fresh_words;
    use crate::reference::settings::MAX_COUNT;
    use crate::BELT;

    /// The request's classes one by one, written down a second time.
    #[test]
    fn classes_by_hand() {
        let classes = [1..=1, 2..=2, 3..=4, 5..=8, 9..=16, 17..=64, 65..=1_000, 1_001..=MAX_COUNT];
        let mut counts = 0;
        for (expected, range) in classes.into_iter().enumerate() {
            for count in range {
                assert_eq!(class(count), expected, "count {count}");
                counts += 1;
            }
        }
        assert_eq!(counts, MAX_COUNT);
    }

    #[test]
    fn a_table_by_hand() {
        let residents = [(1, true), (1, false), (3, true), (4, true), (1_000, false), (1_001, true), (65_535, true)];
        let by_hand = [2, 0, 2, 0, 0, 0, 1, 2, 1, 0, 2, 0, 0, 0, 0, 2];
        assert_eq!(of_residents(residents.into_iter()), by_hand);
        assert_eq!(sums(&by_hand), (7, 5));
    }

    #[test]
    fn a_fresh_directory_and_none() {
        assert_eq!(of_words(&fresh_words(BELT)), (0, NONE));
        assert_eq!(of_words(&[]), (6, NONE));
    }
}
