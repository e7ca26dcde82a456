use std::fmt;
use std::ops::RangeInclusive;

/// How many classes there are.
const CLASSES: usize = 8;
/// The words that the library writes: the residents of each class, then the modified ones.
pub(crate) const WORDS: usize = 2 * CLASSES;

/// The highest count of a resident.
const MAX_COUNT: u32 = 65_535;
/// The highest count of each class.
const HIGHEST: [u32; CLASSES] = [1, 2, 4, 8, 16, 64, 1_000, MAX_COUNT];

/// The residents whose counts lie in one range.
///
/// It prints its counts, as `3 to 4`.
#[derive(Clone, Debug, PartialEq, Eq, Hash)]
pub struct CountClass {
    /// The counts of the class.
    pub counts: RangeInclusive<u32>,
    /// Residents with such a count.
    pub residents: u32,
    /// Those of them that are modified.
    pub modified: u32,
}

/// The residents of a cache by count class, as in table 3.4 of the paper.
///
/// It prints a table: a line of headings, one line for each class, and the sums.
///
/// ```
/// use fbr::{Cache, Settings, Work};
///
/// let settings = Settings::c51(4, 8, 64);
/// let mut cache = Cache::new(&settings, vec![0; settings.store_bytes()])?;
/// cache.run(&[Work::Write(7), Work::Read(8), Work::Read(7)], b"8 bytes.")?;
/// let occupancy = cache.occupancy()?;
/// assert_eq!((occupancy.residents(), occupancy.modified()), (2, 1));
/// let twice = occupancy.class_of(2).expect("a count from 1 to 65,535");
/// assert_eq!((twice.counts.clone(), twice.residents, twice.modified), (2..=2, 1, 1));
/// # Ok::<(), fbr::Refusal>(())
/// ```
#[derive(Clone, Debug, PartialEq, Eq, Hash)]
pub struct Occupancy {
    /// The classes by rising counts: 1, 2, 3 to 4, 5 to 8, 9 to 16, 17 to 64, 65 to 1,000, above 1,000.
    pub classes: [CountClass; CLASSES],
}

impl Occupancy {
    pub(crate) fn from_words(words: [u32; WORDS]) -> Occupancy {
        let lowest = |class: usize| class.checked_sub(1).map_or(1, |below| HIGHEST[below] + 1);
        Occupancy {
            classes: std::array::from_fn(|class| CountClass {
                counts: lowest(class)..=HIGHEST[class],
                residents: words[class],
                modified: words[CLASSES + class],
            }),
        }
    }

    /// The class of a count, which is from 1 to 65,535; none for other numbers.
    pub fn class_of(&self, count: u32) -> Option<&CountClass> {
        self.classes.iter().find(|class| class.counts.contains(&count))
    }

    /// The residents of all classes.
    pub fn residents(&self) -> u64 {
        self.classes.iter().map(|class| u64::from(class.residents)).sum()
    }

    /// The modified residents of all classes: what a flush would write out.
    pub fn modified(&self) -> u64 {
        self.classes.iter().map(|class| u64::from(class.modified)).sum()
    }
}

impl fmt::Display for CountClass {
    fn fmt(&self, f: &mut fmt::Formatter<'_>) -> fmt::Result {
        let (low, high) = (*self.counts.start(), *self.counts.end());
        let text = match high {
            MAX_COUNT => format!("above {}", low.saturating_sub(1)),
            _ if low == high => low.to_string(),
            _ => format!("{low} to {high}"),
        };
        // with the width that the caller asks for
        f.pad(&text)
    }
}

impl fmt::Display for Occupancy {
    fn fmt(&self, f: &mut fmt::Formatter<'_>) -> fmt::Result {
        writeln!(f, "{:>10} {:>9} {:>8}", "count", "residents", "modified")?;
        for class in &self.classes {
            writeln!(f, "{class:>10} {:>9} {:>8}", class.residents, class.modified)?;
        }
        write!(f, "{:>10} {:>9} {:>8}", "all", self.residents(), self.modified())
    }
}
