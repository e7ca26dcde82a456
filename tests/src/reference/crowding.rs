//! How many comparisons the search for second residents can take: the blocks of a store that share a bucket. A check
//! compares the block of each resident with those that its bucket lists in front of it.
use super::builder::home_among;
use super::settings::{self, MAX_M, MAX_N};
use std::cmp::Reverse;

/// The most comparisons of blocks in one check of a directory with `n` cache blocks.
#[derive(Clone, Copy, Debug, PartialEq, Eq)]
pub struct Crowding {
    pub n: u32,
    pub buckets: u64,
    /// Blocks of the bucket that has the most.
    pub fullest: u64,
    /// In a sound directory.
    pub comparisons: u64,
    /// Before the check ends, whatever the words are.
    pub comparisons_of_any_words: u64,
}

/// How many of the blocks each bucket has.
fn shares(n: u32, blocks: impl Iterator<Item = u32>) -> Vec<u64> {
    let buckets = settings::buckets(n);
    let mut shares = vec![0; buckets as usize];
    blocks.for_each(|block| shares[home_among(buckets, block)] += 1);
    shares
}

/// How many of the blocks below `m` each bucket has, from the fullest down.
pub fn sizes(n: u32, m: u32) -> Vec<u64> {
    let mut sizes = shares(n, 0..m);
    sizes.sort_unstable_by_key(|&size| Reverse(size));
    sizes
}

/// The blocks below `m`, those of the fullest bucket first, then those of the next.
pub fn blocks(n: u32, m: u32) -> Vec<u32> {
    let (buckets, shares) = (settings::buckets(n), shares(n, 0..m));
    let mut blocks: Vec<u32> = (0..m).collect();
    blocks.sort_by_cached_key(|&block| {
        let bucket = home_among(buckets, block);
        (Reverse(shares[bucket]), bucket)
    });
    blocks
}

/// Comparisons where a bucket has k residents, each compared with those in front of it: 0 + 1 + .. + (k - 1).
pub fn pairs(k: u64) -> u64 {
    k * k.saturating_sub(1) / 2
}

/// Comparisons where `n` residents fill buckets of these sizes in their order. The sum grows most where the list is
/// longest, so that no choice of residents takes more than one that fills the fullest buckets first.
pub fn compared(n: u32, sizes: &[u64]) -> u64 {
    let mut left = u64::from(n);
    let mut sum = 0;
    for &size in sizes {
        let here = size.min(left);
        sum += pairs(here);
        left -= here;
    }
    sum
}

/// The most blocks of one bucket.
pub fn fullest(n: u32, m: u32) -> u64 {
    sizes(n, m)[0]
}

/// The most in one check of a sound directory.
pub fn comparisons(n: u32, m: u32) -> u64 {
    compared(n, &sizes(n, m))
}

/// The same for any words. The check stops at the first entry that fails. Those in front of it passed, so they have
/// different blocks of their buckets; it alone may be a second resident, behind all that a bucket can have. So this is
/// a sound directory's with one place more in one bucket, the fullest. Never more than N entries are looked at.
pub fn comparisons_of_any_words(n: u32, m: u32) -> u64 {
    let mut sizes = sizes(n, m);
    sizes[0] += 1;
    compared(n, &sizes)
}

impl Crowding {
    pub fn of(n: u32, m: u32) -> Crowding {
        Crowding {
            n,
            buckets: settings::buckets(n),
            fullest: fullest(n, m),
            comparisons: comparisons(n, m),
            comparisons_of_any_words: comparisons_of_any_words(n, m),
        }
    }

    /// N, buckets, blocks in the fullest bucket, residents in it, comparisons in a sound directory and in any words.
    pub fn row(&self) -> String {
        let n = u64::from(self.n);
        let comparisons = [self.comparisons, self.comparisons_of_any_words];
        let columns = [n, self.buckets, self.fullest, self.fullest.min(n), comparisons[0], comparisons[1]];
        format!("| {} |", columns.map(with_commas).join(" | "))
    }
}

/// The rows of every power of two, for the longest store.
pub fn rows() -> Vec<String> {
    powers().map(|n| Crowding::of(n, MAX_M).row()).collect()
}

/// How rows for a deadline begin, from N = 64 on: the N up to this power of two, the most residents of one bucket, and
/// the most comparisons, whatever the words are.
pub fn deadline_rows() -> Vec<String> {
    let from_64 = powers().filter(|&n| n >= 64).map(|n| Crowding::of(n, MAX_M));
    let row = |most: Crowding| {
        let (first, last) = (if most.n == 64 { 1 } else { most.n / 2 + 1 }, most.n);
        let [first, last] = [first, last].map(|n| with_commas(n.into()));
        let columns = [most.fullest.min(most.n.into()), most.comparisons_of_any_words].map(with_commas);
        format!("| {first} to {last} | {} | ", columns.join(" | "))
    };
    from_64.map(row).collect()
}

/// The powers of two that N can be.
pub fn powers() -> impl Iterator<Item = u32> {
    (0..).map(|power| 1 << power).take_while(|&n| n <= MAX_N)
}

/// A number with a comma before every three digits.
fn with_commas(number: u64) -> String {
    let digits = number.to_string();
    let mut shown = String::new();
    for (i, digit) in digits.chars().enumerate() {
        if i > 0 && (digits.len() - i).is_multiple_of(3) {
            shown.push(',');
        }
        shown.push(digit);
    }
    shown
}

#[cfg(test)]
mod tests {
    use super::*;

    /// Over every choice of residents, each a bit, the most is as told: of the choice alone, and with a second resident
    /// behind it.
    #[test]
    fn no_choice_of_residents_takes_more() {
        for (n, m) in (1..=6).flat_map(|n| (1..=14).map(move |m| (n, m))) {
            let (mut sound, mut any) = (0, 0);
            for choice in (0u32..1 << m).filter(|choice| choice.count_ones() <= n) {
                let listed = shares(n, (0..m).filter(|block| choice >> block & 1 == 1));
                let taken: u64 = listed.iter().copied().map(pairs).sum();
                let second = if choice.count_ones() < n { listed.into_iter().max().unwrap() } else { 0 };
                (sound, any) = (taken.max(sound), (taken + second).max(any));
            }
            assert_eq!((sound, any), (comparisons(n, m), comparisons_of_any_words(n, m)), "N {n}, M {m}");
        }
    }

    #[test]
    fn the_fullest_buckets_are_filled_first() {
        assert_eq!(compared(7, &[4, 3, 2]), 6 + 3);
        assert_eq!(compared(8, &[4, 3, 2]), 6 + 3);
        assert_eq!(compared(20, &[4, 3, 2]), 6 + 3 + 1);
        assert_eq!(compared(3, &[4, 3, 2]), 3);
        let (blocks, sizes) = (blocks(64, 1_000), sizes(64, 1_000));
        let mut rest = &blocks[..];
        for &size in &sizes {
            let (here, behind) = rest.split_at(size as usize);
            assert!(here.iter().all(|&block| home_among(64, block) == home_among(64, here[0])));
            rest = behind;
        }
        assert!(rest.is_empty() && sizes[0] > sizes[63]);
    }

    #[test]
    fn numbers_with_commas() {
        let shown = [0, 7, 999, 1_000, 262_144, 8_386_560].map(with_commas);
        assert_eq!(shown, ["0", "7", "999", "1,000", "262,144", "8,386,560"]);
    }
}
