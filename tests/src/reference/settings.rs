//! Limits of the settings, the numbers 1 to 4, the named settings, bucket count and directory length.
use super::directory::{entry, header};
use crate::Settings;

pub const MAX_N: u32 = 4_096;
pub const MAX_CMAX: u32 = 64;
pub const MAX_AMAX: u32 = 1_000;
pub const MAX_B: u32 = 4_096;
pub const MAX_M: u32 = 262_144;
/// No setting, but a limit too: a resident's count is 1 to this.
pub const MAX_COUNT: u32 = 65_535;

/// The first number of the table, from 1 to 4, whose condition the settings meet; 0 if they are legal.
pub fn number(s: Settings) -> u32 {
    let outside = |value: u32, max: u32| value < 1 || value > max;
    // a sum of numbers: it never wraps
    let sections = u64::from(s.nnew) + u64::from(s.nold);
    if outside(s.n, MAX_N) {
        1
    } else if s.nold == 0 || sections > u64::from(s.n) {
        2
    } else if outside(s.cmax, MAX_CMAX) || outside(s.amax, MAX_AMAX) {
        3
    } else if outside(s.b, MAX_B) || outside(s.m, MAX_M) {
        4
    } else {
        0
    }
}

/// The rows of table 3.2.
#[derive(Clone, Copy, Debug, PartialEq, Eq)]
pub enum Profile {
    Unix,
    C51,
    Cust11,
}

pub const PROFILES: [Profile; 3] = [Profile::Unix, Profile::C51, Profile::Cust11];

/// A profile's settings for `n` cache blocks; all 0 for an `n` outside its limits.
pub fn named(profile: Profile, n: u32, b: u32, m: u32) -> Settings {
    if !(1..=MAX_N).contains(&n) {
        return Settings { n: 0, nnew: 0, nold: 0, cmax: 0, amax: 0, b: 0, m: 0 };
    }
    let (cmax, new_percent, old_percent) = match profile {
        Profile::Unix => (8, 25, 60),
        Profile::C51 => (3, 25, 20),
        Profile::Cust11 => (3, 25, 40),
    };
    let nnew = n * new_percent / 100;
    let nold = (n * old_percent / 100).max(1);
    Settings { n, nnew, nold, cmax, amax: 100, b, m }
}

/// The smallest power of two not below `n`.
pub fn buckets(n: u32) -> u64 {
    let mut power = 1;
    while power < u64::from(n) {
        power *= 2;
    }
    power
}

/// How many words a directory with these settings takes.
pub fn directory_length(s: Settings) -> u64 {
    let chains = 2 * u64::from(s.cmax);
    let entries = entry::LENGTH as u64 * u64::from(s.n);
    header::LENGTH as u64 + chains + buckets(s.n) + entries
}

/// The sum of counts of a sound directory is at most this, however few its residents.
pub fn sum_limit(s: Settings) -> u64 {
    u64::from(s.amax) * u64::from(s.n)
}

#[cfg(test)]
mod tests {
    use super::*;
    use crate::BELT;

    #[test]
    fn bucket_counts() {
        let pairs = [(1, 1), (2, 2), (3, 4), (4, 4), (5, 8), (64, 64), (65, 128), (4_095, 4_096), (4_096, 4_096)];
        for (n, expected) in pairs {
            assert_eq!(buckets(n), expected, "N {n}");
        }
    }

    #[test]
    fn named_settings_by_hand() {
        let unix = named(Profile::Unix, 100, 512, 9);
        assert_eq!(unix, Settings { n: 100, nnew: 25, nold: 60, cmax: 8, amax: 100, b: 512, m: 9 });
        let c51 = named(Profile::C51, 3, 1, 1);
        assert_eq!(c51, Settings { n: 3, nnew: 0, nold: 1, cmax: 3, amax: 100, b: 1, m: 1 });
        let cust11 = named(Profile::Cust11, 7, 1, 1);
        assert_eq!(cust11, Settings { n: 7, nnew: 1, nold: 2, cmax: 3, amax: 100, b: 1, m: 1 });
    }

    #[test]
    fn belt_takes_70_words() {
        assert_eq!(directory_length(BELT), 24 + 2 * 3 + 4 + 9 * 4);
        assert_eq!(number(BELT), 0);
    }
}
