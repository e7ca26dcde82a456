use crate::sys;

/// The settings of a cache. [`fresh`](crate::fresh) says whether they are legal.
#[derive(Clone, Copy, Debug, PartialEq, Eq, Hash)]
pub struct Settings {
    /// N: cache blocks, 1 to 4,096.
    pub n: u32,
    /// Nnew: how many of them form the new section, 0 or more.
    pub nnew: u32,
    /// Nold: how many form the old section, at least 1; Nnew + Nold is at most N.
    pub nold: u32,
    /// Cmax: the chain limit, 1 to 64.
    pub cmax: u32,
    /// Amax: the average limit, 1 to 1,000. Counts are halved when a read or a write leaves their average over the blocks
    /// in the cache above it.
    pub amax: u32,
    /// B: the block size, 1 to 4,096 bytes.
    pub b: u32,
    /// M: blocks of the store, 1 to 262,144, numbered from 0.
    pub m: u32,
}

impl Settings {
    /// UNIX of the paper's table 3.2: Cmax 8, new section 25 %, old section 60 %, Amax 100; for `n` cache blocks of `b`
    /// bytes over a store of `m` blocks.
    ///
    /// For an `n` outside its limits all settings are 0, as with the other named settings.
    pub fn unix(n: u32, b: u32, m: u32) -> Settings {
        Settings::named(0, n, b, m)
    }

    /// C51 of the paper's table 3.2: Cmax 3, new section 25 %, old section 20 %, Amax 100.
    pub fn c51(n: u32, b: u32, m: u32) -> Settings {
        Settings::named(1, n, b, m)
    }

    /// CUST11 of the paper's table 3.2: Cmax 3, new section 25 %, old section 40 %, Amax 100.
    pub fn cust11(n: u32, b: u32, m: u32) -> Settings {
        Settings::named(2, n, b, m)
    }

    fn named(which: u32, n: u32, b: u32, m: u32) -> Settings {
        let mut out = [0; 7];
        // SAFETY: `out` is a slice of its own for the length of the call.
        let written = unsafe { sys::fbr_named(which, n, b, m, out.as_mut_ptr(), out.len()) };
        // an archive that doesn't know the name leaves them 0, and `fresh` declines such settings
        Settings::from_words(if written == out.len() { out } else { [0; 7] })
    }

    /// The settings of seven numbers in the order of the directory's first words.
    pub(crate) fn from_words([n, nnew, nold, cmax, amax, b, m]: [u32; 7]) -> Settings {
        Settings { n, nnew, nold, cmax, amax, b, m }
    }

    /// The words that the directory needs: 24 + 2 × Cmax + buckets + 9 × N; 0 where N or Cmax is outside its limits.
    ///
    /// ```
    /// assert_eq!(fbr::Settings::unix(512, 4_096, 65_536).directory_words(), 5_160);
    /// assert_eq!(fbr::Settings::unix(0, 4_096, 65_536).directory_words(), 0);
    /// ```
    pub fn directory_words(&self) -> usize {
        // SAFETY: numbers only.
        unsafe { sys::fbr_directory_words(self.n, self.cmax) as usize }
    }

    /// The bytes that the data buffer needs: N × B.
    pub fn data_bytes(&self) -> usize {
        (self.n as usize).saturating_mul(self.b as usize)
    }

    /// The bytes that the store has, neither more nor less: M × B.
    pub fn store_bytes(&self) -> usize {
        (self.m as usize).saturating_mul(self.b as usize)
    }
}
