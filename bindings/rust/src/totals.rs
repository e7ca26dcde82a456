/// What a cache did since its fresh directory.
#[derive(Clone, Copy, Debug, Default, PartialEq, Eq, Hash)]
pub struct Totals {
    /// Read words carried out.
    pub reads: u64,
    /// Write words carried out.
    pub writes: u64,
    /// Blocks copied in from the store.
    pub ins: u64,
    /// Blocks written out to the store.
    pub outs: u64,
}

impl Totals {
    /// The miss ratio: (ins + outs) / (reads + writes); none where there were no reads and writes.
    ///
    /// ```
    /// use fbr::Totals;
    ///
    /// assert_eq!(Totals { reads: 6, writes: 2, ins: 3, outs: 1 }.miss_ratio(), Some(0.5));
    /// assert_eq!(Totals::default().miss_ratio(), None);
    /// ```
    pub fn miss_ratio(&self) -> Option<f64> {
        let sum = |one: u64, other: u64| u128::from(one) + u128::from(other);
        let references = sum(self.reads, self.writes);
        (references > 0).then(|| sum(self.ins, self.outs) as f64 / references as f64)
    }
}
