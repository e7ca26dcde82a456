//! Judges directories four times over and counts the verdicts of each region.
use cache_tests::reference::{c_judge, fast_judge, judge};
use std::collections::BTreeMap;

#[derive(Default)]
pub struct Tally {
    /// Sound and unsound ones of each region.
    rows: BTreeMap<String, (u64, u64)>,
}

impl Tally {
    /// The verdict, if all four agree on it.
    pub fn judge(&mut self, region: &str, words: &[u32]) -> bool {
        let verdict = judge::sound(words);
        let (library, fast, c) = (cache_tests::sound(words), fast_judge::sound(words), c_judge::sound(words));
        if [library, fast, c] != [verdict; 3] {
            let shown = &words[..words.len().min(600)];
            panic!("{region}: judge {verdict}, fast judge {fast}, C {c}, library {library}; words {shown:#x?}");
        }
        self.count(region, verdict);
        verdict
    }

    pub fn count(&mut self, region: &str, verdict: bool) {
        let row = self.rows.entry(region.to_string()).or_default();
        if verdict {
            row.0 += 1;
        } else {
            row.1 += 1;
        }
    }

    pub fn of(&self, region: &str) -> (u64, u64) {
        self.rows.get(region).copied().unwrap_or_default()
    }

    pub fn total(&self) -> (u64, u64) {
        self.rows.values().fold((0, 0), |total, row| (total.0 + row.0, total.1 + row.1))
    }

    pub fn print(&self, title: &str) {
        println!("{title:<48} {:>8} {:>8} {:>8}", "cases", "sound", "unsound");
        for (region, (sound, unsound)) in &self.rows {
            println!("  {region:<46} {:>8} {sound:>8} {unsound:>8}", sound + unsound);
        }
        let (sound, unsound) = self.total();
        println!("  {:<46} {:>8} {sound:>8} {unsound:>8}", "all", sound + unsound);
    }
}
