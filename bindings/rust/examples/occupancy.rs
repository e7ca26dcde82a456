//! The occupancy by count class of a cache after a day's traffic: which counts its residents have, and how many of them
//! are modified.
use fbr::{Cache, CountClass, Refusal, Settings, Work};

const B: u32 = 64;
const M: u32 = 8_192;
const BATCH: usize = 1_024;
const BATCHES_AN_HOUR: usize = 40;
/// Timetables stand in the blocks below this one, flights from it on.
const FLIGHTS: u32 = 16;
/// Bags from this block on.
const BAGS: u32 = 1_016;
/// So many flights, and so many bags, are in use at a time.
const IN_USE: u32 = 150;
/// The hour that begins with a flush.
const FLUSH: u32 = 22;
/// Columns of the longest bar.
const BAR: u32 = 48;

/// The same traffic every day: timetables are used all day long, each flight for some hours, each bag for minutes.
struct Traffic {
    state: u64,
    words: u32,
}

impl Traffic {
    fn below(&mut self, bound: u32) -> u32 {
        self.state = self.state.wrapping_mul(6_364_136_223_846_793_005).wrapping_add(1_442_695_040_888_963_407);
        ((self.state >> 33) % u64::from(bound)) as u32
    }

    fn block(&mut self) -> u32 {
        self.words += 1;
        match self.below(16) {
            0 => self.below(FLIGHTS),
            1..=4 => FLIGHTS + (self.words / 1_024 + self.below(IN_USE)) % (BAGS - FLIGHTS),
            _ => BAGS + (self.words / 16 + self.below(IN_USE)) % (M - BAGS),
        }
    }

    /// A batch with a quarter writes.
    fn batch(&mut self) -> Vec<Work> {
        let mut one = || match (self.block(), self.below(4)) {
            (block, 0) => Work::Write(block),
            (block, _) => Work::Read(block),
        };
        (0..BATCH).map(|_| one()).collect()
    }
}

fn day(cache: &mut Cache) -> Result<(), Refusal> {
    let mut traffic = Traffic { state: 1, words: 0 };
    // enough for a batch of writes alone
    let incoming = vec![b'.'; BATCH * B as usize];
    for hour in 0..24 {
        if hour == FLUSH {
            cache.run(&[Work::Flush], &[])?;
        }
        for _ in 0..BATCHES_AN_HOUR {
            cache.run(&traffic.batch(), &incoming)?;
        }
    }
    Ok(())
}

/// Modified residents and the others, rounded up: no class that has residents is without a bar.
fn bar(class: &CountClass, most: u32) -> String {
    let columns = |residents: u32| (residents * BAR).div_ceil(most) as usize;
    let (modified, all) = (columns(class.modified), columns(class.residents));
    "#".repeat(modified) + &"-".repeat(all - modified)
}

fn main() -> Result<(), Refusal> {
    let settings = Settings::unix(512, B, M);
    let mut cache = Cache::new(&settings, vec![b'.'; settings.store_bytes()])?;
    day(&mut cache)?;

    let occupancy = cache.occupancy()?;
    let most = occupancy.classes.iter().map(|class| class.residents).fold(1, u32::max);
    println!("{:>10} {:>9} {:>8}  # modified, - not", "count", "residents", "modified");
    for class in &occupancy.classes {
        println!("{class:>10} {:>9} {:>8}  {}", class.residents, class.modified, bar(class, most));
    }
    println!("{:>10} {:>9} {:>8}", "all", occupancy.residents(), occupancy.modified());
    Ok(())
}
