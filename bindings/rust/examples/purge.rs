//! After a large purge: four chutes were busy all day, so their blocks have high counts; then the blocks of all flights
//! that have left are purged.
use fbr::{Answer, Cache, Refusal, Settings, Work};

/// The blocks of the four chutes that are busy today, and of those of tomorrow.
const CHUTES: [u32; 4] = [0, 1, 2, 3];
const OTHER_CHUTES: [u32; 4] = [4, 5, 6, 7];
const FLIGHTS: u32 = 4_000;

fn reads(blocks: impl IntoIterator<Item = u32>) -> Vec<Work> {
    blocks.into_iter().map(Work::Read).collect()
}

/// One round: a bag for each chute, and the blocks of twenty flights, other ones in each round.
fn round(chutes: [u32; 4], i: u32) -> Vec<Work> {
    reads(chutes.into_iter().chain((0..20).map(|j| 8 + (20 * i + j) % FLIGHTS)))
}

/// The residents' blocks and counts, read off the directory: its last 9 × N words are the entries, and of each the first
/// is the block, the second the count; an unused entry has count 0. The low 28 bits of a word are its value.
fn residents(cache: &Cache, n: u32) -> Vec<(u32, u32)> {
    let words = cache.parts().directory;
    let entries = words[words.len() - 9 * n as usize..].chunks(9);
    let values = entries.map(|entry| (entry[0] % (1 << 28), entry[1] % (1 << 28)));
    values.filter(|&(_, count)| count > 0).collect()
}

fn line(time: &str, what: &str, cache: &Cache, n: u32) {
    let held = residents(cache, n);
    let sum: u32 = held.iter().map(|&(_, count)| count).sum();
    let count = |chute: u32| held.iter().find(|&&(block, _)| block == chute).map_or(0, |&(_, count)| count);
    println!(
        "{time}  {what:<31}  {:>9}  {sum:>4}  {:>4} {:>4} {:>4} {:>4}",
        held.len(),
        count(0),
        count(1),
        count(2),
        count(3)
    );
}

fn main() -> Result<(), Refusal> {
    let settings = Settings::unix(64, 8, 8 + FLIGHTS);
    let mut cache = Cache::new(&settings, vec![b'.'; settings.store_bytes()])?;
    println!("time   what                             residents   sum  counts of the chutes");
    for i in 0..1_000 {
        cache.run(&round(CHUTES, i), &[])?;
    }
    line("21:55", "a day of four busy chutes", &cache, settings.n);

    let left = residents(&cache, settings.n).into_iter().filter(|(block, _)| !CHUTES.contains(block));
    cache.run(&left.map(|(block, _)| Work::Purge(block)).collect::<Vec<_>>(), &[])?;
    line("22:00", "the flights have left: a purge", &cache, settings.n);

    for (minute, chute) in (10..).zip([0, 1, 2, 3, 0]) {
        let ran = cache.run(&[Work::Read(chute)], &[])?;
        let halved = if matches!(ran.answers[0], Answer::Hit { halved: true, .. }) { ", halved" } else { "" };
        line(&format!("22:{minute}"), &format!("a bag for chute {}{halved}", chute + 1), &cache, settings.n);
    }

    let mut rounds = 0;
    while residents(&cache, settings.n).iter().any(|(block, _)| CHUTES.contains(block)) {
        cache.run(&round(OTHER_CHUTES, rounds), &[])?;
        rounds += 1;
    }
    println!("06:00  other chutes are busy: after {rounds} rounds the four have left");
    Ok(())
}
