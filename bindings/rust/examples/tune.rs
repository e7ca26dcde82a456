//! Tuning the sections: one day's list of calls under several settings, and under settings that change on the way. What
//! is read, and what the store has after a flush, is the same under all of them; blocks moved are not.
use fbr::{Cache, Refusal, Settings, Work};

const CHUTES: u32 = 28;
const FLIGHTS: u32 = 500;
const HOURS: u32 = 24;

/// The words of a batch, and the bytes that its writes bring.
type Batch = (Vec<Work>, Vec<u8>);

/// The sixty batches of an hour: four bags, each of which reads and then writes its chute's block, and the blocks of ten
/// flights, read one after another.
fn batches_of(hour: u32) -> impl Iterator<Item = Batch> {
    (60 * hour..60 * (hour + 1)).map(move |minute| {
        let chutes = (1..=4).map(move |j| j * (minute * minute + hour) % CHUTES);
        let bags = chutes.clone().flat_map(|chute| [Work::Read(chute), Work::Write(chute)]);
        let flights = (0..10).map(|j| Work::Read(CHUTES + (10 * minute + j) % FLIGHTS));
        let bytes = chutes.flat_map(|chute| format!("{chute:02} {minute:05}").into_bytes());
        (bags.chain(flights).collect(), bytes.collect())
    })
}

/// The 64-bit FNV-1a of these bytes, continued from `sum`.
fn checksum(sum: u64, bytes: &[u8]) -> u64 {
    bytes.iter().fold(sum, |sum, &byte| (sum ^ u64::from(byte)).wrapping_mul(1_099_511_628_211))
}
const START: u64 = 14_695_981_039_346_656_037;

/// A day, from midnight on under the first settings, then from each hour given under the next: a flush, and a fresh
/// cache over the store.
fn day(name: &str, first: Settings, changes: &[(u32, Settings)]) -> Result<(), Refusal> {
    let mut cache = Cache::new(&first, vec![b'.'; first.store_bytes()])?;
    let (mut ins, mut outs, mut read) = (0, 0, START);
    for at in 0..HOURS {
        if let Some((_, settings)) = changes.iter().find(|(from, _)| *from == at) {
            cache.run(&[Work::Flush], &[])?;
            (ins, outs) = (ins + cache.totals()?.ins, outs + cache.totals()?.outs);
            // where it declines, `NotTaken` hands the store back
            cache = Cache::new(settings, cache.into_parts().store)?;
        }
        for (words, bytes) in batches_of(at) {
            read = checksum(read, &cache.run(&words, &bytes)?.read);
        }
    }
    cache.run(&[Work::Flush], &[])?;
    (ins, outs) = (ins + cache.totals()?.ins, outs + cache.totals()?.outs);
    let store = checksum(START, cache.store());
    println!("{name:<30}  {ins:>9}  {outs:>10}  {read:016x}  {store:016x}");
    Ok(())
}

fn main() -> Result<(), Refusal> {
    let (b, m) = (8, CHUTES + FLIGHTS);
    let lru = Settings { n: 32, nnew: 0, nold: 1, cmax: 8, amax: 100, b, m };
    let (unix, c51) = (Settings::unix(32, b, m), Settings::c51(32, b, m));
    println!("settings                        blocks in  blocks out  all bytes read    the store");
    day("LRU", lru, &[])?;
    day("UNIX", unix, &[])?;
    day("C51", c51, &[])?;
    day("UNIX, N 48", Settings::unix(48, b, m), &[])?;
    day("LRU, UNIX from 6, C51 from 12", lru, &[(6, unix), (12, c51)])
}
