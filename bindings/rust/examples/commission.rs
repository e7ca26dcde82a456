//! Commissioning: the same load at every site, and the numbers that every site must see.
use fbr::{Answer, Cache, Load, Refusal, Settings, Work};

const SEED: u32 = 2_463_534_242;
const BATCHES: u32 = 100;
const WORDS: u32 = 1_024;

/// What the writes of batch k, from 1, bring: byte i, from 0, of the j-th write, from 1, is (k + 3 × j + 5 × i) mod 256.
fn incoming(k: u32, batch: &[Work], b: u32) -> Vec<u8> {
    let writes = batch.iter().filter(|word| matches!(word, Work::Write(_))).count() as u32;
    (1..=writes).flat_map(|j| (0..b).map(move |i| ((k + 3 * j + 5 * i) % 256) as u8)).collect()
}

fn halved(answer: &Answer) -> bool {
    matches!(answer, Answer::Hit { halved: true, .. } | Answer::Entered { halved: true })
}

/// The 64-bit FNV-1a, gone on with over these bytes.
fn checksum(sum: u64, bytes: &[u8]) -> u64 {
    bytes.iter().fold(sum, |sum, &byte| (sum ^ u64::from(byte)).wrapping_mul(1_099_511_628_211))
}
const START: u64 = 14_695_981_039_346_656_037;

fn main() -> Result<(), Refusal> {
    let settings = Settings::unix(64, 64, 96);
    let mut cache = Cache::new(&settings, vec![0; settings.store_bytes()])?;
    let mut load = Load::new(SEED, settings.m, WORDS)?;
    let (mut halvings, mut read) = (0, START);
    println!("batches  reads  writes  blocks in  blocks out  halvings");
    for (k, batch) in (1..=BATCHES).zip(load.by_ref()) {
        let ran = cache.run(&batch, &incoming(k, &batch, settings.b))?;
        halvings += ran.answers.iter().filter(|answer| halved(answer)).count();
        read = checksum(read, &ran.read);
        if [1, 10, BATCHES].contains(&k) {
            let t = cache.totals()?;
            println!("{k:>7}  {:>5}  {:>6}  {:>9}  {:>10}  {halvings:>8}", t.reads, t.writes, t.ins, t.outs);
        }
    }
    if let Answer::Flushed { written } = cache.run(&[Work::Flush], &[])?.answers[0] {
        println!("a flush: {written} written out");
    }
    println!("checksum of all bytes read: {read:016x}");
    println!("checksum of the store: {:016x}", checksum(START, cache.store()));
    println!("state of the load: {}", load.state());
    Ok(())
}
