//! A sorting controller's day: batches, a save every few batches, damage, and two ways to go on after it; then an
//! afternoon with short backup power, where a tick after every batch keeps the store close behind.
//!
//! A save is one file: "FBRSAVE1", three lengths (directory words, data bytes, store bytes; 8 bytes each), directory,
//! data, store, and the 64-bit FNV-1a of all before it. All numbers have their low byte first.
use fbr::{Answer, Cache, NotTaken, Parts, Ran, Settings, Totals, View, Work};
use std::error::Error;
use std::fs::{self, File};
use std::io::Write;
use std::path::{Path, PathBuf};

/// A block holds a text of this length.
const B: u32 = 16;
const M: u32 = 512;
const BATCH: usize = 100;
/// The directory's word that says which entry was used last.
const HEAD: usize = 9;

fn settings() -> Settings {
    Settings::unix(64, B, M)
}

type Outcome<T> = Result<T, Box<dyn Error>>;

/// The same traffic every day: nine of ten words are about one block in eight.
struct Traffic {
    state: u64,
    written: u32,
}

impl Traffic {
    fn below(&mut self, bound: u32) -> u32 {
        self.state = self.state.wrapping_mul(6_364_136_223_846_793_005).wrapping_add(1_442_695_040_888_963_407);
        ((self.state >> 33) % u64::from(bound)) as u32
    }

    /// The work words of a batch, and the bytes of its writes.
    fn batch(&mut self) -> (Vec<Work>, Vec<u8>) {
        let (mut work, mut incoming) = (Vec::new(), Vec::new());
        for _ in 0..BATCH {
            let blocks = if self.below(10) == 0 { M } else { M / 8 };
            let block = self.below(blocks);
            if self.below(4) > 0 {
                work.push(Work::Read(block));
            } else {
                work.push(Work::Write(block));
                self.written += 1;
                incoming.extend(format!("bag {:012}", self.written).bytes());
            }
        }
        (work, incoming)
    }
}

fn fnv(bytes: &[u8]) -> u64 {
    let step = |hash: u64, &byte: &u8| (hash ^ u64::from(byte)).wrapping_mul(1_099_511_628_211);
    bytes.iter().fold(14_695_981_039_346_656_037, step)
}

fn encode(parts: View) -> Vec<u8> {
    let mut bytes = b"FBRSAVE1".to_vec();
    for length in [parts.directory.len(), parts.data.len(), parts.store.len()] {
        bytes.extend((length as u64).to_le_bytes());
    }
    bytes.extend(parts.directory.iter().flat_map(|word| word.to_le_bytes()));
    bytes.extend([parts.data, parts.store].concat());
    let sum = fnv(&bytes);
    bytes.extend(sum.to_le_bytes());
    bytes
}

/// What stands before the checksum, if the checksum is right.
fn checked(bytes: &[u8]) -> Outcome<&[u8]> {
    let (body, sum) = bytes.split_last_chunk().ok_or("too short to be a save")?;
    if fnv(body) != u64::from_le_bytes(*sum) {
        return Err("the checksum is wrong".into());
    }
    Ok(body)
}

/// The parts of a save without its checksum; none if the lengths don't fit.
fn decode(body: &[u8]) -> Option<Parts> {
    let mut rest = body.strip_prefix(b"FBRSAVE1")?;
    let mut take = |length: u64| {
        let (front, back) = rest.split_at_checked(usize::try_from(length).ok()?)?;
        rest = back;
        Some(front)
    };
    let mut lengths = [0; 3];
    for length in &mut lengths {
        *length = u64::from_le_bytes(take(8)?.try_into().ok()?);
    }
    let [words, data, store] = lengths;
    let directory = take(words.checked_mul(4)?)?;
    let directory = directory.chunks_exact(4).map(|word| u32::from_le_bytes([word[0], word[1], word[2], word[3]]));
    let parts = Parts { directory: directory.collect(), data: take(data)?.to_vec(), store: take(store)?.to_vec() };
    rest.is_empty().then_some(parts)
}

/// The last save stays until the new one is whole.
fn save(cache: &Cache, path: &Path) -> Outcome<usize> {
    let bytes = encode(cache.parts());
    let new = path.with_extension("new");
    let mut file = File::create(&new)?;
    file.write_all(&bytes)?;
    file.sync_all()?;
    fs::rename(new, path)?;
    Ok(bytes.len())
}

/// A save of this controller's cache: another cache's may be as long and as sound.
fn take_up(saved: &[u8]) -> Outcome<Cache> {
    let parts = decode(checked(saved)?).ok_or("the lengths are wrong")?;
    let cache = Cache::from_parts(parts)?;
    ensure(cache.settings()? == settings(), "it is another cache's")?;
    Ok(cache)
}

fn hits(ran: &Ran) -> usize {
    ran.answers.iter().filter(|answer| matches!(answer, Answer::Hit { .. })).count()
}

/// The blocks that have other bytes in one cache than in the other.
fn differing(one: &Cache, other: &Cache) -> Outcome<Vec<u32>> {
    let mut blocks = vec![];
    for block in 0..one.settings()?.m {
        if one.look(block)? != other.look(block)? {
            blocks.push(block);
        }
    }
    Ok(blocks)
}

fn ensure(held: bool, what: &str) -> Outcome<()> {
    held.then_some(()).ok_or(what.into())
}

/// Twelve batches, saved after every fourth.
fn morning(cache: &mut Cache, traffic: &mut Traffic, path: &Path) -> Outcome<()> {
    let (mut hit, mut bytes) = (0, 0);
    for number in 1..=12 {
        let (work, incoming) = traffic.batch();
        hit += hits(&cache.run(&work, &incoming)?);
        if number % 4 == 0 {
            bytes = save(cache, path)?;
        }
    }
    let Totals { reads, writes, ins, outs } = cache.totals()?;
    let ratio = cache.totals()?.miss_ratio().unwrap_or(0.0);
    println!("morning: 12 batches of {BATCH} words, {hit} hits");
    println!("totals: {reads} reads, {writes} writes, {ins} blocks in, {outs} blocks out, miss ratio {ratio:.3}");
    println!("saved after every fourth batch: 3 saves of {bytes} bytes");
    Ok(())
}

/// What was saved goes on where it was. Returns it, one batch later.
fn goes_on(cache: &mut Cache, work: &[Work], incoming: &[u8], saved: &[u8]) -> Outcome<Cache> {
    let mut taken = take_up(saved)?;
    ensure(cache.run(work, incoming)? == taken.run(work, incoming)?, "other answers or bytes")?;
    ensure(cache.parts() == taken.parts(), "other memory")?;
    println!("taken up from the save: the next batch gives the same answers and bytes, and leaves the same memory");
    Ok(taken)
}

fn damaged_link(cache: &mut Cache, work: &[Work], incoming: &[u8]) -> Outcome<()> {
    cache.memory().directory[HEAD] ^= 1;
    let refusal = cache.run(work, incoming).err().ok_or("a damaged directory was accepted")?;
    println!("one bit of a link flipped in memory: the next batch is refused, {refusal}");
    Ok(())
}

/// Data has no part in the directory's soundness: only the checksum notices.
fn damaged_save(mut saved: Vec<u8>, directory_words: usize) -> Outcome<()> {
    saved[8 + 3 * 8 + 4 * directory_words] ^= 1;
    let unchecked = decode(&saved[..saved.len() - 8]).ok_or("the lengths are wrong")?;
    Cache::from_parts(unchecked)?;
    println!("one bit of the data flipped in a save: the library takes it up, since it checks the directory alone");
    let error = take_up(&saved).err().ok_or("a damaged save was accepted")?;
    println!("the same save, its checksum read first: not taken up, {error}");
    Ok(())
}

/// Where there is no save, a cache whose directory is damaged goes on with its store.
fn with_the_store_alone(damaged: Cache, settings: &Settings) -> Outcome<Cache> {
    match Cache::from_parts(damaged.into_parts()) {
        Ok(cache) => Ok(cache),
        Err(NotTaken { refusal, parts }) => {
            println!("without a save: not taken up, {refusal}");
            Ok(Cache::new(settings, parts.store)?)
        }
    }
}

fn day(path: &Path) -> Outcome<()> {
    let settings = settings();
    let mut cache = Cache::new(&settings, vec![b'.'; settings.store_bytes()])?;
    let mut traffic = Traffic { state: 1, written: 0 };
    println!("a cache of {} blocks over a store of {M} blocks of {B} bytes", settings.n);
    morning(&mut cache, &mut traffic, path)?;

    let (work, incoming) = traffic.batch();
    let good = goes_on(&mut cache, &work, &incoming, &fs::read(path)?)?;
    damaged_link(&mut cache, &work, &incoming)?;
    damaged_save(fs::read(path)?, settings.directory_words())?;

    let mut recovered = take_up(&fs::read(path)?)?;
    recovered.run(&work, &incoming)?;
    let differ = differing(&recovered, &good)?.len();
    println!("recovered from the last good save, and the batch since then run again: {differ} blocks differ");

    let lost = differing(&with_the_store_alone(cache, &settings)?, &good)?.len();
    println!("a fresh cache over the store given back: {lost} blocks lost what was not written out");

    recovered.run(&[Work::Flush], &[])?;
    let lost = differing(&Cache::new(&settings, recovered.store().to_vec())?, &good)?.len();
    println!("after a flush, a fresh cache over the store: {lost} blocks lost anything");
    afternoon(recovered, &mut traffic)
}

/// All that each block is from now to the end of a batch: its bytes now, and what each write brings.
fn moments(cache: &Cache, work: &[Work], incoming: &[u8]) -> Outcome<Vec<Vec<Vec<u8>>>> {
    let mut been = vec![];
    for block in 0..M {
        been.push(vec![cache.look(block)?]);
    }
    let mut bytes = incoming.chunks_exact(B as usize);
    for word in work {
        if let Work::Write(block) = word {
            been[*block as usize].push(bytes.next().ok_or("too few bytes")?.to_vec());
        }
    }
    Ok(been)
}

/// A tick ends every period. Then the power fails, and the store alone is left.
fn afternoon(mut cache: Cache, traffic: &mut Traffic) -> Outcome<()> {
    let (mut written_out, mut been) = (vec![], vec![]);
    for _ in 0..6 {
        let (mut work, incoming) = traffic.batch();
        work.push(Work::Tick);
        // the batch begins at the tick that ended the one before
        been = moments(&cache, &work, &incoming)?;
        if let Some(Answer::Flushed { written }) = cache.run(&work, &incoming)?.answers.last() {
            written_out.push(written.to_string());
        }
    }
    println!("afternoon: 6 batches, and a tick after each; the ticks wrote out {} blocks", written_out.join(", "));

    let left = Cache::new(&cache.settings()?, cache.store().to_vec())?;
    let lost = differing(&left, &cache)?.len();
    // the last batch ran between the last two ticks
    let stored = left.store().chunks_exact(B as usize);
    let older = stored.zip(&been).filter(|(bytes, been)| !been.iter().any(|was| was == bytes)).count();
    println!(
        "the power fails: {lost} blocks lost writes since the second last tick, {older} have bytes older than that"
    );
    ensure(older == 0, "the store is older than the second last tick")
}

/// The file of the saves, removed at the end however the program ends.
struct SaveFile(PathBuf);

impl Drop for SaveFile {
    fn drop(&mut self) {
        // either may not be there
        let _ = fs::remove_file(self.0.with_extension("new"));
        let _ = fs::remove_file(&self.0);
    }
}

fn main() -> Outcome<()> {
    let file = SaveFile(std::env::temp_dir().join(format!("fbr-controller-{}.save", std::process::id())));
    day(&file.0)
}
