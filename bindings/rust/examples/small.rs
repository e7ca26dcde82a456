//! A cache of 4 blocks of 8 bytes over a store of 64 blocks.
use fbr::{Answer, Cache, Refusal, Settings, Work};

fn show(name: &str, answer: Answer) {
    match answer {
        Answer::Hit { count, .. } => println!("{name}: hit, count {count}"),
        Answer::Entered { .. } => println!("{name}: entered"),
        Answer::Replaced { victim, written_out, .. } => {
            println!("{name}: replaced {victim}{}", if written_out { ", written out" } else { "" });
        }
        Answer::Purged { discarded } => println!("{name}: purged, {} discarded", u32::from(discarded)),
        Answer::Absent => println!("{name}: absent"),
        Answer::Flushed { written } => println!("{name}: {written} written out"),
        _ => println!("{name}: an answer of another version"),
    }
}

fn main() -> Result<(), Refusal> {
    let settings = Settings { n: 4, nnew: 1, nold: 2, cmax: 3, amax: 100, b: 8, m: 64 };
    let mut cache = Cache::new(&settings, vec![b'.'; settings.store_bytes()])?;
    let parts = cache.parts();
    let (words, data, store) = (parts.directory.len(), parts.data.len(), parts.store.len());
    println!("directory {words} words, data {data} bytes, store {store} bytes");

    // one write and five reads
    let names = ["write 10", "read 11", "read 12", "read 13", "read 10", "read 14"];
    let work = [Work::Write(10), Work::Read(11), Work::Read(12), Work::Read(13), Work::Read(10), Work::Read(14)];
    let ran = cache.run(&work, b"bag 0042")?;
    for (name, &answer) in names.iter().zip(&ran.answers) {
        show(name, answer);
    }
    let fourth = ran.reads().nth(3).unwrap_or_default();
    println!("fourth read: {}", String::from_utf8_lossy(fourth));

    // the store has the new bytes only after a flush
    println!("look at 10: {}", String::from_utf8_lossy(&cache.look(10)?));
    println!("store of 10: {}", String::from_utf8_lossy(&cache.store()[80..88]));
    show("flush", cache.run(&[Work::Flush], &[])?.answers[0]);
    println!("store of 10: {}", String::from_utf8_lossy(&cache.store()[80..88]));

    // there is no block 64
    if let Err(refusal) = cache.run(&[Work::Read(64)], &[]) {
        println!("read 64: refused {}", refusal.number());
    }
    Ok(())
}
