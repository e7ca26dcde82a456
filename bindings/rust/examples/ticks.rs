//! A tick every ten seconds: when a block's bytes reach the store, and what is lost when the power fails.
use fbr::{Answer, Cache, Refusal, Settings, Work};

const BLOCK: u32 = 10;
const B: usize = 8;

/// What the clock brings: the bytes of a write, or a tick.
const DAY: [(u32, Option<&[u8; B]>); 9] = [
    (3, Some(b"bag 0001")),
    (10, None),
    (14, Some(b"bag 0002")),
    (17, Some(b"bag 0003")),
    (20, None),
    (21, Some(b"bag 0004")),
    (30, None),
    (38, Some(b"bag 0005")),
    (39, Some(b"bag 0006")),
];

fn text(bytes: &[u8]) -> String {
    String::from_utf8_lossy(bytes).into_owned()
}

/// The block's modified word, read off the directory: its last 9 × N words are the entries, each with its block, its
/// count, which is 0 where the entry is unused, its section and its marks.
fn marks(cache: &Cache) -> Result<&'static str, Refusal> {
    let Settings { n, .. } = cache.settings()?;
    let words = cache.parts().directory;
    let value = |word: u32| word % (1 << 28);
    let mut entries = words[words.len() - 9 * n as usize..].chunks(9);
    let entry = entries.find(|entry| value(entry[0]) == BLOCK && value(entry[1]) > 0);
    Ok(match entry.map(|entry| value(entry[3])) {
        Some(1) => "modified",
        Some(3) => "modified, seen",
        _ => "none",
    })
}

fn main() -> Result<(), Refusal> {
    let settings = Settings { n: 4, nnew: 1, nold: 2, cmax: 3, amax: 100, b: B as u32, m: 64 };
    let mut cache = Cache::new(&settings, vec![b'.'; settings.store_bytes()])?;
    println!("time  word               marks           store     answer");
    for (time, bytes) in DAY {
        let (work, name) = match bytes {
            Some(bytes) => (Work::Write(BLOCK), format!("write 10 {}", text(bytes))),
            None => (Work::Tick, "tick".to_string()),
        };
        let answer = match cache.run(&[work], bytes.map_or(&[][..], |bytes| bytes))?.answers[0] {
            Answer::Flushed { written } => format!("{written} written out"),
            Answer::Hit { .. } => "hit".to_string(),
            _ => "entered".to_string(),
        };
        let stored = text(&cache.store()[BLOCK as usize * B..][..B]);
        println!("{time:>2} s  {name:<17}  {:<14}  {stored}  {answer}", marks(&cache)?);
    }

    // the power fails, and the store alone is left
    let left = Cache::new(&settings, cache.into_parts().store)?;
    println!("40 s  the power fails: block 10 is {}, as it was from 17 s to 21 s", text(&left.look(BLOCK)?));
    Ok(())
}
