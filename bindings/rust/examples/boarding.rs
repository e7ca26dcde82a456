//! Two flights board, one after the other: their blocks are pinned while the bags of all other flights go through the
//! cache, until every block of the cache is.
use fbr::{Answer, Cache, Refusal, Settings, Work};

const SETTINGS: Settings = Settings { n: 6, nnew: 1, nold: 4, cmax: 3, amax: 100, b: 8, m: 64 };
/// The blocks of two flights, of all bags, and of those that are due at 18:00.
const SK501: [u32; 3] = [10, 11, 12];
const BT242: [u32; 3] = [20, 21, 22];
const BAGS: std::ops::Range<u32> = 30..50;
const DUE: std::ops::Range<u32> = 30..34;

/// Each block read, so that it is in the cache, and pinned.
fn opens(blocks: [u32; 3]) -> Vec<Work> {
    blocks.iter().flat_map(|&block| [Work::Read(block), Work::Pin(block)]).collect()
}
fn reads(blocks: impl IntoIterator<Item = u32>) -> Vec<Work> {
    blocks.into_iter().map(Work::Read).collect()
}

fn evening() -> Vec<(&'static str, &'static str, Vec<Work>)> {
    vec![
        ("17:40", "SK 501 opens", opens(SK501)),
        ("17:45", "other bags", reads(BAGS)),
        ("17:50", "bags of SK 501", reads(SK501)),
        ("17:52", "a purge of block 11", vec![Work::Purge(11)]),
        ("17:55", "BT 242 opens", opens(BT242)),
        ("18:00", "other bags", reads(DUE)),
        ("18:05", "SK 501 has departed", SK501.map(Work::Unpin).to_vec()),
        ("18:06", "other bags again", reads(DUE)),
        ("18:10", "bags of BT 242", reads(BT242)),
    ]
}

/// How many blocks are pinned, read off the directory: its last 9 × N words are the entries, and the fourth of each has
/// 4 in its value where the block is pinned.
fn pinned(cache: &Cache) -> usize {
    let words = cache.parts().directory;
    let entries = words[words.len() - 9 * SETTINGS.n as usize..].chunks(9);
    entries.filter(|entry| entry[3] & 4 != 0).count()
}

fn name(answer: Answer) -> &'static str {
    match answer {
        Answer::Hit { .. } => "hit",
        Answer::Entered { .. } => "entered",
        Answer::Replaced { .. } => "replaced",
        Answer::Pinned { pinned: true } => "pinned",
        Answer::Pinned { pinned: false } => "unpinned",
        Answer::AllPinned => "all pinned",
        Answer::PurgeRefused => "purge refused",
        _ => "other",
    }
}

/// How many answers there are of each kind, in the order in which the kinds come.
fn summary(answers: &[Answer]) -> String {
    let mut counts: Vec<(&str, u32)> = vec![];
    for name in answers.iter().copied().map(name) {
        match counts.iter_mut().find(|one| one.0 == name) {
            Some(one) => one.1 += 1,
            None => counts.push((name, 1)),
        }
    }
    counts.iter().map(|(name, count)| format!("{count} {name}")).collect::<Vec<_>>().join(", ")
}

fn main() -> Result<(), Refusal> {
    let mut cache = Cache::new(&SETTINGS, vec![b'.'; SETTINGS.store_bytes()])?;
    println!("time   words                pinned  answers");
    for (time, what, work) in evening() {
        let ran = cache.run(&work, &[])?;
        println!("{time}  {what:<19}  {:>6}  {}", pinned(&cache), summary(&ran.answers));
        // an answer 7 is no refusal of the batch: look at the answers before you use the bytes
        if ran.answers[0] == Answer::AllPinned {
            println!("       block {} is given as {:?}", DUE.start, ran.reads().next().unwrap_or_default());
        }
    }
    Ok(())
}
