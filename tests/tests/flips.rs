//! Every single bit of a full directory flipped, one at a time: which flips the check cannot see, and what they do.
use cache_tests::reference::directory::{entry, header, value, word, Map, NUMBER};
use cache_tests::reference::judge;
use cache_tests::reference::rng::Rng;
use cache_tests::reference::settings::{directory_length, named, Profile};
use cache_tests::reference::stack::work;
use cache_tests::{batch, fresh, look_into, look_number, sound, Settings};
use std::collections::BTreeMap;

const B: usize = 64;
const M: u32 = 1_024;
const WORDS: usize = 256;

struct Cache {
    settings: Settings,
    dir: Vec<u32>,
    data: Vec<u8>,
    store: Vec<u8>,
}

impl Cache {
    /// UNIX settings; each block of the store filled with a byte of its own, as far as there are bytes.
    fn new(n: u32) -> Cache {
        let settings = named(Profile::Unix, n, B as u32, M);
        let mut dir = vec![0; directory_length(settings) as usize];
        assert_eq!(fresh(settings, &mut dir), 0);
        let store = (0..M).flat_map(|block| [block as u8; B]).collect();
        Cache { settings, dir, data: vec![0; n as usize * B], store }
    }
    fn run(&mut self, words: &[u32], incoming: &[u8]) {
        let (mut answers, mut outgoing) = (vec![0; words.len()], vec![0; words.len() * B]);
        let number =
            batch(&mut self.dir, &mut self.data, &mut self.store, words, incoming, &mut answers, &mut outgoing);
        assert_eq!(number, 0);
    }
    fn look(&self, block: u32) -> Vec<u8> {
        let mut part = vec![0; B];
        assert_eq!(look_into(&self.dir, &self.data, &self.store, block, &mut part), B);
        part
    }
    fn entry(&self, e: u32, word: usize) -> usize {
        Map::of(self.settings).entry(e, word)
    }
    fn modified(&self) -> usize {
        (1..=self.settings.n).filter(|&e| value(self.dir[self.entry(e, entry::MODIFIED)]) & 1 == 1).count()
    }
}

/// A full cache, by reads and a quarter writes, every other one of a hot set. The same whatever FBR_SEED says.
fn full(n: u32) -> Cache {
    let mut rng = Rng::seeded(43);
    let mut cache = Cache::new(n);
    let incoming = vec![0xaa; WORDS * B];
    for _ in 0..8 {
        let one = |rng: &mut Rng| {
            let last = if rng.one_in(2) { n - 1 } else { M - 1 };
            let block = rng.within(0, last);
            word(if rng.one_in(4) { work::WRITE } else { work::READ }, block)
        };
        let words: Vec<u32> = (0..WORDS).map(|_| one(&mut rng)).collect();
        cache.run(&words, &incoming);
    }
    assert_eq!(value(cache.dir[header::RESIDENTS]), n, "the cache is not full");
    cache
}

fn name(cache: &Cache, address: usize) -> String {
    let (map, entries) = (Map::of(cache.settings), cache.entry(1, 0));
    if address < header::LENGTH {
        header::NAMES[address].into()
    } else if address < map.bucket(0) {
        "ends of the chains".into()
    } else if address < entries {
        "buckets".into()
    } else {
        format!("{} of an entry", entry::NAMES[(address - entries) % entry::LENGTH])
    }
}

/// Of each kind of word: bits, and bits whose flip stays sound.
fn flipped(cache: &Cache, addresses: impl Iterator<Item = usize>) -> BTreeMap<String, (u32, u32)> {
    let mut counts = BTreeMap::<String, (u32, u32)>::new();
    let mut words = cache.dir.clone();
    for (address, bit) in addresses.flat_map(|address| (0..32).map(move |bit| (address, bit))) {
        words[address] ^= 1 << bit;
        let verdict = sound(&words);
        assert_eq!(verdict, judge::sound(&words), "word {address}, bit {bit}");
        words[address] ^= 1 << bit;
        let (bits, stay) = counts.entry(name(cache, address)).or_default();
        (*bits, *stay) = (*bits + 1, *stay + u32::from(verdict));
    }
    counts
}

/// The exact numbers, so that a page may quote them. Of a block, it is bits 6 and 7 of every resident: 64 buckets go by
/// the low 6 bits of each byte alone. No flip of a link, a count, a section or the sum stays sound.
#[test]
fn every_bit_of_a_full_directory() {
    let cache = full(64);
    assert_eq!((cache.dir.len(), cache.modified()), (680, 47));
    let counts = flipped(&cache, 0..cache.dir.len());
    for (name, (bits, stay)) in &counts {
        println!("{name:>32}: {stay:>4} of {bits:>5} bits stay sound");
    }
    let stay: Vec<(&str, u32)> = counts.iter().filter(|(_, c)| c.1 > 0).map(|(name, c)| (name.as_str(), c.1)).collect();
    let settings = [("Amax", 10), ("B", 11), ("M", 17)];
    // the modified mark and the pin of every resident, and the seen mark of the 47 that are modified
    let entries = [("block of an entry", 128), ("modified of an entry", 64 + 64 + 47)];
    let totals = [
        ("ins low", 10),
        ("outs low", 8),
        ("reads high", 28),
        ("reads low", 27),
        ("writes high", 28),
        ("writes low", 26),
    ];
    let mut expected: Vec<(&str, u32)> = settings.into_iter().chain(entries).chain(totals).collect();
    expected.sort_unstable();
    assert_eq!(stay, expected);
    let (bits, all) = counts.values().fold((0, 0), |sum, c| (sum.0 + c.0, sum.1 + c.1));
    assert_eq!((bits, all), (21_760, 468));
    let manual = include_str!("../../docs/MANUAL.md").split_whitespace().collect::<Vec<_>>().join(" ");
    assert!(manual.contains("of the 21,760 flips of a single bit, 468 stay sound"), "the manual gives other numbers");
}

/// 256 buckets or more tell apart any two blocks that differ in one byte: FNV-1a's low 8 bits do.
#[test]
fn with_256_buckets_every_flip_of_a_block_is_seen() {
    let cache = full(129);
    let blocks: Vec<usize> = (1..=129).map(|e| cache.entry(e, entry::BLOCK)).collect();
    let counts = flipped(&cache, blocks.into_iter());
    assert_eq!(counts["block of an entry"], (129 * 32, 0));
}

/// A flip of B or M that stays sound makes it larger here: data or store is then too short, number 7.
#[test]
fn a_flip_of_the_sizes_asks_for_longer_memory() {
    let mut cache = full(64);
    let mut refused = 0;
    for (address, bit) in [header::B, header::M].into_iter().flat_map(|address| (0..32).map(move |bit| (address, bit)))
    {
        let mut dir = cache.dir.clone();
        dir[address] ^= 1 << bit;
        if sound(&dir) {
            assert_eq!(batch(&mut dir, &mut cache.data, &mut cache.store, &[], &[], &mut [], &mut []), 7);
            refused += 1;
        }
    }
    assert_eq!(refused, 11 + 17);
}

/// A flip of B or M makes M × B another number, so that the same store is too short, 7, or too long, 12.
#[test]
fn every_flip_of_the_sizes_is_declined() {
    // every other bit is set, so that flips go both ways
    let s = Settings { n: 4, nnew: 1, nold: 2, cmax: 3, amax: 100, b: 0b1010_1010, m: 0b1_0101_0101 };
    let mut dir = vec![0; directory_length(s) as usize];
    assert_eq!(fresh(s, &mut dir), 0);
    let (mut data, mut store) = (vec![0; (s.n * s.b) as usize], vec![0; (s.m * s.b) as usize]);
    let (mut larger, mut smaller) = (0, 0);
    for (address, bit) in [header::B, header::M].into_iter().flat_map(|address| (0..28).map(move |bit| (address, bit)))
    {
        let mut flipped = dir.clone();
        flipped[address] ^= 1 << bit;
        if sound(&flipped) {
            let grew = flipped[address] > dir[address];
            let expected = if grew { 7 } else { 12 };
            let told = format!("word {address}, bit {bit}");
            assert_eq!(look_number(&flipped, &data, &store, 0), expected, "{told}");
            let number = batch(&mut flipped, &mut data, &mut store, &[], &[], &mut [], &mut []);
            assert_eq!(number, expected, "{told}");
            (larger, smaller) = (larger + u32::from(grew), smaller + u32::from(!grew));
        }
    }
    // B: bits 0 to 11, M: bits 0 to 17; the others lead outside the limits
    assert_eq!((larger, smaller), (8 + 13, 4 + 5));
}

/// A flip that stays sound, and what then happens: the bytes of one block are taken for another's.
#[test]
fn a_flip_that_stays_sound_hands_out_the_wrong_bytes() {
    let mut cache = Cache::new(64);
    cache.run(&[word(work::WRITE, 5)], &[0xaa; B]);
    assert_eq!((cache.look(5), cache.look(69)), (vec![0xaa; B], vec![69; B]));

    // the only resident is in entry 1; bit 6 makes 69 of its 5, and both belong to one bucket
    let at = cache.entry(1, entry::BLOCK);
    assert_eq!(value(cache.dir[at]), 5);
    cache.dir[at] ^= 1 << 6;
    assert!(sound(&cache.dir));

    // 69 shows what was written to 5; what was written to 5 is lost
    assert_eq!((cache.look(5), cache.look(69)), (vec![5; B], vec![0xaa; B]));
    // and a flush makes it last: the store's own bytes of 69 are gone
    cache.run(&[word(work::FLUSH, 0)], &[]);
    assert_eq!(cache.store[5 * B..6 * B], [5; B]);
    assert_eq!(cache.store[69 * B..70 * B], [0xaa; B]);
}

/// A modified block's mark taken away: a flush passes the block over, and its replacement will lose what was written.
#[test]
fn a_mark_taken_away_loses_what_was_written() {
    let mut cache = Cache::new(64);
    cache.run(&[word(work::WRITE, 5)], &[0xaa; B]);
    let at = cache.entry(1, entry::MODIFIED);
    cache.dir[at] ^= 1;
    assert!(sound(&cache.dir));
    cache.run(&[word(work::FLUSH, 0)], &[]);
    assert_eq!((cache.look(5), &cache.store[5 * B..6 * B]), (vec![0xaa; B], &[5; B][..]));
}

/// A seen mark set or taken away: the block is written out a tick sooner or later.
#[test]
fn a_flip_of_the_seen_mark_moves_the_write_out_by_a_tick() {
    for (ticks, written_at) in [(0, 1), (1, 3)] {
        let mut cache = Cache::new(64);
        cache.run(&[word(work::WRITE, 5)], &[0xaa; B]);
        (0..ticks).for_each(|_| cache.run(&[word(work::TICK, 0)], &[]));
        let at = cache.entry(1, entry::MODIFIED);
        cache.dir[at] ^= 2;
        assert!(sound(&cache.dir));
        // the mark alone, without the modified one, is found
        let mut without = cache.dir.clone();
        without[at] = word(NUMBER, 2);
        assert!(!sound(&without));
        for tick in ticks + 1..=4 {
            cache.run(&[word(work::TICK, 0)], &[]);
            let stored = cache.store[5 * B..6 * B] == [0xaa; B];
            assert_eq!(stored, tick >= written_at, "tick {tick} after {ticks} ticks and a flip");
        }
    }
}

/// A pin set: a miss of a full cache is refused. A pin taken away: the block leaves.
#[test]
fn a_flip_of_the_pin_keeps_a_block_or_lets_it_go() {
    for pinned in [false, true] {
        let mut cache = Cache::new(1);
        cache.run(&[word(work::WRITE, 5), word(if pinned { work::PIN } else { work::UNPIN }, 5)], &[0xaa; B]);
        let at = cache.entry(1, entry::MODIFIED);
        cache.dir[at] ^= 4;
        assert!(sound(&cache.dir));
        cache.run(&[word(work::READ, 6)], &[]);
        let left = value(cache.dir[cache.entry(1, entry::BLOCK)]) == 6;
        assert_eq!((left, cache.store[5 * B..6 * B] == [0xaa; B]), (pinned, pinned));
    }
}
