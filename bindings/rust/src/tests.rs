use crate::refusal::outcome;
use crate::{fresh, sound, Answer, Memory, Refusal, Settings, Totals, Work};

mod cache;
mod compare;
mod load;
mod occupancy;

const BELT: Settings = Settings { n: 4, nnew: 1, nold: 2, cmax: 3, amax: 100, b: 8, m: 64 };
const ONE: Settings = Settings { n: 1, nnew: 0, nold: 1, cmax: 1, amax: 10, b: 8, m: 64 };
const ENTERED: Answer = Answer::Entered { halved: false };
/// Of a flush or a tick.
const WROTE_NONE: Answer = Answer::Flushed { written: 0 };

/// A fresh cache over lent memory; block k of the store is all k.
struct Lent {
    b: usize,
    directory: Vec<u32>,
    data: Vec<u8>,
    store: Vec<u8>,
}

impl Lent {
    fn new(s: Settings) -> Lent {
        let mut directory = vec![0xdead_beef; s.directory_words()];
        assert_eq!(fresh(&s, &mut directory), Ok(()));
        assert!(sound(&directory));
        Lent { b: s.b as usize, directory, data: vec![0; s.data_bytes()], store: numbered_store(s) }
    }
    fn memory(&mut self) -> Memory<'_> {
        Memory { directory: &mut self.directory, data: &mut self.data, store: &mut self.store }
    }
    /// A batch whose j-th write, j from 1, brings bytes that are all 100 + j; answers and bytes read.
    fn run(&mut self, work: &[Work]) -> Result<(Vec<Answer>, Vec<u8>), Refusal> {
        let b = self.b;
        let words: Vec<u32> = work.iter().map(|w| w.word()).collect();
        let incoming: Vec<u8> = (0..work.len() * b).map(|i| (i / b + 101) as u8).collect();
        let (mut answers, mut outgoing) = (vec![0; work.len()], vec![9; work.len() * b]);
        self.memory().batch(&words, &incoming, &mut answers, &mut outgoing)?;
        assert!(sound(&self.directory));
        outgoing.truncate(b * work.iter().filter(|w| matches!(w, Work::Read(_))).count());
        Ok((answers.into_iter().map(Answer::from_word).collect(), outgoing))
    }
    fn answers(&mut self, work: &[Work]) -> Vec<Answer> {
        self.run(work).unwrap().0
    }
    fn totals(&mut self) -> Totals {
        self.memory().totals().unwrap()
    }
}

/// Block k is all k.
fn numbered_store(s: Settings) -> Vec<u8> {
    (0..s.store_bytes()).map(|i| (i / s.b as usize) as u8).collect()
}

fn reads(blocks: &[u32]) -> Vec<Work> {
    blocks.iter().map(|&block| Work::Read(block)).collect()
}
fn hit(count: u32) -> Answer {
    Answer::Hit { count, halved: false }
}

#[test]
fn example_a() {
    let mut belt = Lent::new(BELT);
    let (answers, outgoing) = belt.run(&reads(&[10, 11, 12, 13, 10, 10, 14])).unwrap();
    let last = Answer::Replaced { victim: 11, chains: 1, written_out: false };
    assert_eq!(answers, [ENTERED, ENTERED, ENTERED, ENTERED, hit(2), hit(2), last]);
    let expected: Vec<u8> = [10, 11, 12, 13, 10, 10, 14].iter().flat_map(|&block| [block; 8]).collect();
    assert_eq!(outgoing, expected);
    assert_eq!(belt.totals(), Totals { reads: 7, writes: 0, ins: 5, outs: 0 });
}

#[test]
fn example_c() {
    let mut two = Lent::new(Settings { n: 2, nnew: 0, nold: 1, cmax: 1, amax: 1, b: 8, m: 64 });
    let answers = two.answers(&reads(&[0, 0, 0]));
    let halved = Answer::Hit { count: 2, halved: true };
    assert_eq!(answers, [ENTERED, halved, halved]);
    // the count left is 1
    assert_eq!(two.answers(&reads(&[0])), [halved]);
}

#[test]
fn example_e() {
    let mut one = Lent::new(ONE);
    let replaced = Answer::Replaced { victim: 3, chains: 1, written_out: true };
    assert_eq!(one.answers(&[Work::Write(3), Work::Read(5)]), [ENTERED, replaced]);
    assert_eq!(one.totals(), Totals { reads: 1, writes: 1, ins: 1, outs: 1 });
    assert_eq!(one.totals().miss_ratio(), Some(1.0));
    assert_eq!(one.store[24..32], [101; 8]);
}

#[test]
fn example_f() {
    let mut one = Lent::new(ONE);
    let answers = one.answers(&[Work::Write(3), Work::Purge(3), Work::Purge(3)]);
    assert_eq!(answers, [ENTERED, Answer::Purged { discarded: true }, Answer::Absent]);
    assert_eq!(one.memory().look(3).unwrap(), [3; 8]);
}

#[test]
fn looks_after_writes() {
    let mut belt = Lent::new(BELT);
    belt.answers(&[Work::Write(3), Work::Write(4), Work::Write(3)]);
    let before = (belt.directory.clone(), belt.data.clone(), belt.store.clone());
    let memory = belt.memory();
    for (block, byte) in [(3, 103), (4, 102), (5, 5)] {
        assert_eq!(memory.look_number(block), Ok(()));
        assert_eq!(memory.look(block).unwrap(), [byte; 8]);
        let mut long = [0; 10];
        assert_eq!(memory.look_into(block, &mut long), Ok(8));
        assert_eq!((long[..8].to_vec(), &long[8..]), (vec![byte; 8], &[0, 0][..]));
        let mut short = [9; 7];
        assert_eq!(memory.look_into(block, &mut short), Err(Refusal::ShortBuffer));
        assert_eq!(short, [9; 7]);
        assert_eq!(memory.look_into(block, &mut []), Err(Refusal::ShortBuffer));
    }
    assert_eq!((belt.directory.clone(), belt.data.clone(), belt.store.clone()), before);
    // the store has the written bytes after a flush, and a second flush has nothing to do
    assert_eq!(belt.store[24..40], [[3; 8], [4; 8]].concat());
    let flush = [Work::Flush, Work::Flush];
    assert_eq!(belt.answers(&flush), [Answer::Flushed { written: 2 }, Answer::Flushed { written: 0 }]);
    assert_eq!(belt.store[24..40], [[103; 8], [102; 8]].concat());
}

/// The store has the bytes of a further write at the second tick; a flush between two ticks starts anew.
#[test]
fn ticks_write_out_what_has_seen_one() {
    let mut belt = Lent::new(BELT);
    let wrote_one = Answer::Flushed { written: 1 };
    let words = [Work::Write(3), Work::Tick, Work::Write(3), Work::Write(4), Work::Tick];
    assert_eq!(belt.answers(&words), [ENTERED, WROTE_NONE, hit(1), ENTERED, wrote_one]);
    assert_eq!(belt.store[24..40], [[102; 8], [4; 8]].concat());
    assert_eq!(belt.memory().occupancy().unwrap().modified(), 1);
    // the second tick for block 4; a third one has nothing to do
    assert_eq!(belt.answers(&[Work::Tick, Work::Tick]), [wrote_one, WROTE_NONE]);
    assert_eq!((belt.store[32], belt.totals().outs), (103, 2));
    let words = [Work::Write(3), Work::Tick, Work::Flush, Work::Write(3), Work::Tick, Work::Tick];
    assert_eq!(belt.answers(&words)[1..], [WROTE_NONE, wrote_one, hit(2), WROTE_NONE, wrote_one]);
}

/// A pinned block is neither replaced nor purged; a read that finds all blocks pinned gives zeros, and a write's bytes
/// are used up.
#[test]
fn pinned_blocks_stay() {
    let mut one = Lent::new(ONE);
    let (pinned, unpinned) = (Answer::Pinned { pinned: true }, Answer::Pinned { pinned: false });
    let words = [Work::Pin(3), Work::Write(3), Work::Pin(3), Work::Pin(3), Work::Purge(3)];
    assert_eq!(one.answers(&words), [Answer::Absent, ENTERED, pinned, pinned, Answer::PurgeRefused]);
    let words = [Work::Read(5), Work::Write(5), Work::Write(3), Work::Read(3)];
    let (answers, outgoing) = one.run(&words).unwrap();
    assert_eq!(answers, [Answer::AllPinned, Answer::AllPinned, hit(2), hit(3)]);
    assert_eq!(outgoing, [[0; 8], [102; 8]].concat());
    assert_eq!(one.totals(), Totals { reads: 2, writes: 3, ins: 0, outs: 0 });
    let words = [Work::Flush, Work::Unpin(3), Work::Unpin(5), Work::Purge(3), Work::Unpin(3)];
    let purged = Answer::Purged { discarded: false };
    assert_eq!(one.answers(&words), [Answer::Flushed { written: 1 }, unpinned, Answer::Absent, purged, Answer::Absent]);
    assert_eq!(one.store[24..32], [102; 8]);
}

/// The modified word is modified + 2 × seen + 4 × pinned, where seen needs modified; no other is sound.
#[test]
fn the_modified_word_has_three_marks() {
    let mut belt = Lent::new(BELT);
    belt.answers(&[Work::Write(3), Work::Tick, Work::Pin(3)]);
    // the first entry's fourth word, behind 24 words, 3 chains and 4 buckets
    let at = 24 + 2 * 3 + 4 + 3;
    assert_eq!(belt.directory[at], 1 << 28 | 7);
    for value in 0..64 {
        belt.directory[at] = 1 << 28 | value;
        assert_eq!(sound(&belt.directory), [0, 1, 3, 4, 5, 7].contains(&value), "{value}");
    }
}

/// Fresh declines the settings, and the directory stays.
fn declined(s: Settings, words: usize) -> u32 {
    let mut directory = vec![7; words];
    let refusal = fresh(&s, &mut directory).unwrap_err();
    assert!(directory.iter().all(|&word| word == 7));
    refusal.number()
}

#[test]
fn numbers_1_to_5() {
    assert_eq!(declined(Settings { n: 0, ..BELT }, 100), 1);
    assert_eq!(declined(Settings { n: 4_097, ..BELT }, 100), 1);
    assert_eq!(declined(Settings { nold: 0, ..BELT }, 100), 2);
    assert_eq!(declined(Settings { nnew: 3, ..BELT }, 100), 2);
    assert_eq!(declined(Settings { cmax: 65, ..BELT }, 100), 3);
    assert_eq!(declined(Settings { amax: 0, ..BELT }, 100), 3);
    assert_eq!(declined(Settings { b: 4_097, ..BELT }, 100), 4);
    assert_eq!(declined(Settings { m: 262_145, ..BELT }, 100), 4);
    assert_eq!(declined(BELT, BELT.directory_words() - 1), 5);
    assert_eq!(declined(BELT, 0), 5);
}

#[test]
fn numbers_6_to_12() {
    let number = |cache: &mut Lent, work: &[u32], incoming: usize, answers: usize, outgoing: usize| {
        let before = (cache.directory.clone(), cache.data.clone(), cache.store.clone());
        let (mut answers, mut outgoing) = (vec![7; answers], vec![7; outgoing]);
        let refusal = cache.memory().batch(work, &vec![1; incoming], &mut answers, &mut outgoing).unwrap_err();
        assert!((&cache.directory, &cache.data, &cache.store) == (&before.0, &before.1, &before.2));
        assert!(answers.iter().all(|&word| word == 7) && outgoing.iter().all(|&byte| byte == 7));
        refusal.number()
    };
    let mut belt = Lent::new(BELT);
    let work = [Work::Write(1), Work::Read(2)].map(Work::word);

    for incoming_answers_outgoing in [[7, 2, 8], [8, 1, 8], [8, 2, 7], [0, 0, 0]] {
        let [incoming, answers, outgoing] = incoming_answers_outgoing;
        assert_eq!(number(&mut belt, &work, incoming, answers, outgoing), 10);
    }
    let wrong = [Work::Read(64), Work::Write(1 << 28), Work::Purge(u32::MAX), Work::Pin(64), Work::Unpin(64)];
    for word in wrong.map(Work::word).into_iter().chain([0, 8 << 28, 15 << 28, 4 << 28 | 1, 5 << 28 | 1, 5 << 28 | 63])
    {
        assert_eq!(number(&mut belt, &[word], 8, 1, 8), 9, "{word:#x}");
    }
    assert_eq!(number(&mut belt, &[Work::Flush.word(); 1_025], 0, 1_025, 0), 8);
    assert_eq!(belt.answers(&[Work::Flush; 1_024]).len(), 1_024);
    assert_eq!(belt.answers(&[Work::Tick; 1_024]), [WROTE_NONE; 1_024]);

    belt.data.pop();
    assert_eq!(number(&mut belt, &work, 8, 2, 8), 7);
    assert_eq!(belt.memory().look(1), Err(Refusal::ShortDataOrStore));
    belt.data.push(0);
    belt.store.pop();
    assert_eq!(number(&mut belt, &work, 8, 2, 8), 7);
    belt.store.push(63);
    for more in [1, 8, 512] {
        belt.store.resize(BELT.store_bytes() + more, 63);
        assert_eq!(number(&mut belt, &work, 8, 2, 8), 12, "{more} bytes more");
        assert_eq!(number(&mut belt, &[Work::Read(64).word()], 0, 0, 0), 12, "12 comes before 9 and 10");
        assert_long_store(&mut belt);
    }
    belt.store.truncate(BELT.store_bytes());
    assert_eq!(belt.memory().look(64), Err(Refusal::BadWord));
    assert_eq!(belt.memory().look_number(u32::MAX), Err(Refusal::BadWord));

    // reads and writes at 2^56 - 2 have room for one word
    let full = 1 << 28 | 0x0fff_ffff;
    (belt.directory[16], belt.directory[17]) = (full - 1, full);
    assert!(sound(&belt.directory));
    assert_eq!(number(&mut belt, &work, 8, 2, 8), 11);
    assert_eq!(belt.answers(&[Work::Read(2)]), [ENTERED]);
    assert_eq!(number(&mut belt, &[Work::Flush.word()], 0, 1, 0), 11);
    assert_eq!(belt.memory().look(2).unwrap(), [2; 8]);

    belt.directory[8] ^= 1;
    assert!(!sound(&belt.directory));
    assert_eq!(number(&mut belt, &work, 8, 2, 8), 6);
    assert_eq!(belt.memory().look(1), Err(Refusal::Unsound));
    for mut out in [vec![0; 8], vec![]] {
        assert_eq!(belt.memory().look_into(1, &mut out), Err(Refusal::Unsound));
    }
    assert_eq!(belt.memory().totals(), Err(Refusal::Unsound));
    assert_eq!(belt.memory().settings(), Err(Refusal::Unsound));
    assert!(!sound(&[]));
}

/// Every look over a longer store is declined, also at a block of M, and no byte is copied.
fn assert_long_store(belt: &mut Lent) {
    for block in [1, 64] {
        let mut out = [7; 8];
        assert_eq!(belt.memory().look_number(block), Err(Refusal::LongStore));
        assert_eq!(belt.memory().look_into(block, &mut out), Err(Refusal::LongStore));
        assert_eq!((belt.memory().look(block), out), (Err(Refusal::LongStore), [7; 8]));
    }
}

/// The present bytes of all blocks.
fn all_blocks(cache: &mut Lent) -> Vec<u8> {
    let memory = cache.memory();
    (0..BELT.m).flat_map(|block| memory.look(block).unwrap()).collect()
}
fn written_belt() -> Lent {
    let mut belt = Lent::new(BELT);
    let writes = [3, 4, 5, 6, 7, 3].map(Work::Write);
    belt.answers(&writes);
    belt
}

#[test]
fn kept_memory_goes_on() {
    let mut belt = written_belt();
    let (directory, data, store) = (belt.directory.clone(), belt.data.clone(), belt.store.clone());
    let mut kept = Lent { b: belt.b, directory, data, store };
    let work = [reads(&[3, 20, 7]), vec![Work::Write(9), Work::Flush]].concat();
    assert_eq!(kept.run(&work), belt.run(&work));
    assert_eq!(all_blocks(&mut kept), all_blocks(&mut belt));
}

#[test]
fn the_store_alone_after_a_flush() {
    let mut belt = written_belt();
    let present = all_blocks(&mut belt);
    assert_ne!(belt.store, present);
    belt.answers(&[Work::Flush]);
    assert_eq!(belt.store, present);
    fresh(&BELT, &mut belt.directory).unwrap();
    belt.data.fill(0);
    assert_eq!(all_blocks(&mut belt), present);
}

/// Where a flush is refused with 11, looks still give what is unsaved.
#[test]
fn looks_save_a_full_cache() {
    let mut belt = written_belt();
    let present = all_blocks(&mut belt);
    (belt.directory[16], belt.directory[17]) = (1 << 28 | 0x0fff_ffff, 1 << 28 | 0x0fff_ffff);
    assert_eq!(belt.run(&[Work::Flush]), Err(Refusal::TotalsFull));
    belt.store = all_blocks(&mut belt);
    fresh(&BELT, &mut belt.directory).unwrap();
    assert_eq!(all_blocks(&mut belt), present);
    assert_eq!(belt.answers(&reads(&[3])), [ENTERED]);
}

#[test]
fn refusals_and_their_numbers() {
    let numbers: Vec<u32> = Refusal::ALL.iter().map(|refusal| refusal.number()).collect();
    assert_eq!(numbers, [1, 2, 3, 4, 5, 6, 7, 12, 8, 9, 10, 11, 13, 14], "the order of the checks");
    for refusal in Refusal::ALL.iter().copied() {
        assert_eq!(Refusal::from_number(refusal.number()), Some(refusal));
        assert!(refusal.to_string().starts_with(&format!("{}: ", refusal.number())));
    }
    assert_eq!(Refusal::from_number(0), None);
    assert_eq!(outcome(0), Ok(()));
    assert_eq!(outcome(6), Err(Refusal::Unsound));
}

#[test]
fn unknown_numbers() {
    for number in [99, 1_000, u32::MAX] {
        let unknown = Refusal::Unknown(number);
        assert_eq!(Refusal::from_number(number), Some(unknown));
        assert_eq!(outcome(number), Err(unknown));
        assert_eq!(unknown.number(), number);
        assert!(unknown.to_string().starts_with(&format!("{number}: ")));
    }
}

#[test]
fn settings_of_a_directory() {
    let largest = Settings { n: 4_096, nnew: 1_024, nold: 2_457, cmax: 64, amax: 1_000, b: 1, m: 262_144 };
    for s in [BELT, ONE, largest, Settings::unix(100, 3, 200)] {
        let mut lent = Lent::new(s);
        assert_eq!(lent.memory().settings(), Ok(s));
        assert_eq!(lent.totals(), Totals::default());
        assert_eq!(lent.totals().miss_ratio(), None);
    }
    let none = Memory { directory: &mut [], data: &mut [], store: &mut [] };
    assert_eq!((none.settings(), none.totals()), (Err(Refusal::Unsound), Err(Refusal::Unsound)));
    assert_eq!(none.look(0), Err(Refusal::Unsound));
}

#[test]
fn miss_ratios() {
    let most = u64::MAX;
    assert_eq!(Totals { reads: most, writes: most, ins: most, outs: most }.miss_ratio(), Some(1.0));
    assert_eq!(Totals { reads: 0, writes: 4, ins: 0, outs: 1 }.miss_ratio(), Some(0.25));
    assert_eq!(Totals { reads: 0, writes: 0, ins: 3, outs: 1 }.miss_ratio(), None);
}

#[test]
fn named_settings_and_sizes() {
    let unix = Settings::unix(512, 4_096, 65_536);
    assert_eq!(unix, Settings { n: 512, nnew: 128, nold: 307, cmax: 8, amax: 100, b: 4_096, m: 65_536 });
    assert_eq!((unix.directory_words(), unix.data_bytes(), unix.store_bytes()), (5_160, 2_097_152, 268_435_456));
    let c51 = Settings::c51(512, 4_096, 65_536);
    assert_eq!(c51, Settings { nold: 102, cmax: 3, ..unix });
    assert_eq!(Settings::cust11(512, 4_096, 65_536), Settings { nold: 204, ..c51 });
    assert_eq!(Settings::unix(0, 8, 64), Settings { n: 0, nnew: 0, nold: 0, cmax: 0, amax: 0, b: 0, m: 0 });
    let largest = Settings { n: 4_096, nnew: 1_024, nold: 2_457, cmax: 64, amax: 100, b: 4_096, m: 262_144 };
    assert_eq!(largest.directory_words(), 41_112);
    assert_eq!((largest.data_bytes(), largest.store_bytes()), (16_777_216, 1_073_741_824));
    assert_eq!(BELT.directory_words(), 70);
    for outside in [Settings { n: 4_097, ..BELT }, Settings { cmax: 0, ..BELT }, Settings { cmax: u32::MAX, ..BELT }] {
        assert_eq!(outside.directory_words(), 0);
    }
    assert_eq!(fresh(&largest, &mut vec![0; 41_112]), Ok(()));
}

#[test]
fn answer_words() {
    let cases = [
        (1, 65_535, hit(65_535)),
        (1, 67_108_867, Answer::Hit { count: 3, halved: true }),
        (2, 67_108_864, Answer::Entered { halved: true }),
        (3, 262_155, Answer::Replaced { victim: 11, chains: 1, written_out: false }),
        (3, 33_816_579, Answer::Replaced { victim: 3, chains: 1, written_out: true }),
        (3, 262_143 + (64 << 18), Answer::Replaced { victim: 262_143, chains: 64, written_out: false }),
        (4, 0, Answer::Purged { discarded: false }),
        (6, 4_096, Answer::Flushed { written: 4_096 }),
        (7, 0, Answer::AllPinned),
        (8, 0, Answer::Pinned { pinned: false }),
        (8, 1, Answer::Pinned { pinned: true }),
        (9, 0, Answer::PurgeRefused),
    ];
    for (kind, value, answer) in cases {
        assert_eq!(Answer::from_word(kind << 28 | value), answer);
    }
    let unknown =
        [(0, 0), (1, 1 << 27), (2, 1), (3, 1 << 26), (4, 2), (5, 1), (7, 1), (8, 2), (9, 1), (10, 0), (15, 0)];
    for (kind, value) in unknown {
        let word = kind << 28 | value;
        assert_eq!(Answer::from_word(word), Answer::Unknown(word), "{kind} {value}");
    }
}
