//! The Rust wrapper in `bindings/rust` beside the reference: numbers, words, bytes, looks, totals, occupancy and settings,
//! over lent memory and over a cache that owns its memory; and test loads.
use cache_tests::reference::beside::{self, Tested, NUMBERS};
use cache_tests::reference::compare::BAD_TRACE;
use cache_tests::reference::directory::{kind, value, word};
use cache_tests::reference::histories;
use cache_tests::reference::load;
use cache_tests::reference::occupancy::{of_stack, Table, NONE};
use cache_tests::reference::rng::Rng;
use cache_tests::reference::settings::{directory_length, named, Profile, MAX_CMAX, MAX_M, MAX_N, PROFILES};
use cache_tests::reference::stack::{answer, work, PlainStack};
use cache_tests::{Settings, BELT};
use fbr::{Answer, Cache, CountClass, Load, Memory, NotTaken, Occupancy, Parts, Refusal, Totals, View, Work};
use std::hint::black_box;

const WRAPPER: Tested = Tested { fresh, batch, sound: fbr::sound, look, occupancy };

fn wrapped(s: Settings) -> fbr::Settings {
    fbr::Settings { n: s.n, nnew: s.nnew, nold: s.nold, cmax: s.cmax, amax: s.amax, b: s.b, m: s.m }
}
fn number(outcome: Result<(), Refusal>) -> u32 {
    outcome.err().map_or(0, Refusal::number)
}
fn fresh(s: Settings, dir: &mut [u32]) -> u32 {
    number(fbr::fresh(&wrapped(s), dir))
}
fn batch(
    directory: &mut [u32], data: &mut [u8], store: &mut [u8], work: &[u32], incoming: &[u8], answers: &mut [u32],
    outgoing: &mut [u8],
) -> u32 {
    number(Memory { directory, data, store }.batch(work, incoming, answers, outgoing))
}

fn look(directory: &mut [u32], data: &mut [u8], store: &mut [u8], block: u32, out: &mut [u8]) -> usize {
    Memory { directory, data, store }.look_into(block, out).unwrap_or(0)
}

fn figures(occupancy: &Occupancy) -> Table {
    let column = |of: fn(&CountClass) -> u32| occupancy.classes.iter().map(of);
    column(|class| class.residents).chain(column(|class| class.modified)).collect::<Vec<_>>().try_into().unwrap()
}
fn occupancy(directory: &[u32]) -> (u32, Table) {
    match (View { directory, data: &[], store: &[] }).occupancy() {
        Ok(occupancy) => (0, figures(&occupancy)),
        Err(refusal) => (refusal.number(), NONE),
    }
}

/// The answer as a word again, by the reference's numbers.
fn answer_word(given: Answer) -> u32 {
    let halved_or_not = |halved: bool| u32::from(halved) * answer::HALVED;
    match given {
        Answer::Hit { count, halved } => word(answer::HIT, count + halved_or_not(halved)),
        Answer::Entered { halved } => word(answer::ENTERED, halved_or_not(halved)),
        Answer::Replaced { victim, chains, written_out } => {
            word(answer::REPLACED, victim + chains * answer::CHAIN + u32::from(written_out) * answer::WRITTEN_OUT)
        }
        Answer::Purged { discarded } => word(answer::PURGED, u32::from(discarded)),
        Answer::Absent => word(answer::ABSENT, 0),
        Answer::Flushed { written } => word(answer::FLUSHED, written),
        Answer::AllPinned => word(answer::ALL_PINNED, 0),
        Answer::Pinned { pinned } => word(answer::PINNED, u32::from(pinned)),
        Answer::PurgeRefused => word(answer::PURGE_REFUSED, 0),
        other => panic!("{other:?}"),
    }
}

fn totals_of(stack: &PlainStack) -> Totals {
    Totals { reads: stack.reads, writes: stack.writes, ins: stack.ins, outs: stack.outs }
}

/// Settings with few enough blocks that each can be looked at.
fn small_settings(rng: &mut Rng) -> Settings {
    let n = rng.within(1, 30);
    let s = histories::settings(rng, n);
    Settings { m: s.m.min(100), ..s }
}

#[test]
fn histories_through_the_wrapper() {
    let mut rng = Rng::announced("histories_through_the_wrapper", 121);
    let (mut numbers, mut looks, mut answers) = ([0; NUMBERS], 0, 0);
    for history in 0..600 {
        let s = small_settings(&mut rng);
        let mut beside = match history % 2 {
            0 => histories::fresh(&mut rng, WRAPPER, s),
            _ => histories::built(&mut rng, WRAPPER, s),
        };
        histories::go_on(&mut rng, &mut beside, 8, 60);
        numbers.iter_mut().zip(beside.seen.numbers).for_each(|(sum, times)| *sum += times);
        for &word in &beside.last_answers {
            assert_eq!(answer_word(Answer::from_word(word)), word, "{word:#x}");
            answers += 1;
        }
        refuses_a_longer_store(View { directory: &beside.dir, data: &beside.data, store: &beside.store });
        let store = &mut beside.store[..beside.stack.whole().store];
        let memory = Memory { directory: &mut beside.dir, data: &mut beside.data, store };
        let b = s.b as usize;
        for block in 0..s.m {
            let resident = beside.stack.residents.iter().find(|resident| resident.block == block);
            let stored = &beside.stack.store[block as usize * b..][..b];
            assert_eq!(memory.look(block).unwrap(), resident.map_or(stored, |resident| &resident.bytes));
            looks += 1;
        }
        assert_eq!(memory.look(s.m), Err(Refusal::BadWord));
        let earlier = histories::bytes(&mut rng, b - 1);
        let mut short = earlier.clone();
        assert_eq!(memory.look_into(s.m - 1, &mut short), Err(Refusal::ShortBuffer));
        assert_eq!(short, earlier);
        assert_eq!((memory.settings(), memory.totals()), (Ok(wrapped(s)), Ok(totals_of(&beside.stack))));
        assert_eq!(memory.occupancy().map(|table| figures(&table)), Ok(of_stack(&beside.stack)));
    }
    println!("calls that returned 0 to 12: {numbers:?}; {looks} looks, {answers} answers");
    assert!(numbers.iter().all(|&times| times > 10));
}

/// Looks at a block below M and at one that is not, where the store and what lies behind it are lent.
fn refuses_a_longer_store(view: View) {
    for block in [0, u32::MAX] {
        let mut out = [7; 300];
        assert_eq!(view.look_number(block), Err(Refusal::LongStore));
        assert_eq!(view.look_into(block, &mut out), Err(Refusal::LongStore));
        assert_eq!((view.look(block), out), (Err(Refusal::LongStore), [7; 300]));
    }
}

/// A cache that owns its memory beside the plain stack: the same batches to both, and everything compared after each.
struct Pair {
    cache: Cache,
    stack: PlainStack,
    numbers: [u64; NUMBERS],
}

impl Pair {
    fn fresh(rng: &mut Rng, s: Settings) -> Pair {
        let store = histories::bytes(rng, (s.m * s.b) as usize);
        let cache = Cache::new(&wrapped(s), store.clone()).unwrap();
        Pair { cache, stack: PlainStack::new(s, store), numbers: [0; NUMBERS] }
    }

    /// From a directory that no list of batches need lead to.
    fn built(rng: &mut Rng, s: Settings) -> Pair {
        let mut built = histories::built(rng, WRAPPER, s);
        // a cache owns its store alone, without what lies behind
        let length = built.stack.whole().store;
        built.store.truncate(length);
        built.stack.store.truncate(length);
        let parts = Parts { directory: built.dir, data: built.data, store: built.store };
        Pair { cache: Cache::from_parts(parts).unwrap(), stack: built.stack, numbers: [0; NUMBERS] }
    }

    fn run(&mut self, words: &[u32], incoming: &[u8]) {
        let b = self.stack.settings.b as usize;
        let reads = words.iter().filter(|&&w| kind(w) == work::READ).count();
        let (mut answers, mut outgoing) = (vec![0; words.len()], vec![0; reads * b]);
        let whole = self.stack.whole();
        let expected = self.stack.batch(whole, words, incoming, &mut answers, &mut outgoing);
        let before = self.cache.clone();
        match self.cache.run(&words.iter().map(|&w| work_of(w)).collect::<Vec<_>>(), incoming) {
            Ok(ran) => {
                assert_eq!(expected, 0, "accepted: {words:x?}");
                assert_eq!(ran.answers.iter().map(|&given| answer_word(given)).collect::<Vec<_>>(), answers);
                assert_eq!(ran.reads().len(), reads);
                assert!(ran.reads().eq(outgoing.chunks(b)) && ran.read == outgoing, "bytes read: {words:x?}");
            }
            Err(refusal) => {
                assert_eq!(refusal.number(), expected, "{refusal}: {words:x?}");
                assert!(self.cache.parts() == before.parts(), "a refused batch changed the memory: {words:x?}");
            }
        }
        self.numbers[expected as usize] += 1;
        self.check();
    }

    fn check(&self) {
        let (parts, stack) = (self.cache.parts(), &self.stack);
        assert_eq!(beside::residents(parts.directory, parts.data), stack.residents);
        assert!(self.cache.store() == stack.store && parts.store == stack.store, "store");
        assert_eq!(self.cache.totals(), Ok(totals_of(stack)));
        assert_eq!(self.cache.occupancy().map(|table| figures(&table)), Ok(of_stack(stack)));
        assert_eq!(self.cache.settings(), Ok(wrapped(stack.settings)));
    }

    /// The cache is taken apart and put together again, from copies or from the parts themselves.
    fn put_together_again(self, rng: &mut Rng) -> Pair {
        let saved = self.cache.parts();
        let copies =
            Parts { directory: saved.directory.to_vec(), data: saved.data.to_vec(), store: saved.store.to_vec() };
        let parts = self.cache.into_parts();
        assert!(parts == copies, "saved parts are not the cache's own");
        let cache = Cache::from_parts(if rng.one_in(2) { parts } else { copies }).unwrap();
        Pair { cache, ..self }
    }

    /// Spoilt parts are refused and given back as they were.
    fn refuses_spoilt_parts(&self, rng: &mut Rng) {
        let (good, whole) = (self.cache.clone().into_parts(), self.stack.whole());
        let directory = histories::unsound(rng, &good.directory, self.stack.settings);
        let (mut data, mut store, mut longer) = (good.clone(), good.clone(), good.clone());
        data.data.truncate(whole.data - 1);
        store.store.truncate(whole.store - 1);
        longer.store.resize(whole.store + histories::behind(rng, self.stack.settings), 7);
        for (spoilt, refusal) in [
            (Parts { directory: directory.clone(), ..good }, Refusal::Unsound),
            (Parts { directory: directory.clone(), ..data.clone() }, Refusal::Unsound),
            (Parts { directory, ..longer.clone() }, Refusal::Unsound),
            (Parts { store: longer.store.clone(), ..data.clone() }, Refusal::ShortDataOrStore),
            (data, Refusal::ShortDataOrStore),
            (store, Refusal::ShortDataOrStore),
            (longer, Refusal::LongStore),
        ] {
            let expected = NotTaken { refusal, parts: spoilt.clone() };
            assert!(Cache::from_parts(spoilt).err() == Some(expected), "parts spoilt for {refusal}");
        }
    }
}

/// Well-formed words, and such as a block of M or more makes ill-formed.
fn work_of(w: u32) -> Work {
    match kind(w) {
        work::READ => Work::Read(value(w)),
        work::WRITE => Work::Write(value(w)),
        work::PURGE => Work::Purge(value(w)),
        work::FLUSH => Work::Flush,
        work::TICK => Work::Tick,
        work::PIN => Work::Pin(value(w)),
        work::UNPIN => Work::Unpin(value(w)),
        other => panic!("work of kind {other}"),
    }
}

/// Work words and incoming bytes, now and then too many, too high or too few.
fn words_and_bytes(rng: &mut Rng, s: Settings) -> (Vec<u32>, Vec<u8>) {
    let length = rng.within(0, 60) as usize;
    let mut words = histories::work_words(rng, s, length);
    let mut incoming = words.iter().filter(|&&w| kind(w) == work::WRITE).count() * s.b as usize;
    match rng.below(12) {
        0 => words.resize(work::MOST_WORDS + 1, word(work::READ, 0)),
        1 => words.push(word(rng.pick(&histories::OF_A_BLOCK), s.m)),
        2 => incoming = incoming.saturating_sub(1),
        _ => incoming += histories::more(rng, 40),
    }
    (words, histories::bytes(rng, incoming))
}

#[test]
fn histories_through_an_owned_cache() {
    let mut rng = Rng::announced("histories_through_an_owned_cache", 122);
    let mut numbers = [0; NUMBERS];
    for history in 0..600 {
        let s = small_settings(&mut rng);
        let mut pair = if history % 2 == 0 { Pair::fresh(&mut rng, s) } else { Pair::built(&mut rng, s) };
        pair.check();
        for _ in 0..8 {
            let (words, incoming) = words_and_bytes(&mut rng, s);
            pair.run(&words, &incoming);
            if rng.one_in(3) {
                pair = pair.put_together_again(&mut rng);
            }
        }
        pair.refuses_spoilt_parts(&mut rng);
        numbers.iter_mut().zip(pair.numbers).for_each(|(sum, times)| *sum += times);
    }
    println!("runs that gave 0 and 8 to 11: {numbers:?}");
    assert!([0, 8, 9, 10, 11].iter().all(|&number| numbers[number] > 10), "{numbers:?}");
}

#[test]
fn a_new_cache_refuses_as_fresh_and_batches_do() {
    let mut rng = Rng::announced("a_new_cache_refuses_as_fresh_and_batches_do", 123);
    for _ in 0..2_000 {
        let s = small_settings(&mut rng);
        let store = histories::bytes(&mut rng, (s.m * s.b) as usize);
        let (illegal, number) = histories::illegal(&mut rng, s);
        let refused = Cache::new(&wrapped(illegal), store.clone()).unwrap_err();
        assert_eq!((refused.refusal.number(), &refused.parts.store), (number, &store), "{illegal:?}");
        let shorter = &store[..rng.below(store.len() as u64) as usize];
        let refused = Cache::new(&wrapped(s), shorter.to_vec()).unwrap_err();
        assert_eq!((refused.refusal, &refused.parts.store[..]), (Refusal::ShortDataOrStore, shorter));
        let behind = histories::behind(&mut rng, s);
        let longer = [store, histories::bytes(&mut rng, behind)].concat();
        let refused = Cache::new(&wrapped(s), longer.clone()).unwrap_err();
        assert_eq!((refused.refusal, &refused.parts.store), (Refusal::LongStore, &longer));
        // what is wrong with the settings is said first
        let refused = Cache::new(&wrapped(illegal), longer.clone()).unwrap_err();
        assert_eq!((refused.refusal.number(), &refused.parts.store), (number, &longer), "{illegal:?}");
    }
}

/// The raw call over buffers of 0 to 6 numbers: 10 and nothing written, else this number and these totals in front.
fn check_totals(rng: &mut Rng, dir: &[u32], number: u32, totals: [u64; 4]) {
    for length in 0..=6 {
        let earlier: Vec<u64> = (0..length).map(|_| rng.draw()).collect();
        let (mut out, mut words) = (earlier.clone(), dir.to_vec());
        let returned = cache_tests::totals(&words, &mut out);
        black_box(&mut words);
        assert!(words == dir, "the totals changed the directory");
        if length < 4 {
            assert_eq!((returned, out), (10, earlier));
        } else {
            assert_eq!((returned, &out[..4], &out[4..]), (number, &totals[..], &earlier[4..]));
        }
    }
}

#[test]
fn totals_beside_the_plain_stack() {
    let mut rng = Rng::announced("totals_beside_the_plain_stack", 124);
    let mut above_a_word = 0;
    for history in 0..400 {
        let s = small_settings(&mut rng);
        let mut beside = match history % 2 {
            0 => histories::fresh(&mut rng, WRAPPER, s),
            _ => histories::built(&mut rng, WRAPPER, s),
        };
        histories::go_on(&mut rng, &mut beside, 4, 60);
        let Totals { reads, writes, ins, outs } = totals_of(&beside.stack);
        above_a_word += u32::from(reads.max(writes) >> 32 > 0);
        check_totals(&mut rng, &beside.dir, 0, [reads, writes, ins, outs]);
        let mut damaged = histories::unsound(&mut rng, &beside.dir, s);
        check_totals(&mut rng, &damaged, 6, [0; 4]);
        let memory = Memory { directory: &mut damaged, data: &mut beside.data, store: &mut beside.store };
        assert_eq!((memory.totals(), memory.settings()), (Err(Refusal::Unsound), Err(Refusal::Unsound)));
        assert_eq!(memory.occupancy(), Err(Refusal::Unsound));
    }
    assert!(above_a_word > 100, "{above_a_word}");
    check_totals(&mut rng, &[], 6, [0; 4]);
}

#[test]
fn directory_lengths_inside_and_outside_the_limits() {
    let extremes = [u32::MAX / 9, u32::MAX / 2 + 1, u32::MAX];
    for n in (0..=MAX_N + 1).chain(extremes) {
        for cmax in (0..=MAX_CMAX + 1).chain(extremes) {
            let s = Settings { n, cmax, ..BELT };
            let legal = (1..=MAX_N).contains(&n) && (1..=MAX_CMAX).contains(&cmax);
            let expected = if legal { directory_length(s) } else { 0 };
            assert_eq!(u64::from(cache_tests::directory_words(n, cmax)), expected, "N {n}, Cmax {cmax}");
            assert_eq!(wrapped(s).directory_words() as u64, expected, "N {n}, Cmax {cmax}");
        }
    }
}

/// Batches of a load as words and as `Work`, with the states between, and what a wrong seed, M or count gets.
#[test]
fn loads_through_the_wrapper() {
    let mut rng = Rng::announced("loads_through_the_wrapper", 126);
    let mut batches = 0;
    for _ in 0..300 {
        let (seed, m, count) = (rng.word().max(1), rng.within(1, MAX_M), rng.within(0, Load::MOST_WORDS));
        let mut load = Load::new(seed, m, count).unwrap();
        let mut words = load::states(seed).map(|state| load::word_of(m, state));
        let (mut as_words, mut state) = (load.clone(), seed);
        for batch in load.by_ref().take(4) {
            let expected: Vec<u32> = words.by_ref().take(count as usize).collect();
            assert!(batch.iter().map(|work| work.word()).eq(expected.iter().copied()), "{seed} {m} {count}");
            assert_eq!((as_words.state(), as_words.next_words()), (state, Some(expected)), "{seed} {m} {count}");
            state = load::load_state(state, count);
            batches += 1;
        }
        assert_eq!((load.state(), as_words), (state, load));
        for (seed, m, count) in
            [(0, m, count), (seed, 0, count), (seed, MAX_M + 1, count), (seed, m, 1_025), (seed, m, u32::MAX)]
        {
            assert_eq!(Load::new(seed, m, count), Err(Refusal::BadLoad), "{seed} {m} {count}");
        }
    }
    println!("{batches} batches of loads");
    let mut none = Load::new(1, 1, 0).unwrap();
    assert_eq!((none.next(), none.state(), none.next()), (Some(vec![]), 1, Some(vec![])));
}

#[test]
fn unknown_numbers_and_words() {
    assert_eq!(Refusal::from_number(0), None);
    for number in 1..=BAD_TRACE {
        let known = Refusal::from_number(number).unwrap();
        assert!(Refusal::ALL.contains(&known) && known.number() == number);
    }
    for number in [99, u32::MAX] {
        assert_eq!(Refusal::from_number(number), Some(Refusal::Unknown(number)));
    }
    let mut rng = Rng::announced("unknown_numbers_and_words", 125);
    for _ in 0..100_000 {
        // every word either is one that the reference could give, or is kept as it is
        let w = if rng.one_in(2) { rng.word() } else { word(rng.within(0, 15), rng.within(0, 3) << rng.within(0, 26)) };
        match Answer::from_word(w) {
            Answer::Unknown(kept) => assert_eq!(kept, w),
            known => assert_eq!(answer_word(known), w),
        }
    }
}

#[test]
fn named_settings_and_directory_lengths() {
    for profile in PROFILES {
        let by_name = match profile {
            Profile::Unix => fbr::Settings::unix,
            Profile::C51 => fbr::Settings::c51,
            Profile::Cust11 => fbr::Settings::cust11,
        };
        for n in 0..=4_097 {
            assert_eq!(by_name(n, 8, 64), wrapped(named(profile, n, 8, 64)), "{profile:?}, N {n}");
            if (1..=4_096).contains(&n) {
                let expected = directory_length(named(profile, n, 8, 64));
                assert_eq!(by_name(n, 8, 64).directory_words() as u64, expected as u64, "{profile:?}, N {n}");
            }
        }
    }
}
