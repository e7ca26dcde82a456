//! Reads that don't depend on settings: caches of different settings over one list, beside a map of last bytes.
use cache_tests::reference::beside::{residents, Beside};
use cache_tests::reference::directory::{kind, value, word, Map};
use cache_tests::reference::last_bytes::LastBytes;
use cache_tests::reference::rng::Rng;
use cache_tests::reference::samples::Pinning;
use cache_tests::reference::stack::{answer, work, PlainStack};
use cache_tests::reference::{histories, samples};
use cache_tests::{batch, fresh, Settings, LIBRARY};
use std::collections::BTreeMap;

/// The words of a batch, and the bytes that its writes bring.
#[derive(Clone, Debug)]
struct Brought {
    words: Vec<u32>,
    incoming: Vec<u8>,
}

/// What a cache gave and left over a list.
struct Outcome {
    /// Of each batch, the read bytes.
    reads: Vec<Vec<u8>>,
    /// Answers 7.
    sevens: usize,
    store: Vec<u8>,
    ins: u64,
}

fn of_kind(words: &[u32], k: u32) -> usize {
    words.iter().filter(|&&w| kind(w) == k).count()
}

/// Settings with this B and M, and all else drawn.
fn settings(rng: &mut Rng, b: u32, m: u32) -> Settings {
    let n = rng.within(1, 12);
    Settings { b, m, ..histories::settings(rng, n) }
}

/// Batches over few blocks or many; a word in `purges` is a purge, where that is not 0.
fn list(rng: &mut Rng, b: u32, m: u32, purges: u64, pinning: Pinning) -> Vec<Brought> {
    let hot = rng.within(1, m);
    let one = |rng: &mut Rng| {
        let block = if rng.one_in(3) { rng.within(0, m - 1) } else { rng.within(0, hot - 1) };
        let purge = purges > 0 && rng.one_in(purges);
        pinning.word(rng, block).unwrap_or_else(|| match rng.below(16) {
            _ if purge => word(work::PURGE, block),
            0 => word(rng.pick(&[work::FLUSH, work::TICK, work::TICK]), 0),
            1..=6 => word(work::WRITE, block),
            _ => word(work::READ, block),
        })
    };
    let some = |rng: &mut Rng| {
        let words: Vec<u32> = (0..rng.below(60)).map(|_| one(rng)).collect();
        let bytes = of_kind(&words, work::WRITE) * b as usize;
        let more = histories::more(rng, 20);
        Brought { incoming: histories::bytes(rng, bytes + more), words }
    };
    (0..rng.within(1, 6)).map(|_| some(rng)).collect()
}

/// Where there are some, a small cache has all its residents pinned now and then.
fn pins_or_none(rng: &mut Rng) -> Pinning {
    if rng.one_in(2) {
        return Pinning::NONE;
    }
    Pinning::drawn(rng)
}

fn closing() -> Brought {
    Brought { words: vec![word(work::FLUSH, 0)], incoming: vec![] }
}

/// A fresh cache in memory of its own, whose store begins as `store`; something lies behind it.
fn cache(rng: &mut Rng, s: Settings, store: &[u8]) -> Beside {
    let length = Map::of(s).length() + histories::more(rng, 20);
    let (earlier, behind) = (histories::words(rng, length), histories::behind(rng, s));
    let data = (s.n * s.b) as usize + histories::more(rng, 40);
    let (data, behind) = (histories::bytes(rng, data), histories::bytes(rng, behind));
    Beside::fresh(LIBRARY, s, earlier, data, [store, &behind].concat())
}

/// Each batch accepted. What else a call lends is drawn: how much of data, and the buffers with what is in them.
fn run(rng: &mut Rng, cache: &mut Beside, list: &[Brought]) -> Outcome {
    let b = cache.stack.settings.b as usize;
    let (mut reads, mut sevens) = (vec![], 0);
    for brought in list {
        let mut call = histories::call_of(rng, cache, brought.words.clone());
        call.incoming = brought.incoming.clone();
        assert_eq!(cache.call(&call), 0);
        reads.push(cache.last_outgoing[..of_kind(&brought.words, work::READ) * b].to_vec());
        sevens += of_kind(&cache.last_answers, answer::ALL_PINNED);
    }
    let store = cache.store[..cache.stack.whole().store].to_vec();
    Outcome { reads, sevens, store, ins: cache.stack.ins }
}

/// What the reads of each batch give by the map.
fn by_the_map(last: &mut LastBytes, list: &[Brought]) -> Vec<Vec<u8>> {
    list.iter().map(|brought| last.batch(&brought.words, &brought.incoming)).collect()
}

/// Runs a list and then a closing flush. Where no answer was 7: reads and store are the map's. What the list came to.
fn checked(rng: &mut Rng, s: Settings, store: &[u8], list: &[Brought]) -> Outcome {
    let (mut cache, mut last) = (cache(rng, s, store), LastBytes::over(store, s.b));
    let outcome = run(rng, &mut cache, list);
    if outcome.sevens == 0 {
        assert_eq!(outcome.reads, by_the_map(&mut last, list), "{s:?}, {list:x?}");
        assert_eq!(run(rng, &mut cache, &[closing()]).store, last.store(), "{s:?}, {list:x?}");
    }
    outcome
}

/// The request's two sentences. A list that gets an answer 7 from one of the caches is of another kind for it.
#[test]
fn reads_give_the_last_bytes_whatever_the_settings() {
    let mut rng = Rng::announced("reads_give_the_last_bytes_whatever_the_settings", 901);
    let (mut for_one, mut for_both, mut reads, mut pinning, mut other_ins, mut other_stores) = (0, 0, 0, 0, 0, 0);
    for _ in 0..3_000 {
        let (b, m) = (rng.within(1, 12), rng.within(1, 40));
        let pins = pins_or_none(&mut rng);
        let (store, list) = (histories::bytes(&mut rng, (b * m) as usize), list(&mut rng, b, m, 0, pins));
        let [one, two] = [(); 2].map(|()| {
            let s = settings(&mut rng, b, m);
            checked(&mut rng, s, &store, &list)
        });
        if one.sevens + two.sevens > 0 {
            for_one += usize::from(one.sevens == 0 || two.sevens == 0);
            continue;
        }
        for_both += 1;
        assert_eq!(one.reads, two.reads);
        reads += one.reads.iter().map(Vec::len).sum::<usize>() / b as usize;
        pinning += usize::from(list.iter().any(|brought| of_kind(&brought.words, work::PIN) > 0));
        other_ins += usize::from(one.ins != two.ins);
        other_stores += usize::from(one.store != two.store);
    }
    println!("{for_both} lists of this kind for both, {pinning} with pins, {for_one} for one; {reads} reads by each");
    println!("{other_ins} lists with other block ins, {other_stores} with other stores before the flush");
    // else the settings made no difference, and the lists showed nothing
    assert!([for_both, other_ins, other_stores].iter().all(|&lists| lists > 1_000) && pinning > 200 && for_one > 20);
}

/// Settings changed while belts move: a closing flush, a fresh cache with other settings over the store, and so on.
#[test]
fn settings_changed_on_the_way() {
    let mut rng = Rng::announced("settings_changed_on_the_way", 902);
    let (mut changes, mut carried) = (0, 0);
    for _ in 0..1_000 {
        let (b, m) = (rng.within(1, 12), rng.within(1, 40));
        let mut store = histories::bytes(&mut rng, (b * m) as usize);
        let mut last = LastBytes::over(&store, b);
        for _ in 0..rng.within(2, 5) {
            let (s, before) = (settings(&mut rng, b, m), store.clone());
            let list = [list(&mut rng, b, m, 0, Pinning::NONE), vec![closing()]].concat();
            let mut cache = cache(&mut rng, s, &store);
            let outcome = run(&mut rng, &mut cache, &list);
            assert_eq!(outcome.reads, by_the_map(&mut last, &list), "{s:?}, {list:x?}");
            assert_eq!(outcome.store, last.store(), "{s:?}, {list:x?}");
            store = outcome.store;
            changes += 1;
            carried += usize::from(before != store);
        }
    }
    println!("{changes} settings one after another, {carried} of them left another store");
    assert!(carried > 1_000);
}

/// Every list of five of these eight words, under each of these settings: of this kind, the map's reads and store.
#[test]
fn every_short_list() {
    let words: Vec<u32> = [(work::READ, 0), (work::READ, 1), (work::WRITE, 0), (work::WRITE, 1), (work::FLUSH, 0)]
        .into_iter()
        .chain([(work::TICK, 0), (work::PIN, 0), (work::UNPIN, 0)])
        .map(|(kind, block)| word(kind, block))
        .collect();
    let all = [(1, 0, 1, 1, 1), (1, 0, 1, 2, 9), (2, 0, 1, 1, 1), (2, 1, 1, 2, 3), (2, 0, 2, 1, 9), (3, 1, 1, 2, 1)];
    let all = all.map(|(n, nnew, nold, cmax, amax)| Settings { n, nnew, nold, cmax, amax, b: 1, m: 2 });
    let (store, incoming) = ([100, 101], [1, 2, 3, 4, 5]);
    let (mut of_this_kind, mut sevens) = (0, 0);
    for code in 0..words.len().pow(5) {
        let list: Vec<u32> = (0..5).map(|i| words[code / words.len().pow(i) % words.len()]).collect();
        let mut last = LastBytes::over(&store, 1);
        let expected = last.batch(&list, &incoming);
        for s in all {
            let (mut dir, mut data, mut left) = (vec![0; Map::of(s).length()], [0; 3], store);
            let (mut answers, mut outgoing) = ([0; 5], [0; 5]);
            assert_eq!(fresh(s, &mut dir), 0);
            assert_eq!(batch(&mut dir, &mut data, &mut left, &list, &incoming, &mut answers, &mut outgoing), 0);
            if of_kind(&answers, answer::ALL_PINNED) > 0 {
                sevens += 1;
                continue;
            }
            of_this_kind += 1;
            assert_eq!(outgoing[..expected.len()], expected, "{s:?}, {list:x?}");
            let flush = [word(work::FLUSH, 0)];
            assert_eq!(batch(&mut dir, &mut data, &mut left, &flush, &[], &mut answers, &mut outgoing), 0);
            assert_eq!(left[..], last.store(), "{s:?}, {list:x?}");
        }
    }
    println!("{of_this_kind} lists of this kind, {sevens} with an answer 7");
    assert!(of_this_kind > 100_000 && sevens > 1_000);
}

/// Two caches, each with its settings, store and list.
fn both(rng: &mut Rng, s: [Settings; 2], stores: [&[u8]; 2], lists: [&[Brought]; 2]) -> [Outcome; 2] {
    [0, 1].map(|i| {
        let mut cache = cache(rng, s[i], stores[i]);
        run(rng, &mut cache, lists[i])
    })
}

/// Five of the request's conditions, each left out in turn: reads or stores then differ.
#[test]
fn what_is_left_out_differs() {
    let mut rng = Rng::announced("what_is_left_out_differs", 903);
    let mut differing: BTreeMap<&str, u32> = BTreeMap::new();
    let mut count = |what, differs| *differing.entry(what).or_default() += u32::from(differs);
    for _ in 0..1_500 {
        let (b, m) = (rng.within(2, 8), rng.within(2, 30));
        let (s, many) = ([(); 2].map(|()| settings(&mut rng, b, m)), Pinning::drawn(&mut rng));
        let store = &histories::bytes(&mut rng, (b * m) as usize)[..];
        let [plain, pinned, purging] = [(0, Pinning::NONE), (0, many), (8, Pinning::NONE)]
            .map(|(purges, pins)| list(&mut rng, b, m, purges, pins));
        let [one, two] = both(&mut rng, s, [store; 2], [&purging[..]; 2]);
        count("a purge", one.reads != two.reads);
        let [one, two] = both(&mut rng, s, [store; 2], [&pinned[..]; 2]);
        count("an answer 7", one.sevens + two.sevens > 0 && one.reads != two.reads);
        let [one, two] = both(&mut rng, s, [store; 2], [&plain[..]; 2]);
        count("no closing flush", one.store != two.store);
        let mut another = store.to_vec();
        another[0] ^= 1;
        let [one, two] = both(&mut rng, s, [store, &another], [&plain[..]; 2]);
        count("another store", one.reads != two.reads);
        let mut changed = plain.clone();
        changed.iter_mut().for_each(|brought| brought.incoming.iter_mut().for_each(|byte| *byte ^= 1));
        let [one, two] = both(&mut rng, s, [store; 2], [&plain, &changed]);
        count("other incoming bytes", one.reads != two.reads);
    }
    println!("of 1,500 lists differ: {differing:?}");
    assert!(differing.len() == 5 && differing.values().all(|&lists| lists > 100));
}

/// Other caches, each wrong in one respect.
#[derive(Clone, Copy, Debug, PartialEq, Eq)]
enum Wrong {
    Nowhere,
    VictimNotWrittenOut,
    OtherBytesWrittenOut,
    WriteLeavesOldBytes,
    WriteUnmarked,
    FlushForgets,
    TickForgets,
    ReadsTheStore,
    EntersWithVictimsBytes,
    PinClearsModified,
}

const WRONG: [Wrong; 9] = [
    Wrong::VictimNotWrittenOut,
    Wrong::OtherBytesWrittenOut,
    Wrong::WriteLeavesOldBytes,
    Wrong::WriteUnmarked,
    Wrong::FlushForgets,
    Wrong::TickForgets,
    Wrong::ReadsTheStore,
    Wrong::EntersWithVictimsBytes,
    Wrong::PinClearsModified,
];

/// The plain stack with an error.
struct Altered {
    stack: PlainStack,
    wrong: Wrong,
}

impl Altered {
    /// Where a word replaces one, the victim's position.
    fn victim(&self, w: u32) -> Option<usize> {
        let access = matches!(kind(w), work::READ | work::WRITE);
        let full = self.stack.residents.len() == self.stack.settings.n as usize;
        let replaces = access && full && self.stack.position(value(w)).is_none();
        self.stack.victim().filter(|_| replaces).map(|(position, _)| position)
    }

    fn before(&mut self, w: u32) {
        let victim = self.victim(w);
        let held = &mut self.stack.residents;
        match (self.wrong, kind(w), victim) {
            (Wrong::VictimNotWrittenOut, _, Some(p)) => held[p].marks.modified = false,
            (Wrong::OtherBytesWrittenOut, _, Some(p)) => held[p].bytes.reverse(),
            (Wrong::FlushForgets, work::FLUSH, _) => held.iter_mut().for_each(|one| one.marks.modified = false),
            (Wrong::TickForgets, work::TICK, _) => {
                held.iter_mut().for_each(|one| one.marks.modified &= !one.marks.seen)
            }
            _ => {}
        }
    }

    /// `old` were the bytes of the word's block if it was resident, `left` the victim's.
    fn after(&mut self, w: u32, old: Option<Vec<u8>>, left: Option<Vec<u8>>) {
        let at = self.stack.position(value(w));
        let held = &mut self.stack.residents;
        match (self.wrong, kind(w), old, left) {
            (Wrong::WriteLeavesOldBytes, work::WRITE, Some(old), _) => held[0].bytes = old,
            (Wrong::WriteUnmarked, work::WRITE, ..) => held[0].marks.modified = false,
            (Wrong::EntersWithVictimsBytes, work::READ, _, Some(left)) => held[0].bytes = left,
            (Wrong::PinClearsModified, work::PIN, Some(_), _) => held[at.unwrap()].marks.modified = false,
            _ => {}
        }
    }

    /// One word; what it gives, if it is a read. No miss is refused.
    fn one(&mut self, w: u32, incoming: &[u8]) -> Vec<u8> {
        self.before(w);
        let bytes = |p: usize| self.stack.residents[p].bytes.clone();
        let (old, left) = (self.stack.position(value(w)).map(bytes), self.victim(w).map(bytes));
        let (mut answers, mut outgoing, whole) = ([0], vec![0; incoming.len()], self.stack.whole());
        assert_eq!(self.stack.batch(whole, &[w], incoming, &mut answers, &mut outgoing), 0);
        self.after(w, old, left);
        let stored = &self.stack.store[value(w) as usize * incoming.len()..][..incoming.len()];
        match (kind(w), self.wrong) {
            (work::READ, Wrong::ReadsTheStore) => stored.to_vec(),
            (work::READ, _) => self.stack.residents[0].bytes.clone(),
            _ => vec![],
        }
    }
}

/// Whether a list shows the cache wrong: reads by the map, or the store after a closing flush.
fn shown_wrong(mut altered: Altered, words: &[u32], bytes: &[Vec<u8>]) -> bool {
    let mut last = LastBytes::over(&altered.stack.store, altered.stack.settings.b);
    let differs = words.iter().zip(bytes).any(|(&w, incoming)| {
        let expected = last.batch(&[w], incoming);
        altered.one(w, incoming) != expected
    });
    altered.one(word(work::FLUSH, 0), &bytes[0]);
    differs || altered.stack.store != last.store()
}

#[test]
fn wrong_caches_are_noticed() {
    let mut rng = Rng::announced("wrong_caches_are_noticed", 904);
    for wrong in [Wrong::Nowhere].into_iter().chain(WRONG) {
        let mut noticed = 0;
        for _ in 0..100 {
            let (b, m) = (rng.within(2, 8), rng.within(4, 30));
            let n = rng.within(2, 12);
            let s = Settings { b, m, ..samples::settings(&mut rng, n) };
            let list = list(&mut rng, b, m, 0, Pinning::NONE);
            let words = list.into_iter().flat_map(|brought| brought.words);
            let pinned = |w: u32| [word(work::PIN, value(w)), w, word(work::UNPIN, value(w))];
            let some = |w: u32| if kind(w) == work::READ { pinned(w).to_vec() } else { vec![w] };
            let words: Vec<u32> = words.flat_map(some).collect();
            let bytes: Vec<Vec<u8>> = (0..=words.len()).map(|_| histories::bytes(&mut rng, b as usize)).collect();
            let store = histories::bytes(&mut rng, (b * m) as usize);
            noticed += u32::from(shown_wrong(Altered { stack: PlainStack::new(s, store), wrong }, &words, &bytes));
        }
        println!("{wrong:?}: noticed in {noticed} of 100 lists");
        assert!(if wrong == Wrong::Nowhere { noticed == 0 } else { noticed > 20 }, "{wrong:?}: {noticed}");
    }
}

/// Residents, and the answers of the last batch, are not the same under other settings: what agrees is what the request
/// names.
#[test]
fn residents_and_answers_depend_on_settings() {
    let mut rng = Rng::announced("residents_and_answers_depend_on_settings", 905);
    let (mut other_residents, mut other_answers) = (0, 0);
    for _ in 0..300 {
        let (b, m) = (rng.within(1, 8), rng.within(4, 30));
        let store = histories::bytes(&mut rng, (b * m) as usize);
        let list = list(&mut rng, b, m, 0, Pinning::NONE);
        let (s, other) = (settings(&mut rng, b, m), settings(&mut rng, b, m));
        let (mut one, mut two) = (cache(&mut rng, s, &store), cache(&mut rng, other, &store));
        run(&mut rng, &mut one, &list);
        run(&mut rng, &mut two, &list);
        other_answers += usize::from(one.last_answers != two.last_answers);
        other_residents += usize::from(residents(&one.dir, &one.data) != residents(&two.dir, &two.data));
    }
    println!("of 300 lists {other_residents} left other residents, {other_answers} had other last answers");
    assert!(other_residents > 100 && other_answers > 100);
}
