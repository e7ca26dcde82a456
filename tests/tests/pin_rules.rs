//! What the request says of pins, watched from outside over random histories: a block that was pinned and not unpinned
//! never leaves, and a miss is refused exactly if N such blocks are resident. Wrong rules are noticed.
mod pin_watch;

use cache_tests::reference::beside::{residents, without_pins, Beside, Call, Seen};
use cache_tests::reference::directory::{kind, value, word, Map};
use cache_tests::reference::histories;
use cache_tests::reference::marks::Marks;
use cache_tests::reference::rng::Rng;
use cache_tests::reference::stack::{answer, work, PlainStack};
use cache_tests::{Settings, LIBRARY};
use pin_watch::{Broken, Counts, Watch};
use std::collections::{BTreeMap, BTreeSet};

/// What stands in an outgoing buffer before a batch.
const EARLIER: u8 = 0xee;
const B: usize = 4;

/// A cache under watch.
trait Machine {
    /// Answers and read bytes of a batch; `incoming` has bytes for one write more.
    fn run(&mut self, words: &[u32], incoming: &[u8]) -> (Vec<u32>, Vec<u8>);
    fn counts(&self) -> Counts;
}

fn counts_of(stack: &PlainStack) -> Counts {
    [stack.reads, stack.writes, stack.ins]
}
fn of_kind(words: &[u32], k: u32) -> usize {
    words.iter().filter(|&&w| kind(w) == k).count()
}

impl Machine for Beside {
    fn run(&mut self, words: &[u32], incoming: &[u8]) -> (Vec<u32>, Vec<u8>) {
        let (answers, outgoing) = (vec![0; words.len()], vec![EARLIER; of_kind(words, work::READ) * B]);
        let (work, incoming) = (words.to_vec(), incoming.to_vec());
        assert_eq!(self.call(&Call { lent: self.stack.whole(), work, incoming, answers, outgoing }), 0);
        (self.last_answers.clone(), self.last_outgoing.clone())
    }
    /// The library's own totals, by its call.
    fn counts(&self) -> Counts {
        let mut out = [0; 4];
        assert_eq!(cache_tests::totals(&self.dir, &mut out), 0);
        [out[0], out[1], out[2]]
    }
}

/// Other rules for pins, each wrong in one respect.
#[derive(Clone, Copy, Debug, PartialEq, Eq)]
enum Rule {
    Requested,
    HitUnpins,
    WriteUnpins,
    FlushUnpins,
    TickUnpins,
    HalvingUnpins,
    EntersPinned,
    PinnedVictim,
    RefusesBesideUnusedEntry,
    RefusedReadIsBlockIn,
    RefusedReadKeepsBytes,
    RefusedWriteKeepsIncoming,
    PurgesPinned,
    PinMovesToFront,
    ChainGivenUpAtAPin,
    ChainsByCountOfAnyVictim,
}

/// Each wrong rule, and what the watch must find. Of the last three it can find nothing: it knows neither order nor
/// counts, so there the comparison with the library has to.
const WRONG: [(Rule, &[Broken]); 15] = [
    (Rule::HitUnpins, &[Broken::PinnedReplaced, Broken::PinnedPurged]),
    (Rule::WriteUnpins, &[Broken::PinnedReplaced, Broken::PinnedPurged]),
    (Rule::FlushUnpins, &[Broken::PinnedReplaced]),
    (Rule::TickUnpins, &[Broken::PinnedReplaced]),
    (Rule::HalvingUnpins, &[Broken::PinnedReplaced, Broken::PinnedPurged]),
    (Rule::EntersPinned, &[Broken::OtherAllPinned, Broken::OtherPurgeRefused]),
    (Rule::PinnedVictim, &[Broken::PinnedReplaced, Broken::OtherAllPinned]),
    (Rule::RefusesBesideUnusedEntry, &[Broken::OtherAllPinned]),
    (Rule::RefusedReadIsBlockIn, &[Broken::OtherTotals]),
    (Rule::RefusedReadKeepsBytes, &[Broken::NotZeros]),
    (Rule::RefusedWriteKeepsIncoming, &[Broken::OtherBytes]),
    (Rule::PurgesPinned, &[Broken::PinnedPurged]),
    (Rule::PinMovesToFront, &[]),
    (Rule::ChainGivenUpAtAPin, &[]),
    (Rule::ChainsByCountOfAnyVictim, &[]),
];

/// The plain stack by another rule: altered before a word, or after it.
struct Altered {
    stack: PlainStack,
    rule: Rule,
}

/// A resident's block with its marks before a word.
type Were = BTreeMap<u32, Marks>;

impl Altered {
    fn new(s: Settings, store: &[u8], rule: Rule) -> Altered {
        Altered { stack: PlainStack::new(s, store.to_vec()), rule }
    }

    fn one(&mut self, w: u32, incoming: &[u8], out: &mut [u8]) -> u32 {
        let were: Were = self.stack.residents.iter().map(|held| (held.block, held.marks)).collect();
        let miss = matches!(kind(w), work::READ | work::WRITE) && !were.contains_key(&value(w));
        if miss && self.refuses_early() {
            let reads = u64::from(kind(w) == work::READ);
            (self.stack.reads, self.stack.writes) = (self.stack.reads + reads, self.stack.writes + 1 - reads);
            out.fill(0);
            return word(answer::ALL_PINNED, 0);
        }
        let other = if miss { self.other_victim() } else { None };
        if let Some((position, _)) = other {
            // it is found whatever the search
            let residents = self.stack.residents.iter_mut().enumerate();
            residents.for_each(|(p, held)| held.marks.pinned = p != position);
        }
        if (self.rule, kind(w)) == (Rule::PurgesPinned, work::PURGE) {
            self.unpin(|block, _| block == value(w));
        }
        let (mut answers, whole) = ([0], self.stack.whole());
        assert_eq!(self.stack.batch(whole, &[w], incoming, &mut answers, out), 0);
        if let Some((_, chains)) = other {
            let held = self.stack.residents.iter_mut();
            held.for_each(|held| held.marks.pinned = were.get(&held.block).is_some_and(|were| were.pinned));
            let (victim, written_out) = (value(answers[0]) % answer::CHAIN, value(answers[0]) / answer::WRITTEN_OUT);
            answers[0] = word(answer::REPLACED, victim + chains * answer::CHAIN + written_out * answer::WRITTEN_OUT);
        }
        self.after(w, answers[0], &were, out);
        answers[0]
    }

    fn refuses_early(&self) -> bool {
        let residents = &self.stack.residents;
        let part_full = !residents.is_empty() && residents.len() < self.stack.settings.n as usize;
        self.rule == Rule::RefusesBesideUnusedEntry && part_full && residents.iter().all(|held| held.marks.pinned)
    }

    /// Where a rule searches otherwise: the position of its victim among N residents, and the chains.
    fn other_victim(&self) -> Option<(usize, u32)> {
        let (stack, cmax) = (&self.stack, self.stack.settings.cmax);
        if stack.residents.len() < stack.settings.n as usize {
            return None;
        }
        let by_count = |p: usize| (p, stack.residents[p].count.min(cmax));
        match self.rule {
            Rule::PinnedVictim => Some(by_count(without_pins(stack))),
            Rule::ChainsByCountOfAnyVictim => stack.victim().map(|(p, _)| by_count(p)),
            Rule::ChainGivenUpAtAPin => {
                let last = |count: u32| stack.residents.iter().rposition(|held| held.count == count);
                let fits = |p: &usize| *p >= stack.first_old() && !stack.residents[*p].marks.pinned;
                let of_chain = (1..=cmax).find_map(|count| last(count).filter(fits));
                let unpinned = stack.residents.iter().rposition(|held| !held.marks.pinned);
                of_chain.map(by_count).or(unpinned.map(|p| (p, cmax)))
            }
            _ => None,
        }
    }

    fn unpin(&mut self, which: impl Fn(u32, Marks) -> bool) {
        let held = self.stack.residents.iter_mut().filter(|held| which(held.block, held.marks));
        held.for_each(|held| held.marks.pinned = false);
    }

    fn after(&mut self, w: u32, answered: u32, were: &Were, out: &mut [u8]) {
        let halved = [answer::HIT, answer::ENTERED].contains(&kind(answered)) && value(answered) >= answer::HALVED;
        let was = |block: u32| were.get(&block).copied().unwrap_or_default();
        match (self.rule, kind(w), kind(answered)) {
            (Rule::HitUnpins, work::READ, answer::HIT) => self.unpin(|block, _| block == value(w)),
            (Rule::WriteUnpins, work::WRITE, answer::HIT) => self.unpin(|block, _| block == value(w)),
            (Rule::FlushUnpins, work::FLUSH, _) => self.unpin(|block, _| was(block).modified),
            (Rule::TickUnpins, work::TICK, _) => self.unpin(|block, marks| was(block).modified && !marks.modified),
            (Rule::HalvingUnpins, ..) if halved => self.unpin(|_, _| true),
            (Rule::EntersPinned, _, answer::ENTERED | answer::REPLACED) => {
                self.stack.residents[0].marks.pinned = true;
            }
            (Rule::RefusedReadIsBlockIn, work::READ, answer::ALL_PINNED) => self.stack.ins += 1,
            (Rule::RefusedReadKeepsBytes, work::READ, answer::ALL_PINNED) => out.fill(EARLIER),
            (Rule::PinMovesToFront, work::PIN, answer::PINNED) => {
                let held = self.stack.position(value(w)).map(|p| self.stack.residents.remove(p)).unwrap();
                self.stack.residents.insert(0, held);
            }
            _ => {}
        }
    }
}

impl Machine for Altered {
    fn run(&mut self, words: &[u32], incoming: &[u8]) -> (Vec<u32>, Vec<u8>) {
        let (mut answers, mut outgoing, mut taken) = (vec![], vec![], 0);
        for &w in words {
            let mut out = [EARLIER; B];
            let answered = self.one(w, &incoming[taken..taken + B], &mut out);
            let kept = self.rule == Rule::RefusedWriteKeepsIncoming && kind(answered) == answer::ALL_PINNED;
            if kind(w) == work::WRITE && !kept {
                taken += B;
            }
            if kind(w) == work::READ {
                outgoing.extend(out);
            }
            answers.push(answered);
        }
        (answers, outgoing)
    }
    fn counts(&self) -> Counts {
        counts_of(&self.stack)
    }
}

/// Work words, and the bytes of their writes and of one more.
type Batch = (Vec<u32>, Vec<u8>);

/// Settings, a store and batches; no two writes bring the same bytes.
fn history(rng: &mut Rng) -> (Settings, Vec<u8>, Vec<Batch>) {
    let n = rng.within(1, 10);
    let drawn = histories::settings(rng, n);
    let s = Settings { b: B as u32, m: drawn.m.min(40), ..drawn };
    let store = histories::bytes(rng, (s.m * s.b) as usize);
    let mut writes = 0u32;
    let mut one = |rng: &mut Rng| {
        let length = rng.within(1, 16) as usize;
        let words = histories::work_words(rng, s, length);
        let brought = of_kind(&words, work::WRITE) as u32 + 1;
        writes += brought;
        let incoming = (writes - brought + 1..=writes).flat_map(u32::to_le_bytes).collect();
        (words, incoming)
    };
    let batches = (0..20).map(|_| one(rng)).collect();
    (s, store, batches)
}

fn library(rng: &mut Rng, s: Settings, store: &[u8]) -> Beside {
    let data = histories::bytes(rng, (s.n * s.b) as usize);
    Beside::fresh(LIBRARY, s, vec![0; Map::of(s).length()], data, store.to_vec())
}

/// What a machine breaks along a history.
fn watched(machine: &mut impl Machine, watch: &mut Watch, batches: &[Batch]) -> BTreeSet<Broken> {
    let mut broken = BTreeSet::new();
    for (words, incoming) in batches {
        let (answers, outgoing) = machine.run(words, incoming);
        broken.extend(watch.broken_by(words, incoming, &answers, &outgoing, machine.counts()));
    }
    broken
}

#[test]
fn pinned_blocks_stay() {
    let mut rng = Rng::announced("pinned_blocks_stay", 331);
    let (mut seen, mut left) = (Seen::default(), 0);
    for _ in 0..1_000 {
        let (s, store, batches) = history(&mut rng);
        let (mut library, mut watch) = (library(&mut rng, s, &store), Watch::new(&store, s.n, s.b));
        assert_eq!(watched(&mut library, &mut watch, &batches), BTreeSet::new(), "{s:?}, {batches:x?}");
        seen.add(&library.seen);
        left += watch.left_beside_pinned;
    }
    println!("1,000 histories of 20 batches; {:?}; answers 1 to 9: {:?}", seen.pins, &seen.answers[1..]);
    println!("{left} blocks left beside pinned ones");
    assert!(seen.pins.all_above(200) && seen.answers[1..].iter().all(|&times| times > 500));
    assert!(left > 1_000);
}

/// Whether a batch leaves the library and another machine apart.
fn apart(library: &mut Beside, altered: &mut Altered, (words, incoming): &Batch) -> bool {
    let same = library.run(words, incoming) == altered.run(words, incoming);
    let held = residents(&library.dir, &library.data);
    let stores = library.store == altered.stack.store;
    !same || !stores || held != altered.stack.residents || library.counts() != altered.counts()
}

/// The watch finds the first twelve wrong rules, and the comparison of the library with a plain stack finds all of them.
#[test]
fn wrong_rules_are_noticed() {
    let mut rng = Rng::announced("wrong_rules_are_noticed", 332);
    for (rule, expected) in [(Rule::Requested, &[][..])].into_iter().chain(WRONG) {
        let (mut broken, mut differing) = (BTreeSet::new(), 0);
        for _ in 0..300 {
            let (s, store, batches) = history(&mut rng);
            let watch = &mut Watch::new(&store, s.n, s.b);
            broken.extend(watched(&mut Altered::new(s, &store, rule), watch, &batches));
            let (mut library, mut altered) = (library(&mut rng, s, &store), Altered::new(s, &store, rule));
            differing += u32::from(batches.iter().any(|batch| apart(&mut library, &mut altered, batch)));
        }
        println!("{rule:?}: {broken:?}; {differing} of 300 histories differ from the library's");
        assert!(expected.iter().all(|one| broken.contains(one)), "{rule:?}: {broken:?}");
        assert!(!expected.is_empty() || broken.is_empty(), "{rule:?}: {broken:?}");
        assert_eq!(rule == Rule::Requested, differing == 0, "{rule:?}");
        assert!(rule == Rule::Requested || differing > 10, "{rule:?}: {differing}");
    }
}
