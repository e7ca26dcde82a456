//! What the request says of ticks, watched from outside over random histories: a block that stays resident is written
//! out at the second tick after its first unsaved write at the latest, and no stream of writes delays that.
mod watch;

use cache_tests::reference::beside::{residents, Beside, Call, Seen};
use cache_tests::reference::builder::Totals;
use cache_tests::reference::directory::{kind, value, word, Map};
use cache_tests::reference::marks::Marks;
use cache_tests::reference::rng::Rng;
use cache_tests::reference::stack::{answer, work, PlainStack};
use cache_tests::reference::{histories, samples};
use cache_tests::{Settings, LIBRARY};
use std::collections::BTreeSet;
use watch::{Broken, Watch};

/// A cache under watch, one word a batch.
trait Machine {
    fn one(&mut self, w: u32, incoming: &[u8]) -> u32;
    fn store(&self) -> &[u8];
}

impl Machine for Beside {
    fn one(&mut self, w: u32, incoming: &[u8]) -> u32 {
        let (work, incoming, outgoing) = (vec![w], incoming.to_vec(), incoming.to_vec());
        let call = Call { lent: self.stack.whole(), work, incoming, answers: vec![0], outgoing };
        assert_eq!(self.call(&call), 0);
        self.last_answers[0]
    }
    fn store(&self) -> &[u8] {
        &self.store[..self.stack.whole().store]
    }
}

/// Other rules for ticks and marks, each wrong in one respect.
#[derive(Clone, Copy, Debug, PartialEq, Eq)]
enum Rule {
    Requested,
    WriteClearsSeen,
    TickWritesOutWhatItMarks,
    TickMarksNothing,
    TickCountsWhatItMarks,
    TickForgetsBytes,
    TickWritesOutUnmodified,
    TickLeavesSeen,
    FlushLeavesSeen,
    EntersSeen,
}

/// Each wrong rule, and what the watch must find.
const WRONG: [(Rule, &[Broken]); 9] = [
    (Rule::WriteClearsSeen, &[Broken::KeptWaiting, Broken::LostMore]),
    (Rule::TickWritesOutWhatItMarks, &[Broken::OtherNumber]),
    (Rule::TickMarksNothing, &[Broken::KeptWaiting, Broken::LostMore]),
    (Rule::TickCountsWhatItMarks, &[Broken::OtherNumber]),
    (Rule::TickForgetsBytes, &[Broken::KeptWaiting, Broken::OtherBytes]),
    (Rule::TickWritesOutUnmodified, &[Broken::OtherNumber]),
    (Rule::TickLeavesSeen, &[Broken::OtherNumber]),
    (Rule::FlushLeavesSeen, &[Broken::OtherNumber]),
    (Rule::EntersSeen, &[Broken::OtherNumber]),
];

/// The plain stack by another rule: altered before a word, or after it.
struct Altered {
    stack: PlainStack,
    rule: Rule,
}

impl Altered {
    fn before(&mut self, w: u32) {
        let (modified, others): (Vec<&mut Marks>, Vec<&mut Marks>) =
            self.stack.residents.iter_mut().map(|held| &mut held.marks).partition(|marks| marks.modified);
        let modified = modified.into_iter();
        match (self.rule, kind(w)) {
            (Rule::TickWritesOutWhatItMarks, work::TICK) => modified.for_each(|marks| marks.seen = true),
            (Rule::TickForgetsBytes, work::TICK) => {
                modified.filter(|marks| marks.seen).for_each(|marks| *marks = marks.written_out())
            }
            (Rule::TickWritesOutUnmodified, work::TICK) => {
                others.into_iter().for_each(|marks| (marks.modified, marks.seen) = (true, true))
            }
            _ => {}
        }
    }

    /// The answer by the rule; `was` are the marks before the word.
    fn after(&mut self, w: u32, answered: u32, was: &[Marks]) -> u32 {
        let mut marks = self.stack.residents.iter_mut().map(|held| &mut held.marks);
        let entered = matches!(kind(answered), answer::ENTERED | answer::REPLACED);
        let written = entered || kind(answered) == answer::HIT;
        match (self.rule, kind(w)) {
            (Rule::WriteClearsSeen, work::WRITE) if written => marks.next().unwrap().seen = false,
            (Rule::TickMarksNothing, work::TICK) => marks.for_each(|marks| marks.seen = false),
            // a tick moves no resident
            (Rule::TickLeavesSeen, work::TICK) => marks.zip(was).for_each(|(marks, was)| marks.seen |= was.seen),
            (Rule::FlushLeavesSeen, work::FLUSH) => marks.for_each(|marks| marks.seen = true),
            (Rule::EntersSeen, work::WRITE) if entered => marks.next().unwrap().seen = true,
            (Rule::TickCountsWhatItMarks, work::TICK) => {
                return answered + marks.filter(|marks| marks.seen).count() as u32;
            }
            _ => {}
        }
        answered
    }
}

impl Machine for Altered {
    fn one(&mut self, w: u32, incoming: &[u8]) -> u32 {
        let (mut answers, mut outgoing, whole) = ([0], vec![0; incoming.len()], self.stack.whole());
        self.before(w);
        let was: Vec<Marks> = self.stack.residents.iter().map(|held| held.marks).collect();
        assert_eq!(self.stack.batch(whole, &[w], incoming, &mut answers, &mut outgoing), 0);
        self.after(w, answers[0], &was)
    }
    fn store(&self) -> &[u8] {
        &self.stack.store
    }
}

/// A work word, and the bytes that it brings where it is a write.
type Word = (u32, [u8; 4]);

/// Settings, a store and words, every sixth of which is a tick or so; no two writes bring the same bytes.
fn history(rng: &mut Rng) -> (Settings, Vec<u8>, Vec<Word>) {
    let n = rng.within(1, 12);
    let drawn = histories::settings(rng, n);
    let s = Settings { b: 4, m: drawn.m.min(40), ..drawn };
    let store = histories::bytes(rng, (s.m * s.b) as usize);
    let words = histories::work_words(rng, s, 150);
    let ticked = words.into_iter().map(|w| if rng.one_in(6) { word(work::TICK, 0) } else { w });
    (s, store, ticked.zip(1u32..).map(|(w, j)| (w, j.to_le_bytes())).collect())
}

fn library(rng: &mut Rng, s: Settings, store: &[u8]) -> Beside {
    let data = histories::bytes(rng, (s.n * s.b) as usize);
    Beside::fresh(LIBRARY, s, vec![0; Map::of(s).length()], data, store.to_vec())
}

/// What a machine breaks along a history.
fn watched(machine: &mut impl Machine, watch: &mut Watch, words: &[Word]) -> BTreeSet<Broken> {
    let mut broken = BTreeSet::new();
    for &(w, incoming) in words {
        let answered = machine.one(w, &incoming);
        broken.extend(watch.broken_by(w, &incoming, answered, machine.store()));
    }
    broken
}

/// The request's own sentence, and what it means for the store: after every batch it has, of each block, bytes that the
/// block had since the second last tick.
#[test]
fn written_out_at_the_second_tick_at_the_latest() {
    let mut rng = Rng::announced("written_out_at_the_second_tick_at_the_latest", 313);
    let (mut seen, mut written_on, mut older) = (Seen::default(), 0, 0);
    for _ in 0..500 {
        let (s, store, words) = history(&mut rng);
        let (mut library, mut watch) = (library(&mut rng, s, &store), Watch::new(&store, s.b));
        assert_eq!(watched(&mut library, &mut watch, &words), BTreeSet::new(), "{s:?}, {words:x?}");
        assert!(watch.most_in_two_ticks <= s.n, "{s:?}, {words:x?}");
        seen.add(&library.seen);
        (written_on, older) = (written_on + watch.written_on, older + watch.older_than_a_tick);
    }
    println!("500 histories of 150 words; {:?}; answers 1 to 9: {:?}", seen.ticks, &seen.answers[1..]);
    println!("{written_on} writes to blocks that waited, {older} times the store of a block was older than a tick");
    assert!(seen.ticks.all_above(500) && seen.answers[1..].iter().all(|&times| times > 200));
    // without these, one tick would be bound enough, and no write could have put anything off
    assert!(written_on > 1_000 && older > 1_000);
}

/// A batch of reads and writes, and a tick at its end; the blocks that it replaced.
fn period(rng: &mut Rng, beside: &mut Beside) -> BTreeSet<u32> {
    let s = beside.stack.settings;
    let one = |rng: &mut Rng| word(rng.pick(&[work::READ, work::WRITE]), rng.within(0, s.m - 1));
    let mut words: Vec<u32> = (0..rng.below(12)).map(|_| one(rng)).collect();
    words.push(word(work::TICK, 0));
    let call = histories::call_of(rng, beside, words);
    assert_eq!(beside.call(&call), 0);
    let replaced = beside.last_answers.iter().filter(|&&answered| kind(answered) == answer::REPLACED);
    replaced.map(|&answered| value(answered) % answer::CHAIN).collect()
}
/// The residents whose bytes the store has.
fn saved(beside: &Beside) -> BTreeSet<u32> {
    let b = beside.stack.settings.b as usize;
    let stored = |block: u32| &beside.store[block as usize * b..][..b];
    let held = residents(&beside.dir, &beside.data).into_iter();
    held.filter(|held| held.bytes == stored(held.block)).map(|held| held.block).collect()
}

/// From built directories: what is modified, seen or not, and stays resident is written out at one of two ticks.
#[test]
fn two_ticks_from_built_directories() {
    let mut rng = Rng::announced("two_ticks_from_built_directories", 315);
    let (mut at_the_first, mut at_the_second, mut left) = (0, 0, 0);
    for _ in 0..2_000 {
        let n = rng.within(1, 24);
        let s = Settings { b: 8, ..histories::settings(&mut rng, n) };
        let mut plan = samples::plan(&mut rng, s);
        plan.totals = Totals { reads: 0, writes: 1_000, ins: 0, outs: 0 };
        let mut beside = histories::built_of(&mut rng, LIBRARY, &plan);
        let mut replaced = period(&mut rng, &mut beside);
        let first = saved(&beside);
        replaced.extend(period(&mut rng, &mut beside));
        let second = saved(&beside);
        for held in plan.residents.iter().filter(|held| held.is_modified()) {
            let stayed = !replaced.contains(&held.block);
            assert!(!stayed || first.contains(&held.block) || second.contains(&held.block), "{held:?} of {plan:?}");
            assert!(!stayed || held.marks & 2 == 0 || first.contains(&held.block), "{held:?} of {plan:?}");
            left += u32::from(!stayed);
            at_the_first += u32::from(stayed && first.contains(&held.block));
            at_the_second += u32::from(stayed && !first.contains(&held.block));
        }
    }
    println!("{at_the_first} blocks written out at the first tick, {at_the_second} at the second, {left} replaced");
    assert!([at_the_first, at_the_second, left].iter().all(|&blocks| blocks > 1_000));
}

/// The watch finds each wrong rule, and so does the comparison of the library with a plain stack that has it.
#[test]
fn wrong_rules_are_noticed() {
    let mut rng = Rng::announced("wrong_rules_are_noticed", 314);
    for (rule, expected) in [(Rule::Requested, &[][..])].into_iter().chain(WRONG) {
        let (mut broken, mut differing) = (BTreeSet::new(), 0);
        for _ in 0..60 {
            let (s, store, words) = history(&mut rng);
            let mut altered = Altered { stack: PlainStack::new(s, store.clone()), rule };
            broken.extend(watched(&mut altered, &mut Watch::new(&store, s.b), &words));
            let mut altered = Altered { stack: PlainStack::new(s, store.clone()), rule };
            let mut library = library(&mut rng, s, &store);
            differing += u32::from(words.iter().any(|&(w, incoming)| {
                let same = library.one(w, &incoming) == altered.one(w, &incoming);
                let held = residents(&library.dir, &library.data);
                !same || library.store != altered.stack.store || held != altered.stack.residents
            }));
        }
        println!("{rule:?}: {broken:?}; {differing} of 60 histories differ from the library's");
        assert!(expected.iter().all(|one| broken.contains(one)), "{rule:?}: {broken:?}");
        assert_eq!((rule == Rule::Requested), broken.is_empty() && differing == 0, "{rule:?}");
        assert!(rule == Rule::Requested || differing > 20, "{rule:?}: {differing}");
    }
}
