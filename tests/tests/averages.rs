//! The average over residents: large purges beside the plain stack, the request's sentences watched from outside, wrong
//! rules that are noticed, and every small sum.
mod average_watch;

use average_watch::{Broken, Met, Watch};
use cache_tests::reference::beside::{residents, Beside};
use cache_tests::reference::builder::{Plan, Resident, Totals};
use cache_tests::reference::directory::{header, kind, value, word};
use cache_tests::reference::rng::Rng;
use cache_tests::reference::settings::{directory_length, MAX_AMAX};
use cache_tests::reference::stack::words::{PIN, PURGE, READ, WRITE};
use cache_tests::reference::stack::{answer, work, PlainStack};
use cache_tests::reference::{histories, samples};
use cache_tests::{tree, Settings, BELT, LIBRARY};
use std::collections::{BTreeMap, BTreeSet};

fn start(s: Settings, seed: u64) -> Beside {
    histories::fresh(&mut Rng::announced("an example", seed), LIBRARY, s)
}
fn counts(stack: &PlainStack) -> Vec<u32> {
    stack.residents.iter().map(|held| held.count).collect()
}
/// Books of the residents' counts.
fn books(stack: &PlainStack) -> BTreeMap<u32, u32> {
    stack.residents.iter().map(|held| (held.block, held.count)).collect()
}

/// Two blocks that are read in turn rise to 6 each; then the two others are purged.
#[test]
fn hot_blocks_after_a_purge() {
    let s = Settings { amax: 4, ..BELT };
    let mut belt = start(s, 401);
    let turns = [READ + 10, READ + 11].repeat(6);
    belt.answered(&[[READ + 12, READ + 13].as_slice(), &turns].concat());
    assert_eq!((counts(&belt.stack), value(belt.dir[header::SUM])), (vec![6, 6, 1, 1], 14));
    // 14 is at most 4 x 4, 13 and 12 exceed 4 x 3 and 4 x 2: but a purge does not look
    assert_eq!(belt.answered(&[PURGE + 12, PURGE + 13]), [(4, 0); 2]);
    assert_eq!(counts(&belt.stack), [6, 6]);
    // position 0 is new, so the count stays 6 and is halved all the same
    assert_eq!(belt.answered(&[READ + 11]), [(1, 6 + answer::HALVED)]);
    assert_eq!((counts(&belt.stack), value(belt.dir[header::SUM])), (vec![3, 3], 6));
    assert_eq!(belt.answered(&[READ + 10, READ + 11, READ + 10]), [(1, 4), (1, 4), (1, 5 + answer::HALVED)]);
}

/// One halving a word: after the first the sum, 6, exceeds 4 x 1 as well.
#[test]
fn once_a_word() {
    let mut four = start(Settings { nnew: 0, amax: 4, ..BELT }, 402);
    four.answered(&[[READ, READ + 1, READ + 2, READ + 3].as_slice(), &[READ; 9]].concat());
    four.answered(&[PURGE + 1, PURGE + 2, PURGE + 3]);
    let left = |four: &mut Beside, w: u32| (four.answered(&[w])[0], counts(&four.stack)[0]);
    assert_eq!(left(&mut four, READ), ((1, 11 + answer::HALVED), 6));
    assert_eq!(left(&mut four, WRITE), ((1, 7 + answer::HALVED), 4));
    assert_eq!(left(&mut four, READ), ((1, 5 + answer::HALVED), 3));
    assert_eq!(left(&mut four, READ), ((1, 4), 4));
}

/// The block that enters is one of the r residents: alone, 3 exceeds 2 x 1; with it, 4 doesn't exceed 2 x 2.
#[test]
fn a_block_that_enters_at_the_limit() {
    let s = Settings { n: 3, nnew: 1, nold: 1, cmax: 3, amax: 2, b: 8, m: 64 };
    let before = [READ, READ + 1, READ + 2, READ, READ + 1, READ, PURGE + 1, PURGE + 2];
    for w in [READ + 5, WRITE + 5] {
        let mut three = start(s, 403);
        three.answered(&before);
        assert_eq!(counts(&three.stack), [3]);
        assert_eq!(three.answered(&[w]), [(2, 0)]);
        assert_eq!(counts(&three.stack), [1, 3]);
        // alone again it is halved
        assert_eq!(three.answered(&[PURGE + 5, READ])[1], (1, 3 + answer::HALVED));
    }
    // from 4 alone a block that enters halves: 5 exceeds 2 x 2
    let mut rng = Rng::announced("a_block_that_enters_at_the_limit", 404);
    let plan = state(&mut rng, s, &[4]);
    let mut three = histories::built_of(&mut rng, LIBRARY, &plan);
    assert_eq!(three.answered(&[READ + 5]), [(2, answer::HALVED)]);
    assert_eq!(counts(&three.stack), [1, 2]);
}

/// Answer 7 looks at no count; neither does a purge, a flush, a tick or a pin.
#[test]
fn words_that_do_not_look() {
    let s = Settings { n: 2, nnew: 0, nold: 1, cmax: 1, amax: 3, b: 8, m: 64 };
    let mut rng = Rng::announced("words_that_do_not_look", 405);
    let plans = [&[5, 1][..], &[6]].map(|counts| state(&mut rng, s, counts));
    let [mut full, mut one] = plans.map(|plan| histories::built_of(&mut rng, LIBRARY, &plan));
    full.answered(&[PIN, PIN + 1]);
    assert_eq!(full.answered(&[READ + 9, WRITE + 9]), [(7, 0); 2]);
    assert_eq!(counts(&full.stack), [5, 1]);
    let still = [word(work::FLUSH, 0), word(work::TICK, 0), PIN, word(work::UNPIN, 0), PURGE + 9];
    one.answered(&still);
    assert_eq!(counts(&one.stack), [6]);
}

/// A directory of blocks 0, 1, .. with these counts by position, entries at random.
fn state(rng: &mut Rng, s: Settings, counts: &[u32]) -> Plan {
    let resident = |(p, &count): (usize, &u32)| Resident { block: p as u32, count, marks: 0 };
    let residents = counts.iter().enumerate().map(resident).collect();
    let totals = Totals { reads: 20, writes: 20, ins: 10, outs: 1 };
    Plan { settings: s, residents, totals, arrangement: samples::arrangement(rng, s.n, counts.len() as u32) }
}

/// All counts of r residents with a sum of at most `most`.
fn all_counts(r: u32, most: u32) -> Vec<Vec<u32>> {
    if r == 0 {
        return vec![vec![]];
    }
    let with = |first: u32| all_counts(r - 1, most - first).into_iter().map(move |rest| [vec![first], rest].concat());
    (1..=most.saturating_sub(r - 1)).flat_map(with).collect()
}

/// One word from every small sum: N up to 4, every r and every sum that is sound; each resident read and a block that
/// enters or replaces. The watch's books and the plain stack agree with what is left.
#[test]
fn every_small_sum() {
    let mut rng = Rng::announced("every_small_sum", 406);
    let (mut met, mut states) = (BTreeMap::new(), 0);
    for (n, amax) in [(1, 4), (2, 3), (3, 3), (4, 3)] {
        for nnew in 0..n {
            let s = Settings { n, nnew, nold: n - nnew, cmax: 2, amax, b: 1, m: 8 };
            for counts in (0..=n).flat_map(|r| all_counts(r, amax * n)) {
                let plan = state(&mut rng, s, &counts);
                for block in (0..plan.residents.len() as u32).chain([7]) {
                    let mut beside = histories::built_of(&mut rng, LIBRARY, &plan);
                    let mut watch = Watch::new(n, amax, books(&beside.stack));
                    // the read after it tells whether counts were halved once
                    let words = [READ + block, READ + block];
                    beside.answered(&words);
                    assert_eq!(watch.broken_by(&words, &beside.last_answers), [], "{plan:?}, block {block}");
                    watch.met.iter().for_each(|(&one, times)| *met.entry(one).or_insert(0) += times);
                    states += 1;
                }
            }
        }
    }
    println!("{states} words from every small sum; {met:?}");
    // nothing is purged or refused here
    assert!(Met::ALL[..7].iter().all(|one| met[one] > 100), "{met:?}");
}

// ---- histories with large purges

/// Words that warm some blocks, purge most of the others, and read again.
fn wave(rng: &mut Rng, s: Settings) -> Vec<u32> {
    let some = |rng: &mut Rng| rng.within(0, s.m - 1);
    let (hot, length) = (rng.within(1, s.n.min(s.m)), rng.within(4, 40));
    let warm = |rng: &mut Rng| {
        let block = if rng.one_in(4) { some(rng) } else { rng.within(0, hot - 1) };
        word(rng.pick(&[work::READ, work::READ, work::WRITE]), block)
    };
    let mut words: Vec<u32> = (0..length).map(|_| warm(rng)).collect();
    let (spared, most) = (rng.within(0, 2), if rng.one_in(6) { 3 } else { 60 });
    words.extend((spared..s.m).take(most).map(|block| PURGE + block));
    words.extend((0..rng.within(1, 12)).map(|_| match rng.below(12) {
        0 => word(work::TICK, 0),
        1 => PIN + some(rng),
        2..=4 => READ + some(rng),
        _ => READ + rng.within(0, hot - 1),
    }));
    words.push(word(work::UNPIN, some(rng)));
    words
}

fn small_average(rng: &mut Rng) -> Settings {
    let n = rng.within(1, 12);
    let drawn = histories::settings(rng, n);
    let nnew = if rng.one_in(2) { drawn.nnew.min(1) } else { drawn.nnew };
    Settings { amax: rng.within(1, 6), nnew, b: 1, m: rng.within(1, 40), ..drawn }
}

#[test]
fn large_purges() {
    let mut rng = Rng::announced("large_purges", 407);
    let (mut met, mut halved, mut replaced) = (BTreeMap::new(), 0, 0);
    for history in 0..3_000 {
        let s = small_average(&mut rng);
        let mut beside = match history % 3 {
            0 => {
                let mut plan = samples::plan(&mut rng, s);
                plan.totals = Totals { reads: 9, writes: 9 + plan.modified(), ins: 9, outs: 5 };
                histories::built_of(&mut rng, LIBRARY, &plan)
            }
            _ => histories::fresh(&mut rng, LIBRARY, s),
        };
        let mut watch = Watch::new(s.n, s.amax, books(&beside.stack));
        for _ in 0..8 {
            let words = wave(&mut rng, s);
            let call = histories::call_of(&mut rng, &beside, words.clone());
            assert_eq!(beside.call(&call), 0);
            assert_eq!(watch.broken_by(&words, &beside.last_answers), [], "{s:?}, {words:x?}");
        }
        beside.look_at_every_block();
        watch.met.iter().for_each(|(&one, times)| *met.entry(one).or_insert(0) += times);
        (halved, replaced) = (halved + beside.seen.halved, replaced + beside.seen.answers[answer::REPLACED as usize]);
    }
    println!("3,000 histories of 8 batches, {halved} halvings, {replaced} replacements; {met:?}");
    assert!(Met::ALL.iter().all(|one| met.get(one).is_some_and(|&times| times > 500)), "{met:?}");
    assert!(replaced > 5_000);
}

// ---- wrong rules

/// Other rules for the average, each wrong in one respect.
#[derive(Clone, Copy, Debug, PartialEq, Eq)]
enum Rule {
    Requested,
    ByAllEntries,
    ResidentsBefore,
    WhenReached,
    OnlyAfterARise,
    OnlyHits,
    Twice,
    UntilItFits,
    RoundedDown,
    TheHitIsSpared,
    AfterPurges,
    RefusedHalves,
}

/// Each wrong rule, and what the watch must find.
const WRONG: [(Rule, Broken); 11] = [
    (Rule::ByAllEntries, Broken::OtherMark),
    (Rule::ResidentsBefore, Broken::OtherMark),
    (Rule::WhenReached, Broken::OtherMark),
    (Rule::OnlyAfterARise, Broken::OtherMark),
    (Rule::OnlyHits, Broken::OtherMark),
    (Rule::Twice, Broken::OtherCount),
    (Rule::UntilItFits, Broken::OtherCount),
    (Rule::RoundedDown, Broken::OtherCount),
    (Rule::TheHitIsSpared, Broken::OtherCount),
    (Rule::AfterPurges, Broken::OtherCount),
    (Rule::RefusedHalves, Broken::OtherCount),
];

/// The plain stack with an Amax that no sum reaches, and the counts looked at by a rule after each word.
struct Altered {
    stack: PlainStack,
    amax: u64,
    rule: Rule,
}

impl Altered {
    fn new(s: Settings, store: &[u8], rule: Rule) -> Altered {
        let stack = PlainStack::new(Settings { amax: MAX_AMAX, ..s }, store.to_vec());
        Altered { stack, amax: s.amax.into(), rule }
    }

    fn run(&mut self, words: &[u32], incoming: &[u8]) -> Vec<u32> {
        let mut incoming = incoming.iter();
        words.iter().map(|&w| self.one(w, if kind(w) == work::WRITE { *incoming.next().unwrap() } else { 0 })).collect()
    }

    fn one(&mut self, w: u32, byte: u8) -> u32 {
        let before = books(&self.stack);
        let (mut answers, whole) = ([0], self.stack.whole());
        assert_eq!(self.stack.batch(whole, &[w], &[byte], &mut answers, &mut [0]), 0);
        let answered = answers[0];
        let looked = match (self.rule, kind(answered)) {
            (Rule::OnlyAfterARise, answer::HIT) => value(answered) > before[&value(w)],
            (Rule::OnlyHits, kind) => kind == answer::HIT,
            (Rule::AfterPurges, answer::PURGED) => true,
            (_, kind) => matches!(kind, answer::HIT | answer::ENTERED | answer::REPLACED),
        };
        let over = looked && self.exceeds(before.len() as u64);
        let refused = self.rule == Rule::RefusedHalves && kind(answered) == answer::ALL_PINNED;
        if over || refused {
            self.halve(kind(answered));
        }
        answered + if over && matches!(kind(answered), answer::HIT | answer::ENTERED) { answer::HALVED } else { 0 }
    }

    fn exceeds(&self, before: u64) -> bool {
        let sum: u64 = self.stack.residents.iter().map(|held| u64::from(held.count)).sum();
        let r = match self.rule {
            Rule::ByAllEntries => self.stack.settings.n.into(),
            Rule::ResidentsBefore => before,
            _ => self.stack.residents.len() as u64,
        };
        sum > self.amax * r || self.rule == Rule::WhenReached && sum == self.amax * r
    }

    fn halve(&mut self, answered: u32) {
        let spared = usize::from(self.rule == Rule::TheHitIsSpared && answered == answer::HIT);
        let down = self.rule == Rule::RoundedDown;
        let half = |count: u32| if down { (count / 2).max(1) } else { count.div_ceil(2) };
        let once = |stack: &mut PlainStack| {
            stack.residents.iter_mut().skip(spared).for_each(|held| held.count = half(held.count));
        };
        once(&mut self.stack);
        match self.rule {
            Rule::Twice => once(&mut self.stack),
            // counts of 1 stay
            Rule::UntilItFits => (0..16).for_each(|_| {
                if self.exceeds(0) {
                    once(&mut self.stack);
                }
            }),
            _ => {}
        }
    }
}

/// Work words, and a byte for each write.
type Batch = (Vec<u32>, Vec<u8>);

fn history(rng: &mut Rng) -> (Settings, Vec<u8>, Vec<Batch>) {
    let s = small_average(rng);
    let store = histories::bytes(rng, s.m as usize);
    let one = |rng: &mut Rng| {
        let mut words = wave(rng, s);
        if rng.one_in(4) {
            // all that may be resident is pinned, so that misses are refused
            words.extend((0..s.m).map(|block| PIN + block));
            words.extend((0..6).map(|_| READ + rng.within(0, s.m - 1)));
            words.extend((0..s.m).map(|block| word(work::UNPIN, block)));
        }
        let incoming = histories::bytes(rng, words.iter().filter(|&&w| kind(w) == work::WRITE).count());
        (words, incoming)
    };
    let batches = (0..8).map(|_| one(rng)).collect();
    (s, store, batches)
}

/// Whether a batch leaves the library and another machine apart.
fn apart(library: &mut Beside, altered: &mut Altered, (words, incoming): &Batch) -> bool {
    let outgoing = words.iter().filter(|&&w| kind(w) == work::READ).count();
    let mut call = library.exact(words);
    (call.incoming, call.outgoing) = (incoming.clone(), vec![0; outgoing]);
    assert_eq!(library.call(&call), 0);
    let same = library.last_answers == altered.run(words, incoming);
    !same || residents(&library.dir, &library.data) != altered.stack.residents || library.store != altered.stack.store
}

#[test]
fn wrong_rules_are_noticed() {
    let mut rng = Rng::announced("wrong_rules_are_noticed", 408);
    let requested = (Rule::Requested, None);
    for (rule, expected) in [requested].into_iter().chain(WRONG.map(|(rule, broken)| (rule, Some(broken)))) {
        let (mut broken, mut differing) = (BTreeSet::new(), 0);
        for _ in 0..300 {
            let (s, store, batches) = history(&mut rng);
            let (mut altered, mut watch) = (Altered::new(s, &store, rule), Watch::new(s.n, s.amax, BTreeMap::new()));
            for (words, incoming) in &batches {
                let answers = altered.run(words, incoming);
                broken.extend(watch.broken_by(words, &answers));
            }
            let data = histories::bytes(&mut rng, s.n as usize);
            let words = histories::words(&mut rng, directory_length(s) as usize);
            let mut library = Beside::fresh(LIBRARY, s, words, data, store.clone());
            let mut altered = Altered::new(s, &store, rule);
            differing += u32::from(batches.iter().any(|batch| apart(&mut library, &mut altered, batch)));
        }
        println!("{rule:?}: {broken:?}; {differing} of 300 histories differ from the library's");
        assert_eq!(expected.is_none(), broken.is_empty(), "{rule:?}: {broken:?}");
        assert!(expected.is_none_or(|one| broken.contains(&one)), "{rule:?}: {broken:?}");
        assert_eq!(expected.is_none(), differing == 0, "{rule:?}");
        assert!(expected.is_none() || differing > 10, "{rule:?}: {differing}");
    }
}

// ---- the manual's story

/// A round of the story: a read for each chute, and twenty flights' blocks.
fn round(chutes: std::ops::Range<u32>, i: u32) -> Vec<u32> {
    chutes.chain((0..20).map(|j| 8 + (20 * i + j) % 4_000)).map(|block| READ + block).collect()
}

/// Time, what happened, residents, sum and the counts of the four chutes.
fn line(time: &str, what: &str, stack: &PlainStack) -> String {
    let (held, sum) = (books(stack), counts(stack).iter().sum::<u32>());
    let [a, b, c, d] = [0, 1, 2, 3].map(|chute| held[&chute]);
    format!("{time}  {what:<31}  {:>9}  {sum:>4}  {a:>4} {b:>4} {c:>4} {d:>4}\n", held.len())
}

/// What the manual shows of a large purge, by a rule.
fn story(rule: Rule) -> String {
    let s = Settings { n: 64, nnew: 16, nold: 38, cmax: 8, amax: 100, b: 1, m: 4_008 };
    let mut told = "time   what                             residents   sum  counts of the chutes\n".to_string();
    let mut cache = Altered::new(s, &vec![0; s.m as usize], rule);
    (0..1_000).for_each(|i| drop(cache.run(&round(0..4, i), &[])));
    told += &line("21:55", "a day of four busy chutes", &cache.stack);
    let left: Vec<u32> =
        books(&cache.stack).into_keys().filter(|&block| block > 3).map(|block| PURGE + block).collect();
    cache.run(&left, &[]);
    told += &line("22:00", "the flights have left: a purge", &cache.stack);
    for (minute, chute) in (10..).zip([0, 1, 2, 3, 0]) {
        let halved = if value(cache.run(&[READ + chute], &[])[0]) >= answer::HALVED { ", halved" } else { "" };
        told += &line(&format!("22:{minute}"), &format!("a bag for chute {}{halved}", chute + 1), &cache.stack);
    }
    let mut rounds = 0;
    while cache.stack.residents.iter().any(|held| held.block < 4) {
        cache.run(&round(4..8, rounds), &[]);
        rounds += 1;
    }
    told + &format!("06:00  other chutes are busy: after {rounds} rounds the four have left\n")
}

#[test]
fn the_manuals_purge_before_and_after() {
    let manual = std::fs::read_to_string(tree::root().join("docs/MANUAL.md")).unwrap();
    for (rule, name) in [(Rule::Requested, "purge"), (Rule::ByAllEntries, "purge before")] {
        let shown = format!("\n```text {name}\n{}```\n", story(rule));
        assert!(manual.contains(&shown), "{shown}");
    }
}
