//! The link bound: a batch of one word, whatever its kind, changes few link words if it does not halve, from every
//! sound directory. Where order and counts stay, as at a flush, a tick, a pin or an unpin, it changes none.
use cache_tests::reference::beside::{Beside, Met};
use cache_tests::reference::directory::{kind, value, word, Map, LINK};
use cache_tests::reference::rng::Rng;
use cache_tests::reference::settings::MAX_N;
use cache_tests::reference::stack::{answer, work};
use cache_tests::reference::{histories, samples};
use cache_tests::{Settings, LIBRARY};

const BOUND: usize = 20;
/// By the kind of the answer; a tick's answer has the kind of a flush's, an unpin's that of a pin's. The last are
/// replacements that passed a pinned resident.
const NAMES: [&str; 12] = [
    "hit", "entered", "replaced", "purged", "absent", "flushed", "all pinned", "pinned", "purge refused", "ticked",
    "unpinned", "replaced past pins",
];
const TICKED: usize = 9;
const UNPINNED: usize = 10;
const PAST_PINS: usize = 11;
/// Those that change no link word.
const NONE: std::ops::RangeInclusive<usize> = 4..=UNPINNED;

/// The largest number of changed link words and how many batches, of each kind of answer.
#[derive(Default)]
struct Largest {
    changed: [usize; NAMES.len()],
    batches: [u64; NAMES.len()],
    halved: u64,
    /// Flushes and ticks that wrote out.
    wrote_out: [u64; 2],
}

impl Largest {
    fn print(&self, title: &str) {
        println!("{title}: link words changed, and batches; {} batches halved and do not count", self.halved);
        for (i, name) in NAMES.into_iter().enumerate() {
            println!("  {name:<18} {:>3} {:>9}", self.changed[i], self.batches[i]);
        }
    }

    /// One word, and the link words whose values differ after it.
    fn one(&mut self, rng: &mut Rng, beside: &mut Beside, w: u32) {
        let (before, passed) = (beside.dir.clone(), passed(beside));
        let call = histories::call_of(rng, beside, vec![w]);
        assert_eq!(beside.call(&call), 0);
        let answered = beside.last_answers[0];
        if matches!(kind(answered), answer::HIT | answer::ENTERED) && value(answered) >= answer::HALVED {
            self.halved += 1;
            return;
        }
        let s = beside.stack.settings;
        let map = Map::of(s);
        let links = (0..map.length()).filter(|&address| map.kind_at(address) == LINK);
        let changed = links.filter(|&address| value(before[address]) != value(beside.dir[address])).count();
        assert!(changed <= BOUND, "{changed} link words changed by {w:#x}, answer {answered:#x}, {s:?}");
        let i = match (kind(w), kind(answered)) {
            (work::TICK, _) => TICKED,
            (work::UNPIN, answer::PINNED) => UNPINNED,
            (_, answer::REPLACED) if self::passed(beside) > passed => PAST_PINS,
            (_, answered) => answered as usize - 1,
        };
        self.changed[i] = self.changed[i].max(changed);
        self.batches[i] += 1;
        if kind(answered) == answer::FLUSHED {
            self.wrote_out[usize::from(i == TICKED)] += u64::from(value(answered) > 0);
        }
    }

    /// None where order and counts stay; the others change the stack's ends at least.
    fn none_where_order_stays(&self) {
        assert!(self.changed[NONE].iter().all(|&changed| changed == 0), "{NAMES:?}: {:?}", self.changed);
        let moved = self.changed[..4].iter().chain(&self.changed[PAST_PINS..]);
        assert!(moved.into_iter().all(|&changed| changed >= 5));
        assert!(self.wrote_out.iter().all(|&times| times > 20), "{:?}", self.wrote_out);
    }
}

/// How many victims were found past a pinned resident so far.
fn passed(beside: &Beside) -> u64 {
    beside.seen.pins.0.get(&Met::Passed).copied().unwrap_or(0)
}

/// A sound directory whose totals leave room.
fn start(rng: &mut Rng, s: Settings) -> Beside {
    let mut plan = samples::plan(rng, s);
    if rng.one_in(2) {
        // few counts, so that chains are long and entries stand amid them
        let most = 3.min(s.amax);
        plan.residents.iter_mut().for_each(|resident| resident.count = rng.within(1, most));
    }
    (plan.totals.reads, plan.totals.writes, plan.totals.ins, plan.totals.outs) = (50, 5_000, 40, 0);
    histories::built_of(rng, LIBRARY, &plan)
}

/// The whole directory again, so that every word is tried from the same start.
fn again(beside: &Beside) -> Beside {
    Beside::taken(LIBRARY, beside.dir.clone(), beside.data.clone(), beside.stack.clone())
}

#[test]
fn every_position_of_small_directories() {
    let mut rng = Rng::announced("every_position_of_small_directories", 91);
    let mut largest = Largest::default();
    let directories = 1_500;
    for _ in 0..directories {
        let n = rng.within(1, 24);
        let mut s = histories::settings(&mut rng, n);
        s.b = s.b.min(4);
        let beside = start(&mut rng, s);
        let mut blocks: Vec<u32> = beside.stack.residents.iter().map(|resident| resident.block).collect();
        let absent: Vec<u32> = (0..s.m).filter(|block| !blocks.contains(block)).take(4).collect();
        blocks.extend(absent);
        for block in blocks {
            for k in histories::OF_A_BLOCK {
                largest.one(&mut rng, &mut again(&beside), word(k, block));
            }
        }
        for k in [work::FLUSH, work::TICK] {
            largest.one(&mut rng, &mut again(&beside), word(k, 0));
        }
    }
    println!("{directories} directories");
    largest.print("every position");
    assert!(largest.batches.iter().all(|&batches| batches > 500));
    largest.none_where_order_stays();
}

#[test]
fn larger_directories() {
    let mut rng = Rng::announced("larger_directories", 92);
    let mut largest = Largest::default();
    for (directories, n, words) in [(40, 100, 40), (10, 700, 40), (4, MAX_N, 30)] {
        for _ in 0..directories {
            let mut s = histories::settings(&mut rng, n);
            (s.b, s.m) = (1, 2 * n);
            let beside = start(&mut rng, s);
            let both = [word(work::FLUSH, 0), word(work::TICK, 0)];
            for w in histories::work_words(&mut rng, s, words).into_iter().chain(both) {
                largest.one(&mut rng, &mut again(&beside), w);
            }
        }
    }
    largest.print("N 100, 700 and 4,096");
    assert!(largest.batches[..3].iter().all(|&batches| batches > 20));
    largest.none_where_order_stays();
}

/// Along lists from fresh, word after word.
#[test]
fn along_histories() {
    let mut rng = Rng::announced("along_histories", 93);
    let mut largest = Largest::default();
    let histories = 600;
    for _ in 0..histories {
        let n = rng.within(1, 30);
        let mut s = histories::settings(&mut rng, n);
        s.b = 1;
        let mut beside = histories::fresh(&mut rng, LIBRARY, s);
        for _ in 0..4 {
            for w in histories::work_words(&mut rng, s, 40) {
                largest.one(&mut rng, &mut beside, w);
            }
        }
    }
    println!("{histories} histories");
    largest.print("along histories");
    assert!(largest.batches.iter().all(|&batches| batches > 200) && largest.halved > 100);
    largest.none_where_order_stays();
}
