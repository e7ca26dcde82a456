//! A cache under test beside the plain stack: the same calls to both, and everything compared after each.
use super::builder::Plan;
use super::directory::{entry, header, kind, settings_of, value, Map, VALUE_BITS};
use super::marks::Marks;
use super::occupancy::{self, Table};
use super::settings::directory_length;
use super::stack::{self, answer, work, Found, Lent, PlainStack, Watch};
use super::{fast_judge, judge};
use crate::Settings;
use std::collections::BTreeMap;
use std::hint::black_box;

pub type Batch = fn(&mut [u32], &mut [u8], &mut [u8], &[u32], &[u8], &mut [u32], &mut [u8]) -> u32;
/// A look at a block over directory, data and store: its present bytes to the front of a buffer; how many they are.
pub type Look = fn(&mut [u32], &mut [u8], &mut [u8], u32, &mut [u8]) -> usize;

/// The functions under test.
#[derive(Clone, Copy)]
pub struct Tested {
    pub fresh: fn(Settings, &mut [u32]) -> u32,
    pub batch: Batch,
    pub sound: fn(&[u32]) -> bool,
    pub look: Look,
    /// Of any words.
    pub occupancy: fn(&[u32]) -> (u32, Table),
}

/// What a batch brings, with the earlier contents of its buffers, and how far data and store are lent.
#[derive(Clone, Debug)]
pub struct Call {
    pub lent: Lent,
    pub work: Vec<u32>,
    pub incoming: Vec<u8>,
    pub answers: Vec<u32>,
    pub outgoing: Vec<u8>,
}

/// The numbers that fresh, batches and looks return, 0 among them.
pub const NUMBERS: usize = 13;

/// Returned numbers, answers by kind and answers with counts halved, each counted.
#[derive(Clone, Debug, Default, PartialEq, Eq)]
pub struct Seen {
    pub numbers: [u64; NUMBERS],
    pub answers: [u64; answer::KINDS],
    pub halved: u64,
    pub written_out: u64,
    pub most_chains: u32,
    pub highest_victim: u32,
    pub ticks: Ticks,
    pub pins: Pins,
    pub looks: u64,
    /// Looks that were lent more than the store.
    pub longer_looks: u64,
}

/// What ticks did, each of them one of three.
#[derive(Clone, Copy, Debug, Default, PartialEq, Eq)]
pub struct Ticks {
    pub wrote_out: u64,
    pub only_marked: u64,
    pub nothing: u64,
    /// Of those that wrote out, the ones that marked others as well.
    pub did_both: u64,
}

impl Ticks {
    /// A tick answered 0 has written out none: all that is modified after it has its mark from it.
    fn count(&mut self, after: &PlainStack, w: u32, answer: u32) {
        if kind(w) != work::TICK {
            return;
        }
        let modified = after.residents.iter().any(|resident| resident.marks.modified);
        match (value(answer), modified) {
            (0, false) => self.nothing += 1,
            (0, true) => self.only_marked += 1,
            _ => self.wrote_out += 1,
        }
        self.did_both += u64::from(value(answer) > 0 && modified);
    }

    fn add(&mut self, other: Ticks) {
        self.wrote_out += other.wrote_out;
        self.only_marked += other.only_marked;
        self.nothing += other.nothing;
        self.did_both += other.did_both;
    }

    /// Whether each of them was met so often.
    pub fn all_above(&self, times: u64) -> bool {
        [self.wrote_out, self.only_marked, self.nothing, self.did_both].iter().all(|&met| met > times)
    }
}

/// What pins do to a word. A miss of a full cache is one of the first five.
#[derive(Clone, Copy, Debug, PartialEq, Eq, PartialOrd, Ord)]
pub enum Met {
    SmallestCount,
    LeastRecentOld,
    LeastRecent,
    ReadRefused,
    WriteRefused,
    /// A pinned resident was passed over that would have been the victim.
    Passed,
    /// A block entered although all residents were pinned.
    EnteredBesidePinned,
    PurgeRefused,
}

/// How often each was met.
#[derive(Clone, Debug, Default, PartialEq, Eq)]
pub struct Pins(pub BTreeMap<Met, u64>);

impl Pins {
    const ALL: [Met; 8] = [
        Met::SmallestCount,
        Met::LeastRecentOld,
        Met::LeastRecent,
        Met::ReadRefused,
        Met::WriteRefused,
        Met::Passed,
        Met::EnteredBesidePinned,
        Met::PurgeRefused,
    ];

    fn count(&mut self, met: Met) {
        *self.0.entry(met).or_default() += 1;
    }

    /// A read or a write whose block is absent.
    fn miss(&mut self, stack: &PlainStack, w: u32) {
        let all_pinned = stack.residents.iter().all(|resident| resident.marks.pinned);
        if stack.residents.len() < stack.settings.n as usize {
            if all_pinned && !stack.residents.is_empty() {
                self.count(Met::EnteredBesidePinned);
            }
            return;
        }
        let Some((position, found)) = stack.victim() else {
            assert!(all_pinned);
            return self.count(if kind(w) == work::READ { Met::ReadRefused } else { Met::WriteRefused });
        };
        self.count(match found {
            Found::SmallestCount => Met::SmallestCount,
            Found::LeastRecentOld => Met::LeastRecentOld,
            Found::LeastRecent => Met::LeastRecent,
        });
        if position != without_pins(stack) {
            self.count(Met::Passed);
        }
    }

    fn add(&mut self, other: &Pins) {
        other.0.iter().for_each(|(&met, times)| *self.0.entry(met).or_default() += times);
    }

    /// Whether each of them was met so often.
    pub fn all_above(&self, times: u64) -> bool {
        Self::ALL.iter().all(|met| self.0.get(met).is_some_and(|&met| met > times))
    }
}

/// The position of the victim if no resident were pinned: the base's rule, for full caches.
pub fn without_pins(stack: &PlainStack) -> usize {
    let last = stack.residents.len() - 1;
    let old = stack.first_old()..=last;
    let smallest = old.clone().map(|p| stack.residents[p].count).min().unwrap();
    if smallest > stack.settings.cmax {
        return last;
    }
    old.rev().find(|&p| stack.residents[p].count == smallest).unwrap()
}

/// Counts along a batch.
struct Counters<'a> {
    ticks: &'a mut Ticks,
    pins: &'a mut Pins,
}

impl Watch for Counters<'_> {
    fn before(&mut self, stack: &PlainStack, w: u32) {
        if matches!(kind(w), work::READ | work::WRITE) && stack.position(value(w)).is_none() {
            self.pins.miss(stack, w);
        }
    }
    fn after(&mut self, stack: &PlainStack, w: u32, answer: u32) {
        self.ticks.count(stack, w, answer);
        if kind(answer) == answer::PURGE_REFUSED {
            self.pins.count(Met::PurgeRefused);
        }
    }
}

impl Seen {
    pub fn add(&mut self, other: &Seen) {
        self.numbers.iter_mut().zip(other.numbers).for_each(|(sum, times)| *sum += times);
        self.answers.iter_mut().zip(other.answers).for_each(|(sum, times)| *sum += times);
        self.halved += other.halved;
        self.written_out += other.written_out;
        self.most_chains = self.most_chains.max(other.most_chains);
        self.highest_victim = self.highest_victim.max(other.highest_victim);
        self.ticks.add(other.ticks);
        self.pins.add(&other.pins);
        self.looks += other.looks;
        self.longer_looks += other.longer_looks;
    }

    fn answered(&mut self, w: u32) {
        self.answers[kind(w) as usize] += 1;
        match kind(w) {
            answer::HIT | answer::ENTERED => self.halved += u64::from(value(w) >= answer::HALVED),
            answer::REPLACED => {
                self.written_out += u64::from(value(w) >= answer::WRITTEN_OUT);
                self.most_chains = self.most_chains.max(value(w) / answer::CHAIN % 128);
                self.highest_victim = self.highest_victim.max(value(w) % answer::CHAIN);
            }
            _ => {}
        }
    }
}

pub struct Beside {
    tested: Tested,
    pub dir: Vec<u32>,
    pub data: Vec<u8>,
    /// The store's M × B bytes, and what lies behind them.
    pub store: Vec<u8>,
    pub stack: PlainStack,
    /// Whether the quadratic judge is asked too.
    pub judged: bool,
    pub seen: Seen,
    /// Of the last accepted batch, and its outgoing buffer whole.
    pub last_answers: Vec<u32>,
    pub last_outgoing: Vec<u8>,
}

impl Beside {
    /// Starts a list: an accepted fresh over `earlier` words and any data.
    pub fn fresh(tested: Tested, s: Settings, earlier: Vec<u32>, data: Vec<u8>, store: Vec<u8>) -> Beside {
        let mut dir = earlier.clone();
        assert_eq!((tested.fresh)(s, &mut dir), 0, "fresh declined {s:?}");
        let length = directory_length(s) as usize;
        assert!(dir[length..] == earlier[length..], "fresh changed words past the directory: {s:?}");
        let stack = PlainStack::new(s, store);
        let beside = Beside { judged: true, ..Beside::taken(tested, dir, data, stack) };
        beside.check_state("fresh");
        beside
    }

    /// Starts from a plan's directory, with the plain stack of the same residents; `past` follows the directory.
    pub fn built(tested: Tested, plan: &Plan, past: &[u32], data: Vec<u8>, store: Vec<u8>) -> Beside {
        let b = plan.settings.b as usize;
        let held = |(p, &e): (usize, &u32)| stack::Resident {
            block: plan.residents[p].block,
            count: plan.residents[p].count,
            marks: Marks::of_word(plan.residents[p].marks),
            bytes: data[(e as usize - 1) * b..e as usize * b].to_vec(),
        };
        let mut stack = PlainStack::new(plan.settings, store);
        stack.residents = plan.arrangement.entries.iter().enumerate().map(held).collect();
        let t = plan.totals;
        (stack.reads, stack.writes, stack.ins, stack.outs) = (t.reads, t.writes, t.ins, t.outs);
        let dir = [&plan.build(), past].concat();
        let beside = Beside { judged: true, ..Beside::taken(tested, dir, data, stack) };
        beside.check_state("a built directory");
        beside
    }

    /// Goes on from where another list stands.
    pub fn taken(tested: Tested, dir: Vec<u32>, data: Vec<u8>, stack: PlainStack) -> Beside {
        let store = stack.store.clone();
        let (seen, last_answers, last_outgoing) = (Seen::default(), vec![], vec![]);
        Beside { tested, dir, data, store, stack, judged: false, seen, last_answers, last_outgoing }
    }

    /// The same batch to both; the number returned. Untouched parts are compared as well: buffers are compared whole.
    pub fn call(&mut self, call: &Call) -> u32 {
        let (mut answers, mut outgoing) = (call.answers.clone(), call.outgoing.clone());
        let watch = &mut Counters { ticks: &mut self.seen.ticks, pins: &mut self.seen.pins };
        let expected =
            self.stack.watched_batch(call.lent, &call.work, &call.incoming, &mut answers, &mut outgoing, watch);
        self.run(call, expected, &answers, &outgoing)
    }

    /// A call whose j-th write brings bytes that are all j; there are no zeros in its outgoing buffer.
    pub fn exact(&self, work: &[u32]) -> Call {
        let b = self.stack.settings.b as usize;
        let incoming = (0..work.len() * b).map(|i| (i / b + 1) as u8).collect();
        let (answers, outgoing) = (vec![0; work.len()], vec![0xee; work.len() * b]);
        Call { lent: self.stack.whole(), work: work.to_vec(), incoming, answers, outgoing }
    }

    /// That call, accepted and compared with the plain stack's; the answers as kind and value.
    pub fn answered(&mut self, work: &[u32]) -> Vec<(u32, u32)> {
        let call = self.exact(work);
        assert_eq!(self.call(&call), 0);
        self.last_answers.iter().map(|&w| (kind(w), value(w))).collect()
    }

    /// The modified words of the residents, most recent first.
    pub fn modified_words(&self) -> Vec<u32> {
        residents(&self.dir, &self.data).iter().map(|resident| resident.marks.word()).collect()
    }

    /// The batch over other directory words, which are not sound: 6, and nothing changes. No figures either.
    pub fn call_over(&mut self, unsound: Vec<u32>, call: &Call) {
        assert!(!judge::sound(&unsound) && !fast_judge::sound(&unsound), "the damage left the directory sound");
        assert_eq!((self.tested.occupancy)(&unsound), (6, occupancy::NONE), "occupancy of an unsound directory");
        let dir = std::mem::replace(&mut self.dir, unsound);
        self.run(call, 6, &call.answers, &call.outgoing);
        self.dir = dir;
    }

    /// A fresh that is declined, over the first words of the directory: nothing changes.
    pub fn declined_fresh(&mut self, s: Settings, length: usize, expected: u32) {
        let before = self.dir.clone();
        let number = (self.tested.fresh)(s, &mut self.dir[..length]);
        assert_eq!(number, expected, "fresh over {length} words: {s:?}");
        assert!(self.dir == before, "a declined fresh changed the directory: {s:?}");
        self.seen.numbers[number as usize] += 1;
    }

    fn run(&mut self, call: &Call, expected: u32, expected_answers: &[u32], expected_outgoing: &[u8]) -> u32 {
        let before = (self.dir.clone(), self.data.clone(), self.store.clone());
        let (mut answers, mut outgoing) = (call.answers.clone(), call.outgoing.clone());
        let (mut work, mut incoming) = (call.work.clone(), call.incoming.clone());
        let number = (self.tested.batch)(
            &mut self.dir,
            &mut self.data[..call.lent.data],
            &mut self.store[..call.lent.store],
            &work,
            &incoming,
            &mut answers,
            &mut outgoing,
        );
        black_box((&mut work, &mut incoming));
        let told = || format!("{:?}, {:?}, work {:x?}", self.stack.settings, call.lent, call.work);
        assert_eq!(number, expected, "the number returned: {}", told());
        assert!(work == call.work && incoming == call.incoming, "work or incoming changed: {}", told());
        assert!(answers == expected_answers, "answers {answers:x?}, not {expected_answers:x?}: {}", told());
        assert!(outgoing == expected_outgoing, "outgoing bytes: {}", told());
        self.seen.numbers[number as usize] += 1;
        if number != 0 {
            assert!(self.dir == before.0, "a refused batch changed the directory: {}", told());
            assert!(self.data == before.1 && self.store == before.2, "a refused batch changed bytes: {}", told());
            return number;
        }
        self.check_state(&told());
        let s = self.stack.settings;
        let length = directory_length(s) as usize;
        assert!(self.dir[..header::RESIDENTS] == before.0[..header::RESIDENTS], "settings words changed: {}", told());
        assert!(self.dir[length..] == before.0[length..], "words past the directory changed: {}", told());
        self.check_other_bytes(&before.1, call, &outgoing);
        answers.truncate(call.work.len());
        answers.iter().for_each(|&w| self.seen.answered(w));
        (self.last_answers, self.last_outgoing) = (answers, outgoing);
        0
    }

    /// A look at every block gives the plain stack's present bytes and changes nothing.
    pub fn look_at_every_block(&mut self) {
        let before = (self.dir.clone(), self.data.clone(), self.store.clone());
        let (Settings { b, m, .. }, whole) = (self.stack.settings, self.stack.whole());
        let mut present: Vec<&[u8]> = self.stack.store.chunks_exact(b as usize).take(m as usize).collect();
        self.stack.residents.iter().for_each(|held| present[held.block as usize] = &held.bytes);
        let mut out = vec![0; b as usize];
        for block in 0..m {
            let store = &mut self.store[..whole.store];
            let length = (self.tested.look)(&mut self.dir, &mut self.data, store, block, &mut out);
            assert_eq!(length, out.len(), "a look at block {block}: {:?}", self.stack.settings);
            assert!(out == present[block as usize], "the present bytes of block {block}: {:?}", self.stack.settings);
            self.seen.looks += 1;
        }
        // with what lies behind the store the part is empty
        if self.store.len() > whole.store {
            out.fill(0xa5);
            let length = (self.tested.look)(&mut self.dir, &mut self.data, &mut self.store, m - 1, &mut out);
            let kept = out.iter().all(|&byte| byte == 0xa5);
            assert!(length == 0 && kept, "a look over a longer store: {:?}", self.stack.settings);
            self.seen.longer_looks += 1;
        }
        assert!(self.dir == before.0 && self.data == before.1 && self.store == before.2, "a look changed something");
    }

    /// Residents along the stack links with their bytes from the data buffer, store, totals, occupancy and soundness.
    fn check_state(&self, told: &str) {
        let s = settings_of(&self.dir);
        assert_eq!(s, self.stack.settings, "settings words: {told}");
        let sound = fast_judge::sound(&self.dir) && (!self.judged || judge::sound(&self.dir));
        assert!(sound, "the directory is not sound after {told}");
        assert!((self.tested.sound)(&self.dir), "the library calls its own directory unsound after {told}");
        let residents = residents(&self.dir, &self.data);
        assert!(residents == self.stack.residents, "residents {residents:?}, not {:?}: {told}", self.stack.residents);
        assert!(self.store == self.stack.store, "store: {told}");
        let lows = [header::READS_LOW, header::WRITES_LOW, header::INS_LOW, header::OUTS_LOW];
        let stack = &self.stack;
        let totals = [stack.reads, stack.writes, stack.ins, stack.outs];
        assert_eq!(lows.map(|low| total(&self.dir, low)), totals, "totals: {told}");
        assert_eq!((self.tested.occupancy)(&self.dir), (0, occupancy::of_stack(stack)), "occupancy: {told}");
    }

    /// Data past N × B stays; bytes of an entry that is unused now stay, or came with this batch.
    fn check_other_bytes(&self, before: &[u8], call: &Call, outgoing: &[u8]) {
        let s = self.stack.settings;
        let (map, b) = (Map::of(s), s.b as usize);
        let owned = s.n as usize * b;
        assert!(self.data[owned..] == before[owned..], "data past N x B changed");
        let of_kind = |k: u32| call.work.iter().filter(|&&w| kind(w) == k).count() * b;
        let came = || outgoing[..of_kind(work::READ)].chunks(b).chain(call.incoming[..of_kind(work::WRITE)].chunks(b));
        for e in 1..=s.n {
            let place = (e as usize - 1) * b..e as usize * b;
            let now = &self.data[place.clone()];
            let unused = value(self.dir[map.entry(e, entry::COUNT)]) == 0;
            let kept = !unused || *now == before[place] || came().any(|bytes| bytes == now);
            assert!(kept, "bytes of unused entry {e}: {s:?}, work {:x?}", call.work);
        }
    }
}

fn total(dir: &[u32], low: usize) -> u64 {
    u64::from(value(dir[low])) + (u64::from(value(dir[low + 1])) << VALUE_BITS)
}

/// The residents of a sound directory, read off along the stack links.
pub fn residents(dir: &[u32], data: &[u8]) -> Vec<stack::Resident> {
    let s = settings_of(dir);
    let (map, b) = (Map::of(s), s.b as usize);
    let (mut residents, mut e) = (Vec::new(), value(dir[header::HEAD]));
    while e != 0 {
        residents.push(stack::Resident {
            block: value(dir[map.entry(e, entry::BLOCK)]),
            count: value(dir[map.entry(e, entry::COUNT)]),
            marks: Marks::of_word(value(dir[map.entry(e, entry::MODIFIED)])),
            bytes: data[(e as usize - 1) * b..e as usize * b].to_vec(),
        });
        e = value(dir[map.entry(e, entry::TOWARDS_TAIL)]);
    }
    residents
}
