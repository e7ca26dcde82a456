//! The occupancy by count class beside the plain stack and a second reading of the words: the sixteen figures, the
//! numbers, every length of both slices, and that nothing changes.
mod damage;

use cache_tests::reference::beside::Beside;
use cache_tests::reference::builder::Plan;
use cache_tests::reference::directory::{entry, fresh_words, header, value, Map};
use cache_tests::reference::occupancy::{of_residents, of_stack, of_words, sums, Table, CLASSES, FIGURES, NONE};
use cache_tests::reference::rng::Rng;
use cache_tests::reference::settings::{sum_limit, MAX_AMAX, MAX_CMAX, MAX_COUNT, MAX_N};
use cache_tests::reference::{histories, samples};
use cache_tests::{batch, occupancy, table, Settings, BELT, LIBRARY};
use damage::tally::Tally;
use damage::{links, plans, regions, small_plan};
use std::hint::black_box;

/// Lengths of `out`: too short, exact and longer.
const LENGTHS: [usize; 5] = [0, FIGURES - 1, FIGURES, FIGURES + 1, 40];

/// The number and the figures for an `out` of each length: 10 comes before all else and writes nothing, and the rest of
/// a longer `out` stays. So does the directory.
fn check(rng: &mut Rng, dir: &[u32], expected: (u32, Table)) {
    for length in LENGTHS {
        let earlier = histories::words(rng, length);
        let (mut out, mut words) = (earlier.clone(), dir.to_vec());
        let number = occupancy(&words, &mut out);
        black_box(&mut words);
        assert!(words == dir, "the occupancy changed the directory");
        if length < FIGURES {
            assert_eq!((number, out), (10, earlier), "room for {length}");
        } else {
            assert_eq!((number, &out[..FIGURES]), (expected.0, &expected.1[..]), "room for {length}");
            assert!(out[FIGURES..] == earlier[FIGURES..], "words past the figures changed");
        }
    }
}

/// The columns add up to word 7, and to the modified words that are odd over all entries.
fn check_sums(dir: &[u32], s: Settings, table: &Table) {
    let marked = |e: u32| value(dir[Map::of(s).entry(e, entry::MODIFIED)]) % 2 == 1;
    let modified = (1..=s.n).filter(|&e| marked(e)).count();
    assert_eq!(sums(table), (value(dir[header::RESIDENTS]), modified as u32), "{s:?}");
}

/// The library's figures of a sound directory, which are those of the words and add up; counted by class.
fn compared(dir: &[u32], s: Settings, expected: Table, seen: &mut Table) {
    assert_eq!(of_words(dir), (0, expected), "the reference's two readings differ: {s:?}");
    assert_eq!(table(dir), (0, expected), "{s:?}");
    check_sums(dir, s, &expected);
    seen.iter_mut().zip(expected).for_each(|(sum, figure)| *sum += figure);
}

/// A history at every step: from fresh, or from a directory that no list of calls need lead to.
fn history(rng: &mut Rng, s: Settings, from_fresh: bool, calls: usize, most: u32, seen: &mut Table) {
    let mut beside = match from_fresh {
        true => histories::fresh(rng, LIBRARY, s),
        false => histories::built(rng, LIBRARY, s),
    };
    for _ in 0..calls {
        histories::go_on(rng, &mut beside, 1, most);
        compared(&beside.dir, s, of_stack(&beside.stack), seen);
    }
    check(rng, &beside.dir, (0, of_stack(&beside.stack)));
    // the quadratic judge is asked for small directories only
    if s.n <= 64 {
        let unsound = histories::unsound(rng, &beside.dir, s);
        check(rng, &unsound, (6, NONE));
    }
}

#[test]
fn histories_at_every_step() {
    let mut rng = Rng::announced("histories_at_every_step", 141);
    let (mut seen, mut tables) = (NONE, 0);
    for (times, low, high, calls, most) in
        [(2_000, 1, 40, 6, 60), (60, 64, 200, 4, 600), (6, 512, 1_000, 3, 1_024), (2, MAX_N, MAX_N, 2, 1_024)]
    {
        for one in 0..times {
            let n = rng.within(low, high);
            let mut s = histories::settings(&mut rng, n);
            s.m = s.m.min(2 * n.max(100));
            history(&mut rng, s, one % 2 == 0, calls, most, &mut seen);
        }
        tables += times * calls;
    }
    println!("{tables} tables of histories; residents and modified ones by class: {seen:?}");
    assert!(seen.iter().all(|&figure| figure > 100));
}

/// A plan of `n` cache blocks and the highest average limit, with these counts on residents drawn at random.
fn plan_of_counts(rng: &mut Rng, n: u32, counts: &[u32]) -> Plan {
    let s = Settings { amax: MAX_AMAX, m: rng.within(n, 4 * n), ..samples::settings(rng, n) };
    let r = rng.within(counts.len() as u32, n);
    let mut plan = samples::plan_of(rng, s, r);
    plan.residents.iter_mut().for_each(|resident| resident.count = 1);
    let mut positions: Vec<usize> = (0..plan.residents.len()).collect();
    rng.shuffle(&mut positions);
    positions.iter().zip(counts).for_each(|(&position, &count)| plan.residents[position].count = count);
    plan
}

fn of_plan(plan: &Plan) -> Table {
    of_residents(plan.residents.iter().map(|resident| (resident.count, resident.is_modified())))
}

/// Where the classes begin and end.
const EDGES: [u32; 14] = [1, 2, 3, 4, 5, 8, 9, 16, 17, 64, 65, 1_000, 1_001, MAX_COUNT];

#[test]
fn counts_at_every_edge_in_one_directory() {
    let mut rng = Rng::announced("counts_at_every_edge_in_one_directory", 142);
    let (mut seen, times) = (NONE, 2_000);
    for _ in 0..times {
        let n = rng.within(90, 130);
        let plan = plan_of_counts(&mut rng, n, &EDGES);
        assert!(plan.sum() <= sum_limit(plan.settings));
        let table = of_plan(&plan);
        // each edge gives its class a resident, and the others have count 1
        assert!(table[1..CLASSES] == [1, 2, 2, 2, 2, 2, 2] && table[0] + 13 == plan.residents.len() as u32);
        compared(&plan.build(), plan.settings, table, &mut seen);
    }
    println!("{times} directories with a count at every edge; by class: {seen:?}");
    assert!(seen.iter().all(|&figure| figure > 0));
}

/// One directory for each count. N = 1 has room for the counts up to Amax, N = 66 for every count.
#[test]
fn every_count() {
    let mut rng = Rng::announced("every_count", 143);
    for (n, most) in [(1, MAX_AMAX), (66, MAX_COUNT)] {
        let mut seen = NONE;
        for count in 1..=most {
            let plan = plan_of_counts(&mut rng, n, &[count]);
            compared(&plan.build(), plan.settings, of_plan(&plan), &mut seen);
        }
        println!("N {n}: {most} directories, one for each count; by class: {seen:?}");
    }
    let above = plan_of_counts(&mut rng, 1, &[MAX_AMAX + 1]).build();
    check(&mut rng, &above, (6, NONE));
}

/// Directories that no list of calls need lead to, also the largest.
#[test]
fn built_directories() {
    let mut rng = Rng::announced("built_directories", 144);
    let (mut seen, mut all) = (NONE, 0);
    for (times, low, high) in [(10_000, 1, 40), (600, 64, 300), (60, 512, 512), (20, MAX_N, MAX_N)] {
        for _ in 0..times {
            let n = rng.within(low, high);
            let s = samples::settings(&mut rng, n);
            let plan = samples::plan(&mut rng, s);
            compared(&plan.build(), s, of_plan(&plan), &mut seen);
            all += 1;
        }
    }
    println!("{all} built directories; residents and modified ones by class: {seen:?}");
    assert!(seen.iter().all(|&figure| figure > 1_000));
}

#[test]
fn fresh_directories_have_no_residents() {
    let mut rng = Rng::announced("fresh_directories_have_no_residents", 145);
    for n in (1..=40).chain([512, MAX_N]) {
        let s = samples::settings(&mut rng, n);
        check(&mut rng, &fresh_words(s), (0, NONE));
    }
}

/// 6 and no figures exactly where all judges say that the words are not sound.
fn judged(tally: &mut Tally, region: &str, words: &[u32]) -> bool {
    let (expected, sound) = (of_words(words), tally.judge(region, words));
    assert_eq!(sound, expected.0 == 0, "{region}");
    assert_eq!(table(words), expected, "{region}");
    sound
}

fn damaged(tally: &mut Tally, rng: &mut Rng, plan: &Plan) {
    for region in regions::all() {
        let damages = [regions::one_word(region, plan, rng), regions::two_words(region, plan, rng)];
        for words in damages.iter().flatten() {
            judged(tally, &region.name(), words);
        }
    }
    for (name, damage) in regions::WHOLE_SLICE {
        judged(tally, name, &damage(plan, rng));
    }
    for aimed in plans::AIMED.iter().chain(&links::AIMED) {
        let Some(words) = (aimed.damage)(plan, rng) else { continue };
        let sound = judged(tally, aimed.name, &words);
        assert!(aimed.expected.is_none_or(|expected| sound == expected), "{}", aimed.name);
    }
}

#[test]
fn damaged_directories() {
    let mut rng = Rng::announced("damaged_directories", 146);
    let mut tally = Tally::default();
    for _ in 0..1_200 {
        let plan = small_plan(&mut rng, 40);
        damaged(&mut tally, &mut rng, &plan);
    }
    tally.print("occupancy of damaged directories");
    let (sound, unsound) = tally.total();
    assert!(sound > 5_000 && unsound > 50_000, "{sound} sound, {unsound} unsound");
    // a modified mark that is set or cleared moves one figure, where the totals leave room; a seen mark moves none
    assert!(tally.of(&regions::Region::Resident(entry::MODIFIED).name()).0 > 100);
}

/// Every bit of every word of small directories, one at a time: a flip of a modified mark moves one figure, a flip of
/// a seen mark none.
#[test]
fn one_bit_wrong() {
    let mut rng = Rng::announced("one_bit_wrong", 147);
    let mut tally = Tally::default();
    for _ in 0..20 {
        let mut words = small_plan(&mut rng, 8).build();
        for (address, bit) in (0..words.len()).flat_map(|address| (0..32).map(move |bit| (address, bit))) {
            words[address] ^= 1 << bit;
            judged(&mut tally, "one bit", &words);
            words[address] ^= 1 << bit;
        }
    }
    tally.print("occupancy with one bit wrong");
    assert!(tally.total().0 > 100 && tally.total().1 > 10_000);
}

/// A directory lent shorter, whole and longer; what lies past it does not matter.
#[test]
fn lengths_of_the_directory() {
    let mut rng = Rng::announced("lengths_of_the_directory", 148);
    let mut lengths = 0;
    for _ in 0..20 {
        let plan = small_plan(&mut rng, 12);
        let words = plan.build();
        for length in 0..words.len() {
            check(&mut rng, &words[..length], (6, NONE));
        }
        for more in [0, 1, 9, 500] {
            let past = histories::words(&mut rng, more);
            check(&mut rng, &[&words[..], &past].concat(), (0, of_plan(&plan)));
        }
        lengths += words.len() + 4;
    }
    check(&mut rng, &[], (6, NONE));
    println!("{lengths} lengths of directories");
}

/// What a batch gives, and the memory that it leaves.
#[derive(PartialEq)]
struct Outcome {
    number: u32,
    answers: Vec<u32>,
    outgoing: Vec<u8>,
    dir: Vec<u32>,
    data: Vec<u8>,
    store: Vec<u8>,
}

/// A batch over copies of a history's memory, with or without an occupancy before it.
fn run(beside: &Beside, work: &[u32], asked: bool) -> Outcome {
    let (mut dir, mut data) = (beside.dir.clone(), beside.data.clone());
    let mut store = beside.store[..beside.stack.whole().store].to_vec();
    let bytes = work.len() * beside.stack.settings.b as usize;
    let (mut answers, incoming, mut outgoing) = (vec![0; work.len()], vec![0xaa; bytes], vec![0; bytes]);
    if asked {
        black_box(table(&dir));
    }
    let number = batch(&mut dir, &mut data, &mut store, work, &incoming, &mut answers, &mut outgoing);
    Outcome { number, answers, outgoing, dir, data, store }
}

#[test]
fn a_batch_goes_on_as_if_nothing_was_asked() {
    let mut rng = Rng::announced("a_batch_goes_on_as_if_nothing_was_asked", 149);
    let mut accepted = 0;
    for one in 0..600 {
        let n = rng.within(1, 40);
        let s = Settings { cmax: rng.within(1, MAX_CMAX), ..histories::settings(&mut rng, n) };
        let mut beside = match one % 2 {
            0 => histories::fresh(&mut rng, LIBRARY, s),
            _ => histories::built(&mut rng, LIBRARY, s),
        };
        histories::go_on(&mut rng, &mut beside, 3, 60);
        let work = histories::work_words(&mut rng, s, 50);
        let outcome = run(&beside, &work, false);
        assert!(outcome == run(&beside, &work, true), "{s:?}, work {work:x?}");
        accepted += u32::from(outcome.number == 0);
    }
    println!("600 batches with and without an occupancy before them, {accepted} accepted");
    assert!(accepted > 300);
}

/// Belt by hand: example a, with its last read a write.
#[test]
fn example_by_hand() {
    let mut rng = Rng::announced("example_by_hand", 150);
    let read = |block: u32| 1 << 28 | block;
    let work = [read(10), read(11), read(12), read(13), read(10), read(10), 2 << 28 | 14];
    let mut dir = fresh_words(BELT);
    let (mut data, mut store) = (vec![0; 32], vec![0; 512]);
    assert_eq!(batch(&mut dir, &mut data, &mut store, &work, &[1; 8], &mut [0; 7], &mut [0; 48]), 0);
    // 12, 13 and 14 have count 1, 10 has count 2; 14 is modified
    check(&mut rng, &dir, (0, [3, 1, 0, 0, 0, 0, 0, 0, 1, 0, 0, 0, 0, 0, 0, 0]));
}
