//! The soundness check beside three other judges: sound directories that no history need reach, and damaged ones.
mod damage;

use cache_tests::reference::builder::Plan;
use cache_tests::reference::rng::Rng;
use cache_tests::reference::samples;
use cache_tests::reference::settings::{sum_limit, MAX_AMAX, MAX_B, MAX_CMAX, MAX_COUNT, MAX_M, MAX_N};
use cache_tests::reference::stack::PlainStack;
use cache_tests::Settings;
use damage::tally::Tally;
use damage::{links, plans, regions, small_plan};

/// Corners that a sound directory has reached, each counted.
fn corners(plan: &Plan) -> Vec<&'static str> {
    let (s, r) = (plan.settings, plan.residents.len() as u32);
    let has_count = |count: u32| plan.residents.iter().any(|resident| resident.count == count);
    let has_marks = |marks: &[u32]| plan.residents.iter().any(|resident| marks.contains(&resident.marks));
    let crowded = (0..plan.map().buckets()).any(|bucket| s.n <= 64 && plan.bucket(bucket).len() >= 3);
    let long_chain = (1..=s.cmax).any(|count| s.n <= 64 && plan.chain(count).len() >= 3);
    let all = [
        (r == 0, "no residents"),
        (r > 0 && r < s.n, "part full"),
        (r == s.n, "full"),
        (s.nnew == 0, "Nnew 0"),
        (s.nold == s.n, "N - Nold 0"),
        (s.nnew + s.nold == s.n, "no middle section"),
        (s.cmax == 1, "Cmax 1"),
        (s.cmax == MAX_CMAX, "Cmax 64"),
        (s.amax == MAX_AMAX, "Amax 1,000"),
        (s.b == MAX_B, "B 4,096"),
        (s.m == MAX_M, "M 262,144"),
        (s.m < s.n, "M below N"),
        (has_count(MAX_COUNT), "count 65,535"),
        (plan.residents.iter().any(|resident| resident.count > s.cmax), "count above Cmax"),
        (plan.sum() == sum_limit(s), "sum at Amax x N"),
        (plan.totals.writes == plan.totals.outs + plan.modified(), "outs + modified = writes"),
        (plan.totals.ins == plan.totals.reads, "ins = reads"),
        (has_marks(&[1, 5]), "modified and unseen"),
        (has_marks(&[3, 7]), "modified and seen"),
        (has_marks(&[4]), "pinned alone"),
        (has_marks(&[5, 7]), "pinned and modified"),
        (r > 0 && plan.residents.iter().all(|resident| resident.marks >= 4), "all pinned"),
        (crowded, "three synonyms"),
        (long_chain, "three in a chain"),
    ];
    all.into_iter().filter(|corner| corner.0).map(|corner| corner.1).collect()
}

#[test]
fn sound_directories_are_accepted() {
    let mut rng = Rng::announced("sound_directories_are_accepted", 31);
    let (mut tally, mut reached) = (Tally::default(), Tally::default());
    for (times, low, high) in [(20_000, 1, 40), (600, 64, 100), (60, 512, 512), (12, MAX_N, MAX_N)] {
        for _ in 0..times {
            let n = rng.within(low, high);
            let s = samples::settings(&mut rng, n);
            let plan = samples::plan(&mut rng, s);
            assert!(tally.judge("all of them", &plan.build()), "{plan:?}");
            for corner in corners(&plan) {
                reached.count(corner, true);
            }
        }
    }
    tally.print("sound directories");
    reached.print("their corners");
    let names = [
        "no residents", "part full", "full", "Nnew 0", "N - Nold 0", "no middle section", "Cmax 1", "Cmax 64",
        "Amax 1,000", "B 4,096", "M 262,144", "M below N", "count 65,535", "count above Cmax", "sum at Amax x N",
        "outs + modified = writes", "ins = reads", "modified and unseen", "modified and seen", "pinned alone",
        "pinned and modified", "all pinned", "three synonyms", "three in a chain",
    ];
    for name in names {
        assert!(reached.of(name).0 >= 20, "{name} was reached {} times", reached.of(name).0);
    }
}

#[test]
fn all_settings_at_their_upper_limits() {
    let mut rng = Rng::announced("all_settings_at_their_upper_limits", 32);
    let mut tally = Tally::default();
    let s = Settings { n: MAX_N, nnew: 1_000, nold: 3_096, cmax: MAX_CMAX, amax: MAX_AMAX, b: MAX_B, m: MAX_M };
    for _ in 0..5 {
        let plan = samples::plan_of(&mut rng, s, MAX_N);
        assert!(tally.judge("full, N 4,096", &plan.build()));
    }
    tally.print("upper limits");
}

/// Directories of states that plain stacks reach, with any entry numbers and synonym orders.
#[test]
fn states_of_plain_stacks_are_accepted() {
    let mut rng = Rng::announced("states_of_plain_stacks_are_accepted", 38);
    let mut tally = Tally::default();
    for _ in 0..400 {
        let n = rng.within(1, 24);
        let s = Settings { b: rng.within(1, 4), m: rng.within(1, 4 * n), ..samples::settings(&mut rng, n) };
        let mut stack = PlainStack::new(s, vec![0; (s.m * s.b) as usize]);
        for _ in 0..10 {
            let length = rng.within(0, 60) as usize;
            let words = samples::work_words(&mut rng, s, length);
            let bytes = vec![1; length * s.b as usize];
            let (lent, mut answers, mut outgoing) = (stack.whole(), vec![0; length], bytes.clone());
            assert_eq!(stack.batch(lent, &words, &bytes, &mut answers, &mut outgoing), 0);
            let arrangement = samples::arrangement(&mut rng, n, stack.residents.len() as u32);
            let plan = Plan::of_stack(&stack, arrangement);
            assert!(tally.judge("after a batch", &plan.build()), "{plan:?}");
        }
    }
    tally.print("states of plain stacks");
}

/// The number of cases in each region and of each aimed damage.
const CASES: u64 = 1_200;
const AIMED_CASES: u64 = 400;

#[test]
fn words_of_every_region_damaged() {
    let mut rng = Rng::announced("words_of_every_region_damaged", 33);
    let mut tally = Tally::default();
    for region in regions::all() {
        let name = region.name();
        let two = format!("{name} and another");
        while tally.of(&name).1 + tally.of(&name).0 < CASES {
            let plan = small_plan(&mut rng, 40);
            // a few damages to each directory
            for _ in 0..3 {
                if let Some(words) = regions::one_word(region, &plan, &mut rng) {
                    tally.judge(&name, &words);
                }
                if let Some(words) = regions::two_words(region, &plan, &mut rng) {
                    tally.judge(&two, &words);
                }
            }
        }
        assert!(tally.of(&name).1 > 0 && tally.of(&two).1 > 0, "{name}: every damage left it sound");
    }
    tally.print("one or two words");
    let (sound, unsound) = tally.total();
    assert!(sound > 500 && unsound > 40_000, "{sound} sound, {unsound} unsound");
}

#[test]
fn whole_slices_damaged() {
    let mut rng = Rng::announced("whole_slices_damaged", 34);
    let mut tally = Tally::default();
    for (name, damage) in regions::WHOLE_SLICE {
        for _ in 0..CASES {
            let plan = small_plan(&mut rng, 40);
            tally.judge(name, &damage(&plan, &mut rng));
        }
    }
    tally.print("whole slices");
    assert_eq!(tally.of("truncated"), (0, CASES));
    assert_eq!(tally.of("extended"), (CASES, 0));
    for name in ["several words", "kinds", "two words swapped", "link redirected", "two entries swapped"] {
        assert!(tally.of(name).1 > CASES / 2, "{name}");
    }
}

#[test]
fn every_single_clause_is_needed() {
    let mut rng = Rng::announced("every_single_clause_is_needed", 35);
    let mut tally = Tally::default();
    for aimed in plans::AIMED.iter().chain(&links::AIMED) {
        let mut drawn = 0;
        while tally.of(aimed.name).0 + tally.of(aimed.name).1 < AIMED_CASES {
            drawn += 1;
            assert!(drawn < 1_000 * AIMED_CASES, "{}: hardly a directory suits it", aimed.name);
            let plan = small_plan(&mut rng, 40);
            let Some(words) = (aimed.damage)(&plan, &mut rng) else { continue };
            let verdict = tally.judge(aimed.name, &words);
            let as_expected = aimed.expected.is_none_or(|expected| verdict == expected);
            assert!(as_expected, "{}: judged {verdict}; {plan:?}", aimed.name);
        }
        if aimed.expected.is_none() {
            assert!(tally.of(aimed.name).1 > 0, "{}: every damage left it sound", aimed.name);
        }
    }
    tally.print("aimed at one clause");
}

#[test]
fn large_directories_damaged() {
    let mut rng = Rng::announced("large_directories_damaged", 36);
    let mut tally = Tally::default();
    for (n, times) in [(64, 4), (512, 2), (MAX_N, 1)] {
        let name = format!("N {n}, one word or aimed");
        for _ in 0..times {
            let s = samples::settings(&mut rng, n);
            let plan = samples::plan(&mut rng, s);
            for region in regions::all() {
                if let Some(words) = regions::one_word(region, &plan, &mut rng) {
                    tally.judge(&name, &words);
                }
            }
            for aimed in plans::AIMED.iter().chain(&links::AIMED) {
                if let Some(words) = (aimed.damage)(&plan, &mut rng) {
                    tally.judge(&name, &words);
                }
            }
        }
        assert!(tally.of(&name).0 > 0 && tally.of(&name).1 > 0, "{name}");
    }
    tally.print("large directories");
}

/// Every bit of every word of a small directory, one at a time.
#[test]
fn one_bit_wrong() {
    let mut rng = Rng::announced("one_bit_wrong", 37);
    let mut tally = Tally::default();
    for _ in 0..20 {
        let plan = small_plan(&mut rng, 8);
        let words = plan.build();
        for address in 0..words.len() {
            for bit in 0..32 {
                let mut damaged = words.clone();
                damaged[address] ^= 1 << bit;
                tally.judge("one bit", &damaged);
            }
        }
    }
    tally.print("one bit");
    let (sound, unsound) = tally.total();
    assert!(sound > 0 && unsound > 10 * sound);
}
