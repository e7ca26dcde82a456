//! The most comparisons in the search for second residents: directories that take them, damaged ones that take no
//! more, and the pages. They are counted by going along the words as the check does, not in the library: that its own
//! searches are no longer is a theorem (`check_model/specs/SearchLaws`).
use cache_tests::reference::builder::home;
use cache_tests::reference::crowding::{self, compared, comparisons, comparisons_of_any_words, pairs, powers, sizes};
use cache_tests::reference::directory::{entry, header, link, settings_of, value, Map};
use cache_tests::reference::rng::Rng;
use cache_tests::reference::settings::{buckets, named, Profile, MAX_M, MAX_N};
use cache_tests::reference::{c_judge, fast_judge, judge, samples};
use cache_tests::Settings;
use std::fs;
use std::path::Path;

/// The verdict, if all four agree on it.
fn sound(words: &[u32]) -> bool {
    let verdict = judge::sound(words);
    let others = [cache_tests::sound(words), fast_judge::sound(words), c_judge::sound(words)];
    assert_eq!(others, [verdict; 3], "library, fast judge and C beside the judge: {:?}", settings_of(words));
    verdict
}

/// Comparisons while a check follows the lists of the buckets, up to the first entry that fails.
fn comparisons_made(words: &[u32]) -> u64 {
    let s = settings_of(words);
    let map = Map::of(s);
    let (mut left, mut made) = (value(words[header::RESIDENTS]), 0);
    for bucket in 0..map.buckets() {
        let mut in_front = vec![];
        let mut e = value(words[map.bucket(bucket)]);
        while e != 0 {
            if left == 0 || e > s.n || value(words[map.entry(e, entry::COUNT)]) == 0 {
                return made;
            }
            let block = value(words[map.entry(e, entry::BLOCK)]);
            if home(s, block) != bucket {
                return made;
            }
            for &other in &in_front {
                made += 1;
                if other == block {
                    return made;
                }
            }
            in_front.push(block);
            left -= 1;
            e = value(words[map.entry(e, entry::SYNONYM)]);
        }
    }
    made
}

#[test]
fn crowded_directories_take_the_most() {
    let mut rng = Rng::announced("crowded_directories_take_the_most", 101);
    for n in [64, 512, MAX_N] {
        let s = named(Profile::Unix, n, 512, MAX_M);
        let blocks = samples::crowded_blocks(&mut rng, s, n);
        let words = samples::plan_with(&mut rng, s, blocks).build();
        assert!(sound(&words), "N {n}");
        assert_eq!(comparisons_made(&words), comparisons(n, MAX_M), "N {n}");
        let blocks = samples::scattered_blocks(&mut rng, s, n);
        let words = samples::plan_with(&mut rng, s, blocks).build();
        assert!(sound(&words) && comparisons_made(&words) < comparisons(n, MAX_M) / 10, "N {n}, scattered");
    }
}

/// Words that are wrong in one respect: the last bucket with residents lists at its end a second one of the block in
/// front. With them, the comparisons.
fn second_resident_last(rng: &mut Rng, s: Settings) -> (Vec<u32>, u64) {
    let mut blocks = samples::crowded_blocks(rng, s, (s.n - 1).min(s.m));
    let mut listed = vec![0; buckets(s.n) as usize];
    blocks.iter().for_each(|&block| listed[home(s, block)] += 1);
    let last = listed.iter().rposition(|&k| k > 0).unwrap();
    let first = blocks.iter().position(|&block| home(s, block) == last).unwrap();
    let second = blocks.len();
    blocks.push(blocks[first]);
    let mut plan = samples::plan_with(rng, s, blocks);
    plan.arrangement.synonyms.retain(|&position| position != first && position != second);
    plan.arrangement.synonyms.extend([first, second]);
    let taken: u64 = listed.iter().copied().map(pairs).sum();
    (plan.build(), taken + listed[last])
}

#[test]
fn a_second_resident_behind_a_full_bucket() {
    let mut rng = Rng::announced("a_second_resident_behind_a_full_bucket", 102);
    for n in powers().skip(1) {
        let s = named(Profile::Unix, n, 512, MAX_M);
        let (words, taken) = second_resident_last(&mut rng, s);
        assert!(!sound(&words), "N {n}");
        assert_eq!(comparisons_made(&words), taken, "N {n}");
        let most = comparisons_of_any_words(n, MAX_M);
        // where one bucket has room for all, the order of the buckets does not matter
        let one_bucket = u64::from(n) <= crowding::fullest(n, MAX_M);
        assert!(taken == most || (taken < most && !one_bucket), "N {n}: {taken} of {most}");
    }
}

/// Among small stores there are such whose fullest bucket is the last: more is compared than in any sound directory.
#[test]
fn a_second_resident_behind_the_fullest_bucket() {
    let mut rng = Rng::announced("a_second_resident_behind_the_fullest_bucket", 103);
    let mut reached = 0;
    for (n, m) in (2..=16).flat_map(|n| (1..=60).map(move |m| (n, m))) {
        let s = Settings { m, ..samples::settings(&mut rng, n) };
        let (words, taken) = second_resident_last(&mut rng, s);
        assert!(!sound(&words), "N {n}, M {m}");
        assert_eq!(comparisons_made(&words), taken, "N {n}, M {m}");
        assert!(taken <= comparisons_of_any_words(n, m), "N {n}, M {m}");
        reached += u32::from(taken == comparisons_of_any_words(n, m) && taken > comparisons(n, m));
    }
    println!("in {reached} stores more than in a sound directory");
    assert!(reached > 20, "{reached}");
}

/// One to four links from buckets and of synonyms set at random.
fn damage(rng: &mut Rng, s: Settings, words: &mut [u32]) {
    let map = Map::of(s);
    for _ in 0..rng.within(1, 4) {
        let address = if rng.one_in(2) {
            map.bucket(rng.below(map.buckets() as u64) as usize)
        } else {
            map.entry(rng.within(1, s.n), entry::SYNONYM)
        };
        words[address] = link(rng.within(0, s.n + 1));
    }
}

#[test]
fn damaged_lists_take_no_more() {
    let mut rng = Rng::announced("damaged_lists_take_no_more", 104);
    let (mut verdicts, mut compared_any) = ([0, 0], 0);
    for _ in 0..6_000 {
        let n = rng.within(2, 40);
        let m = if rng.one_in(2) { rng.within(1, 3 * n) } else { rng.within(n, 3_000) };
        let s = Settings { m, ..samples::settings(&mut rng, n) };
        let blocks = samples::crowded_blocks(&mut rng, s, n.min(m));
        let mut words = samples::plan_with(&mut rng, s, blocks).build();
        damage(&mut rng, s, &mut words);
        let (verdict, taken) = (sound(&words), comparisons_made(&words));
        let most = if verdict { comparisons(n, m) } else { comparisons_of_any_words(n, m) };
        assert!(taken <= most, "N {n}, M {m}: {taken} of {most}, judged {verdict}");
        verdicts[usize::from(verdict)] += 1;
        compared_any += u32::from(taken > 0);
    }
    println!("{} unsound, {} sound; blocks were compared in {compared_any}", verdicts[0], verdicts[1]);
    assert!(verdicts[0] > 3_000 && verdicts[1] > 50 && compared_any > 3_000);
}

/// With the same buckets, more cache blocks never take fewer: the row of the next power of two is a bound.
#[test]
fn comparisons_do_not_fall_with_n() {
    for most in powers().skip(1) {
        let full = sizes(most, MAX_M);
        let second = [&[full[0] + 1], &full[1..]].concat();
        assert_eq!(sizes(most / 2 + 1, MAX_M), full);
        assert_eq!(
            (comparisons(most, MAX_M), comparisons_of_any_words(most, MAX_M)),
            (compared(most, &full), compared(most, &second))
        );
        for n in most / 2 + 1..most {
            assert!(compared(n, &full) <= compared(n + 1, &full), "N {n}");
            assert!(compared(n, &second) <= compared(n + 1, &second), "N {n}, any words");
            assert!(compared(n, &full) <= compared(n, &second), "N {n}, any words are fewer");
        }
        assert!(compared(most / 2, &full) < compared(most, &full), "N {most}");
    }
}

#[test]
fn comparisons_do_not_fall_with_m() {
    let mut rng = Rng::announced("comparisons_do_not_fall_with_m", 105);
    for n in powers().chain([3, 100, 3_000]) {
        let mut stores: Vec<u32> = (0..6).map(|_| rng.within(1, MAX_M)).chain([1, n, 4 * n, MAX_M]).collect();
        stores.sort_unstable();
        for pair in stores.windows(2) {
            assert!(comparisons(n, pair[0]) <= comparisons(n, pair[1]), "N {n}, M {pair:?}");
            assert!(comparisons_of_any_words(n, pair[0]) <= comparisons_of_any_words(n, pair[1]), "N {n}, M {pair:?}");
        }
    }
}

/// Asserts that each row begins a line of a page.
fn page_has(name: &str, rows: &[String]) {
    let page = fs::read_to_string(Path::new(env!("CARGO_MANIFEST_DIR")).join("../docs").join(name)).unwrap();
    let missing: Vec<&String> = rows.iter().filter(|row| !page.lines().any(|line| line.starts_with(*row))).collect();
    assert!(missing.is_empty(), "{name} lacks {missing:#?}");
}

#[test]
fn the_pages_have_the_tables() {
    let (rows, deadlines) = (crowding::rows(), crowding::deadline_rows());
    assert_eq!((rows.len(), deadlines.len()), (13, 7));
    page_has("BENCHMARK.md", &rows);
    page_has("MANUAL.md", &deadlines);
}
