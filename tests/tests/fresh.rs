//! Fresh directories: every word, every refusal, and what stays untouched.
use cache_tests::reference::directory::fresh_words;
use cache_tests::reference::rng::Rng;
use cache_tests::reference::settings::{self, MAX_AMAX, MAX_B, MAX_CMAX, MAX_M, MAX_N};
use cache_tests::reference::{fast_judge, judge, samples};
use cache_tests::{fresh, sound, Settings, BELT};

/// Earlier words of the slice: fresh writes over anything.
fn earlier(rng: &mut Rng, length: usize) -> Vec<u32> {
    (0..length).map(|_| rng.word()).collect()
}

/// The reference's number for a slice of this length.
fn expected_number(s: Settings, length: usize) -> u32 {
    match settings::number(s) {
        0 if (length as u64) < settings::directory_length(s) => 5,
        number => number,
    }
}

/// Lends a slice of random words of this length, checks all of it after the call and gives the number returned.
fn check(rng: &mut Rng, s: Settings, length: usize) -> u32 {
    let before = earlier(rng, length);
    let mut dir = before.clone();
    let number = fresh(s, &mut dir);
    assert_eq!(number, expected_number(s, length), "{s:?}, {length} words");
    if number != 0 {
        assert!(dir == before, "a refused call changed the slice: {s:?}, {length} words");
        return number;
    }
    let expected = fresh_words(s);
    assert!(dir[..expected.len()] == expected, "{s:?}");
    assert!(dir[expected.len()..] == before[expected.len()..], "words past the directory changed: {s:?}");
    assert!(sound(&dir) && judge::sound(&dir) && fast_judge::sound(&dir), "not sound: {s:?}");
    0
}

/// Exact length, one word short, and longer.
fn check_lengths(rng: &mut Rng, s: Settings) {
    let exact = settings::directory_length(s) as usize;
    assert_eq!(check(rng, s, exact), 0);
    assert_eq!(check(rng, s, exact - 1), 5);
    let longer = exact + rng.within(1, 40) as usize;
    assert_eq!(check(rng, s, longer), 0);
}

#[test]
fn corner_settings() {
    let mut rng = Rng::announced("corner_settings", 21);
    let mut cases = 0;
    for n in [1, 2, 3, 4, 5, 7, 8, 9, 63, 64, 65, 511, 512, 513, 2_048, 2_049, 4_095, 4_096] {
        for (nnew, nold) in [(0, 1), (0, n), (n - 1, 1), (n / 2, n - n / 2), (n / 4, (n * 3 / 5).max(1))] {
            for (cmax, amax, b, m) in [(1, 1, 1, 1), (MAX_CMAX, MAX_AMAX, MAX_B, MAX_M), (3, 100, 512, 1_000)] {
                check_lengths(&mut rng, Settings { n, nnew, nold, cmax, amax, b, m });
                cases += 3;
            }
        }
    }
    println!("{cases} calls with corner settings");
}

#[test]
fn random_legal_settings() {
    let mut rng = Rng::announced("random_legal_settings", 22);
    let cases = 3_000;
    for _ in 0..cases {
        let n = rng.within(1, 100);
        let s = samples::settings(&mut rng, n);
        check_lengths(&mut rng, s);
    }
    println!("{} calls with random legal settings", 3 * cases);
}

#[test]
fn numbers_on_and_beside_every_limit() {
    let mut rng = Rng::announced("numbers_on_and_beside_every_limit", 23);
    let mut seen = [0u32; 6];
    for _ in 0..40_000 {
        let n = if rng.one_in(12) { rng.pick(&[0, MAX_N, MAX_N + 1, u32::MAX]) } else { rng.within(1, 20) };
        let mut s = samples::settings(&mut rng, n.clamp(1, MAX_N));
        s.n = n;
        // spoil none, one or several
        for _ in 0..rng.below(3) {
            match rng.below(6) {
                0 => s.nold = rng.pick(&[0, n.wrapping_add(1), u32::MAX, n.saturating_sub(s.nnew).wrapping_add(1)]),
                1 => s.nnew = rng.pick(&[n, n.wrapping_add(1), u32::MAX, n.wrapping_sub(s.nold).wrapping_add(1)]),
                2 => s.cmax = rng.pick(&[0, 1, MAX_CMAX, MAX_CMAX + 1, u32::MAX]),
                3 => s.amax = rng.pick(&[0, 1, MAX_AMAX, MAX_AMAX + 1, u32::MAX]),
                4 => s.b = rng.pick(&[0, 1, MAX_B, MAX_B + 1, u32::MAX]),
                _ => s.m = rng.pick(&[0, 1, MAX_M, MAX_M + 1, u32::MAX]),
            }
        }
        let exact = settings::directory_length(s).min(50_000) as usize;
        let length = match rng.below(4) {
            0 => exact - 1,
            1 => rng.below(exact as u64 + 10) as usize,
            _ => exact,
        };
        seen[check(&mut rng, s, length) as usize] += 1;
    }
    println!("calls that returned 0 to 5: {seen:?}");
    assert!(seen.iter().all(|&times| times > 100));
}

#[test]
fn empty_and_short_slices() {
    let mut rng = Rng::announced("empty_and_short_slices", 24);
    let exact = settings::directory_length(BELT) as usize;
    for length in 0..exact {
        assert_eq!(check(&mut rng, BELT, length), 5);
    }
    assert_eq!(check(&mut rng, Settings { n: 0, ..BELT }, 0), 1);
    assert_eq!(check(&mut rng, Settings { nold: 0, ..BELT }, 0), 2);
    assert_eq!(check(&mut rng, Settings { cmax: 0, ..BELT }, 0), 3);
    assert_eq!(check(&mut rng, Settings { m: 0, ..BELT }, 0), 4);
    println!("{} short slices", exact + 4);
}

#[test]
fn fresh_over_a_directory_in_use() {
    let mut rng = Rng::announced("fresh_over_a_directory_in_use", 25);
    let cases = 500;
    for _ in 0..cases {
        let n = rng.within(1, 40);
        let s = samples::settings(&mut rng, n);
        let plan = samples::plan(&mut rng, s);
        let mut dir = plan.build();
        assert_eq!(fresh(s, &mut dir), 0);
        assert!(dir == fresh_words(s), "{s:?}");
    }
    println!("{cases} directories in use");
}
