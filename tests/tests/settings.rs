//! Bucket counts, named settings, and the numbers 1 to 4.
use cache_tests::reference::rng::Rng;
use cache_tests::reference::settings::{self, Profile, MAX_AMAX, MAX_B, MAX_CMAX, MAX_M, MAX_N, PROFILES};
use cache_tests::{buckets, fresh, named, Settings, BELT};

/// The number that settings alone get: an empty directory is too short for legal ones.
fn settings_number(s: Settings) -> u32 {
    match fresh(s, &mut []) {
        5 => 0,
        number => number,
    }
}
fn which(profile: Profile) -> u32 {
    match profile {
        Profile::Unix => 0,
        Profile::C51 => 1,
        Profile::Cust11 => 2,
    }
}
fn in_order(s: Settings) -> [u32; 7] {
    [s.n, s.nnew, s.nold, s.cmax, s.amax, s.b, s.m]
}

const HUGE: [u32; 6] = [5_000, 65_536, 1 << 28, 1 << 31, (1 << 31) + 1, u32::MAX];

#[test]
fn bucket_counts() {
    let mut cases = 0;
    for n in (0..=4_200).chain(HUGE) {
        // the scope gives no bucket count to an N outside its limits; the library gives 0
        let expected = if (1..=MAX_N).contains(&n) { settings::buckets(n) } else { 0 };
        assert_eq!(u64::from(buckets(n)), expected, "N {n}");
        cases += 1;
    }
    println!("{cases} bucket counts");
}

#[test]
fn named_settings() {
    let mut rng = Rng::announced("named_settings", 11);
    let (mut cases, mut all_zero) = (0, 0);
    for profile in PROFILES {
        for n in (0..=4_200).chain(HUGE) {
            let (b, m) = (rng.word(), rng.word());
            let past = [rng.word(), rng.word(), rng.word()];
            let mut out = [rng.word(); 10];
            out[7..].copy_from_slice(&past);
            assert_eq!(named(which(profile), n, b, m, &mut out), 7);
            assert_eq!(out[..7], in_order(settings::named(profile, n, b, m)), "{profile:?}, N {n}");
            assert_eq!(out[7..], past, "{profile:?}, N {n}");
            cases += 1;
            all_zero += u32::from(out[..7] == [0; 7]);
        }
    }
    println!("{cases} named settings, {all_zero} of them all 0");
    assert_eq!(all_zero, 3 * (1 + 104 + HUGE.len() as u32));
}

#[test]
fn named_settings_of_legal_numbers_are_legal() {
    for profile in PROFILES {
        for n in 1..=MAX_N {
            let mut out = [0; 7];
            assert_eq!(named(which(profile), n, MAX_B, MAX_M, &mut out), 7);
            let [n, nnew, nold, cmax, amax, b, m] = out;
            assert_eq!(settings_number(Settings { n, nnew, nold, cmax, amax, b, m }), 0, "{profile:?}, N {n}");
        }
    }
    println!("{} named settings are legal", 3 * MAX_N);
}

#[test]
fn named_settings_without_name_or_room() {
    let mut cases = 0;
    for which in [3, 4, 255, u32::MAX] {
        for length in [0, 6, 7, 8] {
            let mut out = vec![0xdead_beef; length];
            assert_eq!(named(which, 100, 8, 64, &mut out), 0, "which {which}, {length} words");
            assert!(out.iter().all(|&w| w == 0xdead_beef));
            cases += 1;
        }
    }
    for which in 0..3 {
        for length in 0..7 {
            let mut out = vec![0xdead_beef; length];
            assert_eq!(named(which, 100, 8, 64, &mut out), 0, "which {which}, {length} words");
            assert!(out.iter().all(|&w| w == 0xdead_beef));
            cases += 1;
        }
    }
    println!("{cases} calls that wrote nothing");
}

#[test]
fn numbers_by_hand() {
    let most = Settings { n: MAX_N, nnew: 0, nold: MAX_N, cmax: MAX_CMAX, amax: MAX_AMAX, b: MAX_B, m: MAX_M };
    let cases = [
        (BELT, 0),
        (most, 0),
        (Settings { n: 1, nnew: 0, nold: 1, cmax: 1, amax: 1, b: 1, m: 1 }, 0),
        (Settings { n: 0, ..BELT }, 1),
        (Settings { n: MAX_N + 1, ..most }, 1),
        (Settings { n: u32::MAX, ..most }, 1),
        (Settings { nold: 0, ..BELT }, 2),
        (Settings { nnew: 2, nold: 2, ..BELT }, 0),
        (Settings { nnew: 3, nold: 2, ..BELT }, 2),
        (Settings { nnew: 2, nold: 3, ..BELT }, 2),
        // sums that would wrap to something small
        (Settings { nnew: u32::MAX, nold: 1, ..BELT }, 2),
        (Settings { nnew: u32::MAX, nold: 2, ..BELT }, 2),
        (Settings { nnew: u32::MAX, nold: u32::MAX, ..BELT }, 2),
        (Settings { nnew: 2, nold: u32::MAX, ..BELT }, 2),
        (Settings { nnew: 1 << 31, nold: (1 << 31) + 1, ..BELT }, 2),
        (Settings { cmax: 0, ..BELT }, 3),
        (Settings { cmax: MAX_CMAX + 1, ..BELT }, 3),
        (Settings { amax: 0, ..BELT }, 3),
        (Settings { amax: MAX_AMAX + 1, ..BELT }, 3),
        (Settings { b: 0, ..BELT }, 4),
        (Settings { b: MAX_B + 1, ..BELT }, 4),
        (Settings { m: 0, ..BELT }, 4),
        (Settings { m: MAX_M + 1, ..BELT }, 4),
        // the first that applies
        (Settings { n: 0, nnew: 0, nold: 0, cmax: 0, amax: 0, b: 0, m: 0 }, 1),
        (Settings { nold: 0, cmax: 0, b: 0, ..BELT }, 2),
        (Settings { amax: 0, m: 0, ..BELT }, 3),
    ];
    for (s, expected) in cases {
        assert_eq!(settings_number(s), expected, "{s:?}");
        assert_eq!(settings::number(s), expected, "{s:?}");
    }
    println!("{} settings by hand", cases.len());
}

#[test]
fn numbers_on_and_beside_every_limit() {
    let mut rng = Rng::announced("numbers_on_and_beside_every_limit", 12);
    let mut seen = [0u32; 5];
    let beside = |max: u32| [0, 1, 2, max - 1, max, max + 1, u32::MAX];
    for _ in 0..200_000 {
        // mostly legal, so that the later numbers are reached
        let mut draw = |max: u32| {
            if rng.one_in(6) {
                rng.pick(&beside(max))
            } else {
                rng.within(1, max)
            }
        };
        let (n, cmax, amax) = (draw(MAX_N), draw(MAX_CMAX), draw(MAX_AMAX));
        let (b, m) = (draw(MAX_B), draw(MAX_M));
        let nold = match rng.below(4) {
            0 => rng.pick(&[0, 1, n, n.wrapping_add(1), u32::MAX]),
            _ => rng.within(1, n.max(1)),
        };
        let rest = n.wrapping_sub(nold);
        let nnew = match rng.below(4) {
            0 => rng.pick(&[0, 1, rest, rest.wrapping_add(1), rest.wrapping_sub(1), u32::MAX]),
            _ => rng.within(0, rest.min(MAX_N)),
        };
        let s = Settings { n, nnew, nold, cmax, amax, b, m };
        let number = settings_number(s);
        assert_eq!(number, settings::number(s), "{s:?}");
        seen[number as usize] += 1;
    }
    println!("settings with number 0 to 4: {seen:?}");
    assert!(seen.iter().all(|&times| times > 1_000));
}
