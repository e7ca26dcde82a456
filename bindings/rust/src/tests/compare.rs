use super::BELT;
use crate::{Comparison, Improvement, Refusal, Settings, Work};

/// N blocks, all of them old.
fn old(n: u32) -> Settings {
    Settings { n, nnew: 0, nold: n, cmax: 3, amax: 100, b: 1, m: 8 }
}

#[test]
fn better_worse_and_even() {
    let better = Comparison::of_blocks(&old(2), &[1, 1, 0, 2, 5, 1, 5, 3, 1, 4, 4, 5]).unwrap();
    assert_eq!(better, Comparison { lru: 9, chosen: 7, opt: 7, gain: 2, possible: 2 });
    assert_eq!(better.improvement().to_string(), "100.0%");
    let worse = Settings { nold: 2, ..old(4) };
    let worse = Comparison::of_blocks(&worse, &[4, 5, 4, 3, 5, 0, 4, 3, 0, 2, 5, 3]).unwrap();
    assert_eq!(worse, Comparison { lru: 6, chosen: 7, opt: 5, gain: -1, possible: 1 });
    assert_eq!(worse.improvement().to_string(), "-100.0%");
    // no improvement is given, though the chosen settings are worse
    let even = Comparison::of_blocks(&old(3), &[4, 4, 5, 1, 0, 5, 5, 2, 3, 2, 5, 2]).unwrap();
    assert_eq!(even, Comparison { lru: 6, chosen: 8, opt: 6, gain: 0, possible: 0 });
    assert_eq!((even.improvement(), even.improvement().to_string().as_str()), (Improvement::None, "none"));
}

#[test]
fn what_is_declined() {
    let none = Comparison { lru: 0, chosen: 0, opt: 0, gain: 0, possible: 0 };
    assert_eq!(Comparison::of_blocks(&BELT, &[]), Ok(none));
    assert_eq!(Comparison::of_blocks(&BELT, &[63, 64]), Err(Refusal::BadTrace));
    assert_eq!(Comparison::of_blocks(&BELT, &[u32::MAX]), Err(Refusal::BadTrace));
    assert_eq!(Comparison::of_words(&BELT, &[Work::Read(3).word(), Work::Flush.word()]), Err(Refusal::BadTrace));
    assert!(Comparison::of_blocks(&BELT, &[5; Comparison::MOST_READS]).is_ok());
    assert_eq!(Comparison::of_blocks(&BELT, &[5; Comparison::MOST_READS + 1]), Err(Refusal::BadTrace));
    assert_eq!(Comparison::of_blocks(&Settings { nold: 0, ..BELT }, &[64]), Err(Refusal::BadSections));
}

/// To the nearest tenth of a percent, a half away from 0.
#[test]
fn percentages() {
    let of = |gain, possible| Improvement::Of { gain, possible }.to_string();
    assert_eq!([of(1, 3), of(2, 3), of(-1, 3), of(0, 7)], ["33.3%", "66.7%", "-33.3%", "0.0%"]);
    assert_eq!([of(1, 2_000), of(-1, 2_000), of(1, 2_001), of(-1, 2_001)], ["0.1%", "-0.1%", "0.0%", "0.0%"]);
    assert_eq!([of(4_095, 4_096), of(-4_095, 1)], ["100.0%", "-409500.0%"]);
    assert_eq!(
        format!("{:>8}|{:<8}|", Improvement::None, Improvement::Of { gain: 1, possible: 8 }),
        "    none|12.5%   |"
    );
}
