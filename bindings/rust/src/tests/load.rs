use super::{Lent, BELT};
use crate::{Answer, Load, Refusal, Work};

/// The seed of Marsaglia's paper, whose states are 723471715, 2497366906, 2064144800, ..
const SEED: u32 = 2_463_534_242;

#[test]
fn words_and_states() {
    let mut load = Load::new(SEED, 100, 2).unwrap();
    assert_eq!((load.state(), load.next()), (SEED, Some(vec![Work::Read(28), Work::Read(26)])));
    assert_eq!(load.state(), 2_497_366_906);
    assert_eq!(load.next().unwrap()[0], Work::Write(0));
    // the same words, however they are cut
    let whole = Load::new(SEED, 100, 1_000).unwrap().next();
    assert_eq!(Load::new(SEED, 100, 40).unwrap().take(25).flatten().collect::<Vec<Work>>(), whole.unwrap());
}

#[test]
fn what_is_declined() {
    assert_eq!(Load::new(0, 100, 2), Err(Refusal::BadLoad));
    assert_eq!(Load::new(1, 0, 2), Err(Refusal::BadLoad));
    assert_eq!(Load::new(1, 262_145, 2), Err(Refusal::BadLoad));
    assert_eq!(Load::new(1, 100, Load::MOST_WORDS + 1), Err(Refusal::BadLoad));
    assert!(Load::new(1, 1, 0).is_ok() && Load::new(u32::MAX, 262_144, Load::MOST_WORDS).is_ok());
}

/// Over lent memory as words and as `Work`: the same answers, and every batch is accepted.
#[test]
fn a_load_over_a_belt() {
    let (mut one, mut other) = (Lent::new(BELT), Lent::new(BELT));
    let mut load = Load::new(SEED, BELT.m, 100).unwrap();
    let mut words = load.clone();
    for batch in load.by_ref().take(20) {
        let given = one.answers(&batch);
        let (mut answers, mut outgoing) = ([0; 100], [0; 100 * 8]);
        let drawn = words.next_words().unwrap();
        other.memory().batch(&drawn, &[0; 100 * 8], &mut answers, &mut outgoing).unwrap();
        assert_eq!(answers.map(Answer::from_word).to_vec(), given);
    }
    assert_eq!(words, load);
    let (totals, belt) = (other.memory().totals().unwrap(), one.memory().totals().unwrap());
    assert_eq!((totals.reads + totals.writes, totals), (2_000, belt));
}
