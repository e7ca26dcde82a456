//! The test load beside a second one that works on bits: numbers, every word of the lent slice, states, and batches of it.
use cache_tests::reference::directory::{value, word};
use cache_tests::reference::load::{declined, states, stepped, stepped_by, word_of, BAD_LOAD};
use cache_tests::reference::rng::Rng;
use cache_tests::reference::settings::MAX_M;
use cache_tests::reference::stack::work;
use cache_tests::reference::{histories, load as reference};
use cache_tests::{load, load_state, LIBRARY};

/// The seed of Marsaglia's paper.
const SEED: u32 = 2_463_534_242;
/// The most words of a load.
const MOST: u32 = work::MOST_WORDS as u32;

/// A load: seed, M, count and the lent words; its number.
type Draw = fn(u32, u32, u32, &mut [u32]) -> u32;

/// What a load is asked for, and the room lent.
#[derive(Clone, Copy, Debug)]
struct Asked {
    seed: u32,
    m: u32,
    count: u32,
    room: usize,
}

impl Asked {
    const GOOD: Asked = Asked { seed: SEED, m: 1_000, count: 16, room: 16 };

    fn declined(self) -> bool {
        declined(self.seed, self.m, self.count, self.room)
    }

    /// Whether two loads differ in their number or in a word, over the same earlier words.
    fn tells_apart(self, rng: &mut Rng, one: Draw, other: Draw) -> bool {
        let earlier = histories::words(rng, self.room);
        let drawn = |draw: Draw| {
            let mut words = earlier.clone();
            (draw(self.seed, self.m, self.count, &mut words), words)
        };
        drawn(one) != drawn(other)
    }
}

/// Seeds, M, counts and rooms at their limits and elsewhere.
fn asked(rng: &mut Rng) -> Asked {
    let near = [0, 1, 2, 3, 4, 1 << 31, u32::MAX, SEED];
    let seed = if rng.one_in(3) { rng.pick(&near) } else { rng.word() };
    let near = [0, 1, 2, 3, MAX_M - 1, MAX_M, MAX_M + 1, u32::MAX];
    let m = if rng.one_in(3) { rng.pick(&near) } else { rng.within(1, MAX_M) };
    let near = [0, 1, MOST - 1, MOST, MOST + 1, MOST + 2];
    let count = if rng.one_in(3) { rng.pick(&near) } else { rng.within(0, 40) };
    let room = match rng.below(4) {
        0 => (count as usize).saturating_sub(1),
        1 => count as usize + rng.pick(&[1, 7, 2_000]),
        _ => count as usize,
    };
    Asked { seed, m, count, room }
}

/// In how many of so many calls a load differs from the reference's.
fn differences(rng: &mut Rng, calls: u32, draw: Draw) -> usize {
    (0..calls).filter(|_| asked(rng).tells_apart(rng, draw, reference::load)).count()
}

#[test]
fn loads_beside_the_reference() {
    let mut rng = Rng::announced("loads_beside_the_reference", 171);
    assert_eq!(differences(&mut rng, 60_000, load), 0);
    let accepted = (0..60_000).filter(|_| !asked(&mut rng).declined()).count();
    println!("of so many calls some {accepted} are accepted");
    assert!((10_000..50_000).contains(&accepted));

    let (mut accepted, mut refused) = (0, 0);
    for _ in 0..60_000 {
        let Asked { seed, count, .. } = asked(&mut rng);
        assert_eq!(load_state(seed, count), reference::load_state(seed, count), "{seed} {count}");
        assert_eq!(load_state(seed, count) == 0, seed == 0 || count > MOST, "{seed} {count}");
        *(if seed == 0 || count > MOST { &mut refused } else { &mut accepted }) += 1;
    }
    println!("states of {accepted} loads, {refused} refused");
    assert!(accepted > 10_000 && refused > 5_000);
    assert_eq!((load_state(SEED, u32::MAX), load_state(0, 0)), (0, 0));
}

/// Each of the four reasons by itself, at the least that it takes; right beside it the load is accepted.
#[test]
fn each_reason_by_itself() {
    let good = Asked::GOOD;
    let mut rng = Rng::announced("each_reason_by_itself", 172);
    for (refused, accepted) in [
        (Asked { seed: 0, ..good }, Asked { seed: 1, ..good }),
        (Asked { m: 0, ..good }, Asked { m: 1, ..good }),
        (Asked { m: MAX_M + 1, ..good }, Asked { m: MAX_M, ..good }),
        (Asked { count: MOST + 1, room: 2_000, ..good }, Asked { count: MOST, room: 2_000, ..good }),
        (Asked { room: 15, ..good }, good),
        (Asked { count: 1, room: 0, ..good }, Asked { count: 0, room: 0, ..good }),
        (Asked { count: MOST, room: 1_023, ..good }, Asked { count: MOST, room: 1_024, ..good }),
    ] {
        for (one, expected) in [(refused, BAD_LOAD), (accepted, 0)] {
            assert!(!one.tells_apart(&mut rng, load, reference::load), "{one:?}");
            let mut words = vec![7; one.room];
            assert_eq!(load(one.seed, one.m, one.count, &mut words), expected, "{one:?}");
            let written = if expected == 0 { one.count as usize } else { 0 };
            assert!(words[written..].iter().all(|&word| word == 7), "{one:?}");
            assert!(words[..written].iter().all(|&word| word != 7), "{one:?}");
        }
    }
}

/// Every number of words that may be asked for, in room that is short, exact and long.
#[test]
fn every_count_of_words() {
    let mut rng = Rng::announced("every_count_of_words", 173);
    for count in 0..=MOST + 2 {
        for room in [count.saturating_sub(1), count, count + 1, count + 40] {
            let one = Asked { count, room: room as usize, ..Asked::GOOD };
            assert!(!one.tells_apart(&mut rng, load, reference::load), "{one:?}");
        }
    }
}

#[test]
fn the_first_states() {
    let published = [723_471_715, 2_497_366_906, 2_064_144_800];
    assert_eq!([1, 2, 3].map(|count| load_state(SEED, count)), published);
    assert!(states(SEED).take(3).eq(published));
    let mut words = [0; 3];
    assert_eq!(load(SEED, MAX_M, 3, &mut words), 0);
    assert_eq!(words, published.map(|state| word_of(MAX_M, state)));
}

#[test]
fn batch_after_batch_is_one_load() {
    let mut rng = Rng::announced("batch_after_batch_is_one_load", 174);
    for _ in 0..400 {
        let (seed, m) = (rng.word().max(1), rng.within(1, MAX_M));
        let (mut state, mut drawn) = (seed, vec![]);
        while drawn.len() < 3_000 {
            let mut words = vec![0; rng.within(0, MOST) as usize];
            assert_eq!(load(state, m, words.len() as u32, &mut words), 0);
            state = load_state(state, words.len() as u32);
            drawn.extend(words);
        }
        assert!(states(seed).map(|state| word_of(m, state)).take(drawn.len()).eq(drawn), "seed {seed}, M {m}");
    }
}

#[test]
fn states_without_a_repeat() {
    let mut all: Vec<u32> =
        std::iter::successors(Some(SEED), |&state| Some(load_state(state, 1))).take(1 << 20).collect();
    assert!(all.iter().skip(1).copied().eq(states(SEED).take((1 << 20) - 1)));
    all.sort_unstable();
    all.dedup();
    assert_eq!(all.len(), 1 << 20);
    assert!(!all.contains(&0));
}

/// A step is linear: of an exclusive or it is the exclusive or of the steps. So it is one to one where no combination of
/// the steps of single bits is 0: where they have 32 different highest bits after elimination.
#[test]
fn the_step_is_one_to_one() {
    let mut rng = Rng::announced("the_step_is_one_to_one", 175);
    for _ in 0..100_000 {
        let (a, b) = (rng.word(), rng.word());
        assert_eq!(load_state(a ^ b, 1), load_state(a, 1) ^ load_state(b, 1));
    }
    let mut highest = [0_u32; 32];
    for at in 0..32 {
        let mut step = load_state(1 << at, 1);
        while step != 0 && highest[31 - step.leading_zeros() as usize] != 0 {
            step ^= highest[31 - step.leading_zeros() as usize];
        }
        assert_ne!(step, 0, "bit {at}");
        highest[31 - step.leading_zeros() as usize] = step;
    }
}

/// Batches of loads, beside the plain stack: none gets 9, over any settings, drawn for as many blocks as the store has or
/// for fewer, whole or in parts.
#[test]
fn batches_of_loads_never_get_9() {
    let mut rng = Rng::announced("batches_of_loads_never_get_9", 176);
    let (mut batches, mut accepted, mut answers) = (0, 0, [0; 4]);
    for history in 0..300 {
        let n = rng.within(1, 60);
        let s = histories::settings(&mut rng, n);
        let mut beside = match history % 2 {
            0 => histories::fresh(&mut rng, LIBRARY, s),
            _ => histories::built(&mut rng, LIBRARY, s),
        };
        let m = if rng.one_in(2) { s.m } else { rng.within(1, s.m) };
        let mut seed = rng.word().max(1);
        for _ in 0..6 {
            let mut words = vec![0; rng.within(0, 80) as usize];
            assert_eq!(load(seed, m, words.len() as u32, &mut words), 0);
            seed = load_state(seed, words.len() as u32);
            for part in words.chunks(rng.within(1, 80) as usize) {
                let call = histories::call_of(&mut rng, &beside, part.to_vec());
                // a directory may be near the limit of its totals, 11
                let number = beside.call(&call);
                assert!([0, 11].contains(&number), "{number}, M {m} of {s:?}");
                (batches, accepted) = (batches + 1, accepted + u32::from(number == 0));
            }
        }
        answers.iter_mut().zip(beside.seen.answers).for_each(|(sum, times)| *sum += times);
    }
    println!("{batches} batches, {accepted} accepted; hits, entered and replaced: {:?}", &answers[1..]);
    assert!(accepted > 2_000 && answers[1..].iter().all(|&times| times > 2_000));
}

/// A load for more blocks than the store has does get 9, from the batch on that asks for one of them.
#[test]
fn a_load_for_a_larger_store_gets_9() {
    let mut rng = Rng::announced("a_load_for_a_larger_store_gets_9", 178);
    let mut refused = 0;
    for _ in 0..200 {
        let s = histories::settings(&mut rng, 8);
        let mut beside = histories::fresh(&mut rng, LIBRARY, s);
        let mut words = [0; 16];
        assert_eq!(load(rng.word().max(1), (2 * s.m).min(MAX_M), 16, &mut words), 0);
        let call = histories::call_of(&mut rng, &beside, words.to_vec());
        let outside = words.iter().any(|&word| value(word) >= s.m);
        assert_eq!(beside.call(&call), if outside { 9 } else { 0 }, "{words:?} over {s:?}");
        refused += u32::from(outside);
    }
    println!("{refused} of 200 batches got 9");
    assert!(refused > 100);
}

/// A load with another step, or another word for a state.
fn drawn(seed: u32, m: u32, count: u32, words: &mut [u32], step: fn(u32) -> u32, word: fn(u32, u32) -> u32) -> u32 {
    if declined(seed, m, count, words.len()) {
        return BAD_LOAD;
    }
    let mut state = seed;
    for place in &mut words[..count as usize] {
        state = step(state);
        *place = word(m, state);
    }
    0
}

/// What a careless reading makes of the request.
const WRONG: [(&str, Draw); 13] = [
    ("the seed unstepped", |seed, m, count, words| {
        let number = reference::load(seed, m, count, words);
        if number == 0 && count > 0 {
            words[..count as usize].rotate_right(1);
            words[0] = word_of(m, seed);
        }
        number
    }),
    ("left 5 first", |seed, m, count, words| {
        drawn(seed, m, count, words, |state| stepped_by([5, -17, 13], state), word_of)
    }),
    ("left for right", |seed, m, count, words| {
        drawn(seed, m, count, words, |state| stepped_by([-13, 17, -5], state), word_of)
    }),
    ("a write at 1", |seed, m, count, words| {
        let of = |m, state| word(if state % 4 == 1 { work::WRITE } else { work::READ }, state / 4 % m);
        drawn(seed, m, count, words, stepped, of)
    }),
    ("reads and writes exchanged", |seed, m, count, words| {
        let of = |m, state| word(if state % 4 == 0 { work::READ } else { work::WRITE }, state / 4 % m);
        drawn(seed, m, count, words, stepped, of)
    }),
    ("the block of the whole state", |seed, m, count, words| {
        let of = |m, state| word(if state % 4 == 0 { work::WRITE } else { work::READ }, state % m);
        drawn(seed, m, count, words, stepped, of)
    }),
    ("the seed 0 accepted", |seed, m, count, words| match seed {
        0 if !declined(1, m, count, words.len()) => {
            words[..count as usize].fill(word_of(m, 0));
            0
        }
        _ => reference::load(seed, m, count, words),
    }),
    ("a block too many", |seed, m, count, words| match m {
        _ if m == MAX_M + 1 => drawn(seed, MAX_M, count, words, stepped, |m, state| word_of(m + 1, state)),
        _ => reference::load(seed, m, count, words),
    }),
    ("1,024 words declined", |seed, m, count, words| match count {
        MOST => BAD_LOAD,
        _ => reference::load(seed, m, count, words),
    }),
    ("zero words declined", |seed, m, count, words| match count {
        0 => BAD_LOAD,
        _ => reference::load(seed, m, count, words),
    }),
    ("exact room declined", |seed, m, count, words| match words.len() == count as usize {
        true => BAD_LOAD,
        false => reference::load(seed, m, count, words),
    }),
    ("a word past the asked length", |seed, m, count, words| {
        let number = reference::load(seed, m, count, words);
        if let (0, Some(word)) = (number, words.get_mut(count as usize)) {
            *word = 0;
        }
        number
    }),
    ("13 after words were written", |seed, m, count, words| {
        let number = reference::load(seed, m, count, words);
        let fitting = words.len();
        if number == BAD_LOAD && !declined(seed, m, fitting as u32, fitting) {
            reference::load(seed, m, fitting as u32, words);
        }
        number
    }),
];

/// The comparison above finds out each of these.
#[test]
fn wrong_loads_are_found_out() {
    let mut rng = Rng::announced("wrong_loads_are_found_out", 177);
    for (name, wrong) in WRONG {
        let times = differences(&mut rng, 6_000, wrong);
        println!("{name}: {times} of 6,000 calls differ");
        assert!(times > 20, "{name}");
    }
}
