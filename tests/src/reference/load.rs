//! The test load, by the request's text; written with the library's definitions known. A state is a row of bits, so that
//! a shift is a change of places and needs no cutting.
use super::directory::word;
use super::settings::MAX_M;
use super::stack::work;
use std::iter::successors;

/// The number of a declined load.
pub const BAD_LOAD: u32 = 13;

/// A state's bits, lowest first.
type Bits = [bool; 32];

/// Shifts of places, to the left above 0 and to the right below.
pub type Shifts = [isize; 3];
/// Left 13, right 17, left 5.
pub const SHIFTS: Shifts = [13, -17, 5];

/// Each bit beside the one that a shift brings to its place, if it brings one: do they differ?
fn mixed(bits: Bits, places: isize) -> Bits {
    let brought = |to: usize| to.checked_add_signed(-places).and_then(|from| bits.get(from)).is_some_and(|&bit| bit);
    std::array::from_fn(|at| bits[at] != brought(at))
}

/// The state after this one, by any three shifts.
pub fn stepped_by(shifts: Shifts, state: u32) -> u32 {
    let bits: Bits = std::array::from_fn(|at| state >> at & 1 == 1);
    let bits = shifts.into_iter().fold(bits, mixed);
    bits.iter().rev().fold(0, |state, &bit| 2 * state + u32::from(bit))
}
pub fn stepped(state: u32) -> u32 {
    stepped_by(SHIFTS, state)
}

/// The new states from a seed on, without end.
pub fn states(seed: u32) -> impl Iterator<Item = u32> {
    successors(Some(stepped(seed)), |&state| Some(stepped(state)))
}

/// The work word of a state.
pub fn word_of(m: u32, state: u32) -> u32 {
    let (quotient, remainder) = (state / 4, state % 4);
    word(if remainder == 0 { work::WRITE } else { work::READ }, quotient % m)
}

/// Whether a load into so much room is declined.
pub fn declined(seed: u32, m: u32, count: u32, room: usize) -> bool {
    seed == 0 || m < 1 || m > MAX_M || count as usize > work::MOST_WORDS || room < count as usize
}

/// Writes the words, or changes nothing and returns 13.
pub fn load(seed: u32, m: u32, count: u32, words: &mut [u32]) -> u32 {
    if declined(seed, m, count, words.len()) {
        return BAD_LOAD;
    }
    let front = &mut words[..count as usize];
    front.iter_mut().zip(states(seed)).for_each(|(word, state)| *word = word_of(m, state));
    0
}

/// The last of `count` new states, which the words that follow are drawn from; 0 for too many.
pub fn load_state(seed: u32, count: u32) -> u32 {
    if count as usize > work::MOST_WORDS {
        return 0;
    }
    states(seed).take(count as usize).last().unwrap_or(seed)
}
