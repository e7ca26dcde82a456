//! Sound directories and damaged ones, each judged by the library, by both judges of the reference and by the check in C.
pub mod links;
pub mod plans;
pub mod regions;
pub mod tally;

use cache_tests::reference::builder::Plan;
use cache_tests::reference::rng::Rng;
use cache_tests::reference::samples;

/// What the judges are to say: `None` where the damage may happen to leave the directory sound.
pub type Expected = Option<bool>;

/// A damage aimed at one clause. It gives no words where the directory has nothing for it to damage.
pub struct Aimed {
    pub name: &'static str,
    pub expected: Expected,
    pub damage: fn(&Plan, &mut Rng) -> Option<Vec<u32>>,
}

pub const fn unsound(name: &'static str, damage: fn(&Plan, &mut Rng) -> Option<Vec<u32>>) -> Aimed {
    Aimed { name, expected: Some(false), damage }
}
pub const fn sound(name: &'static str, damage: fn(&Plan, &mut Rng) -> Option<Vec<u32>>) -> Aimed {
    Aimed { name, expected: Some(true), damage }
}
pub const fn either(name: &'static str, damage: fn(&Plan, &mut Rng) -> Option<Vec<u32>>) -> Aimed {
    Aimed { name, expected: None, damage }
}

/// A sound directory of up to `most` cache blocks.
pub fn small_plan(rng: &mut Rng, most: u32) -> Plan {
    let n = rng.within(1, most);
    let s = samples::settings(rng, n);
    samples::plan(rng, s)
}

pub fn position(plan: &Plan, rng: &mut Rng) -> Option<usize> {
    let r = plan.residents.len() as u64;
    (r > 0).then(|| rng.below(r) as usize)
}

/// Two different positions, the smaller first.
pub fn two_positions(plan: &Plan, rng: &mut Rng) -> Option<(usize, usize)> {
    let (a, b) = (position(plan, rng)?, position(plan, rng)?);
    (a != b).then(|| (a.min(b), a.max(b)))
}
