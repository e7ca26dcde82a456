//! Damages to the list of residents, the totals or the settings: written down consistently everywhere, so that only one
//! clause can notice. Beside each limit stands the directory on the limit, which is sound.
use super::{either, position, sound, two_positions, unsound, Aimed};
use cache_tests::reference::builder::{Plan, Totals};
use cache_tests::reference::directory::{entry, header, number, value, word, MAX_VALUE, NUMBER};
use cache_tests::reference::marks;
use cache_tests::reference::rng::Rng;
use cache_tests::reference::samples;
use cache_tests::reference::settings::{sum_limit, MAX_AMAX, MAX_B, MAX_CMAX, MAX_COUNT, MAX_M, MAX_N};
use cache_tests::Settings;

pub const AIMED: [Aimed; 31] = [
    unsound("same block twice", same_block_twice),
    unsound("block M", block_m),
    unsound("block beyond M", block_beyond_m),
    sound("block M - 1", last_block),
    unsound("count 0", |plan, rng| with_count(plan, rng, 0)),
    unsound("count 65,536", |_, rng| high_count(rng, MAX_COUNT + 1)),
    sound("count 65,535", |_, rng| high_count(rng, MAX_COUNT)),
    unsound("modified word 2 or 6", |plan, rng| with_marks(plan, rng, &[2, 6])),
    unsound("modified word 8 or more", |plan, rng| with_marks(plan, rng, &[8, 9, 11, 12, 13, 15, 1 << 27, MAX_VALUE])),
    sound("modified word 0, 1, 3, 4, 5 or 7", |plan, rng| with_marks(plan, rng, &marks::LEGAL)),
    unsound("modified word of another kind", marks_of_a_kind),
    sound("seen is no second mark in the totals", all_seen),
    sound("a pin is no mark in the totals", |plan, _| all_pinned(plan, 0)),
    unsound("pinned residents, outs = writes + 1", |plan, _| all_pinned(plan, 1)),
    unsound("seen residents, outs + modified = writes + 1", one_seen_too_many),
    sound("sum at Amax x N", |plan, rng| with_sum(plan, rng, 0)),
    unsound("sum Amax x N + 1", |plan, rng| with_sum(plan, rng, 1)),
    unsound("sum word off by one", sum_word),
    unsound("word 14 or 15 not 0", zero_words),
    sound("ins = reads", |plan, _| with_ins(plan, plan.totals.reads)),
    unsound("ins = reads + 1", |plan, _| with_ins(plan, plan.totals.reads + 1)),
    unsound("ins above reads in the high word only", ins_high),
    sound("ins below reads in the high word only", reads_high),
    sound("outs + modified = writes", |plan, _| with_outs(plan, 0)),
    unsound("outs + modified = writes + 1", |plan, _| with_outs(plan, 1)),
    unsound("outs + modified carried past 56 bits", outs_carried),
    unsound("one setting beyond its limit", beyond_a_limit),
    sound("one setting on its limit", on_a_limit),
    unsound("sections overlap by one", overlapping_sections),
    unsound("Nold 0", no_old_section),
    either("Nnew, Nold off by one", boundaries_moved),
];

fn same_block_twice(plan: &Plan, rng: &mut Rng) -> Option<Vec<u32>> {
    let (a, b) = two_positions(plan, rng)?;
    let mut plan = plan.clone();
    plan.residents[b].block = plan.residents[a].block;
    Some(plan.build())
}

fn with_block(plan: &Plan, rng: &mut Rng, block: u32) -> Option<Vec<u32>> {
    let mut plan = plan.clone();
    let p = position(&plan, rng)?;
    plan.residents[p].block = block;
    Some(plan.build())
}
fn block_m(plan: &Plan, rng: &mut Rng) -> Option<Vec<u32>> {
    with_block(plan, rng, plan.settings.m)
}
fn block_beyond_m(plan: &Plan, rng: &mut Rng) -> Option<Vec<u32>> {
    let block = rng.within(plan.settings.m, MAX_VALUE);
    with_block(plan, rng, block)
}
fn last_block(plan: &Plan, rng: &mut Rng) -> Option<Vec<u32>> {
    let last = plan.settings.m - 1;
    let taken = plan.residents.iter().any(|resident| resident.block == last);
    if taken {
        return Some(plan.build());
    }
    with_block(plan, rng, last)
}

fn with_count(plan: &Plan, rng: &mut Rng, count: u32) -> Option<Vec<u32>> {
    let mut plan = plan.clone();
    let p = position(&plan, rng)?;
    plan.residents[p].count = count;
    Some(plan.build())
}

/// One high count in a cache whose sum may hold it.
fn high_count(rng: &mut Rng, count: u32) -> Option<Vec<u32>> {
    let n = rng.within(68, 100);
    let s = Settings { amax: MAX_AMAX, m: MAX_M, ..samples::settings(rng, n) };
    let mut plan = samples::plan(rng, s);
    for resident in &mut plan.residents {
        resident.count = 1 + resident.count % 2;
    }
    let p = position(&plan, rng)?;
    plan.residents[p].count = count;
    assert!(plan.sum() <= sum_limit(s));
    Some(plan.build())
}

/// With room for it in the totals, whatever it counts for.
fn with_marks(plan: &Plan, rng: &mut Rng, marks: &[u32]) -> Option<Vec<u32>> {
    let mut plan = plan.clone();
    let p = position(&plan, rng)?;
    plan.residents[p].marks = rng.pick(marks);
    plan.totals = Totals { writes: 1 << 40, outs: 0, ..plan.totals };
    Some(plan.build())
}
fn marks_of_a_kind(plan: &Plan, rng: &mut Rng) -> Option<Vec<u32>> {
    let mut words = plan.build();
    let e = plan.arrangement.entries[position(plan, rng)?];
    let address = plan.map().entry(e, entry::MODIFIED);
    let kinds: Vec<u32> = (0..16).filter(|&kind| kind != NUMBER).collect();
    words[address] = word(rng.pick(&kinds), value(words[address]));
    Some(words)
}
/// Every resident has both marks, and the totals have room for one each.
fn seen_by_all(plan: &Plan, above: u64) -> Option<Vec<u32>> {
    let mut plan = plan.clone();
    plan.residents.iter_mut().for_each(|resident| resident.marks = 3);
    let outs = 5 + above;
    plan.totals = Totals { writes: plan.modified() + 5, outs, ..plan.totals };
    (plan.modified() > 0).then(|| plan.build())
}
fn all_seen(plan: &Plan, _: &mut Rng) -> Option<Vec<u32>> {
    seen_by_all(plan, 0)
}
fn one_seen_too_many(plan: &Plan, _: &mut Rng) -> Option<Vec<u32>> {
    seen_by_all(plan, 1)
}

/// Every resident has a pin alone, and the totals have room for no modified one.
fn all_pinned(plan: &Plan, above: u64) -> Option<Vec<u32>> {
    let mut plan = plan.clone();
    plan.residents.iter_mut().for_each(|resident| resident.marks = marks::PINNED);
    plan.totals = Totals { writes: 5, outs: 5 + above, ..plan.totals };
    (!plan.residents.is_empty()).then(|| plan.build())
}

/// Counts that sum up to the limit and `above`.
fn with_sum(plan: &Plan, rng: &mut Rng, above: u64) -> Option<Vec<u32>> {
    let mut plan = plan.clone();
    let p = position(&plan, rng)?;
    let missing = sum_limit(plan.settings) + above - plan.sum();
    let count = u64::from(plan.residents[p].count) + missing;
    plan.residents[p].count = (count <= u64::from(MAX_COUNT)).then_some(count as u32)?;
    Some(plan.build())
}

fn sum_word(plan: &Plan, rng: &mut Rng) -> Option<Vec<u32>> {
    let mut words = plan.build();
    let sum = plan.sum() as u32;
    words[header::SUM] = number(if sum > 0 && rng.one_in(2) { sum - 1 } else { sum + 1 });
    Some(words)
}

fn zero_words(plan: &Plan, rng: &mut Rng) -> Option<Vec<u32>> {
    let mut words = plan.build();
    words[rng.pick(&[header::ZERO_A, header::ZERO_B])] = number(rng.pick(&[1, 2, plan.settings.n, MAX_VALUE]));
    Some(words)
}

fn with_ins(plan: &Plan, ins: u64) -> Option<Vec<u32>> {
    let mut plan = plan.clone();
    plan.totals.ins = (ins < 1 << 56).then_some(ins)?;
    Some(plan.build())
}
/// The low words alone would pass.
fn ins_high(plan: &Plan, rng: &mut Rng) -> Option<Vec<u32>> {
    let mut plan = plan.clone();
    let high = rng.below(1 << 27);
    plan.totals.reads = high << 28 | u64::from(MAX_VALUE);
    plan.totals.ins = (high + 1) << 28;
    Some(plan.build())
}
/// The low words alone would not pass.
fn reads_high(plan: &Plan, rng: &mut Rng) -> Option<Vec<u32>> {
    let mut plan = plan.clone();
    let high = rng.below(1 << 27);
    plan.totals.ins = high << 28 | u64::from(MAX_VALUE);
    plan.totals.reads = (high + 1) << 28;
    Some(plan.build())
}

fn with_outs(plan: &Plan, above: u64) -> Option<Vec<u32>> {
    let mut plan = plan.clone();
    let outs = plan.totals.writes - plan.modified() + above;
    plan.totals.outs = (outs < 1 << 56).then_some(outs)?;
    Some(plan.build())
}
/// Outs alone are at most writes, and their sum with the modified residents has 57 bits.
fn outs_carried(plan: &Plan, _: &mut Rng) -> Option<Vec<u32>> {
    let mut plan = plan.clone();
    (plan.modified() > 0).then_some(())?;
    plan.totals.writes = (1 << 56) - 1;
    plan.totals.outs = (1 << 56) - 1;
    Some(plan.build())
}

/// A part-full directory for settings that may be illegal; three residents at most, so that N may be anything.
fn few_residents(rng: &mut Rng, s: Settings) -> Option<Vec<u32>> {
    let most = s.n.min(s.m).min(3);
    let r = rng.within(0, most);
    let mut plan = samples::plan_of(rng, Settings { amax: s.amax.max(1), ..s }, r);
    plan.settings = s;
    Some(plan.build())
}
fn beyond_a_limit(plan: &Plan, rng: &mut Rng) -> Option<Vec<u32>> {
    let mut s = plan.settings;
    match rng.below(9) {
        0 => s.cmax = 0,
        1 => s.cmax = MAX_CMAX + 1,
        // an Amax of 0 leaves no room for residents
        2 => {
            s.amax = 0;
            return Some(cache_tests::reference::directory::fresh_words(s));
        }
        3 => s.amax = MAX_AMAX + 1,
        4 => s.b = 0,
        5 => s.b = MAX_B + 1,
        6 => {
            s.m = 0;
            return Some(cache_tests::reference::directory::fresh_words(s));
        }
        7 => s.m = MAX_M + 1,
        _ => s.n = MAX_N + 1,
    }
    few_residents(rng, s)
}
fn on_a_limit(plan: &Plan, rng: &mut Rng) -> Option<Vec<u32>> {
    let mut s = plan.settings;
    match rng.below(9) {
        0 => s.cmax = 1,
        1 => s.cmax = MAX_CMAX,
        2 => s.amax = 1,
        3 => s.amax = MAX_AMAX,
        4 => s.b = 1,
        5 => s.b = MAX_B,
        6 => s.m = 1,
        7 => s.m = MAX_M,
        _ => s.n = MAX_N,
    }
    few_residents(rng, s)
}

/// Sections as position and settings give them, new first.
fn overlapping_sections(plan: &Plan, _: &mut Rng) -> Option<Vec<u32>> {
    let mut plan = plan.clone();
    let s = plan.settings;
    plan.settings.nnew = s.n - s.nold + 1;
    Some(plan.build())
}
fn no_old_section(plan: &Plan, _: &mut Rng) -> Option<Vec<u32>> {
    let mut plan = plan.clone();
    plan.settings.nold = 0;
    Some(plan.build())
}

/// The words of one pair of boundaries under the header of another; a short list may not notice.
fn boundaries_moved(plan: &Plan, rng: &mut Rng) -> Option<Vec<u32>> {
    let mut words = plan.build();
    let s = plan.settings;
    if rng.one_in(2) {
        words[header::NNEW] = number(if s.nnew > 0 && rng.one_in(2) { s.nnew - 1 } else { s.nnew + 1 });
    } else {
        words[header::NOLD] = number(if rng.one_in(2) { s.nold - 1 } else { s.nold + 1 });
    }
    Some(words)
}
