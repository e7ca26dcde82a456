//! Damages to the links, most of them consistent lists in themselves: it takes the right clause to see what is wrong.
use super::{either, position, two_positions, unsound, Aimed};
use cache_tests::reference::builder::{home, section, write_bucket, write_chain, write_stack, write_unused, Plan};
use cache_tests::reference::directory::{entry, header, link, number, value, Map, NEW, OLD};
use cache_tests::reference::rng::Rng;

pub const AIMED: [Aimed; 35] = [
    unsound("stack: tail leads on into the stack", stack_cycle),
    unsound("stack: short cut with a cycle, r as before", stack_knot),
    unsound("stack: another order towards the head", stack_backward_order),
    unsound("stack: one resident skipped both ways", stack_skips),
    unsound("stack: r off by one", r_off_by_one),
    either("stack: two swapped, chains as before", stack_swapped),
    unsound("section word wrong", wrong_section),
    unsound("sections counted from the tail", sections_from_tail),
    unsound("word 11 off by one position", |plan, rng| boundary_off(plan, rng, header::AT_NNEW)),
    unsound("word 12 off by one position", |plan, rng| boundary_off(plan, rng, header::FIRST_OLD)),
    unsound("chain out of stack order", chain_out_of_order),
    unsound("chain: last one moved to its head", chain_rotated),
    unsound("chain: resident of another count in it", wrong_chain),
    unsound("chain: count above Cmax in chain Cmax", high_count_in_chain),
    unsound("chain: resident left off", left_off_chain),
    unsound("chain: empty one names an unlinked resident", |plan, rng| lone(plan, rng, true)),
    unsound("chain: empty one names an unused entry", |plan, rng| lone(plan, rng, false)),
    unsound("chain: ring", chain_ring),
    either("chain: heads and tails of two swapped", chains_swapped),
    unsound("bucket: resident in another one", wrong_bucket),
    unsound("bucket: resident left off", left_off_bucket),
    unsound("bucket: ring", bucket_ring),
    unsound("bucket: runs on into another", bucket_runs_on),
    unsound("bucket: ends in an unused entry", bucket_ends_unused),
    either("buckets by high byte first", |plan, _| Some(rehashed(plan, |block| block.swap_bytes(), home))),
    either("buckets by block number", |plan, _| {
        Some(rehashed(plan, |block| block, |s, block| block as usize % Map::of(s).buckets()))
    }),
    unsound("unused: ring", unused_ring),
    unsound("unused: one left off", unused_left_off),
    unsound("unused: ends in the tail resident", unused_ends_resident),
    unsound("unused: a resident of a full cache", full_with_unused),
    unsound("unused: entry N + 1 behind the directory", entry_past_n),
    unsound("unused: leads into the stack", unused_leads_into_stack),
    unsound("entry neither resident nor unused, all 0", |plan, rng| orphan(plan, rng, false)),
    unsound("unused entry with its old block", |plan, rng| orphan(plan, rng, true)),
    unsound("tail word wrong", wrong_tail),
];

fn stack_of(plan: &Plan) -> &[u32] {
    &plan.arrangement.entries
}
fn without(entries: &[u32], left_out: u32) -> Vec<u32> {
    entries.iter().copied().filter(|&e| e != left_out).collect()
}
fn some(entries: &[u32], rng: &mut Rng) -> Option<u32> {
    (!entries.is_empty()).then(|| rng.pick(entries))
}
fn when<T>(condition: bool, result: T) -> Option<T> {
    condition.then_some(result)
}

fn stack_cycle(plan: &Plan, rng: &mut Rng) -> Option<Vec<u32>> {
    let (mut words, map) = (plan.build(), plan.map());
    let again = some(stack_of(plan), rng)?;
    words[map.entry(*stack_of(plan).last()?, entry::TOWARDS_TAIL)] = link(again);
    Some(words)
}
fn stack_knot(plan: &Plan, rng: &mut Rng) -> Option<Vec<u32>> {
    let (mut words, map) = (plan.build(), plan.map());
    let (a, b) = two_positions(plan, rng)?;
    words[map.entry(stack_of(plan)[b], entry::TOWARDS_TAIL)] = link(stack_of(plan)[a]);
    Some(words)
}
/// Both orders list the residents, each of them once.
fn stack_backward_order(plan: &Plan, rng: &mut Rng) -> Option<Vec<u32>> {
    let (mut words, map) = (plan.build(), plan.map());
    let (a, b) = two_positions(plan, rng)?;
    let (mut other_order, mut other) = (stack_of(plan).to_vec(), words.clone());
    other_order.swap(a, b);
    write_stack(&mut other, map, &other_order);
    words[header::TAIL] = other[header::TAIL];
    for &e in stack_of(plan) {
        let address = map.entry(e, entry::TOWARDS_HEAD);
        words[address] = other[address];
    }
    Some(words)
}
fn stack_skips(plan: &Plan, rng: &mut Rng) -> Option<Vec<u32>> {
    let mut words = plan.build();
    let skipped = some(stack_of(plan), rng)?;
    write_stack(&mut words, plan.map(), &without(stack_of(plan), skipped));
    words[header::RESIDENTS] = number(stack_of(plan).len() as u32 - 1);
    Some(words)
}
fn r_off_by_one(plan: &Plan, rng: &mut Rng) -> Option<Vec<u32>> {
    let mut words = plan.build();
    let r = stack_of(plan).len() as u32;
    words[header::RESIDENTS] = number(if r > 0 && rng.one_in(2) { r - 1 } else { r + 1 });
    Some(words)
}
/// All but the chains is that of the swapped list, so it is sound where no chain notices.
fn stack_swapped(plan: &Plan, rng: &mut Rng) -> Option<Vec<u32>> {
    let (a, b) = two_positions(plan, rng)?;
    let (before, map) = (plan.build(), plan.map());
    let mut swapped = plan.clone();
    swapped.residents.swap(a, b);
    swapped.arrangement.entries.swap(a, b);
    let mut words = swapped.build();
    let chains = header::LENGTH..map.bucket(0);
    words[chains.clone()].copy_from_slice(&before[chains]);
    for &e in stack_of(plan) {
        for chain_link in [entry::CHAIN_TOWARDS_HEAD, entry::CHAIN_TOWARDS_TAIL] {
            let address = map.entry(e, chain_link);
            words[address] = before[address];
        }
    }
    Some(words)
}

fn wrong_section(plan: &Plan, rng: &mut Rng) -> Option<Vec<u32>> {
    let p = position(plan, rng)?;
    let mut words = plan.build();
    let right = section(plan.settings, p);
    let wrong: Vec<u32> = (NEW..=OLD + 1).filter(|&section| section != right).collect();
    words[plan.map().entry(stack_of(plan)[p], entry::SECTION)] = number(rng.pick(&wrong));
    Some(words)
}
/// As if the list ended at position N - 1 while it is short. A full cache has no such mistake to make.
fn sections_from_tail(plan: &Plan, _: &mut Rng) -> Option<Vec<u32>> {
    let (mut words, map, s) = (plan.build(), plan.map(), plan.settings);
    let r = stack_of(plan).len();
    let missing = s.n as usize - r;
    (r > 0 && missing > 0).then_some(())?;
    for (p, &e) in stack_of(plan).iter().enumerate() {
        words[map.entry(e, entry::SECTION)] = number(section(s, p + missing));
    }
    let at = |position: usize| position.checked_sub(missing).and_then(|p| stack_of(plan).get(p)).copied();
    words[header::AT_NNEW] = link(at(s.nnew as usize).unwrap_or(0));
    words[header::FIRST_OLD] = link(at((s.n - s.nold) as usize).unwrap_or(0));
    Some(words)
}
fn boundary_off(plan: &Plan, rng: &mut Rng, boundary: usize) -> Option<Vec<u32>> {
    let mut words = plan.build();
    let s = plan.settings;
    let right = if boundary == header::AT_NNEW { s.nnew } else { s.n - s.nold } as usize;
    let wrong = if rng.one_in(2) { right.checked_sub(1)? } else { right + 1 };
    let new = link(stack_of(plan).get(wrong).copied().unwrap_or(0));
    let old = std::mem::replace(&mut words[boundary], new);
    when(old != new, words)
}
fn wrong_tail(plan: &Plan, rng: &mut Rng) -> Option<Vec<u32>> {
    let mut words = plan.build();
    let new = link(rng.within(0, plan.settings.n));
    let old = std::mem::replace(&mut words[header::TAIL], new);
    when(old != new, words)
}

/// A count of some resident that has a chain.
fn chained_count(plan: &Plan, rng: &mut Rng) -> Option<u32> {
    let count = plan.residents[position(plan, rng)?].count;
    when(count <= plan.settings.cmax, count)
}
fn chain_out_of_order(plan: &Plan, rng: &mut Rng) -> Option<Vec<u32>> {
    let mut words = plan.build();
    let count = chained_count(plan, rng)?;
    let mut chain = plan.chain(count);
    rng.shuffle(&mut chain);
    write_chain(&mut words, plan.map(), count, &chain);
    when(chain != plan.chain(count), words)
}
fn chain_rotated(plan: &Plan, rng: &mut Rng) -> Option<Vec<u32>> {
    let mut words = plan.build();
    let count = chained_count(plan, rng)?;
    let mut chain = plan.chain(count);
    chain.rotate_right(1);
    write_chain(&mut words, plan.map(), count, &chain);
    when(chain.len() > 1, words)
}
/// The chain of a count with one more entry where the stack has it.
fn chain_with(plan: &Plan, count: u32, more: u32) -> Vec<u32> {
    let chain = plan.chain(count);
    stack_of(plan).iter().copied().filter(|&e| e == more || chain.contains(&e)).collect()
}
fn wrong_chain(plan: &Plan, rng: &mut Rng) -> Option<Vec<u32>> {
    let mut words = plan.build();
    let from = chained_count(plan, rng)?;
    let to = rng.within(1, plan.settings.cmax);
    let e = some(&plan.chain(from), rng)?;
    write_chain(&mut words, plan.map(), from, &without(&plan.chain(from), e));
    write_chain(&mut words, plan.map(), to, &chain_with(plan, to, e));
    when(from != to, words)
}
fn high_count_in_chain(plan: &Plan, rng: &mut Rng) -> Option<Vec<u32>> {
    let mut words = plan.build();
    let p = position(plan, rng)?;
    let last = plan.settings.cmax;
    write_chain(&mut words, plan.map(), last, &chain_with(plan, last, stack_of(plan)[p]));
    when(plan.residents[p].count > last, words)
}
fn left_off_chain(plan: &Plan, rng: &mut Rng) -> Option<Vec<u32>> {
    let (mut words, map) = (plan.build(), plan.map());
    let count = chained_count(plan, rng)?;
    let e = some(&plan.chain(count), rng)?;
    write_chain(&mut words, map, count, &without(&plan.chain(count), e));
    words[map.entry(e, entry::CHAIN_TOWARDS_HEAD)] = link(0);
    words[map.entry(e, entry::CHAIN_TOWARDS_TAIL)] = link(0);
    Some(words)
}
/// A chain of one that needs no link but its head and tail.
fn lone(plan: &Plan, rng: &mut Rng, resident: bool) -> Option<Vec<u32>> {
    let mut words = plan.build();
    let count = rng.within(1, plan.settings.cmax);
    plan.chain(count).is_empty().then_some(())?;
    let e = if resident {
        let p = position(plan, rng)?;
        when(plan.residents[p].count > plan.settings.cmax, stack_of(plan)[p])?
    } else {
        some(&plan.arrangement.unused, rng)?
    };
    write_chain(&mut words, plan.map(), count, &[e]);
    Some(words)
}
fn chain_ring(plan: &Plan, rng: &mut Rng) -> Option<Vec<u32>> {
    let (mut words, map) = (plan.build(), plan.map());
    let chain = plan.chain(chained_count(plan, rng)?);
    let (first, last) = (chain[0], chain[chain.len() - 1]);
    words[map.entry(last, entry::CHAIN_TOWARDS_TAIL)] = link(first);
    words[map.entry(first, entry::CHAIN_TOWARDS_HEAD)] = link(last);
    Some(words)
}
fn chains_swapped(plan: &Plan, rng: &mut Rng) -> Option<Vec<u32>> {
    let (mut words, map) = (plan.build(), plan.map());
    let (a, b) = (chained_count(plan, rng)?, rng.within(1, plan.settings.cmax));
    words.swap(map.chain_head(a), map.chain_head(b));
    words.swap(map.chain_tail(a), map.chain_tail(b));
    Some(words)
}

/// A resident's entry and its bucket.
fn housed(plan: &Plan, rng: &mut Rng) -> Option<(u32, usize)> {
    let p = position(plan, rng)?;
    Some((stack_of(plan)[p], home(plan.settings, plan.residents[p].block)))
}
fn wrong_bucket(plan: &Plan, rng: &mut Rng) -> Option<Vec<u32>> {
    let (mut words, map) = (plan.build(), plan.map());
    let (e, right) = housed(plan, rng)?;
    let wrong = rng.below(map.buckets() as u64) as usize;
    (wrong != right).then_some(())?;
    let mut there = plan.bucket(wrong);
    there.insert(rng.below(there.len() as u64 + 1) as usize, e);
    write_bucket(&mut words, map, right, &without(&plan.bucket(right), e));
    write_bucket(&mut words, map, wrong, &there);
    Some(words)
}
fn left_off_bucket(plan: &Plan, rng: &mut Rng) -> Option<Vec<u32>> {
    let (mut words, map) = (plan.build(), plan.map());
    let (e, bucket) = housed(plan, rng)?;
    write_bucket(&mut words, map, bucket, &without(&plan.bucket(bucket), e));
    words[map.entry(e, entry::SYNONYM)] = link(0);
    Some(words)
}
fn bucket_ring(plan: &Plan, rng: &mut Rng) -> Option<Vec<u32>> {
    let mut words = plan.build();
    let listed = plan.bucket(housed(plan, rng)?.1);
    let (last, again) = (*listed.last()?, some(&listed, rng)?);
    words[plan.map().entry(last, entry::SYNONYM)] = link(again);
    Some(words)
}
fn bucket_runs_on(plan: &Plan, rng: &mut Rng) -> Option<Vec<u32>> {
    let mut words = plan.build();
    let (a, b) = (housed(plan, rng)?.1, housed(plan, rng)?.1);
    let last = *plan.bucket(a).last()?;
    words[plan.map().entry(last, entry::SYNONYM)] = link(plan.bucket(b)[0]);
    when(a != b, words)
}
/// The bucket of block 0, which is what an unused entry's block word says.
fn bucket_ends_unused(plan: &Plan, rng: &mut Rng) -> Option<Vec<u32>> {
    let mut words = plan.build();
    let bucket = home(plan.settings, 0);
    let mut listed = plan.bucket(bucket);
    listed.push(some(&plan.arrangement.unused, rng)?);
    write_bucket(&mut words, plan.map(), bucket, &listed);
    Some(words)
}
/// Buckets by another rule; sound where it happens to agree.
fn rehashed(plan: &Plan, number_of: fn(u32) -> u32, rule: impl Fn(cache_tests::Settings, u32) -> usize) -> Vec<u32> {
    let (mut words, map) = (plan.build(), plan.map());
    let mut listed = vec![Vec::new(); map.buckets()];
    for &p in &plan.arrangement.synonyms {
        listed[rule(plan.settings, number_of(plan.residents[p].block))].push(stack_of(plan)[p]);
    }
    for (bucket, entries) in listed.iter().enumerate() {
        write_bucket(&mut words, map, bucket, entries);
    }
    words
}

fn unused_ring(plan: &Plan, rng: &mut Rng) -> Option<Vec<u32>> {
    let mut words = plan.build();
    let unused = &plan.arrangement.unused;
    let (last, again) = (*unused.last()?, some(unused, rng)?);
    words[plan.map().entry(last, entry::TOWARDS_TAIL)] = link(again);
    Some(words)
}
fn unused_left_off(plan: &Plan, rng: &mut Rng) -> Option<Vec<u32>> {
    let (mut words, map) = (plan.build(), plan.map());
    let e = some(&plan.arrangement.unused, rng)?;
    write_unused(&mut words, map, &without(&plan.arrangement.unused, e));
    words[map.entry(e, entry::TOWARDS_TAIL)] = link(0);
    Some(words)
}
/// As long as it should be: the tail resident, which leads nowhere, stands for the entry left off.
fn unused_ends_resident(plan: &Plan, rng: &mut Rng) -> Option<Vec<u32>> {
    let mut words = unused_left_off(plan, rng)?;
    let tail = link(*stack_of(plan).last()?);
    let mut address = header::FIRST_UNUSED;
    while value(words[address]) != 0 {
        address = plan.map().entry(value(words[address]), entry::TOWARDS_TAIL);
    }
    words[address] = tail;
    Some(words)
}
fn full_with_unused(plan: &Plan, rng: &mut Rng) -> Option<Vec<u32>> {
    let mut words = plan.build();
    words[header::FIRST_UNUSED] = link(some(stack_of(plan), rng)?);
    when(plan.arrangement.unused.is_empty(), words)
}
/// The slice is longer and holds a whole unused entry there.
fn entry_past_n(plan: &Plan, _: &mut Rng) -> Option<Vec<u32>> {
    let (mut words, map) = (plan.build(), plan.map());
    let last = plan.arrangement.unused.last();
    let address = last.map_or(header::FIRST_UNUSED, |&e| map.entry(e, entry::TOWARDS_TAIL));
    words[address] = link(plan.settings.n + 1);
    words.extend([number(0); entry::TOWARDS_HEAD]);
    words.extend([link(0); entry::LENGTH - entry::TOWARDS_HEAD]);
    Some(words)
}
fn unused_leads_into_stack(plan: &Plan, rng: &mut Rng) -> Option<Vec<u32>> {
    let mut words = plan.build();
    let last = *plan.arrangement.unused.last()?;
    words[plan.map().entry(last, entry::TOWARDS_TAIL)] = link(some(stack_of(plan), rng)?);
    Some(words)
}

/// A resident taken out of everything: its entry is left off the unused list, or put there with its block.
fn orphan(plan: &Plan, rng: &mut Rng, listed: bool) -> Option<Vec<u32>> {
    let p = position(plan, rng)?;
    let mut plan = plan.clone();
    let (resident, e) = (plan.residents.remove(p), plan.arrangement.entries.remove(p));
    plan.arrangement.synonyms.retain(|&position| position != p);
    for position in &mut plan.arrangement.synonyms {
        *position -= usize::from(*position > p);
    }
    if !listed {
        return Some(plan.build());
    }
    plan.arrangement.unused.push(e);
    let mut words = plan.build();
    words[plan.map().entry(e, entry::BLOCK)] = number(resident.block);
    when(resident.block != 0, words)
}
