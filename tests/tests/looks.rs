//! Looks at every block beside the plain stack: the present bytes, the numbers 6, 7, 12 and 9; and nothing changes.
use cache_tests::reference::beside::{Beside, NUMBERS};
use cache_tests::reference::directory::MAX_VALUE;
use cache_tests::reference::histories;
use cache_tests::reference::rng::Rng;
use cache_tests::reference::settings::MAX_N;
use cache_tests::reference::stack::Lent;
use cache_tests::{look_into, look_number, BELT, LIBRARY};
use std::hint::black_box;

/// A look over lent memory of its own, which is compared after both calls.
struct Look {
    dir: Vec<u32>,
    data: Vec<u8>,
    store: Vec<u8>,
}

impl Look {
    fn of(beside: &Beside, lent: Lent) -> Look {
        let (data, store) = (beside.data[..lent.data].to_vec(), beside.store[..lent.store].to_vec());
        Look { dir: beside.dir.clone(), data, store }
    }

    /// Number and part are as expected for an `out` that is too short, exact or longer.
    fn check(&mut self, rng: &mut Rng, block: u32, expected: Result<&[u8], u32>) {
        let before = (self.dir.clone(), self.data.clone(), self.store.clone());
        let part = expected.unwrap_or(&[]);
        let number = look_number(&self.dir, &self.data, &self.store, block);
        assert_eq!(number, expected.err().unwrap_or(0), "block {block}");
        let short = rng.below(part.len().max(1) as u64) as usize;
        let long = part.len() + histories::more(rng, 20);
        for length in [short, part.len(), long] {
            let earlier = histories::bytes(rng, length);
            let mut out = earlier.clone();
            let returned = look_into(&self.dir, &self.data, &self.store, block, &mut out);
            assert_eq!(returned, part.len(), "block {block}, room for {length}");
            let copied = if length >= part.len() { part.len() } else { 0 };
            assert!(out[..copied] == part[..copied], "block {block}: other bytes");
            assert!(out[copied..] == earlier[copied..], "block {block}: bytes past the part changed");
        }
        black_box((&mut self.dir, &mut self.data, &mut self.store));
        assert!(self.dir == before.0 && self.data == before.1 && self.store == before.2, "a look changed something");
    }
}

/// The plain stack's present bytes of a block: the resident's if there is one.
fn present(beside: &Beside, block: u32) -> (&[u8], bool) {
    let b = beside.stack.settings.b as usize;
    match beside.stack.residents.iter().find(|resident| resident.block == block) {
        Some(resident) => (&resident.bytes, true),
        None => (&beside.stack.store[block as usize * b..(block as usize + 1) * b], false),
    }
}

#[test]
fn every_block_after_histories() {
    let mut rng = Rng::announced("every_block_after_histories", 101);
    let (mut resident, mut absent, mut differing) = (0, 0, 0);
    let histories = 500;
    for history in 0..histories {
        let n = if history % 100 == 99 { MAX_N } else { rng.within(1, 40) };
        let mut s = histories::settings(&mut rng, n);
        s.m = s.m.min(200);
        let mut beside = match history % 2 {
            0 => histories::fresh(&mut rng, LIBRARY, s),
            _ => histories::built(&mut rng, LIBRARY, s),
        };
        histories::go_on(&mut rng, &mut beside, 5, 60);
        let whole = beside.stack.whole();
        let data = if rng.one_in(2) { whole.data } else { beside.data.len() };
        let mut look = Look::of(&beside, Lent { data, ..whole });
        for block in 0..s.m {
            let (bytes, held) = present(&beside, block);
            look.check(&mut rng, block, Ok(bytes));
            let b = s.b as usize;
            // where the store's bytes would be wrong
            differing += u32::from(held && *bytes != beside.store[block as usize * b..(block as usize + 1) * b]);
            (resident, absent) = (resident + u32::from(held), absent + u32::from(!held));
        }
        for block in [s.m, s.m + 1, MAX_VALUE, u32::MAX, s.m | 1 << 28] {
            look.check(&mut rng, block, Err(9));
        }
    }
    println!("{histories} histories; looks at {resident} residents, {differing} of them modified, and {absent} absent blocks");
    assert!(resident > 1_000 && absent > 1_000 && differing > 500);
}

#[test]
fn numbers_in_the_order_6_7_12_9() {
    let mut rng = Rng::announced("numbers_in_the_order_6_7_12_9", 102);
    let mut seen = [0u32; NUMBERS];
    for _ in 0..1_500 {
        let n = rng.within(1, 12);
        let s = histories::settings(&mut rng, n);
        let mut beside = histories::fresh(&mut rng, LIBRARY, s);
        histories::go_on(&mut rng, &mut beside, 2, 30);
        let whole = beside.stack.whole();
        let shorter =
            |rng: &mut Rng, length: usize| if rng.one_in(2) { length - 1 } else { rng.below(length as u64) as usize };
        let (short_data, unsound) = (rng.one_in(4), rng.one_in(4));
        let (short_store, long_store) = rng.pick(&[(true, false), (false, true), (false, false), (false, false)]);
        let block = if rng.one_in(3) { s.m + rng.within(0, 3) } else { rng.within(0, s.m - 1) };
        let data = if short_data { shorter(&mut rng, whole.data) } else { whole.data };
        let store = match (short_store, long_store) {
            (true, _) => shorter(&mut rng, whole.store),
            (_, true) => rng.pick(&[whole.store + 1, beside.store.len()]),
            _ => whole.store,
        };
        let mut look = Look::of(&beside, Lent { data, store });
        if unsound {
            look.dir = histories::unsound(&mut rng, &beside.dir, s);
        }
        let expected = if unsound {
            Err(6)
        } else if short_data || short_store {
            Err(7)
        } else if long_store {
            Err(12)
        } else if block >= s.m {
            Err(9)
        } else {
            Ok(present(&beside, block).0)
        };
        look.check(&mut rng, block, expected);
        seen[expected.err().unwrap_or(0) as usize] += 1;
    }
    println!("looks that returned 0 to 12: {seen:?}");
    assert!([0, 6, 7, 12, 9].into_iter().all(|number| seen[number] > 100));
}

/// Data and store on and beside their limits, and empty slices. Data may be longer; a store that is longer gets 12, at
/// a block of M or more too, unless data is too short or the directory is not sound.
#[test]
fn lengths_on_their_limits() {
    let mut rng = Rng::announced("lengths_on_their_limits", 103);
    let (data, memory) = (histories::bytes(&mut rng, 64), histories::bytes(&mut rng, 1_024));
    let mut beside = Beside::fresh(LIBRARY, BELT, vec![0; 70], data, memory);
    histories::go_on(&mut rng, &mut beside, 3, 20);
    let exact = [(32, 512, 0), (31, 512, 7), (32, 511, 7), (0, 512, 7), (32, 0, 7), (0, 0, 7)];
    let longer = [(33, 512, 0), (64, 512, 0), (32, 513, 12), (32, 519, 12), (32, 520, 12), (64, 1_024, 12)];
    let cases = [&exact[..], &longer, &[(31, 513, 7), (0, 1_024, 7), (33, 511, 7)]].concat();
    for &(data, store, number) in &cases {
        let mut look = Look::of(&beside, Lent { data, store });
        for block in [0, 63] {
            let expected = if number == 0 { Ok(present(&beside, block).0) } else { Err(number) };
            look.check(&mut rng, block, expected);
        }
        look.check(&mut rng, 64, Err(if number == 0 { 9 } else { number }));
    }
    for (length, store) in (0..70).flat_map(|length| [(length, 512), (length, 1_024)]) {
        let mut look = Look::of(&beside, Lent { data: 32, store });
        look.dir.truncate(length);
        look.check(&mut rng, 0, Err(6));
    }
    println!("{} lengths of data and store, 70 short directories", cases.len());
}
