//! The store's length: a batch and a look take exactly M × B bytes. A shorter store gets 7, a longer one 12, which is
//! checked right after 7. Everything else that is lent may be longer than needed.
use cache_tests::reference::beside::{Beside, Call, NUMBERS};
use cache_tests::reference::builder::Totals;
use cache_tests::reference::directory::{fresh_words, header, word};
use cache_tests::reference::rng::Rng;
use cache_tests::reference::settings::{MAX_B, MAX_M};
use cache_tests::reference::stack::{work, Lent, PlainStack, MOST_TOTAL};
use cache_tests::reference::{histories, samples};
use cache_tests::{batch, look_into, look_number, Settings, BELT, LIBRARY};

/// A fresh cache. Behind its store there is as much again, and a block and a byte.
fn over_a_longer_memory(rng: &mut Rng, s: Settings) -> Beside {
    let (data, store, b) = ((s.n * s.b) as usize, (s.m * s.b) as usize, s.b as usize);
    let (data, memory) = (histories::bytes(rng, data), histories::bytes(rng, 2 * store + b + 1));
    Beside::fresh(LIBRARY, s, fresh_words(s), data, memory)
}

/// Lengths above M × B: a byte more, a block, a block and a byte, as much again.
fn longer(beside: &Beside) -> [usize; 4] {
    let (exact, b) = (beside.stack.whole().store, beside.stack.settings.b as usize);
    [exact + 1, exact + b, exact + b + 1, 2 * exact]
}

/// Work that writes, reads and ends with a flush, so that an accepted batch reads and changes the store.
fn work_with_a_flush(rng: &mut Rng, s: Settings) -> Vec<u32> {
    let mut words = vec![word(work::WRITE, s.m - 1), word(work::READ, 0)];
    words.extend(histories::work_words(rng, s, 20));
    words.push(word(work::FLUSH, 0));
    words
}

/// The numbers of looks at blocks below M, with the length of the part, over so much of the memory; an empty part
/// leaves the buffer as it was.
fn check_looks(beside: &Beside, store: usize, number: u32) {
    let (Settings { b, m, .. }, memory) = (beside.stack.settings, &beside.store[..store]);
    for block in [0, m - 1] {
        let mut out = vec![0xa5; b as usize];
        assert_eq!(look_number(&beside.dir, &beside.data, memory, block), number, "{store} bytes");
        let length = look_into(&beside.dir, &beside.data, memory, block, &mut out);
        assert_eq!(length, if number == 0 { b as usize } else { 0 }, "{store} bytes");
        assert!(number == 0 || out.iter().all(|&byte| byte == 0xa5), "{store} bytes: an empty part was copied");
    }
}

/// One list of calls for each settings: after a refused one it goes on as if that had not been.
#[test]
fn lengths_about_m_times_b() {
    let mut rng = Rng::announced("lengths_about_m_times_b", 161);
    let one = Settings { n: 1, nnew: 0, nold: 1, cmax: 1, amax: 10, b: 1, m: 1 };
    let mut numbers = [0; NUMBERS];
    for s in [BELT, one, Settings { b: MAX_B, m: 3, ..BELT }, Settings { b: 1, m: MAX_M, ..BELT }] {
        let mut beside = over_a_longer_memory(&mut rng, s);
        let exact = beside.stack.whole().store;
        let wrong = longer(&beside).map(|length| (length, 12)).into_iter().chain([(exact - 1, 7), (0, 7)]);
        for (store, number) in wrong.flat_map(|wrong| [(exact, 0), wrong]).chain([(exact, 0)]) {
            let work = work_with_a_flush(&mut rng, s);
            let mut call = histories::call_of(&mut rng, &beside, work);
            call.lent.store = store;
            assert_eq!(beside.call(&call), number, "{store} bytes for {s:?}");
            check_looks(&beside, store, number);
        }
        beside.look_at_every_block();
        numbers.iter_mut().zip(beside.seen.numbers).for_each(|(sum, times)| *sum += times);
    }
    println!("calls that returned 0 to 12: {numbers:?}");
    assert_eq!((numbers[0], numbers[7], numbers[12]), (4 * 7, 4 * 2, 4 * 4));
}

/// What is wrong with a call beside the store's length.
type Spoil = fn(&mut Call);

/// One thing wrong: its number over a store of M × B bytes, and over a longer one.
const OTHERS: [(&str, Spoil, u32, u32); 12] = [
    ("data too short", |call| call.lent.data -= 1, 7, 7),
    ("no data", |call| call.lent.data = 0, 7, 7),
    ("1,025 words", |call| call.work.resize(work::MOST_WORDS + 1, word(work::PURGE, 0)), 8, 12),
    ("a kind of 0", |call| call.work[1] = word(0, 0), 9, 12),
    ("a kind of 8", |call| call.work[1] = word(8, 0), 9, 12),
    ("a pin of M", |call| call.work[2] = word(work::PIN, BELT.m), 9, 12),
    ("a block of M", |call| call.work[1] = word(work::READ, BELT.m), 9, 12),
    ("a flush with a value", |call| call.work[2] = word(work::FLUSH, 1), 9, 12),
    ("a tick with a value", |call| call.work[2] = word(work::TICK, 1), 9, 12),
    ("answers too short", |call| call.answers.truncate(2), 10, 12),
    ("incoming too short", |call| call.incoming.truncate(7), 10, 12),
    ("outgoing too short", |call| call.outgoing.truncate(7), 10, 12),
];

/// A write, a read and a flush, with exact buffers.
fn three_words(beside: &Beside) -> Call {
    let work = vec![word(work::WRITE, 63), word(work::READ, 5), word(work::FLUSH, 0)];
    Call { lent: beside.stack.whole(), work, incoming: vec![1; 8], answers: vec![2; 3], outgoing: vec![3; 8] }
}
fn over(call: &Call, store: usize) -> Call {
    Call { lent: Lent { store, ..call.lent }, ..call.clone() }
}

#[test]
fn a_longer_store_with_each_other_refusal() {
    let mut rng = Rng::announced("a_longer_store_with_each_other_refusal", 162);
    let mut belt = over_a_longer_memory(&mut rng, BELT);
    let (good, longer) = (three_words(&belt), longer(&belt));
    for (name, spoil, number, over_longer) in OTHERS {
        let mut call = good.clone();
        spoil(&mut call);
        assert_eq!(belt.call(&call), number, "{name}");
        assert_eq!(belt.call(&over(&call, call.lent.store - 1)), 7, "{name}, and a store too short");
        for store in longer {
            assert_eq!(belt.call(&over(&call, store)), over_longer, "{name}, and {store} bytes of store");
        }
    }
    // 6 comes before 12
    let mut damaged = belt.dir.clone();
    damaged[header::SUM] ^= 1;
    for store in longer {
        belt.call_over(damaged.clone(), &over(&good, store));
    }
    assert_eq!(belt.call(&good), 0);
}

/// 12 comes before 11 too: a cache whose totals leave room for two words gets a batch of three.
#[test]
fn a_longer_store_with_full_totals() {
    let mut rng = Rng::announced("a_longer_store_with_full_totals", 163);
    let mut plan = samples::plan_of(&mut rng, BELT, 4);
    let writes = plan.modified();
    plan.totals = Totals { reads: MOST_TOTAL - 2 - writes, writes, ins: 0, outs: 0 };
    let (data, memory) = (histories::bytes(&mut rng, 32), histories::bytes(&mut rng, 1_024));
    let mut belt = Beside::built(LIBRARY, &plan, &[], data, memory);
    let call = three_words(&belt);
    for store in longer(&belt) {
        assert_eq!(belt.call(&over(&call, store)), 12);
        check_looks(&belt, store, 12);
    }
    assert_eq!(belt.call(&call), 11);
    check_looks(&belt, 512, 0);
}

/// Over a longer directory: data, answers, incoming and outgoing, each longer by itself and then all. Every batch is
/// accepted, and the rest stays.
#[test]
fn only_the_store_has_an_exact_length() {
    let mut rng = Rng::announced("only_the_store_has_an_exact_length", 164);
    let (data, memory) = (histories::bytes(&mut rng, 64), histories::bytes(&mut rng, 1_024));
    let words = [fresh_words(BELT), histories::words(&mut rng, 9)].concat();
    let mut belt = Beside::fresh(LIBRARY, BELT, words, data, memory);
    for more in [1, 8, 32] {
        let longer: [Spoil; 4] = [
            |call| call.lent.data += 1,
            |call| call.answers.push(7),
            |call| call.incoming.push(7),
            |call| call.outgoing.push(7),
        ];
        let mut all = three_words(&belt);
        for lengthen in longer {
            let mut call = three_words(&belt);
            (0..more).for_each(|_| lengthen(&mut call));
            (0..more).for_each(|_| lengthen(&mut all));
            assert_eq!(belt.call(&call), 0);
            assert_eq!(look_number(&belt.dir, &belt.data[..call.lent.data], &belt.store[..512], 63), 0);
        }
        assert_eq!(belt.call(&all), 0);
        belt.look_at_every_block();
    }
}

/// A cache over the front of a longer memory. The plain stack is given the front and nothing more.
struct Front {
    dir: Vec<u32>,
    data: Vec<u8>,
    memory: Vec<u8>,
    behind: Vec<u8>,
    stack: PlainStack,
}

impl Front {
    fn fresh(rng: &mut Rng, s: Settings) -> Front {
        let behind = histories::behind(rng, s);
        let (store, behind) = (histories::bytes(rng, (s.m * s.b) as usize), histories::bytes(rng, behind));
        let memory = [&store[..], &behind].concat();
        let stack = PlainStack::new(s, store);
        Front { dir: fresh_words(s), data: vec![0; stack.whole().data], memory, behind, stack }
    }

    /// The same batch to both, with so many bytes of the memory lent; the number returned. The front stays the plain
    /// stack's store and what lies behind stays as it was; with 12 everything does.
    fn run(&mut self, rng: &mut Rng, store: usize) -> u32 {
        let s = self.stack.settings;
        let work = work_with_a_flush(rng, s);
        let bytes = work.len() * s.b as usize;
        let incoming = histories::bytes(rng, bytes);
        let (mut answers, mut outgoing) = (vec![6; work.len()], vec![7; bytes]);
        let (mut expected_answers, mut expected_outgoing) = (answers.clone(), outgoing.clone());
        let lent = Lent { store, ..self.stack.whole() };
        let expected = self.stack.batch(lent, &work, &incoming, &mut expected_answers, &mut expected_outgoing);
        let before = (self.dir.clone(), self.data.clone());
        let given = &mut self.memory[..store];
        let number = batch(&mut self.dir, &mut self.data, given, &work, &incoming, &mut answers, &mut outgoing);
        assert_eq!(number, expected, "{s:?}, {store} bytes lent");
        assert!(answers == expected_answers && outgoing == expected_outgoing, "{s:?}, {store} bytes lent");
        assert!(self.memory == [&self.stack.store[..], &self.behind].concat(), "{s:?}, {store} bytes lent");
        assert!(number == 0 || (&self.dir, &self.data) == (&before.0, &before.1), "{number} changed something: {s:?}");
        number
    }

    /// After a flush the store has every block's bytes, and a look over the front gives them.
    fn look(&self) {
        let Settings { b, m, .. } = self.stack.settings;
        let (front, mut out) = (&self.memory[..self.stack.store.len()], vec![0; b as usize]);
        for (block, bytes) in (0..m).zip(self.stack.store.chunks(b as usize)) {
            assert_eq!(look_into(&self.dir, &self.data, front, block, &mut out), out.len(), "block {block}");
            assert!(out == bytes, "block {block}");
        }
        assert_eq!(look_number(&self.dir, &self.data, &self.memory, 0), 12);
    }
}

/// A list of calls, most of which are lent the front alone. Now and then one is lent more, and the list goes on.
#[test]
fn the_front_of_a_longer_memory() {
    let mut rng = Rng::announced("the_front_of_a_longer_memory", 165);
    let (mut accepted, mut declined) = (0, 0);
    for _ in 0..500 {
        let n = rng.within(1, 20);
        let s = histories::settings(&mut rng, n);
        let mut cache = Front::fresh(&mut rng, Settings { m: s.m.min(200), ..s });
        let front = cache.stack.whole().store;
        for _ in 0..8 {
            let more = if rng.one_in(4) { 1 + rng.below(cache.behind.len() as u64) as usize } else { 0 };
            let number = cache.run(&mut rng, front + more);
            assert_eq!(number, if more == 0 { 0 } else { 12 });
            (accepted, declined) = (accepted + u32::from(more == 0), declined + u32::from(more > 0));
        }
        cache.look();
    }
    println!("{accepted} batches over the front, {declined} over more of the memory");
    assert!(accepted > 2_000 && declined > 500);
}

/// M and B at their limits. Hardly a page of the memory is touched.
#[test]
fn the_largest_store() {
    const LARGEST: usize = MAX_M as usize * MAX_B as usize;
    let s = Settings { b: MAX_B, m: MAX_M, ..BELT };
    let (mut dir, mut data, mut memory) = (fresh_words(s), vec![0; (s.n * s.b) as usize], vec![0; LARGEST + 1]);
    for (store, number) in [(LARGEST - 1, 7), (LARGEST, 0), (LARGEST + 1, 12)] {
        assert_eq!(look_number(&dir, &data, &memory[..store], s.m - 1), number, "{store} bytes");
        let (flush, mut answers) = ([word(work::FLUSH, 0)], [0]);
        let returned = batch(&mut dir, &mut data, &mut memory[..store], &flush, &[], &mut answers, &mut []);
        assert_eq!(returned, number, "{store} bytes");
    }
}

/// A spare store may be so much longer that 32 bits don't hold its length. No page of it is touched but the first.
#[test]
fn a_length_of_more_than_32_bits() {
    let mut rng = Rng::announced("a_length_of_more_than_32_bits", 166);
    let mut belt = over_a_longer_memory(&mut rng, BELT);
    let Call { work, incoming, mut answers, mut outgoing, .. } = three_words(&belt);
    let mut memory = vec![0; (1 << 32) + belt.stack.whole().store];
    assert_eq!(look_number(&belt.dir, &belt.data, &memory, 0), 12);
    assert_eq!(look_into(&belt.dir, &belt.data, &memory, 0, &mut outgoing), 0);
    let number = batch(&mut belt.dir, &mut belt.data, &mut memory, &work, &incoming, &mut answers, &mut outgoing);
    assert_eq!((number, belt.dir), (12, fresh_words(BELT)));
    assert_eq!((answers, outgoing), (vec![2; 3], vec![3; 8]));
    assert!(memory[..1_024].iter().all(|&byte| byte == 0));
}
