use super::{hit, numbered_store, reads, BELT, ENTERED, ONE};
use crate::{Answer, Cache, Memory, NotTaken, Parts, Refusal, Settings, Totals, Work};

/// A fresh cache; block k of the store is all k.
fn cache(s: Settings) -> Cache {
    Cache::new(&s, numbered_store(s)).unwrap()
}
fn refused<T: std::fmt::Debug>(result: Result<T, NotTaken>) -> (Refusal, Parts) {
    let NotTaken { refusal, parts } = result.unwrap_err();
    (refusal, parts)
}

#[test]
fn example_a() {
    let mut belt = cache(BELT);
    let ran = belt.run(&reads(&[10, 11, 12, 13, 10, 10, 14]), &[]).unwrap();
    let last = Answer::Replaced { victim: 11, chains: 1, written_out: false };
    assert_eq!(ran.answers, [ENTERED, ENTERED, ENTERED, ENTERED, hit(2), hit(2), last]);
    let blocks = [10, 11, 12, 13, 10, 10, 14].map(|block| [block; 8]);
    assert_eq!(ran.reads().len(), 7);
    assert!(ran.reads().eq(blocks.iter().map(|block| &block[..])));
    assert_eq!(ran.read, blocks.concat());
    assert_eq!(belt.totals(), Ok(Totals { reads: 7, writes: 0, ins: 5, outs: 0 }));
    assert_eq!(belt.settings(), Ok(BELT));
}

#[test]
fn writes_looks_and_flushes() {
    let mut belt = cache(BELT);
    let ran = belt.run(&[Work::Write(3), Work::Read(5), Work::Read(3)], b"bag 0042").unwrap();
    assert_eq!(ran.reads().collect::<Vec<_>>(), [&[5; 8][..], b"bag 0042"]);
    assert_eq!((belt.look(3).unwrap(), belt.look(4).unwrap()), (b"bag 0042".to_vec(), vec![4; 8]));
    assert_eq!(belt.look(64), Err(Refusal::BadWord));
    assert_eq!(belt.store()[24..32], [3; 8]);
    let ran = belt.run(&[Work::Flush], &[]).unwrap();
    assert_eq!(ran.answers, [Answer::Flushed { written: 1 }]);
    assert_eq!(ran.reads().next(), None);
    assert_eq!(belt.store()[24..32], *b"bag 0042");
    assert_eq!(belt.run(&[], &[]).unwrap().answers, []);
}

#[test]
fn a_refused_run_changes_nothing() {
    let mut belt = cache(BELT);
    belt.run(&[Work::Write(3)], &[1; 8]).unwrap();
    let before = belt.clone();
    assert_eq!(belt.run(&vec![Work::Read(0); 1_025], &[]), Err(Refusal::TooManyWords));
    assert_eq!(belt.run(&[Work::Read(64)], &[]), Err(Refusal::BadWord));
    assert_eq!(belt.run(&[Work::Write(1), Work::Write(2)], &[0; 15]), Err(Refusal::ShortBuffer));
    assert_eq!(belt.parts(), before.parts());
    assert_eq!(belt.run(&vec![Work::Read(0); 1_024], &[]).unwrap().reads().len(), 1_024);
}

#[test]
fn new_gives_a_refused_store_back() {
    let store = numbered_store(BELT);
    let wrong = [
        (Settings { n: 0, ..BELT }, 1),
        (Settings { n: u32::MAX, ..BELT }, 1),
        (Settings { nold: 0, ..BELT }, 2),
        (Settings { cmax: 65, ..BELT }, 3),
        (Settings { cmax: u32::MAX, ..BELT }, 3),
        (Settings { amax: 0, ..BELT }, 3),
        (Settings { b: u32::MAX, ..BELT }, 4),
        (Settings { m: u32::MAX, ..BELT }, 4),
        (Settings { m: 65, ..BELT }, 7),
        // a store of 64 blocks of 8 bytes is too long for these
        (Settings { m: 63, ..BELT }, 12),
        (Settings { b: 7, ..BELT }, 12),
        (Settings { n: 0, m: 63, ..BELT }, 1),
    ];
    for (settings, number) in wrong {
        let (refusal, parts) = refused(Cache::new(&settings, store.clone()));
        assert_eq!((refusal.number(), parts.store), (number, store.clone()), "{settings:?}");
    }
    for more in [1, 8, 512] {
        let longer = [&store[..], &vec![9; more]].concat();
        let (refusal, parts) = refused(Cache::new(&BELT, longer.clone()));
        assert_eq!((refusal, parts.store), (Refusal::LongStore, longer));
    }
}

#[test]
fn parts_go_on_where_they_were() {
    let mut belt = cache(BELT);
    belt.run(&[3, 4, 5, 6, 7, 3].map(Work::Write), &[1; 48]).unwrap();
    let view = belt.parts();
    let (directory, data, store) = (view.directory.to_vec(), view.data.to_vec(), view.store.to_vec());
    let mut other = Cache::from_parts(Parts { directory, data, store }).unwrap();
    let work = [reads(&[3, 20, 7]), vec![Work::Write(9), Work::Flush]].concat();
    assert_eq!(other.run(&work, &[2; 8]), belt.run(&work, &[2; 8]));
    assert_eq!(other.into_parts(), belt.into_parts());
}

#[test]
fn longer_parts_are_taken_and_keep_their_rest() {
    let mut parts = cache(ONE).into_parts();
    parts.directory.push(77);
    parts.data.extend([78; 3]);
    let mut one = Cache::from_parts(parts).unwrap();
    one.run(&[Work::Write(3), Work::Read(5)], &[1; 8]).unwrap();
    let Parts { directory, data, .. } = one.into_parts();
    assert_eq!((directory.last(), &data[8..]), (Some(&77), &[78; 3][..]));
}

#[test]
fn from_parts_gives_refused_parts_back() {
    let good = cache(BELT).into_parts();
    let mut unsound = good.clone();
    unsound.directory[9] ^= 1;
    let (mut cut, mut short_data, mut short_store, mut long_store) = (good.clone(), good.clone(), good.clone(), good);
    cut.directory.pop();
    short_data.data.pop();
    short_store.store.pop();
    long_store.store.push(9);
    // where two things are wrong, the one that is checked first is said
    let with_long_store = |parts: &Parts| Parts { store: long_store.store.clone(), ..parts.clone() };
    for (parts, refusal) in [
        (with_long_store(&cut), Refusal::Unsound),
        (with_long_store(&short_data), Refusal::ShortDataOrStore),
        (long_store.clone(), Refusal::LongStore),
        (unsound, Refusal::Unsound),
        (cut, Refusal::Unsound),
        (Parts::default(), Refusal::Unsound),
        (short_data, Refusal::ShortDataOrStore),
        (short_store, Refusal::ShortDataOrStore),
    ] {
        assert_eq!(refused(Cache::from_parts(parts.clone())), (refusal, parts));
    }
}

/// A cache with full totals declines every batch, but is taken up: its looks save what is unsaved.
#[test]
fn full_totals_are_taken_up() {
    let mut belt = cache(BELT);
    belt.run(&[Work::Write(3)], &[1; 8]).unwrap();
    let mut parts = belt.into_parts();
    let full = 1 << 28 | 0x0fff_ffff;
    (parts.directory[16], parts.directory[17]) = (full, full);
    let mut belt = Cache::from_parts(parts).unwrap();
    assert_eq!(belt.run(&[], &[]), Err(Refusal::TotalsFull));
    assert_eq!(belt.look(3).unwrap(), [1; 8]);
    assert_eq!(belt.totals().unwrap().reads, (1 << 56) - 1);
}

#[test]
fn damage_in_place() {
    let mut belt = cache(BELT);
    belt.memory().directory[9] ^= 1;
    assert_eq!(belt.run(&[Work::Flush], &[]), Err(Refusal::Unsound));
    assert_eq!(belt.look(0), Err(Refusal::Unsound));
    assert_eq!(belt.totals(), Err(Refusal::Unsound));
    assert_eq!(belt.settings(), Err(Refusal::Unsound));
    // a wrong B is not lent more than a batch can take
    belt.memory().directory[5] = u32::MAX;
    assert_eq!(belt.run(&reads(&[1, 2]), &[]), Err(Refusal::Unsound));
    let store = belt.into_parts().store;
    let mut belt = Cache::new(&BELT, store).unwrap();
    assert_eq!(belt.look(9).unwrap(), [9; 8]);
    // an M that became smaller leaves the directory sound and the store too long
    belt.memory().directory[6] ^= 64 ^ 63;
    assert_eq!(belt.settings(), Ok(Settings { m: 63, ..BELT }));
    assert_eq!(belt.run(&[Work::Flush], &[]), Err(Refusal::LongStore));
    assert_eq!(belt.look(0), Err(Refusal::LongStore));
}

#[test]
fn memory_lends_the_same_cache() {
    let mut belt = cache(BELT);
    let mut answers = [0];
    belt.memory().batch(&[Work::Write(3).word()], &[1; 8], &mut answers, &mut []).unwrap();
    assert_eq!(Answer::from_word(answers[0]), ENTERED);
    assert_eq!(belt.look(3).unwrap(), [1; 8]);
    let Memory { directory, data, store } = belt.memory();
    assert_eq!((directory.len(), data.len(), store.len()), (70, 32, 512));
}

#[test]
fn what_is_shown() {
    let mut belt = cache(BELT);
    let lengths = "{ directory: 70 words, data: 32 bytes, store: 512 bytes }";
    assert_eq!(format!("{belt:?}"), format!("Cache {lengths}"));
    assert_eq!(format!("{:?}", belt.parts()), format!("View {lengths}"));
    assert_eq!(format!("{:?}", belt.memory()), format!("Memory {lengths}"));
    let error = NotTaken { refusal: Refusal::Unsound, parts: belt.into_parts() };
    assert_eq!(error.to_string(), Refusal::Unsound.to_string());
    assert_eq!(format!("{error:?}"), format!("NotTaken {{ refusal: Unsound, parts: Parts {lengths} }}"));
    assert_eq!(Refusal::from(error), Refusal::Unsound);
}
