use super::{hit, reads, Lent, BELT};
use crate::occupancy::WORDS;
use crate::{fresh, Cache, Memory, Occupancy, Parts, Refusal, Settings, Work};

/// Residents and modified residents of each class.
fn figures(occupancy: &Occupancy) -> Vec<(u32, u32)> {
    occupancy.classes.iter().map(|class| (class.residents, class.modified)).collect()
}

#[test]
fn classes_of_a_belt() {
    let mut belt = Lent::new(BELT);
    assert_eq!(figures(&belt.memory().occupancy().unwrap()), [(0, 0); 8]);
    // 12, 13 and 14 are left with count 1, and 10 with count 2
    belt.answers(&[reads(&[10, 11, 12, 13, 10, 10]), vec![Work::Write(14)]].concat());
    let none = (0, 0);
    assert_eq!(figures(&belt.memory().occupancy().unwrap()), [(3, 1), (1, 0), none, none, none, none, none, none]);
    assert_eq!(belt.answers(&[Work::Write(10)]), [hit(3)]);
    let occupancy = belt.memory().occupancy().unwrap();
    assert_eq!(figures(&occupancy), [(3, 1), none, (1, 1), none, none, none, none, none]);
    assert_eq!((occupancy.residents(), occupancy.modified()), (4, 2));
    // what a flush writes out
    belt.answers(&[Work::Flush]);
    assert_eq!(belt.memory().occupancy().unwrap().modified(), 0);
}

#[test]
fn the_same_of_a_cache() {
    let mut cache = Cache::new(&BELT, vec![0; BELT.store_bytes()]).unwrap();
    // with Nnew 1, a block rises when another was used in between
    for _ in 0..40 {
        cache.run(&reads(&[10, 11]), &[]).unwrap();
    }
    cache.run(&[Work::Write(12)], &[1; 8]).unwrap();
    let occupancy = cache.occupancy().unwrap();
    assert_eq!(occupancy.class_of(40).map(|class| (class.residents, class.modified)), Some((2, 0)));
    assert_eq!(occupancy.class_of(1).map(|class| (class.residents, class.modified)), Some((1, 1)));
    assert_eq!((occupancy.residents(), occupancy.modified()), (3, 1));
    assert_eq!(cache.parts().occupancy().unwrap(), occupancy);
    assert_eq!(cache.memory().occupancy().unwrap(), occupancy);
}

#[test]
fn every_count_has_one_class() {
    let numbered = Occupancy::from_words(std::array::from_fn(|place| place as u32));
    let highest = [1, 2, 4, 8, 16, 64, 1_000, 65_535];
    for count in 1..=65_535 {
        let expected = highest.iter().position(|&high| count <= high).unwrap() as u32;
        let class = numbered.class_of(count).unwrap();
        assert_eq!((class.residents, class.modified), (expected, 8 + expected), "count {count}");
        assert_eq!(numbered.classes.iter().filter(|class| class.counts.contains(&count)).count(), 1, "count {count}");
    }
    for count in [0, 65_536, u32::MAX] {
        assert_eq!(numbered.class_of(count), None);
    }
}

#[test]
fn a_table_as_text() {
    let words = [110, 40, 31, 13, 33, 195, 74, 16, 35, 23, 28, 13, 12, 92, 12, 16];
    let expected = "
     count residents modified
         1       110       35
         2        40       23
    3 to 4        31       28
    5 to 8        13       13
   9 to 16        33       12
  17 to 64       195       92
65 to 1000        74       12
above 1000        16       16
       all       512      231";
    assert_eq!(Occupancy::from_words(words).to_string(), expected[1..]);
    assert_eq!(format!("[{:<8}]", Occupancy::from_words(words).classes[2]), "[3 to 4  ]");
}

/// What an archive of another version might write doesn't overflow.
#[test]
fn the_largest_words() {
    let occupancy = Occupancy::from_words([u32::MAX; WORDS]);
    assert_eq!(occupancy.residents(), 8 * u64::from(u32::MAX));
    assert_eq!(occupancy.modified(), 8 * u64::from(u32::MAX));
}

#[test]
fn an_unsound_directory_has_none() {
    let mut belt = Lent::new(BELT);
    belt.answers(&reads(&[10, 11]));
    belt.directory[8] ^= 1;
    assert_eq!(belt.memory().occupancy(), Err(Refusal::Unsound));
    let none = Memory { directory: &mut [], data: &mut [], store: &mut [] };
    assert_eq!(none.occupancy(), Err(Refusal::Unsound));
}

/// No data or store is asked for.
#[test]
fn the_directory_alone_is_enough() {
    let settings = Settings::unix(100, 8, 1_000);
    let mut directory = vec![0; settings.directory_words()];
    fresh(&settings, &mut directory).unwrap();
    let parts = Parts { directory, ..Parts::default() };
    assert_eq!(parts.view().occupancy().map(|occupancy| occupancy.residents()), Ok(0));
    assert_eq!(parts.view().look(0), Err(Refusal::ShortDataOrStore));
}
