//! The linked cache beside the plain stack.
use super::{batch, batch_by_loop, look};
use crate::reference::beside::{Seen, Tested};
use crate::reference::directory::fresh_words;
use crate::reference::rng::Rng;
use crate::reference::{fast_judge, histories, occupancy, settings};
use crate::Settings;

fn fresh(s: Settings, dir: &mut [u32]) -> u32 {
    let number = settings::number(s);
    if number != 0 {
        return number;
    }
    if (dir.len() as u64) < settings::directory_length(s) {
        return 5;
    }
    let words = fresh_words(s);
    dir[..words.len()].copy_from_slice(&words);
    0
}

fn look_into(dir: &mut [u32], data: &mut [u8], store: &mut [u8], block: u32, out: &mut [u8]) -> usize {
    let part = look(dir, data, store, block).unwrap_or(&[]);
    out[..part.len()].copy_from_slice(part);
    part.len()
}

const PLAIN: Tested =
    Tested { fresh, batch, sound: fast_judge::sound, look: look_into, occupancy: occupancy::of_words };

#[test]
fn random_histories() {
    let mut rng = Rng::announced("random_histories", 61);
    let mut seen = Seen::default();
    for history in 0..800 {
        let n = rng.within(1, 24);
        let s = histories::settings(&mut rng, n);
        let tested = if history % 4 < 3 { PLAIN } else { Tested { batch: batch_by_loop, ..PLAIN } };
        let mut beside = match history % 2 {
            0 => histories::fresh(&mut rng, tested, s),
            _ => histories::built(&mut rng, tested, s),
        };
        histories::go_on(&mut rng, &mut beside, 8, 50);
        seen.add(&beside.seen);
        assert_eq!(look(&beside.dir, &beside.data, &beside.store[..beside.stack.whole().store], s.m), Err(9));
        assert_eq!(look(&beside.dir, &beside.data, &beside.store, s.m), Err(12));
        assert_eq!(look(&beside.dir, &[], &beside.store, s.m), Err(7));
        assert_eq!(look(&beside.dir[1..], &[], &beside.store, s.m), Err(6));
    }
    println!("{seen:?}");
    assert!(seen.answers[1..].iter().all(|&times| times > 500) && seen.halved > 500);
    assert!(seen.numbers.iter().all(|&times| times > 20) && seen.ticks.all_above(200), "{seen:?}");
    assert!(seen.pins.all_above(200), "{seen:?}");
}
