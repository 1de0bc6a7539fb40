//! The number of raised flags, which a device tells without counting: it is what a count gives.

mod common;

use common::{count_flags, Moves, Pair};
use ds1852::{State, OWN, PLACES};
use model::traffic::{any_event, damage, events, image, log, Kind, Rng};
use model::STATE;

/// The flags that are up in the linked device's own bytes.
fn counted(pair: &Pair) -> u32 {
    count_flags(&pair.linked.state().bytes)
}

fn told(pair: &Pair) -> u32 {
    u32::from(pair.linked.flags_up())
}

#[test]
fn from_an_image_it_is_the_count_after_every_event() {
    let mut rng = Rng::new(40);
    let mut moves = Moves::default();
    let mut most = 0;
    for _ in 0..1_500 {
        let mut pair = Pair::start(&image(&mut rng)).expect("an image of the right form");
        assert_eq!((told(&pair), counted(&pair)), (1, 1));
        for e in events(&mut rng, &pair.model, Kind::Flags, 1_000) {
            let e = if rng.one_in(200) { any_event(&mut rng) } else { e };
            let before = counted(&pair);
            pair.apply(e).ok();
            pair.check();
            assert_eq!(told(&pair), counted(&pair), "{e:?}");
            moves.add(e, before, counted(&pair));
            most = most.max(told(&pair));
        }
    }
    assert!(moves.rarest() > 500 && most > 40, "{moves:?}, at most {most} up");
}

#[test]
fn from_an_image_it_is_the_count_after_every_run() {
    let mut rng = Rng::new(41);
    let mut met = [0; 2];
    for _ in 0..2_000 {
        let mut pair = Pair::start(&image(&mut rng)).expect("an image of the right form");
        for _ in 0..4 {
            let count = rng.pick(&[1, 8, 100, 300]);
            let mut text = log(&events(&mut rng, &pair.model, Kind::Flags, count));
            if rng.one_in(2) {
                damage(&mut rng, &mut text);
            }
            let before = told(&pair);
            let result = pair.run(&text, 65_536);
            assert_eq!(told(&pair), counted(&pair));
            assert!(result.is_ok() || told(&pair) == before);
            met[usize::from(result.is_ok())] += usize::from(before > 0);
        }
    }
    assert!(met.iter().all(|&n| n > 500), "{met:?}");
}

/// A number that no device gives moves as the count does, modulo 256, and a power cycle sets it to 1.
#[test]
fn from_any_state_it_moves_as_the_count_does() {
    let mut rng = Rng::new(42);
    let mut moves = Moves::default();
    for _ in 0..5_000 {
        let mut bytes = [0; STATE];
        rng.fill(&mut bytes);
        bytes[PLACES + OWN + State::BUSY] = 0;
        let mut pair = Pair::from_state(&bytes);
        for e in events(&mut rng, &pair.model, Kind::Flags, 40) {
            let e = if rng.one_in(200) { any_event(&mut rng) } else { e };
            let before = (told(&pair), counted(&pair));
            let cycled = pair.apply(e).is_ok() && e.letter == u16::from(b'C');
            pair.check_device();
            let expected = if cycled { 1 } else { (before.0 + 256 + counted(&pair) - before.1) % 256 };
            assert_eq!(told(&pair), expected, "{e:?}");
            moves.add(e, before.1, counted(&pair));
        }
    }
    assert!(moves.rarest() > 100, "{moves:?}");
}
