//! V's low alarm, bit 4 of 70h: up from a start or a power cycle until the supply is measured.

mod common;

use common::Pair;
use ds1852::State;
use model::traffic::{any_event, events, image, Kind, Rng};
use model::{Event, Phase};

fn alarm(state: &State) -> bool {
    state.bytes[0x70] & 0x10 != 0
}

/// Whether an event measures the supply: a V sample that is taken with E8h bit 5 clear, or a stop that stores 70h, for
/// which level 2 and E8h bit 5 are needed.
fn measures(device: &model::Device, e: Event) -> bool {
    let e8 = device.tables[2][0x68];
    if e == Event::new(b'A', 1, e.value) {
        return e8 & 0x24 == 0x04;
    }
    let holds_70h = device.phase == Phase::Writing && device.pointer & 0xF8 == 0x70 && device.held[0].is_some();
    e == Event::new(b'E', 0, 0) && holds_70h && device.level() == 2 && e8 & 0x20 != 0
}

/// What became of the alarm: how often a V sample and a stop cleared it as the first event that measured, how often a V
/// sample left it, and how many events met it before that.
#[derive(Default, Debug)]
struct Met {
    sample_cleared: usize,
    sample_kept: usize,
    stop_cleared: usize,
    waited: [usize; 9],
}

#[test]
fn it_is_up_until_the_supply_is_measured() {
    let mut rng = Rng::new(50);
    let mut met = Met::default();
    for _ in 0..3_000 {
        let mut pair = Pair::start(&image(&mut rng)).expect("an image of the right form");
        let mut measured = false;
        assert!(alarm(pair.linked.state()));
        for e in events(&mut rng, &pair.model, Kind::Flags, 300) {
            let e = if rng.one_in(100) { any_event(&mut rng) } else { e };
            let first = !measured && measures(&pair.model, e);
            measured |= first;
            let answered = pair.apply(e).is_ok();
            measured &= !(answered && e.letter == u16::from(b'C'));
            let up = alarm(pair.linked.state());
            assert!(up || measured, "{e:?}");
            match (first, e.letter == u16::from(b'A'), up) {
                (true, true, false) => met.sample_cleared += 1,
                (true, true, true) => met.sample_kept += 1,
                (true, false, false) => met.stop_cleared += 1,
                _ => {}
            }
            if let Some(kind) = b"SEBRWCIAF".iter().position(|&l| u16::from(l) == e.letter) {
                met.waited[kind] += usize::from(!measured);
            }
        }
    }
    assert!(met.sample_cleared > 200 && met.sample_kept > 200 && met.stop_cleared > 200, "{met:?}");
    assert!(met.waited.iter().all(|&n| n > 200), "{met:?}");
}
