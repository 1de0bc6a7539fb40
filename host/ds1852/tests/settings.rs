//! The current entry and the outputs of tables 04h and 05h: what the words of the request give, in degrees.

mod common;

use common::Pair;
use ds1852::{Device, Event, State, IMAGE};
use model::traffic::{any_event, events, image, Kind, Rng};
use std::cmp::Ordering;

/// The entry after a temperature sample that is taken, by the words; a float holds these degrees exactly.
fn entry_after(entry: u8, degrees: f64) -> u8 {
    let wanted = ((degrees + 40.0) / 2.0).floor().clamp(0.0, 71.0) as u8;
    let lower_edge = 2.0 * f64::from(entry) - 40.0;
    match wanted.cmp(&entry) {
        Ordering::Greater => wanted,
        Ordering::Less if degrees <= lower_edge - 1.0 => wanted,
        _ => entry,
    }
}

/// The stored reading of the temperature, in degrees.
fn degrees(state: &State) -> f64 {
    f64::from(i16::from_be_bytes([state.bytes[0x60], state.bytes[0x61]])) / 256.0
}

/// The outputs of tables 04h and 05h, by the words.
fn outputs(state: &State) -> [u8; 2] {
    [0x200, 0x280].map(|table| {
        let manual = state.bytes[table + 0x49] % 2 == 1;
        state.bytes[table + if manual { 0x48 } else { usize::from(state.internal[State::CURRENT_ENTRY]) }]
    })
}

/// How often the entry rose, fell, and stayed though another was wanted.
#[derive(Default, Debug)]
struct Moves {
    rose: usize,
    fell: usize,
    held: usize,
}

impl Moves {
    fn add(&mut self, before: u8, after: u8, degrees: f64) {
        match after.cmp(&before) {
            Ordering::Greater => self.rose += 1,
            Ordering::Less => self.fell += 1,
            Ordering::Equal => self.held += usize::from(degrees < 2.0 * f64::from(before) - 40.0 && before > 0),
        }
    }
}

/// Every temperature that can be stored, from every entry.
#[test]
fn every_temperature_from_every_entry() {
    let started = *Device::start(&[0; IMAGE]).unwrap().state();
    let mut moves = Moves::default();
    for entry in 0..72 {
        for sixteenths in 0..4_096 {
            let mut state = started;
            state.internal[State::CURRENT_ENTRY] = entry;
            let mut device = Device::from_state(state);
            device.apply(Event::sample(0, 16 * sixteenths)).unwrap();
            let t = degrees(device.state());
            assert_eq!(device.current_entry(), entry_after(entry, t), "entry {entry}, {t} degrees");
            moves.add(entry, device.current_entry(), t);
        }
    }
    // Less than 1 °C below the lower edge of entries 1 to 71: fifteen sixteenths each.
    assert_eq!(moves.held, 71 * 15);
    assert!(moves.rose > 100_000 && moves.fell > 100_000, "{moves:?}");
}

/// After each event of random traffic the entry is what the words give: no event but a temperature sample that is taken,
/// and a power cycle, moves it. The outputs follow it.
#[test]
fn entry_and_outputs_after_every_event() {
    let mut rng = Rng::new(60);
    let mut moves = Moves::default();
    let mut manual = [0; 4];
    for _ in 0..1_500 {
        let mut pair = Pair::start(&image(&mut rng)).expect("an image of the right form");
        let mut expected = 20;
        for e in events(&mut rng, &pair.model, Kind::Settings, 600) {
            let e = if rng.one_in(100) { any_event(&mut rng) } else { e };
            let answer = pair.apply(e);
            pair.check();
            let state = pair.linked.state();
            let before = expected;
            match (answer, u8::try_from(e.letter), e.channel) {
                (Ok((b'O', 1)), Ok(b'A'), 0) => {
                    expected = entry_after(before, degrees(state));
                    moves.add(before, expected, degrees(state));
                }
                (Ok(_), Ok(b'C'), _) => expected = 20,
                _ => {}
            }
            assert_eq!(pair.linked.current_entry(), expected, "{e:?}");
            assert_eq!(pair.linked.outputs(), outputs(state), "{e:?}");
            let modes = [0x249, 0x2C9].map(|at| usize::from(state.bytes[at] % 2));
            manual[2 * modes[0] + modes[1]] += 1;
        }
    }
    assert!(moves.rose > 10_000 && moves.fell > 10_000 && moves.held > 5_000, "{moves:?}");
    assert!(manual.iter().all(|&n| n > 10_000), "{manual:?}");
}
