//! A reading never torn: the two bytes that a host reads one after the other are of one stored reading.

mod common;

use common::Pair;
use ds1852::{Device, Event, State, IMAGE};
use model::traffic::{any_event, events, image, in_table3, Kind, Rng};

/// The stored reading whose high byte stands at an address.
fn reading_at(state: &State, address: u8) -> u16 {
    let at = usize::from(address);
    u16::from_be_bytes([state.bytes[at], state.bytes[at + 1]])
}

/// What became of the readings whose high byte was read: how often the low byte came next, with the reading changed in
/// between or not, and how often another event of the bus, or a power cycle, came before it.
#[derive(Default, Debug)]
struct Met {
    changed: usize,
    same: usize,
    ended: [usize; 4],
}

/// In random traffic, refused events among it, the two bytes are of the reading that stood when the first was read, and
/// every other byte is the one that stands.
#[test]
fn two_bytes_are_of_one_reading() {
    let mut rng = Rng::new(70);
    let mut met = Met::default();
    for _ in 0..1_500 {
        let mut pair = Pair::start(&image(&mut rng)).expect("an image of the right form");
        // The address of the high byte that the last event of the bus read, and the reading that stood there.
        let mut begun: Option<(u8, u16)> = None;
        for e in events(&mut rng, &pair.model, Kind::Readings, 600) {
            let e = if rng.one_in(100) { any_event(&mut rng) } else { e };
            let before = *pair.linked.state();
            let stands = pair.linked.read(before.internal[State::POINTER]);
            let answer = pair.apply(e);
            pair.check();
            let Ok((_, value)) = answer else { continue };
            match e.letter as u8 {
                b'R' if matches!(before.internal[State::PHASE], 4 | 5) => {
                    let pointer = before.internal[State::POINTER];
                    match begun.take() {
                        Some((address, reading)) => {
                            assert_eq!(pointer, address + 1);
                            assert_eq!(value, reading as u8, "{e:?}");
                            let now = reading_at(&before, address);
                            met.changed += usize::from(now != reading);
                            met.same += usize::from(now == reading);
                        }
                        None => assert_eq!(value, stands, "{e:?}"),
                    }
                    if e.value == 0 && (0x60..0x6A).contains(&pointer) && pointer & 1 == 0 {
                        begun = Some((pointer, reading_at(&before, pointer)));
                        assert_eq!(u16::from(value), reading_at(&before, pointer) >> 8);
                    }
                }
                letter @ (b'S' | b'E' | b'B' | b'C') => {
                    let kind = b"SEBC".iter().position(|&l| l == letter).expect("one of them");
                    met.ended[kind] += usize::from(begun.take().is_some());
                }
                _ => {}
            }
        }
    }
    assert!(met.changed > 10_000 && met.same > 10_000, "{met:?}");
    assert!(met.ended.iter().all(|&n| n > 200), "{met:?}");
}

/// Each channel, from each of many readings to each other one while it is read.
#[test]
fn every_channel_while_it_changes() {
    let mut image = [0; IMAGE];
    for scale in (0xC8..0xD0).step_by(2) {
        image[in_table3(scale)] = 0x48;
    }
    let raws = (0..=0xFFF).step_by(97).chain([0xFFF]).map(|sixteenths: u16| 16 * sixteenths);
    let event = |letter: u8, channel, value| Event { letter: u16::from(letter), channel, value };
    for channel in 0..5 {
        let mut device = Device::start(&image).unwrap();
        let mut apply = |letter, channel, value| device.apply(event(letter, channel, value)).unwrap().value();
        for before in raws.clone() {
            for after in raws.clone() {
                apply(b'A', channel, before);
                apply(b'S', 0, 0);
                apply(b'B', 0, 0xA0);
                apply(b'B', 0, 0x60 + 2 * channel);
                apply(b'S', 0, 0);
                apply(b'B', 0, 0xA1);
                let high = apply(b'R', 0, 0);
                apply(b'A', channel, after);
                let low = apply(b'R', 0, 1);
                assert_eq!(u16::from_be_bytes([high, low]), before, "channel {channel}, then {after:04X}h");
            }
        }
    }
}
