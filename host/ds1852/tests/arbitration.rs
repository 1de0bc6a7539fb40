//! Two hosts on one line: 300 lines of a model written by other hands, cases worked out by hand from request 2.9, and any
//! messages on any devices against the plain model, which goes bit by bit.

mod common;

use common::Pair;
use ds1852::{Device, Event, Refusal, State, Winner, LONGEST_MESSAGE};
use model::traffic::{events, image, Kind, Rng};

/// What a call tells: who survives, or the refusal's number and line.
type Told = Result<Winner, (u32, u32)>;

/// What the library tells of two messages on a device of zeros, whose address is A0h; the model tells the same, and so do the
/// messages exchanged, with the exchanged answer and the same device.
fn told(first: &[u8], second: &[u8]) -> Told {
    let mut pair = Pair::start(&[0; ds1852::IMAGE]).expect("an image of the right form");
    let mut exchanged = pair.clone();
    let result = pair.arbitrate(first, second);
    let expected = match result {
        Ok(Winner::First) => Ok(Winner::Second),
        Ok(Winner::Second) => Ok(Winner::First),
        other => other,
    };
    assert_eq!(exchanged.arbitrate(second, first), expected, "{first:02X?}, {second:02X?}");
    assert_eq!(pair.linked, exchanged.linked, "{first:02X?}, {second:02X?}");
    result
}

fn refused(number: u32) -> Told {
    Err((number, 0))
}

/// A line: first and second message in hex (`-` is empty), `=`, then who survives, or X and the refusal.
fn read_line(line: &str) -> (Vec<u8>, Vec<u8>, Told) {
    let message = |field: &str| {
        let hex = if field == "-" { "" } else { field };
        (0..hex.len()).step_by(2).map(|at| u8::from_str_radix(&hex[at..at + 2], 16).expect("two digits")).collect()
    };
    let fields: Vec<&str> = line.split(' ').collect();
    let expected = match fields[2..] {
        ["=", "first"] => Ok(Winner::First),
        ["=", "second"] => Ok(Winner::Second),
        ["=", "both"] => Ok(Winner::Both),
        ["=", "X", number] => refused(number.parse().expect("a refusal")),
        _ => panic!("not of the form: {line}"),
    };
    (message(fields[0]), message(fields[1]), expected)
}

#[test]
fn the_lines_of_other_hands() {
    let mut met = [0; 23];
    for line in include_str!("../../vectors/hosts.txt").lines() {
        let (first, second, expected) = read_line(line);
        assert_eq!(told(&first, &second), expected, "{line}");
        met[expected.map_or_else(|(number, _)| number as usize, |winner| winner as usize)] += 1;
    }
    assert_eq!(met.iter().sum::<usize>(), 300);
    assert_eq!((met[0], met[1], met[2]), (59, 28, 69));
    assert_eq!((met[20], met[21], met[22]), (97, 13, 34));
}

/// 0xA2 is 1010 0010 and 0xA4 is 1010 0100: the first bit in which they differ decides, top bit first.
#[test]
fn the_smaller_first_differing_byte_survives() {
    assert_eq!(told(&[0xA2], &[0xA4]), Ok(Winner::First));
    // By the top bit, though every lower bit speaks for the other.
    assert_eq!(told(&[0x80], &[0x7E]), Ok(Winner::Second));
    // By the first differing byte, not by a later one and not by the length.
    assert_eq!(told(&[0xA2, 0x7F, 2, 0], &[0xA2, 0x7F, 1, 0xFF]), Ok(Winner::Second));
    assert_eq!(told(&[0xA2, 0x10], &[0xA2, 0x0F, 0xFF, 0xFF]), Ok(Winner::Second));
    assert_eq!(told(&[0xA2, 0x0F], &[0xA2, 0x10, 0, 0]), Ok(Winner::First));
    assert_eq!(told(&[0xA2, 0x7F], &[0xA2, 0x7F]), Ok(Winner::Both));
    // Every pair of bytes: as first bytes where both are even, and as second ones.
    for x in 0..=255 {
        for y in 0..=255 {
            let expected = match x.cmp(&y) {
                std::cmp::Ordering::Less => Ok(Winner::First),
                std::cmp::Ordering::Equal => Ok(Winner::Both),
                std::cmp::Ordering::Greater => Ok(Winner::Second),
            };
            assert_eq!(told(&[0x00, x], &[0x00, y]), expected);
            assert_eq!(told(&[x], &[y]), if x % 2 + y % 2 == 0 { expected } else { refused(21) });
        }
    }
}

/// Each refusal is tested over both messages before the next.
#[test]
fn refusals_in_their_order() {
    assert_eq!(told(&[], &[]), refused(20));
    assert_eq!(told(&[], &[0xA2]), refused(20));
    assert_eq!(told(&[0xA3], &[]), refused(20));
    for length in 0..40 {
        let message = vec![0xA2; length];
        assert_eq!(told(&message, &message).is_ok(), (1..=LONGEST_MESSAGE).contains(&length), "{length}");
    }
    let too_long = [0xA2; 17];
    assert_eq!(told(&too_long, &too_long[..16]), refused(20));
    assert_eq!(told(&[0xA3; 16], &[0xA3; 17]), refused(20));
    assert_eq!(told(&[0xA3], &[0xA2]), refused(21));
    assert_eq!(told(&[0xA2], &[0x01]), refused(21));
    assert_eq!(told(&[0xA3], &[0xA3]), refused(21));
    assert_eq!(told(&[0xA3], &[0xA3, 0x00]), refused(21));
    assert_eq!(told(&[0xA2], &[0xA2, 0x00]), refused(22));
    assert_eq!(told(&[0x00, 0x00], &[0x00]), refused(22));
    assert_eq!(told(&too_long[..15], &too_long[..16]), refused(22));
    let refusals = [Refusal::MessageLength, Refusal::FirstByteOdd, Refusal::MessagePrefix];
    assert_eq!(refusals.map(Refusal::number), [20, 21, 22]);
    assert_eq!(refusals.map(Refusal::line), [0; 3]);
}

/// A message of a host, mostly for this device: its address, a pointer and data.
fn message(rng: &mut Rng, device: &model::Device) -> Vec<u8> {
    let length = if rng.one_in(8) { rng.below(20) } else { 1 + rng.below(LONGEST_MESSAGE) };
    let mut message: Vec<u8> = (0..length).map(|_| rng.pick(&[0, 1, 0x7F, 0x80, 0xFE, 0xFF])).collect();
    if rng.one_in(2) {
        rng.fill(&mut message);
    }
    if let (Some(byte), false) = (message.first_mut(), rng.one_in(6)) {
        *byte = device.address();
    }
    if let (Some(byte), true) = (message.get_mut(1), rng.one_in(2)) {
        *byte = rng.pick(&[0x00, 0x60, 0x70, 0x7B, 0x7F, 0x80, 0xC8]);
    }
    message
}

/// Another message, which has much in common with this one.
fn like(rng: &mut Rng, message: &[u8]) -> Vec<u8> {
    let mut other = message.to_vec();
    match rng.below(4) {
        0 => {}
        1 => other.truncate(rng.below(message.len() + 1)),
        2 => other.push(rng.byte()),
        _ => {
            if !other.is_empty() {
                let at = rng.below(other.len());
                other[at] ^= 1 << rng.below(8);
            }
        }
    }
    other
}

/// Any messages on devices that any traffic has left, busy ones and ones in the middle of a transfer among them: as the model
/// has it bit by bit, and as the events one by one; a refused call leaves every byte.
#[test]
fn any_messages() {
    let mut rng = Rng::new(90);
    let mut met = [0; 23];
    let mut stored = 0;
    for _ in 0..4_000 {
        let mut pair = Pair::start(&image(&mut rng)).expect("an image of the right form");
        let before = rng.below(60);
        for e in events(&mut rng, &pair.model.clone(), Kind::Mixed, before) {
            pair.apply(e).expect("traffic stays in the ranges");
        }
        for _ in 0..8 {
            let first = message(&mut rng, &pair.model);
            let second = if rng.one_in(3) { message(&mut rng, &pair.model) } else { like(&mut rng, &first) };
            let mut one_by_one = pair.linked.clone();
            let state = *pair.linked.state();
            let result = pair.arbitrate(&first, &second);
            met[result.map_or_else(|(number, _)| number as usize, |winner| winner as usize)] += 1;
            let Ok(winner) = result else {
                assert_eq!(*pair.linked.state(), state);
                continue;
            };
            pair.check();
            one_by_one.apply(Event::start()).unwrap();
            for &byte in if winner == Winner::Second { &second } else { &first } {
                one_by_one.apply(Event::byte(byte)).unwrap();
            }
            one_by_one.apply(Event::stop()).unwrap();
            assert_eq!(one_by_one, pair.linked);
            stored += usize::from(pair.linked.state().bytes[..0x60] != state.bytes[..0x60]);
            if rng.one_in(2) {
                pair.apply(model::Event::new(b'W', 0, 0)).unwrap();
            }
        }
    }
    assert!(
        met.iter().enumerate().all(|(i, &n)| n > 500 || !matches!(i, 0..=2 | 20..=22)),
        "too few of a kind: {met:?}"
    );
    assert!(stored > 20, "too few pages were stored at level 2: {stored}");
}

/// A state that no device gives: the same outcome and the same device, and a refused call leaves every byte.
#[test]
fn any_states() {
    let mut rng = Rng::new(91);
    for _ in 0..20_000 {
        let mut bytes = [0; State::SIZE];
        rng.fill(&mut bytes);
        let mut pair = Pair::from_state(&bytes);
        let first = message(&mut rng, &pair.model);
        let second = like(&mut rng, &first);
        if pair.arbitrate(&first, &second).is_err() {
            assert_eq!(pair.linked.state().to_bytes(), bytes);
        }
    }
}

/// A host whose own message passes 20 and 21 is forced off by some message exactly if it has a byte other than 00h: over every
/// message of up to three of these bytes, against every other one.
#[test]
fn forced_off() {
    let alphabet = [0x00, 0x01, 0x02, 0x80, 0xFE, 0xFF];
    let mut messages = vec![vec![]];
    let mut at = 0;
    while messages[at].len() < 3 {
        for byte in alphabet {
            let mut longer = messages[at].clone();
            longer.push(byte);
            messages.push(longer);
        }
        at += 1;
    }
    assert_eq!(messages.len(), 1 + 6 + 36 + 216);
    let device = Device::start(&[0; ds1852::IMAGE]).unwrap();
    for own in messages.iter().filter(|own| !own.is_empty() && own[0] % 2 == 0) {
        let forces = |other: &&Vec<u8>| device.clone().arbitrate(own, other) == Ok(Winner::Second);
        assert_eq!(messages.iter().any(|other| forces(&other)), own.iter().any(|&byte| byte != 0), "{own:02X?}");
        // 00h up to the first other byte, and one more.
        if let Some(zeros) = own.iter().position(|&byte| byte != 0) {
            assert!(forces(&&vec![0; zeros + 1]), "{own:02X?}");
        }
    }
    // As long as a message may be: only the last byte is not 00h.
    let mut own = [0; LONGEST_MESSAGE];
    own[LONGEST_MESSAGE - 1] = 1;
    assert_eq!(told(&own, &[0; LONGEST_MESSAGE]), Ok(Winner::Second));
}

/// A page written by the survivor: stored, and busy until W; while it is busy a transfer finds nobody who listens.
#[test]
fn the_survivor_is_received() {
    // FFh four times is password 2 and the entry after a power cycle: level 2.
    let mut image = [0xFF; ds1852::IMAGE];
    image[484] = 0;
    let mut pair = Pair::start(&image).unwrap();
    assert_eq!(pair.arbitrate(&[0xA0, 0x10, 5, 6], &[0xA0, 0x10, 5, 7]), Ok(Winner::First));
    assert_eq!((pair.linked.read(0x10), pair.linked.read(0x11), pair.linked.is_busy()), (5, 6, true));
    assert_eq!(pair.arbitrate(&[0xA0, 0x10, 9], &[0xA0, 0x10, 8]), Ok(Winner::Second));
    assert_eq!((pair.linked.read(0x10), pair.write_cycles), (5, 1));
    pair.apply(model::Event::new(b'W', 0, 0)).unwrap();
    // Equal messages count as one: the page once, one write cycle.
    assert_eq!(pair.arbitrate(&[0xA0, 0x10, 8], &[0xA0, 0x10, 8]), Ok(Winner::Both));
    assert_eq!((pair.linked.read(0x10), pair.linked.read(0x11), pair.write_cycles), (8, 6, 2));
    // Another address: nobody is there, and the device goes idle.
    pair.apply(model::Event::new(b'W', 0, 0)).unwrap();
    assert_eq!(pair.arbitrate(&[0x00], &[0xA0, 0x11, 1]), Ok(Winner::First));
    assert_eq!((pair.linked.read(0x11), pair.linked.is_busy()), (6, false));
}
