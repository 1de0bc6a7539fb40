//! Small signals, shifted: the reading that a sample stores and the answer that it draws, by the words of the request.

mod common;

use common::Pair;
use ds1852::{Device, Event, State, IMAGE};
use model::traffic::{any_event, events, image, Kind, Rng};

/// The place of a byte of table 03h in the memory, by its address.
const fn in_table3(address: usize) -> usize {
    0x100 + address
}

fn word_at(state: &State, at: usize) -> u16 {
    u16::from_be_bytes([state.bytes[at], state.bytes[at + 1]])
}

fn put_word(state: &mut State, at: usize, word: u16) {
    state.bytes[at..at + 2].copy_from_slice(&word.to_be_bytes());
}

fn reading_of(state: &State, channel: u16) -> u16 {
    word_at(state, 0x60 + 2 * usize::from(channel))
}

/// What a sample that is taken comes to.
struct Taken {
    /// Rounded down, before the limit.
    product: f64,
    shift: u8,
    reading: u16,
    /// The value of the answer.
    value: u8,
}

/// A sample that a device with this state takes, by the words; a float holds these products exactly.
fn taken(state: &State, channel: u16, raw: u16) -> Taken {
    let [a8, a9] = [0xA8, 0xA9].map(|address| state.bytes[in_table3(address)]);
    let shift = match channel {
        2 => a8 % 128 / 16,
        3 => a8 % 8,
        4 => a9 % 128 / 16,
        _ => 0,
    };
    let product = match channel {
        0 => f64::from(raw),
        _ => {
            let scale = word_at(state, in_table3(0xC8) + 2 * (usize::from(channel) - 1));
            let (coarse, fine) = (scale / 4_096, scale % 4_096);
            (f64::from(raw) * f64::from(fine) * 2f64.powi(coarse.into()) / 32_768.0).floor()
        }
    };
    let mut reading = (product.min(65_535.0) / 16.0).floor() * 16.0;
    for _ in 0..shift {
        reading = (reading / 2.0).floor();
    }
    Taken { product, shift, reading: reading as u16, value: if product > 65_535.0 { 2 } else { 1 } }
}

/// What samples came to: a test that meets only a few cases would show little.
#[derive(Default, Debug)]
struct Met {
    /// By channel and shift.
    shifted: [[usize; 8]; 5],
    /// By channel.
    cut: [usize; 5],
    /// A product of 65535, which is not cut, and one of 65536, which is.
    at_limit: usize,
    above_limit: usize,
    /// The shift brought low bits back.
    low_bits: usize,
    not_taken: usize,
    /// Events after which A8h or A9h had changed.
    stored: usize,
}

impl Met {
    fn add(&mut self, channel: u16, taken: &Taken) {
        self.shifted[usize::from(channel)][usize::from(taken.shift)] += 1;
        self.cut[usize::from(channel)] += usize::from(taken.value == 2);
        self.at_limit += usize::from(channel > 0 && taken.product == 65_535.0);
        self.above_limit += usize::from(taken.product == 65_536.0);
        self.low_bits += usize::from(taken.reading & 0x0F > 0);
    }

    /// How often the rarest shift of B, P and R came.
    fn rarest_shift(&self) -> usize {
        self.shifted[2..].iter().flatten().copied().min().unwrap_or(0)
    }

    /// How often the rarest channel was cut: V, B, P or R.
    fn rarest_cut(&self) -> usize {
        self.cut[1..].iter().copied().min().unwrap_or(0)
    }
}

/// A state from an image of zeros, with one scale for all channels, and A8h and A9h.
fn prepared(scale: u16, a8: u8, a9: u8) -> State {
    let mut state = *Device::start(&[0; IMAGE]).unwrap().state();
    for channel in 0..4 {
        put_word(&mut state, in_table3(0xC8) + 2 * channel, scale);
    }
    state.bytes[in_table3(0xA8)] = a8;
    state.bytes[in_table3(0xA9)] = a9;
    state
}

/// The reading and the value of the answer.
fn sampled(device: &mut Device, channel: u16, raw: u16) -> (u16, u8) {
    let answer = device.apply(Event::sample(channel, raw)).unwrap();
    (reading_of(device.state(), channel), answer.value())
}

/// The cases that the words decide, worked out by hand: B, P and R are shifted, V and T by no bit.
#[test]
fn worked_cases() {
    // Scale, shift and raw value; the reading before the shift and after it, and the answer.
    let cases = [
        (0x4800, 4, 40_000, 0x9C40, 0x09C4, 1),
        (0x5800, 7, 40_000, 0xFFF0, 0x01FF, 2),
        (0x4800, 1, 100, 0x0060, 0x0030, 1),
        // The product is 65535: the limit cuts nothing. Nor does it at 49146 * 2731 / 2048, which is 65535.999.
        (0x4800, 0, 65_535, 0xFFF0, 0xFFF0, 1),
        (0x4AAB, 0, 49_146, 0xFFF0, 0xFFF0, 1),
        // 65536 is cut, and 65534 is not.
        (0x8100, 0, 32_768, 0xFFF0, 0xFFF0, 2),
        (0x8100, 3, 32_767, 0xFFF0, 0x1FFE, 1),
        (0x0000, 7, 65_535, 0x0000, 0x0000, 1),
        (0xFFFF, 7, 65_535, 0xFFF0, 0x01FF, 2),
    ];
    for (scale, shift, raw, cleared, reading, value) in cases {
        // A8h and A9h for B, P and R; the other two have other shifts.
        let shifts = [(shift << 4 | !shift & 7, !shift << 4), (!shift << 4 | shift, !shift << 4), (!shift, shift << 4)];
        for (channel, (a8, a9)) in (2..).zip(shifts) {
            let mut device = Device::from_state(prepared(scale, a8, a9));
            assert_eq!(sampled(&mut device, channel, raw), (reading, value), "{scale:04X}h, {raw}, by {shift}");
            assert_eq!(sampled(&mut device, 1, raw), (cleared, value), "{scale:04X}h, {raw}, V");
            assert_eq!(sampled(&mut device, 0, raw), (raw & 0xFFF0, 1), "{raw}, T");
            // The limits of this image are 0: the reading is above the high ones, unless it is 0.
            let flags = word_at(device.state(), 0x70);
            assert_eq!(flags >> (14 - 2 * channel) & 3, if reading > 0 { 2 } else { 0 });
        }
    }
}

/// Every A8h with every A9h: three bits of them shift B, three P and three R. The others act on nothing.
#[test]
fn every_a8h_with_every_a9h() {
    let mut met = Met::default();
    for a8 in 0..=255 {
        for a9 in 0..=255 {
            let state = prepared(0x4800, a8, a9);
            let mut device = Device::from_state(state);
            for channel in 0..5 {
                let expected = taken(&state, channel, 0xABCD);
                assert_eq!(expected.reading, 0xABC0 >> expected.shift);
                assert_eq!(sampled(&mut device, channel, 0xABCD), (expected.reading, 1), "{a8:02X}h, {a9:02X}h");
                met.add(channel, &expected);
            }
        }
    }
    // T and V are never shifted, and of the others each shift comes as often as each other.
    assert_eq!(met.shifted[0], [65_536, 0, 0, 0, 0, 0, 0, 0]);
    assert_eq!(met.shifted[1], met.shifted[0]);
    assert_eq!(met.shifted[2..], [[8_192; 8]; 3]);
}

/// Every scale, with the raw values about the least one that is cut and those at the ends, by every shift.
#[test]
fn every_scale_about_the_limit() {
    let mut met = Met::default();
    for scale in 0..=65_535 {
        let times = f64::from(scale % 4_096) * 2f64.powi((scale / 4_096).into()) / 32_768.0;
        // A cast of what is too great gives 65535.
        let about = (65_536.0 / times) as u16;
        let raws = [0, 1, about - 1, about, about.saturating_add(1), about.saturating_add(2), 65_535];
        let mut values = [0; 3];
        for shift in 0..8 {
            // The three by different shifts, and a bit of each byte that acts on nothing.
            let [b, p, r] = [0, 3, 6].map(|more| (shift + more) % 8);
            let state = prepared(scale, 0x80 | b << 4 | p, r << 4 | 0x01);
            let mut device = Device::from_state(state);
            for (channel, raw) in (1..5).flat_map(|channel| raws.map(|raw| (channel, raw))) {
                let expected = taken(&state, channel, raw);
                let (reading, value) = sampled(&mut device, channel, raw);
                assert_eq!((reading, value), (expected.reading, expected.value), "{scale:04X}h, {raw}, {channel}");
                values[usize::from(value)] += 1;
                met.add(channel, &expected);
            }
        }
        // Every scale above 1 cuts some of them and leaves some; no other cuts any.
        assert!(values[0] == 0 && values[1] > 0 && (values[2] > 0) == (times > 1.0), "{scale:04X}h: {values:?}");
    }
    assert!(met.rarest_shift() > 200_000 && met.rarest_cut() > 500_000 && met.low_bits > 2_000_000, "{met:?}");
    assert!(met.at_limit > 10_000 && met.above_limit > 10_000, "{met:?}");
}

/// V is not shifted, so that it tells what a sample of B, P or R gave before the request: a shift of 0 gives that reading,
/// each place more halves it, and the answer is the same.
#[test]
fn each_place_halves_the_reading() {
    let mut rng = Rng::new(80);
    let mut answers = [0; 3];
    for _ in 0..50_000 {
        let (scale, raw) = (rng.word(), rng.word());
        for shift in 0..8 {
            let mut device = Device::from_state(prepared(scale, shift << 4 | shift, shift << 4));
            let (before, value) = sampled(&mut device, 1, raw);
            assert_eq!(before % 16, 0);
            for channel in 2..5 {
                assert_eq!(sampled(&mut device, channel, raw), (before >> shift, value), "{scale:04X}h, {raw}");
            }
            answers[usize::from(value)] += 1;
        }
    }
    assert!(answers[0] == 0 && answers[1] > 100_000 && answers[2] > 100_000, "{answers:?}");
}

/// The flags compare the shifted reading: with limits next to it, and with limits between it and the reading before.
#[test]
fn flags_compare_the_shifted_reading() {
    for (channel, shift) in (2..5).flat_map(|channel| (0..8).map(move |shift| (channel, shift))) {
        let mut state = prepared(0x4800, shift << 4 | shift, shift << 4);
        let reading = 0x9C40 >> shift;
        let between = reading / 2 + 0x9C40 / 2;
        // All four limits of the channel; high and low.
        for (limit, high, low) in [
            (reading, 0, 0),
            (reading - 1, 1, 0),
            (reading + 1, 0, 1),
            (between, 0, u16::from(shift > 0)),
            (0x9C40, 0, u16::from(shift > 0)),
            (0x9C3F, u16::from(shift == 0), u16::from(shift > 0)),
        ] {
            for i in 0..4 {
                put_word(&mut state, in_table3(0x80) + 8 * usize::from(channel) + 2 * i, limit);
            }
            let mut device = Device::from_state(state);
            assert_eq!(sampled(&mut device, channel, 40_000), (reading, 1));
            for at in [0x70, 0x74] {
                let flags = word_at(device.state(), at);
                let pair = (flags >> (15 - 2 * channel) & 1, flags >> (14 - 2 * channel) & 1);
                assert_eq!(pair, (high, low), "channel {channel} by {shift}, limit {limit:04X}h, {at:02X}h");
            }
        }
    }
}

/// In random traffic, refused events among it, every sample stores the reading and draws the answer that the words give;
/// one that is not taken leaves the reading and is answered with 0.
#[test]
fn reading_and_answer_of_every_sample() {
    let mut rng = Rng::new(81);
    let mut met = Met::default();
    for _ in 0..1_500 {
        let mut pair = Pair::start(&image(&mut rng)).expect("an image of the right form");
        for e in events(&mut rng, &pair.model, Kind::Shifts, 600) {
            let e = if rng.one_in(100) { any_event(&mut rng) } else { e };
            let before = *pair.linked.state();
            let answer = pair.apply(e);
            pair.check();
            let shifts = in_table3(0xA8)..in_table3(0xAA);
            met.stored += usize::from(pair.linked.state().bytes[shifts.clone()] != before.bytes[shifts]);
            let (Ok((b'O', value)), Ok(b'A')) = (answer, u8::try_from(e.letter)) else { continue };
            let reading = reading_of(pair.linked.state(), e.channel);
            if before.bytes[in_table3(0xE8)] & 0x04 == 0 {
                assert_eq!((reading, value), (reading_of(&before, e.channel), 0), "{e:?}");
                met.not_taken += 1;
                continue;
            }
            let expected = taken(&before, e.channel, e.value);
            assert_eq!((reading, value), (expected.reading, expected.value), "{e:?}");
            met.add(e.channel, &expected);
        }
    }
    assert!(met.rarest_shift() > 1_000 && met.rarest_cut() > 5_000 && met.low_bits > 10_000, "{met:?}");
    assert!(met.at_limit > 1_000 && met.above_limit > 1_000, "{met:?}");
    assert!(met.not_taken > 5_000 && met.stored > 1_000, "{met:?}");
}
