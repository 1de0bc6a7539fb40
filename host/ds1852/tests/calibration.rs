//! Externally calibrated modules: 200 lines of a model written by other hands, cases worked out by hand from request 2.6,
//! and any memories against the plain model.

use ds1852::{calibrate, Raws, Refusal, Values, LOWER};
use model::traffic::Rng;

/// Coefficients by which R is the raw number.
const RAW_NUMBER: [u32; 5] = [0, 0, 0, ONE, 0];
/// The bits of 1, of the greatest finite number and of infinity.
const ONE: u32 = 0x3F80_0000;
const GREATEST: u32 = 0x7F7F_FFFF;
const INFINITE: u32 = 0x7F80_0000;
/// The sign of a binary32 number.
const MINUS: u32 = 0x8000_0000;
/// Slopes of 1 and offsets of 0.
const PLAIN: [(u16, i16); 4] = [(0x100, 0); 4];

/// What a call tells: T, V, B and P, and the bits of R; or the refusal's number and line.
type Told = Result<([i64; 4], u32), (u32, u32)>;

/// The bits of R. All patterns that are not a number would count as the same; the proof shows that R is never one of them.
fn bits(received: f32) -> u32 {
    if received.is_nan() {
        f32::NAN.to_bits()
    } else {
        received.to_bits()
    }
}

/// What the library tells of raw readings in the order T, V, B, P, R; the model tells the same.
fn told(memory: &[u8], raws: [u16; 5]) -> Told {
    let [temperature, supply, bias, transmitted, received] = raws;
    let linked = calibrate(memory, Raws { temperature, supply, bias, transmitted, received })
        .map(|v| ([v.temperature, v.supply, v.bias, v.transmitted].map(i64::from), bits(v.received)))
        .map_err(|refusal| (refusal.number(), refusal.line()));
    let model = model::calibration::calibrate(memory, raws)
        .map(|v| (v.linear, bits(v.received)))
        .map_err(|refusal| (u32::from(refusal.number), u32::from(refusal.line)));
    assert_eq!(linked, model, "{memory:02X?}, {raws:?}");
    linked
}

/// The bits of R alone.
fn received(memory: &[u8], raw: u16) -> u32 {
    told(memory, [0, 0, 0, 0, raw]).expect("a memory of the right form").1
}

/// Writes the checksum.
fn sum_up(memory: &mut [u8]) {
    memory[0x5F] = memory[..0x5F].iter().fold(0, |sum: u8, &byte| sum.wrapping_add(byte));
}

/// A memory with the bits of five coefficients, fourth power first, and with slopes and offsets of B, P, T and V. The
/// other bytes are their addresses.
fn memory(coefficients: [u32; 5], slopes_and_offsets: [(u16, i16); 4]) -> [u8; LOWER] {
    let mut memory = std::array::from_fn(|at| at as u8);
    for (i, coefficient) in coefficients.iter().enumerate() {
        memory[0x38 + 4 * i..0x3C + 4 * i].copy_from_slice(&coefficient.to_be_bytes());
    }
    for (i, (slope, offset)) in slopes_and_offsets.iter().enumerate() {
        memory[0x4C + 4 * i..0x4E + 4 * i].copy_from_slice(&slope.to_be_bytes());
        memory[0x4E + 4 * i..0x50 + 4 * i].copy_from_slice(&offset.to_be_bytes());
    }
    sum_up(&mut memory);
    memory
}

/// A line: memory in hex (`-` is empty), the raw readings, `=`, then T, V, B and P and the bits of R in hex, or X and the
/// refusal.
fn read_line(line: &str) -> (Vec<u8>, [u16; 5], Told) {
    let fields: Vec<&str> = line.split(' ').collect();
    let hex = if fields[0] == "-" { "" } else { fields[0] };
    let byte = |at| u8::from_str_radix(&hex[at..at + 2], 16).expect("two digits");
    let memory = (0..hex.len()).step_by(2).map(byte).collect();
    let raws = std::array::from_fn(|i| fields[1 + i].parse().expect("a raw reading"));
    let expected = match fields[6..] {
        ["=", "X", number] => Err((number.parse().expect("a refusal"), 0)),
        ["=", t, v, b, p, r] => {
            let r = u32::from_str_radix(r, 16).expect("the bits of a number");
            Ok(([t, v, b, p].map(|value| value.parse().expect("a value")), bits(f32::from_bits(r))))
        }
        _ => panic!("not of the form: {line}"),
    };
    (memory, raws, expected)
}

#[test]
fn the_lines_of_other_hands() {
    let mut met = [0; 20];
    for line in include_str!("../../vectors/calibrate.txt").lines() {
        let (memory, raws, expected) = read_line(line);
        assert_eq!(told(&memory, raws), expected, "{line}");
        met[expected.map_or_else(|(number, _)| number as usize, |_| 0)] += 1;
    }
    assert_eq!(met.iter().sum::<usize>(), 200);
    assert_eq!((met[0], met[17], met[18], met[19]), (160, 10, 13, 17));
}

/// The constants stand in the order B, P, T, V, the values in another; each coefficient has its power.
#[test]
fn each_constant_has_its_place() {
    // The bits of 1, 2, 3, 4 and 5: at 10 they give 12345.
    let coefficients = [ONE, 0x4000_0000, 0x4040_0000, 0x4080_0000, 0x40A0_0000];
    let memory = memory(coefficients, [(0x200, 1), (0x300, 2), (0x400, 3), (0x500, 4)]);
    let raws = Raws { temperature: 1_000, supply: 2_000, bias: 3_000, transmitted: 4_000, received: 10 };
    let values = Values { temperature: 4_003, supply: 10_004, bias: 6_001, transmitted: 12_002, received: 12_345.0 };
    assert_eq!(calibrate(&memory, raws), Ok(values));
    assert_eq!(told(&memory, [1_000, 2_000, 3_000, 4_000, 10]), Ok(([4_003, 10_004, 6_001, 12_002], 0x4640_E400)));
}

/// T is signed and the others are not; the product is rounded down before the offset is added, and nothing is lost.
#[test]
fn slope_times_raw_is_rounded_down() {
    let told_by = |slope, offset, raw| {
        let (values, _) =
            told(&memory(RAW_NUMBER, [(slope, offset); 4]), [raw; 5]).expect("a memory of the right form");
        assert_eq!(values[1..], [values[1]; 3]);
        (values[0], values[1])
    };
    assert_eq!(told_by(0x0100, -16, 0x1900), (6_384, 6_384));
    // A slope of 1/256: -1/256 is rounded down to -1, 65,535/256 to 255.
    assert_eq!(told_by(0x0001, 0, 0xFFFF), (-1, 255));
    assert_eq!(told_by(0x0001, 1, 0xFFFF), (0, 256));
    assert_eq!(told_by(0x0001, 0, 0x00FF), (0, 0));
    assert_eq!(told_by(0x0000, -1, 0xFFFF), (-1, -1));
    // 65,535 * 65,535 / 256 is 16,776,704 and 1/256; 65,535 * 32,768 / 256 is 8,388,480.
    assert_eq!(told_by(0xFFFF, 32_767, 0xFFFF), (-256 + 32_767, 16_776_704 + 32_767));
    assert_eq!(told_by(0xFFFF, -32_768, 0x8000), (-8_388_480 - 32_768, 8_388_480 - 32_768));
}

/// With the coefficients 0, 0, 0, 1, 0 and slopes of 1 every raw reading is given as it is.
#[test]
fn every_raw_number_exactly() {
    let memory = memory(RAW_NUMBER, PLAIN);
    for raw in 0..=u16::MAX {
        let (signed, unsigned) = (i64::from(raw as i16), i64::from(raw));
        assert_eq!(told(&memory, [raw; 5]), Ok(([signed, unsigned, unsigned, unsigned], (raw as f32).to_bits())));
    }
}

/// Each product and each sum is rounded by itself.
#[test]
fn each_step_is_rounded_once() {
    // (1 + 2^-23) * 3 lies half way between 3 + 2^-22 and 3 + 2^-21, and goes to the even one. Less 3 that is 2^-21; a
    // product that is not rounded before the sum would leave 3 * 2^-23.
    assert_eq!(received(&memory([0, 0, 0, 0x3F80_0001, 0xC040_0000], PLAIN), 3), 0x3500_0000);
    // The same one power up: 3 * 2^-21 at the end.
    assert_eq!(received(&memory([0, 0, 0x3F80_0001, 0xC040_0000, 0], PLAIN), 3), 0x35C0_0000);
    // The sum 2^24 + 1 is no binary32 number and goes to 2^24, the even one; less 1 that is 2^24 - 1.
    assert_eq!(received(&memory([0, 0, 0x4B80_0000, ONE, 0xBF80_0000], PLAIN), 1), 0x4B7F_FFFF);
    // Numbers below the normal ones are kept: the least one, times 3, plus itself.
    assert_eq!(received(&memory([0, 0, 0, 1, 1], PLAIN), 3), 4);
    // Zeros keep their signs: -0 * 0 + -0 is -0.
    assert_eq!(received(&memory([MINUS; 5], PLAIN), 0), MINUS);
}

/// Finite coefficients that lead to an infinity: it is given, and no later coefficient leads back.
#[test]
fn an_infinity_is_given() {
    for sign in [0, MINUS] {
        let alone = memory([GREATEST | sign, 0, 0, 0, 0], PLAIN);
        let against = GREATEST | (sign ^ MINUS);
        let opposed = memory([GREATEST | sign, against, against, against, against], PLAIN);
        assert_eq!((received(&alone, 0), received(&alone, 1)), (0, GREATEST | sign));
        for raw in 2..=u16::MAX {
            assert_eq!(received(&alone, raw), INFINITE | sign);
            assert_eq!(received(&opposed, raw), INFINITE | sign);
        }
        // A sum that is too great, at the last step.
        assert_eq!(received(&memory([0, 0, 0, GREATEST | sign, GREATEST | sign], PLAIN), 1), INFINITE | sign);
    }
}

/// The checksum covers each byte of 00h to 5Eh and is at 5Fh; no byte behind it counts.
#[test]
fn every_single_byte_counts_as_far_as_5fh() {
    let mut rng = Rng::new(80);
    let mut any = memory(RAW_NUMBER, PLAIN);
    rng.fill(&mut any[..0x38]);
    rng.fill(&mut any[0x4C..]);
    sum_up(&mut any);
    for good in [memory(RAW_NUMBER, PLAIN), any] {
        let raws = [0x1900, 33_000, 3_000, 5_000, 4_000];
        let values = told(&good, raws);
        assert!(values.is_ok());
        for at in 0..LOWER {
            for difference in 1..=255 {
                let mut changed = good;
                changed[at] ^= difference;
                let expected = if at <= 0x5F { Err((18, 0)) } else { values };
                assert_eq!(told(&changed, raws), expected, "{at:02X}h ^ {difference:02X}h");
            }
        }
    }
}

#[test]
fn refused_with_17_18_19_in_that_order() {
    let raws = Raws { temperature: 0, supply: 0, bias: 0, transmitted: 0, received: 0 };
    let mut broken = memory([INFINITE, 0, 0, 0, 0], PLAIN);
    assert_eq!(calibrate(&broken, raws), Err(Refusal::Coefficient));
    broken[0x5F] ^= 1;
    assert_eq!(calibrate(&broken, raws), Err(Refusal::Checksum));
    assert_eq!(calibrate(&broken[..127], raws), Err(Refusal::MemoryLength));
    assert_eq!([Refusal::MemoryLength, Refusal::Checksum, Refusal::Coefficient].map(Refusal::number), [17, 18, 19]);
    // 00h to 5Fh alone, with the right checksum, are too short, and one byte more is too long.
    let good = memory(RAW_NUMBER, PLAIN);
    for length in (0..2 * LOWER).chain([65_536]) {
        let mut lent = vec![0; length];
        let kept = length.min(LOWER);
        lent[..kept].copy_from_slice(&good[..kept]);
        assert_eq!(told(&lent, [0; 5]).err(), (length != LOWER).then_some((17, 0)), "{length} bytes");
    }
}

/// Each coefficient: refused if infinite or not a number, of either sign; what is just finite is not.
#[test]
fn every_coefficient_is_finite() {
    for place in 0..5 {
        for sign in [0, MINUS] {
            for (pattern, refused) in [
                (GREATEST, false),
                (INFINITE, true),
                (INFINITE + 1, true),
                (0x7FC0_0000, true),
                (0x7FFF_FFFF, true),
                (0x0000_0001, false),
                (0x0000_0000, false),
            ] {
                let mut coefficients = RAW_NUMBER;
                coefficients[place] = pattern | sign;
                let result = told(&memory(coefficients, PLAIN), [1; 5]);
                assert_eq!(result.err(), refused.then_some((19, 0)), "{:08X}h", pattern | sign);
            }
        }
    }
}

/// The bits of a coefficient of a power, 4 to 0: small or wild, by the kind.
fn coefficient(rng: &mut Rng, kind: usize, power: u32) -> u32 {
    let any = u32::from_be_bytes(std::array::from_fn(|_| rng.byte()));
    let exponent = match kind {
        // As modules have them: the terms are of one size at the upper end of the raw readings.
        0 | 1 => 127 + 8 - 16 * power + rng.below(16) as u32,
        // Below the normal numbers.
        2 => 0,
        // The greatest.
        3 => 250 + rng.below(5) as u32,
        // Any that is finite.
        4 | 5 => rng.below(255) as u32,
        // 0 and 1.
        6 => return rng.pick(&[0, MINUS, ONE, ONE | MINUS]),
        // Any bits, often infinite or not a number.
        _ if rng.one_in(8) => return INFINITE | any & rng.pick(&[MINUS, MINUS | 1, u32::MAX]),
        _ => return any,
    };
    any & 0x807F_FFFF | exponent << 23
}

/// A memory of any bytes, most often of the right length and with the right checksum.
fn any_memory(rng: &mut Rng) -> Vec<u8> {
    let mut memory = vec![0; LOWER];
    rng.fill(&mut memory);
    let kind = rng.below(8);
    for (at, power) in [(0x38, 4), (0x3C, 3), (0x40, 2), (0x44, 1), (0x48, 0)] {
        memory[at..at + 4].copy_from_slice(&coefficient(rng, kind, power).to_be_bytes());
    }
    for at in (0x4C..0x5C).step_by(2) {
        memory[at..at + 2].copy_from_slice(&rng.word().to_be_bytes());
    }
    sum_up(&mut memory);
    if rng.one_in(16) {
        let at = rng.below(0x60);
        memory[at] ^= 1 << rng.below(8);
    }
    if rng.one_in(16) {
        memory.resize(rng.pick(&[0, 1, 95, 96, 127, 129, 256]), 0);
    }
    memory
}

/// What the calls of a test drew.
#[derive(Default, Debug)]
struct Met {
    refused: [usize; 20],
    infinite: usize,
    normal: usize,
    below_normal: usize,
    zero: usize,
    /// A negative T, by a negative raw reading, that was not a whole number before it was rounded down.
    rounded: usize,
}

impl Met {
    fn count(&mut self, memory: &[u8], raws: [u16; 5], told: Told) {
        let (values, received) = match told {
            Ok(given) => given,
            Err((number, _)) => return self.refused[number as usize] += 1,
        };
        match f32::from_bits(received) {
            r if r.is_infinite() => self.infinite += 1,
            r if r.is_normal() => self.normal += 1,
            0.0 => self.zero += 1,
            _ => self.below_normal += 1,
        }
        let low_bits = raws[0].wrapping_mul(u16::from(memory[0x55])) % 256;
        self.rounded += usize::from(values[0] < 0 && raws[0] >= 0x8000 && low_bits != 0);
    }
}

#[test]
fn any_memories_and_raw_readings() {
    let mut rng = Rng::new(81);
    let mut met = Met::default();
    for _ in 0..20_000 {
        let memory = any_memory(&mut rng);
        for _ in 0..4 {
            let raws = std::array::from_fn(|_| match rng.below(2) {
                0 => rng.pick(&[0, 1, 255, 256, 32_767, 32_768, 65_535]),
                _ => rng.word(),
            });
            met.count(&memory, raws, told(&memory, raws));
        }
    }
    assert!(met.refused[17..].iter().all(|&n| n > 1_000), "{met:?}");
    assert!(met.infinite > 5_000 && met.normal > 20_000 && met.below_normal > 500 && met.zero > 500, "{met:?}");
    assert!(met.rounded > 5_000, "{met:?}");
}
