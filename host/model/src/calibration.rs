//! The true values of an externally calibrated module, from request 2.6 of document 02.

use crate::{refused, Refusal};

/// The five values of a module.
#[derive(Clone, Copy, Debug, PartialEq)]
pub struct Values {
    /// T, V, B and P.
    pub linear: [i64; 4],
    /// R.
    pub received: f32,
}

/// The values of five raw readings, in the order T, V, B, P, R, by the constants in the lower bytes of a module; or
/// refusal 17, 18 or 19.
pub fn calibrate(memory: &[u8], raws: [u16; 5]) -> Result<Values, Refusal> {
    if memory.len() != 128 {
        return refused(17, 0);
    }
    let sum: u32 = memory[0x00..=0x5E].iter().map(|&byte| u32::from(byte)).sum();
    if sum % 256 != u32::from(memory[0x5F]) {
        return refused(18, 0);
    }
    // The fourth power first.
    let coefficients =
        [0x38, 0x3C, 0x40, 0x44, 0x48].map(|at| f32::from_be_bytes(std::array::from_fn(|i| memory[at + i])));
    if coefficients.iter().any(|c| c.is_infinite() || c.is_nan()) {
        return refused(19, 0);
    }
    let [t, v, b, p, r] = raws;
    // A slope and, behind it, its offset.
    let linear = |at: usize, raw: i64| {
        let slope = i64::from(u16::from_be_bytes([memory[at], memory[at + 1]]));
        let offset = i64::from(i16::from_be_bytes([memory[at + 2], memory[at + 3]]));
        (slope * raw).div_euclid(256) + offset
    };
    let bias = linear(0x4C, i64::from(b));
    let transmitted = linear(0x50, i64::from(p));
    let temperature = linear(0x54, i64::from(t as i16));
    let supply = linear(0x58, i64::from(v));
    Ok(Values { linear: [temperature, supply, bias, transmitted], received: received(coefficients, f32::from(r)) })
}

/// Received power, from the fourth power down: every product and every sum is rounded by itself.
fn received([fourth, third, second, first, constant]: [f32; 5], raw: f32) -> f32 {
    let mut power = fourth;
    for coefficient in [third, second, first, constant] {
        power *= raw;
        power += coefficient;
    }
    power
}
