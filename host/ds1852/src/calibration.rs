//! The true values of an externally calibrated module.

use crate::{ffi, Refusal};

/// Five raw readings of a module.
#[derive(Clone, Copy, Debug, PartialEq, Eq, Hash)]
pub struct Raws {
    /// T, of which the 16 bits count as signed.
    pub temperature: u16,
    /// V, the supply voltage.
    pub supply: u16,
    /// B, the bias current.
    pub bias: u16,
    /// P, the transmitted power.
    pub transmitted: u16,
    /// R, the received power.
    pub received: u16,
}

/// The five values of a module, in the units of SFF-8472.
#[derive(Clone, Copy, Debug, PartialEq)]
pub struct Values {
    /// T, in 1/256 °C.
    pub temperature: i32,
    /// V, in 100 µV.
    pub supply: i32,
    /// B, in 2 µA.
    pub bias: i32,
    /// P, in 0.1 µW.
    pub transmitted: i32,
    /// R, in 0.1 µW; it may be infinite, and is never a NaN.
    pub received: f32,
}

/// The values of five raw readings, by the constants in the lower bytes of a module, as SFF-8472 places them.
///
/// T, V, B and P are slope * raw / 256 rounded down, plus offset. R goes from the fourth power down by multiply and add,
/// each product and each sum rounded once to binary32. Of the memory only 00h to 5Fh count. Refused with
/// [`Refusal::MemoryLength`], [`Refusal::Checksum`] or [`Refusal::Coefficient`], in that order.
///
/// ```
/// use ds1852::{calibrate, Raws, Refusal, Values, LOWER};
/// let mut memory = [0; LOWER];
/// // Each slope is 1; the offset of T is -16; R is the raw number.
/// for slope in [0x4C, 0x50, 0x54, 0x58] {
///     memory[slope] = 1;
/// }
/// memory[0x56..0x58].copy_from_slice(&(-16_i16).to_be_bytes());
/// memory[0x44..0x48].copy_from_slice(&1.0_f32.to_be_bytes());
/// let raws = Raws { temperature: 0x1900, supply: 33_000, bias: 3_000, transmitted: 5_000, received: 4_000 };
/// assert_eq!(calibrate(&memory, raws), Err(Refusal::Checksum));
/// memory[0x5F] = memory[..0x5F].iter().fold(0, |sum: u8, &byte| sum.wrapping_add(byte));
/// let values = Values { temperature: 6_384, supply: 33_000, bias: 3_000, transmitted: 5_000, received: 4_000.0 };
/// assert_eq!(calibrate(&memory, raws), Ok(values));
/// assert_eq!(calibrate(&memory[..96], raws), Err(Refusal::MemoryLength));
/// ```
pub fn calibrate(memory: &[u8], raws: Raws) -> Result<Values, Refusal> {
    let raws = [raws.temperature, raws.supply, raws.bias, raws.transmitted, raws.received];
    let mut values = Values { temperature: 0, supply: 0, bias: 0, transmitted: 0, received: 0.0 };
    match ffi::calibrate(memory, &raws, &mut values) {
        0 => Ok(values),
        number => Err(Refusal::from_number(number, 0)),
    }
}
