//! Calibrations: the values of modules, each from its lower bytes and five raw readings.

use crate::{best, nanoseconds, ALLOCATIONS};
use ds1852::{Raws, LOWER};
use model::traffic::Rng;
use std::hint::black_box;
use std::sync::atomic::Ordering;

const CALLS: usize = 10_000;

/// A module with any constants that are finite, and raw readings.
fn module(rng: &mut Rng) -> ([u8; LOWER], [u16; 5]) {
    let mut memory = [0; LOWER];
    rng.fill(&mut memory);
    for at in (0x38..0x4C).step_by(4) {
        memory[at] &= 0xBF; // an exponent field that is not all ones
    }
    memory[0x5F] = memory[..0x5F].iter().fold(0, |sum: u8, &byte| sum.wrapping_add(byte));
    (memory, std::array::from_fn(|_| rng.word()))
}

fn linked(memory: &[u8], [temperature, supply, bias, transmitted, received]: [u16; 5]) -> ds1852::Values {
    ds1852::calibrate(memory, Raws { temperature, supply, bias, transmitted, received }).expect("finite constants")
}

fn plain(memory: &[u8], raws: [u16; 5]) -> model::calibration::Values {
    model::calibration::calibrate(memory, raws).expect("finite constants")
}

/// Prints the time of a calibration, and gives the allocations of the linked calls.
pub fn print(rng: &mut Rng) -> usize {
    let modules: Vec<_> = (0..CALLS).map(|_| module(rng)).collect();
    let before = ALLOCATIONS.load(Ordering::Relaxed);
    let received: u64 = modules.iter().map(|(memory, raws)| u64::from(linked(memory, *raws).received.to_bits())).sum();
    let allocations = ALLOCATIONS.load(Ordering::Relaxed) - before;
    let expected: u64 = modules.iter().map(|(memory, raws)| u64::from(plain(memory, *raws).received.to_bits())).sum();
    assert_eq!(received, expected, "linked and model differ");
    let time_linked = || {
        nanoseconds(|| {
            for (memory, raws) in &modules {
                black_box(linked(black_box(memory), *raws));
            }
        })
    };
    let time_model = || {
        nanoseconds(|| {
            for (memory, raws) in &modules {
                black_box(plain(black_box(memory), *raws));
            }
        })
    };
    let times = best(time_linked, time_model).each(CALLS);
    println!("\n| calibration | calls | linked, ns | model, ns | model / linked |");
    println!("|---|---|---|---|---|");
    println!("| any module | {CALLS} | {:.1} | {:.1} | {:.2} |", times.linked, times.model, times.ratio());
    allocations
}
