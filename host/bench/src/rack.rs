//! A rack: many devices, each sampled and then asked for its number of raised flags in turn, by one thread and by two.

use crate::{Pair, Times, ALLOCATIONS, ROUNDS};
use model::traffic::Rng;
use std::hint::{black_box, spin_loop};
use std::sync::atomic::{AtomicUsize, Ordering};
use std::thread;
use std::time::Instant;

const DEVICES: usize = 1_000;
/// How often a round goes through the rack.
const SWEEPS: usize = 100;

/// One sample for each device: a channel and a raw value.
type Sweep = Vec<(u16, u16)>;

/// What a rack holds.
trait Asked {
    /// One sample, then the number of raised flags.
    fn sample_and_ask(&mut self, channel: u16, raw: u16) -> u8;
}

impl Asked for ds1852::Device {
    #[inline]
    fn sample_and_ask(&mut self, channel: u16, raw: u16) -> u8 {
        let _ = black_box(self.apply(ds1852::Event::sample(channel, raw)));
        self.flags_up()
    }
}

impl Asked for model::Device {
    #[inline]
    fn sample_and_ask(&mut self, channel: u16, raw: u16) -> u8 {
        let _ = black_box(self.apply(model::Event::new(b'A', channel, raw)));
        self.flags_up()
    }
}

/// Each device has its channels in turn, and neighbours are not at the same one.
fn sweeps(rng: &mut Rng) -> Vec<Sweep> {
    let channel = |sweep: usize, device: usize| ((sweep + device) % 5) as u16;
    (0..SWEEPS).map(|sweep| (0..DEVICES).map(|device| (channel(sweep, device), rng.word())).collect()).collect()
}

/// The linked devices of a rack, as they stand ready.
fn linked(rack: &[Pair]) -> Vec<ds1852::Device> {
    rack.iter().map(|pair| pair.linked.clone()).collect()
}

/// The model's.
fn model(rack: &[Pair]) -> Vec<model::Device> {
    rack.iter().map(|pair| pair.model.clone()).collect()
}

/// Both go through the sweeps once: every sample is taken, the numbers told are the same, and so are the states. Gives
/// the sum of the numbers and the allocations of the linked devices.
fn check(rack: &[Pair], sweeps: &[Sweep]) -> (u64, usize) {
    let (mut linked, mut model) = (linked(rack), model(rack));
    let mut sum = 0;
    let before = ALLOCATIONS.load(Ordering::Relaxed);
    for sweep in sweeps {
        for ((linked, model), &(channel, raw)) in linked.iter_mut().zip(&mut model).zip(sweep) {
            let answer = linked.apply(ds1852::Event::sample(channel, raw));
            assert!(matches!(answer, Ok(ds1852::Answer::Other(1..=2))), "{answer:?}");
            let told = model.sample_and_ask(channel, raw);
            assert_eq!(linked.flags_up(), told);
            sum += u64::from(told);
        }
    }
    let allocations = ALLOCATIONS.load(Ordering::Relaxed) - before;
    assert!(linked.iter().zip(&model).all(|(linked, model)| linked.state().to_bytes() == model.state()));
    (sum, allocations)
}

/// Where threads wait for each other. They spin: one that slept would be woken on the core of the other, and the two
/// would go one after the other.
struct Line {
    threads: usize,
    arrived: AtomicUsize,
}

impl Line {
    fn wait(&self) {
        let turn = self.arrived.fetch_add(1, Ordering::AcqRel) / self.threads + 1;
        while self.arrived.load(Ordering::Acquire) < turn * self.threads {
            spin_loop();
        }
    }
}

/// What one thread did in one turn: when it began and ended, and the sum of the numbers that it was told.
struct Turn {
    from: Instant,
    to: Instant,
    sum: u64,
}

impl Turn {
    /// A turn over these devices, of which the first has the place `at` in the rack.
    fn take(mut devices: Vec<impl Asked>, at: usize, sweeps: &[Sweep], line: &Line) -> Turn {
        line.wait();
        let from = Instant::now();
        let mut sum = 0;
        for sweep in sweeps {
            for (device, &(channel, raw)) in devices.iter_mut().zip(&sweep[at..]) {
                sum += u64::from(device.sample_and_ask(black_box(channel), black_box(raw)));
            }
        }
        Turn { from, to: Instant::now(), sum }
    }
}

/// The turns that the threads took side by side: from the first start to the last end, in nanoseconds. All numbers that
/// they were told must have this sum.
fn nanoseconds<'a>(turns: impl Iterator<Item = &'a Turn> + Clone, sum: u64) -> f64 {
    assert_eq!(turns.clone().map(|turn| turn.sum).sum::<u64>(), sum, "linked and model differ");
    let from = turns.clone().map(|turn| turn.from).min().expect("one thread or more");
    let to = turns.map(|turn| turn.to).max().expect("one thread or more");
    (to - from).as_secs_f64() * 1e9
}

/// The best times of so many threads, each with its share of the rack, in nanoseconds an event.
///
/// The threads go through all rounds, so that each finds a core of its own.
fn time(rack: &[Pair], sweeps: &[Sweep], threads: usize, sum: u64) -> Times {
    let share = rack.len() / threads;
    let line = &Line { threads, arrived: AtomicUsize::new(0) };
    let turns: Vec<Vec<[Turn; 2]>> = thread::scope(|scope| {
        let rounds = |(i, rack): (usize, _)| {
            let round = move |_| {
                let linked = Turn::take(linked(rack), i * share, sweeps, line);
                [linked, Turn::take(model(rack), i * share, sweeps, line)]
            };
            scope.spawn(move || (0..ROUNDS).map(round).collect())
        };
        let threads: Vec<_> = rack.chunks(share).enumerate().map(rounds).collect();
        threads.into_iter().map(|thread| thread.join().expect("a thread that asks")).collect()
    });
    let best = |side: usize| {
        let rounds = (0..ROUNDS).map(|round| nanoseconds(turns.iter().map(|thread| &thread[round][side]), sum));
        rounds.fold(f64::INFINITY, f64::min)
    };
    Times { linked: best(0), model: best(1) }.each(SWEEPS * DEVICES)
}

/// Prints the table of the rack; gives the allocations of the linked devices.
pub fn print(rng: &mut Rng) -> usize {
    let rack: Vec<_> = (0..DEVICES).map(|_| Pair::start(rng)).collect();
    let sweeps = sweeps(rng);
    let (sum, allocations) = check(&rack, &sweeps);
    println!(
        "\n| rack of {DEVICES} devices, threads | linked, million events a second | model, million events a second \
         | model / linked, in time | linked, over one thread | model, over one thread |"
    );
    println!("|---|---|---|---|---|---|");
    let one = time(&rack, &sweeps, 1, sum);
    for (threads, times) in [(1, one), (2, time(&rack, &sweeps, 2, sum))] {
        println!(
            "| {threads} | {:.1} | {:.1} | {:.2} | {:.2} | {:.2} |",
            1e3 / times.linked,
            1e3 / times.model,
            times.ratio(),
            one.linked / times.linked,
            one.model / times.model
        );
    }
    allocations
}
