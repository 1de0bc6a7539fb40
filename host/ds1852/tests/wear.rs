//! Wear of the EEPROM: how many write cycles began, that is how many events found the device not busy and left it busy. A
//! run tells it, and single events do by busy before and after each.

mod common;

use common::Pair;
use ds1852::{write_log, Device, Event, State, IMAGE, INTERNAL, LONGEST_LOG, OWN, PLACES, ROOM};
use model::traffic::{any_event, damage, events, image, log, Kind, Rng, ASEL};
use std::collections::HashMap;

const S: Event = Event::start();
const E: Event = Event::stop();
const W: Event = Event::write_over();
const C: Event = Event::power_cycle();

const fn b(byte: u8) -> Event {
    Event::byte(byte)
}

/// A device from an image of zeros: its address is A0h, and at level 0 it stores none of 00h to 5Fh.
fn zeroed() -> Device {
    Device::start(&[0; IMAGE]).unwrap()
}

/// The log of these events.
fn log_of(list: &[Event]) -> Vec<u8> {
    let mut text = vec![0; LONGEST_LOG];
    let length = write_log(list, &mut text).expect("events in their ranges, in a log that is not too long");
    text.truncate(length);
    text
}

/// How many write cycles an event begins, by busy before and after it.
fn begun_by(device: &mut Device, event: Event) -> u32 {
    let was_busy = device.is_busy();
    device.apply(event).expect("an event in its ranges");
    u32::from(!was_busy && device.is_busy())
}

/// How many write cycles these events begin, one by one; their log, run from the same device, tells as many.
fn begun(device: &mut Device, list: &[Event]) -> u32 {
    let mut ran = device.clone();
    let number = list.iter().map(|&event| begun_by(device, event)).sum();
    let summary = ran.run(&log_of(list), &mut vec![0; ROOM]).expect("events in their ranges");
    assert_eq!(summary.write_cycles, number, "{list:?}");
    assert_eq!(ran, *device);
    number
}

/// Whether an event in its ranges begins a write cycle, by the words: a stop with one or more held bytes, in a block outside
/// 60h to 7Fh, that finds the device not busy.
fn begins(state: &State, letter: u16) -> bool {
    let [phase, held, pointer, busy] =
        [State::PHASE, State::HELD, State::POINTER, State::BUSY].map(|at| state.internal[at]);
    letter == u16::from(b'E') && phase == 3 && held != 0 && !(0x60..=0x7F).contains(&pointer) && busy == 0
}

/// The cases that the words decide, from a start each.
#[test]
fn worked_cases() {
    let sample = Event::sample(0, 0x1900);
    let cases: &[(u32, &[Event])] = &[
        (0, &[]),
        // One byte for 00h. Level 0 drops it, and the device is busy all the same.
        (1, &[S, b(0xA0), b(0x00), b(7), E]),
        // A stop without data: nothing held, nothing addressed, nothing begun.
        (0, &[S, b(0xA0), b(0x00), E]),
        (0, &[S, b(0xA0), E]),
        (0, &[S, E]),
        (0, &[E, E, W, E]),
        // A start drops the page; so does a power cycle.
        (0, &[S, b(0xA0), b(0x00), b(7), S, E]),
        (1, &[S, b(0xA0), b(0x00), b(7), S, b(0xA0), b(0x08), b(7), E]),
        (0, &[S, b(0xA0), b(0x00), b(7), C, E]),
        // A stop that finds the device busy, at once and after a page that it did not listen to.
        (1, &[S, b(0xA0), b(0x00), b(7), E, E]),
        (1, &[S, b(0xA0), b(0x00), b(7), E, S, b(0xA0), b(0x00), b(7), E]),
        // W and C end the write cycle: the next page begins one more, and a stop alone none.
        (2, &[S, b(0xA0), b(0x00), b(7), E, W, S, b(0xA0), b(0x00), b(7), E]),
        (2, &[S, b(0xA0), b(0x00), b(7), E, C, S, b(0xA0), b(0x00), b(7), E]),
        (1, &[S, b(0xA0), b(0x00), b(7), E, W, E]),
        (1, &[S, b(0xA0), b(0x00), b(7), E, W, W, C, W]),
        // A page over the end of its block goes on at the block's start: 5Fh and 58h, 7Fh and 78h.
        (1, &[S, b(0xA0), b(0x5F), b(7), b(7), E]),
        (0, &[S, b(0xA0), b(0x7F), b(7), b(7), E]),
        (1, &[S, b(0xA0), b(0x00), b(0), b(1), b(2), b(3), b(4), b(5), b(6), b(7), b(8), b(9), E]),
        // Another address, and reading.
        (0, &[S, b(0xA2), b(0x00), b(7), E]),
        (0, &[S, b(0xA1), b(0x00), b(7), Event::read(true), E]),
        // What is no event of the bus changes nothing of it.
        (1, &[sample, S, W, b(0xA0), sample, b(0x00), Event::pins(2), b(7), Event::fast_sample(2, 9), W, E, sample]),
    ];
    for (number, list) in cases {
        assert_eq!(begun(&mut zeroed(), list), *number, "{list:?}");
    }
}

/// Every address, with every select byte up to 06h, at level 0 and at level 2: a page counts unless it lies in 60h to 7Fh,
/// whether its byte is stored or dropped.
#[test]
fn every_page_counts_but_those_in_ram() {
    // The entry after a start, FFh four times, is password 2 of the second image.
    let mut open = [0; IMAGE];
    open[480..484].fill(0xFF);
    let mut stored = [0; 2];
    for (level, image) in [(0, [0; IMAGE]), (2, open)] {
        for select in 0..=6 {
            for address in 0..=255 {
                let mut device = Device::start(&image).unwrap();
                assert_eq!(begun(&mut device, &[S, b(0xA0), b(0x7F), b(select), E]), 0);
                assert_eq!(device.level(), level);
                let before = device.state().bytes;
                let number = begun(&mut device, &[S, b(0xA0), b(address), b(0x77), E]);
                assert_eq!(number, u32::from(!(0x60..=0x7F).contains(&address)), "{address:02X}h, {select:02X}h");
                stored[usize::from(device.state().bytes != before)] += number;
            }
        }
    }
    // At level 2 the 96 addresses of 00h to 5Fh are stored with each select byte, the upper 128 with 01h to 03h, and
    // those to C9h with 04h and 05h; no other page that counts is, and none at level 0.
    assert_eq!(stored, [2 * 7 * 224 - (7 * 96 + 3 * 128 + 2 * 74), 7 * 96 + 3 * 128 + 2 * 74]);
}

/// From a device just started 6n + 5 events may have n + 1 write cycles. An address of 00h makes every line short: then a
/// log has room for 910.
#[test]
fn the_bound_is_met() {
    let mut at_00h = [0; IMAGE];
    at_00h[ASEL] = 1;
    for (image, address, ns) in [([0; IMAGE], 0xA0, [0, 1, 2, 99, 861]), (at_00h, 0x00, [0, 1, 2, 99, 909])] {
        for n in ns {
            let mut list = [S, b(address), b(0x00), b(0), E, W].repeat(n);
            list.extend([S, b(address), b(0x00), b(0), E]);
            assert_eq!(list.len(), 6 * n + 5);
            assert_eq!(begun(&mut Device::start(&image).unwrap(), &list), n as u32 + 1);
        }
    }
    // With a page held before it, the longest log begins one more: 5,461 events.
    let mut device = Device::start(&at_00h).unwrap();
    assert_eq!(begun(&mut device, &[S, b(0x00), b(0x00), b(0)]), 0);
    let mut list = [E, W, S, b(0x00), b(0x00), b(0)].repeat(910);
    list.push(E);
    assert_eq!(list.len(), LONGEST_LOG / 6);
    assert_eq!(begun(&mut device, &list), 911);
}

/// Every list of up to 60 events of these six, from a start: the most write cycles of n events are (n + 1) / 6, rounded down.
#[test]
fn the_most_of_every_list() {
    let start = *zeroed().state();
    // What n events lead to, and the most write cycles on a way there. The memory stays: level 0 stores none of these pages.
    let mut most: HashMap<[u8; INTERNAL], u32> = HashMap::from([(start.internal, 0)]);
    for n in 1..=60 {
        let mut next = HashMap::new();
        for (&internal, number) in &most {
            for event in [S, E, W, C, b(0xA0), b(0x00)] {
                let mut device = Device::from_state(State { internal, ..start });
                let number = number + begun_by(&mut device, event);
                assert!(device.state().bytes == start.bytes && device.state().own == start.own);
                let best = next.entry(device.state().internal).or_insert(number);
                *best = number.max(*best);
            }
        }
        assert_eq!(next.values().max(), Some(&((n + 1) / 6)), "{n} events");
        most = next;
    }
    assert!(most.len() > 1_000, "{} states", most.len());
}

/// States that a host makes up: any phase, mask, pointer and number of busy. One event may begin a write cycle then.
#[test]
fn a_stop_from_any_state() {
    for phase in 0..=255 {
        for (held, busy) in [0, 1, 0x80, 0xFF].into_iter().flat_map(|held| [0, 1, 7, 255].map(|busy| (held, busy))) {
            for pointer in [0x00, 0x5F, 0x60, 0x7F, 0x80, 0xFF] {
                let mut state = *zeroed().state();
                state.internal[..4].copy_from_slice(&[phase, held, pointer, busy]);
                let mut device = Device::from_state(state);
                assert_eq!(device.is_busy(), busy != 0);
                let page = phase == 3 && held != 0 && !matches!(pointer, 0x60 | 0x7F);
                let number = begun(&mut device, &[E]);
                assert_eq!(number, u32::from(page && busy == 0), "{phase}, {held}, {pointer:02X}h, {busy}");
                assert_eq!(device.is_busy(), page || busy != 0);
            }
        }
    }
}

/// What stops and starts met: a test that meets only a few cases would show little.
#[derive(Default, Debug)]
struct Met {
    begun: usize,
    /// Write cycles of pages of which no byte was stored.
    dropped: usize,
    found_busy: usize,
    in_ram: usize,
    without_data: usize,
    /// Pages that a start dropped, and that a power cycle did.
    restarted: usize,
    cycled: usize,
    /// Events after which six times the number was the events plus 1.
    at_bound: usize,
}

impl Met {
    fn add(&mut self, letter: u16, before: &State, after: &State) {
        let writing = before.internal[State::PHASE] == 3;
        let held = writing && before.internal[State::HELD] != 0;
        let begins = begins(before, letter);
        match u8::try_from(letter) {
            Ok(b'E') if begins => {
                self.begun += 1;
                self.dropped += usize::from(after.bytes == before.bytes);
            }
            Ok(b'E') if before.internal[State::BUSY] != 0 => self.found_busy += 1,
            Ok(b'E') if held => self.in_ram += 1,
            Ok(b'E') => self.without_data += usize::from(writing),
            Ok(b'S') => self.restarted += usize::from(held),
            Ok(b'C') => self.cycled += usize::from(held),
            _ => {}
        }
    }
}

/// In random traffic from a start, refused events among it, the stops that the words name begin write cycles and nothing
/// else does; six times their number is at most the events plus 1; and the log of the events tells as many, in one run and
/// in two.
#[test]
fn after_every_event_and_every_run() {
    let mut rng = Rng::new(90);
    let mut met = Met::default();
    for _ in 0..1_500 {
        let started = Pair::start(&image(&mut rng)).expect("an image of the right form");
        let mut pair = started.clone();
        let mut list = Vec::new();
        let mut expected = 0;
        for e in events(&mut rng, &pair.model, Kind::Pages, 600) {
            let e = if rng.one_in(100) { any_event(&mut rng) } else { e };
            let before = *pair.linked.state();
            if pair.apply(e).is_ok() {
                list.push(e);
                expected += u32::from(begins(&before, e.letter));
                met.add(e.letter, &before, pair.linked.state());
            }
            pair.check();
            assert_eq!(pair.write_cycles, expected, "{e:?}");
            assert!(6 * expected as usize <= list.len() + 1, "{expected} in {} events", list.len());
            met.at_bound += usize::from(6 * expected as usize == list.len() + 1);
        }
        let mut ran = started.clone();
        let summary = ran.run(&log(&list), 65_536).expect("events in their ranges");
        assert_eq!(summary.write_cycles, expected);
        let mut in_two = started;
        let (first, second) = list.split_at(rng.below(list.len()));
        for part in [first, second] {
            in_two.run(&log(part), 65_536).expect("events in their ranges");
        }
        assert_eq!(in_two.write_cycles, expected);
        assert!(ran.linked == pair.linked && in_two.linked == pair.linked);
    }
    assert!(met.begun > 20_000 && met.dropped > 10_000 && met.begun - met.dropped > 5_000, "{met:?}");
    assert!(met.found_busy > 1_000 && met.in_ram > 10_000 && met.without_data > 1_000, "{met:?}");
    assert!(met.restarted > 1_000 && met.cycled > 100 && met.at_bound > 100, "{met:?}");
}

extern "C" {
    fn ds1852_lent_run(
        bytes: *mut [u8; PLACES],
        own: *const [u8; OWN],
        internal: *mut [u8; INTERNAL],
        log: *const u8,
        log_length: usize,
        answers: *mut u8,
        answers_length: usize,
        write_cycles: *mut u32,
    ) -> u64;
}

/// A run at the linked boundary: there a refused one has a number to leave, which the crate does not give.
fn lent_run(state: &mut State, log: &[u8], room: usize, write_cycles: &mut u32) -> u64 {
    let mut answers = vec![0; room];
    // SAFETY: the state, the answers and the number are each borrowed alone and the log is shared, so no two overlap; all
    // outlive the call.
    unsafe {
        ds1852_lent_run(
            &mut state.bytes,
            &state.own,
            &mut state.internal,
            log.as_ptr(),
            log.len(),
            answers.as_mut_ptr(),
            answers.len(),
            write_cycles,
        )
    }
}

/// A refused run leaves the number that stands there, whatever its lines before the refused one would have begun; one that
/// is not refused puts its own there.
#[test]
fn a_refused_run_leaves_the_number() {
    let mut rng = Rng::new(91);
    // By refusal, 0 for none: the runs whose lines, those before the refused one, begin a write cycle.
    let mut met = [0; 15];
    for _ in 0..10_000 {
        let device = model::Device::start(&image(&mut rng)).expect("an image of the right form");
        let count = rng.pick(&[6, 12, 60, 300]);
        let mut text = log(&events(&mut rng, &device, Kind::Pages, count));
        match rng.below(8) {
            0 => text = text.repeat(1 + LONGEST_LOG / text.len()),
            1..=4 => damage(&mut rng, &mut text),
            _ => {}
        }
        let room = if rng.one_in(4) { rng.below(2 * text.len() + 1) } else { ROOM };
        let lent = rng.pick(&[0, 1, 0xDEAD_BEEF, u32::MAX]);
        let (mut model, mut expected) = (device.clone(), lent);
        let result = model.run(&text, &mut vec![0; room], &mut expected);
        let (mut state, mut write_cycles) = (State::from_bytes(&device.state()), lent);
        let number = lent_run(&mut state, &text, room, &mut write_cycles);
        assert_eq!(write_cycles, expected, "{}", String::from_utf8_lossy(&text));
        assert_eq!(state.to_bytes(), model.state());
        // The lines before a refused one are a log; so are all lines of one that is too long, but for its length.
        let (refused, line) = match result {
            Ok(length) => {
                assert_eq!(number, length as u64);
                (0, 0)
            }
            Err(refusal) => {
                assert_eq!(number, u64::from(refusal.number) << 32 | u64::from(refusal.line));
                assert_eq!(write_cycles, lent);
                (refusal.number, refusal.line)
            }
        };
        let lines = if line == 0 { usize::MAX } else { usize::from(line) - 1 };
        let before: Vec<u8> =
            text.split_inclusive(|&byte| byte == b'\n').take(lines.min(1_000)).flatten().copied().collect();
        let mut begun = 0;
        device.clone().run(&before, &mut vec![0; ROOM], &mut begun).expect("the lines before a refused one");
        met[usize::from(refused)] += usize::from(begun > 0);
    }
    assert!(met[0] > 1_000 && met[11..].iter().all(|&n| n > 300), "{met:?}");
}
