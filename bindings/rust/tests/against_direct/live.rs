//! The live window: rows reading by reading, beside the direct window and beside both engines, and windows that no call
//! made.

use std::fmt::Debug;

use circle_median::Engine::{Level, Reading};
use circle_median::{filter, sys, work_len, Live, LiveWindow, Refusal, Shape, SILENT};

use crate::cycle::refusal;
use crate::direct;
use crate::images::{readings, spoil};
use crate::lent::Lent;
use crate::random::Random;
use crate::tally::Tally;

const CYCLES: [u32; 8] = [1, 2, 5, 8, 9, 360, 511, 512];

/// All lengths that a window may have.
fn lengths() -> impl Iterator<Item = u32> {
    (1..=63).step_by(2)
}

/// A window as C has it, with lent arrays.
#[derive(Clone, Debug)]
struct Raw {
    cycle: u32,
    length: u32,
    filled: u32,
    readings: Lent<u16>,
    sums: Lent<u16>,
}

fn array(lent: &mut Lent<u16>) -> &mut [u16; sys::WINDOW] {
    lent.slice_mut().try_into().unwrap()
}

impl Raw {
    /// Of this cycle and length, and garbage in the rest.
    fn garbage(random: &mut Random, cycle: u32, length: u32) -> Self {
        let filled = random.bits() as u32;
        let [readings, sums] = [0; 2].map(|_| Lent::garbage(random, sys::WINDOW));
        Raw { cycle, length, filled, readings, sums }
    }

    /// The same with the members of a direct window in place of the garbage.
    fn holding(&self, window: &direct::LiveWindow) -> Self {
        let mut raw = self.clone();
        (raw.filled, *array(&mut raw.readings), *array(&mut raw.sums)) = window.stored();
        raw
    }

    fn fresh(&mut self) -> Result<(), Refusal> {
        let (readings, sums) = (array(&mut self.readings), array(&mut self.sums));
        match sys::circle_median_window_fresh(self.cycle, self.length, readings, sums) {
            sys::Answer { number: 0, place: 0 } => {
                self.filled = 0;
                Ok(())
            }
            sys::Answer { number: number @ (1 | 3), place } => Err(refusal(number, place)),
            answer => panic!("{answer:?}"),
        }
    }

    /// Pushes a reading. The answer, whatever the window, must be one that there is.
    fn push(&mut self, reading: u16) -> Result<Live, Refusal> {
        let (readings, sums) = (array(&mut self.readings), array(&mut self.sums));
        let answer = sys::circle_median_window_enter(self.cycle, self.length, self.filled, reading, readings, sums);
        self.filled = answer.filled;
        match (answer.number, answer.place, answer.value) {
            (0, 0, -1) => Ok(Live::Filling),
            (0, 0, 65_535) => Ok(Live::Silent),
            (0, 0, phase @ 0..=65_534) => Ok(Live::Phase(phase as u16)),
            (number @ (1 | 3 | 9), place, 0) => Err(refusal(number, place)),
            _ => panic!("{answer:?}"),
        }
    }

    /// Fails if any member differs, or the memory around the arrays.
    fn must_be(&self, expected: &Self, call: &impl Debug) {
        let numbers = |raw: &Self| (raw.cycle, raw.length, raw.filled);
        assert_eq!(numbers(self), numbers(expected), "{call:?}");
        self.readings.must_be(&expected.readings, "readings", call);
        self.sums.must_be(&expected.sums, "sums", call);
    }
}

/// How often each answer came.
#[derive(Debug, Default)]
struct Told {
    filling: u32,
    phase: u32,
    silent: u32,
    refused: u32,
}

impl Told {
    fn count(&mut self, answer: &Result<Live, Refusal>) {
        *match answer {
            Ok(Live::Filling) => &mut self.filling,
            Ok(Live::Phase(_)) => &mut self.phase,
            Ok(Live::Silent) => &mut self.silent,
            Err(_) => &mut self.refused,
        } += 1;
    }

    fn must_have(&self, name: &str, least: u32) {
        println!("{name}: {self:?}");
        let Told { filling, phase, silent, refused } = self;
        assert!([filling, phase, silent, refused].iter().all(|&&count| count >= least), "{name}: {self:?}");
    }
}

/// One window three times: direct, as C has it, and safe.
struct Windows {
    direct: direct::LiveWindow,
    raw: Raw,
    safe: LiveWindow,
}

impl Windows {
    /// Fresh ones, of a cycle and a length that are accepted.
    fn new(random: &mut Random, cycle: u32, length: u32) -> Self {
        let direct = direct::LiveWindow::new(cycle, length).unwrap();
        let mut raw = Raw::garbage(random, cycle, length);
        let expected = raw.holding(&direct);
        assert_eq!(raw.fresh(), Ok(()));
        raw.must_be(&expected, &(cycle, length));
        let safe = LiveWindow::new(cycle, length).unwrap();
        assert_eq!((safe.cycle(), safe.length()), (cycle, length));
        Windows { direct, raw, safe }
    }

    /// Pushes a reading into all three, which must answer the same; what is stored must be what the direct one stores.
    fn push(&mut self, reading: u16) -> Result<Live, Refusal> {
        let before = self.safe.clone();
        let due = self.direct.push(reading);
        let call = (reading, &self.direct);
        assert_eq!(self.safe.push(reading), due, "{call:?}");
        let expected = self.raw.holding(&self.direct);
        assert_eq!(self.raw.push(reading), due, "{call:?}");
        self.raw.must_be(&expected, &call);
        assert!(due.is_ok() || self.safe == before, "{call:?}");
        due
    }

    fn reset(&mut self) {
        self.direct.reset();
        self.safe.reset();
        let expected = self.raw.holding(&self.direct);
        assert_eq!(self.raw.fresh(), Ok(()));
        self.raw.must_be(&expected, &"reset");
        assert_eq!(Ok(&self.safe), LiveWindow::new(self.raw.cycle, self.raw.length).as_ref());
    }
}

/// Every length on short and long cycles, with silent and refused readings and resets in between.
#[test]
fn random_rows() {
    let mut random = Random::seeded(40);
    let mut told = Told::default();
    for (cycle, length) in CYCLES.into_iter().flat_map(|cycle| lengths().map(move |length| (cycle, length))) {
        for _ in 0..4 {
            let mut windows = Windows::new(&mut random, cycle, length);
            for _ in 0..random.within(1..=3) {
                let count = random.within(0..=4 * length + 20) as usize;
                let mut row = readings(&mut random, cycle, count);
                spoil(&mut random, cycle, &mut row);
                row.into_iter().for_each(|reading| told.count(&windows.push(reading)));
                windows.reset();
            }
        }
    }
    told.must_have("live rows", 3_000);
}

/// Every row of five on short cycles: of ticks, silent readings, and what is neither.
#[test]
fn every_short_row() {
    let mut random = Random::seeded(41);
    let mut told = Told::default();
    for cycle in 1..=4 {
        let any: Vec<u16> = (0..=cycle as u16).chain([SILENT]).collect();
        for length in [1, 3, 5] {
            let mut windows = Windows::new(&mut random, cycle, length);
            for row in 0..any.len().pow(5) {
                let reading = |at| any[row / any.len().pow(at) % any.len()];
                (0..5).for_each(|at| told.count(&windows.push(reading(at))));
                windows.reset();
            }
        }
    }
    told.must_have("short live rows", 1_000);
}

/// One window for a long time, with no reset.
#[test]
fn long_row() {
    let mut random = Random::seeded(42);
    let mut told = Told::default();
    let mut windows = Windows::new(&mut random, 512, 63);
    while told.phase < 20_000 {
        let mut row = readings(&mut random, 512, 100);
        spoil(&mut random, 512, &mut row);
        row.into_iter().for_each(|reading| told.count(&windows.push(reading)));
    }
    told.must_have("long live row", 62);
}

/// Every cycle and length up to and just past their limits, and some far past them.
#[test]
fn limits() {
    let mut random = Random::seeded(43);
    let mut tally = Tally::of("new live windows");
    for cycle in (0..=514).chain([4096, 65_535, 65_536, 65_536 + 8, u32::MAX]) {
        for length in (0..=66).chain([127, 255, 256 + 3, 65_536 + 3, u32::MAX]) {
            let mut raw = Raw::garbage(&mut random, cycle, length);
            let due = direct::LiveWindow::new(cycle, length);
            let expected = due.as_ref().map_or(raw.clone(), |window| raw.holding(window));
            assert_eq!(raw.fresh(), due.as_ref().map(|_| ()).map_err(|&refusal| refusal), "{cycle} {length}");
            raw.must_be(&expected, &(cycle, length));
            let safe = LiveWindow::new(cycle, length).map(|window| (window.cycle(), window.length()));
            assert_eq!(safe, due.as_ref().map(|_| (cycle, length)).map_err(|&refusal| refusal));
            tally.count(&due);
        }
    }
    tally.must_have(&[0, 1, 3], 500);
}

/// Pushes a row of accepted readings into a fresh window. From reading length - 1 on, the answer to reading k must be
/// what both engines write at column k - length / 2.
fn compare_engines(cycle: u32, length: u32, row: &[u16]) {
    let mut window = LiveWindow::new(cycle, length).unwrap();
    let answers: Vec<Live> = row.iter().map(|&reading| window.push(reading).unwrap()).collect();
    let length = length as usize;
    for engine in [Level, Reading] {
        let (columns, mask_columns) = (row.len() as u32, length as u32);
        let shape = Shape { cycle, rows: 1, columns, mask_rows: 1, mask_columns };
        let (mut output, mut work) = (vec![0; row.len()], vec![0; work_len(engine, shape)]);
        filter(engine, shape, 0..1, row, &mut output, &mut work).unwrap();
        for (k, &answer) in answers.iter().enumerate() {
            let due = match k + 1 < length {
                true => Live::Filling,
                false if output[k - length / 2] == SILENT => Live::Silent,
                false => Live::Phase(output[k - length / 2]),
            };
            assert_eq!(answer, due, "reading {k} of {row:?}, {engine:?} {shape:?}");
        }
    }
}

#[test]
fn rows_of_the_engines() {
    let mut random = Random::seeded(44);
    for (cycle, length) in CYCLES.into_iter().flat_map(|cycle| lengths().map(move |length| (cycle, length))) {
        for more in [0, 1, random.within(2..=100)] {
            let row = readings(&mut random, cycle, (length + more) as usize);
            compare_engines(cycle, length, &row);
        }
    }
    for (cycle, length) in [(512, 63), (360, 7)] {
        let row = readings(&mut random, cycle, 8192);
        compare_engines(cycle, length, &row);
    }
}

/// A window of any members: within, at and past their limits.
fn forged(random: &mut Random) -> Raw {
    let (any_cycle, any_length) = (random.within(1..=512), random.within(0..=66));
    let cycle = random.one_of(&[any_cycle, any_cycle, any_cycle, 1, 512, 0, 513, 65_536 + 8, u32::MAX]);
    let length = random.one_of(&[any_length, any_length, 1, 3, 61, 63, 64, 65, 256 + 3, u32::MAX]);
    let mut raw = Raw::garbage(random, cycle, length);
    let filled = raw.filled;
    raw.filled = random.one_of(&[0, 1, length.wrapping_sub(1), length, length.wrapping_add(1), 63, u32::MAX, filled]);
    for lent in [&mut raw.readings, &mut raw.sums] {
        let most = random.one_of(&[0, 600, 65_535]);
        let often = random.one_of(&[1, 2, 10, 1_000]);
        for number in lent.slice_mut() {
            *number = if random.once_in(often) { SILENT } else { random.within(0..=most) as u16 };
        }
    }
    raw
}

/// Of a window that no call made: each call returns, is refused by the first test that its numbers fail, and has then
/// changed nothing.
#[test]
fn windows_that_no_call_made() {
    let mut random = Random::seeded(45);
    let mut tally = Tally::of("forged live windows");
    for _ in 0..50_000 {
        let mut raw = forged(&mut random);
        for _ in 0..random.within(1..=4) {
            let any = random.bits() as u16;
            let tick = random.within(0..=raw.cycle.clamp(1, 65_535) - 1) as u16;
            let reading = random.one_of(&[tick, tick, tick, raw.cycle as u16, 65_534, SILENT, any]);
            let mut before = raw.clone();
            let due = direct::LiveWindow::new(raw.cycle, raw.length).and_then(|mut window| window.push(reading));
            let answer = raw.push(reading);
            assert_eq!(answer.err(), due.err(), "{reading} into {before:?}");
            if answer.is_ok() {
                before.filled = raw.filled;
                before.readings.slice_mut().copy_from_slice(raw.readings.slice());
                before.sums.slice_mut().copy_from_slice(raw.sums.slice());
            }
            raw.must_be(&before, &reading);
            tally.count(&answer);
        }
    }
    tally.must_have(&[0, 1, 3, 9], 5_000);
}
