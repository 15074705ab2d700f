//! Distance, step, slot and drift.

use circle_median::{sys, Refusal, SILENT};

use crate::direct;
use crate::images::{readings, spoil};
use crate::lent::Lent;
use crate::random::Random;
use crate::tally::Tally;

/// What an answer of C tells. A value without a meaning must be 0, and so must a place.
pub fn told(answer: sys::ValueAnswer) -> Result<i64, Refusal> {
    match answer {
        sys::ValueAnswer { number: 0, place: 0, value } => Ok(value),
        sys::ValueAnswer { number, place, value: 0 } => Err(refusal(number, place)),
        _ => panic!("{answer:?}"),
    }
}

/// The refusal of a number and a place, which must be 0 where the number has none.
pub fn refusal(number: u32, place: u64) -> Refusal {
    let refusal = Refusal::from_number(number, place).filter(|refusal| refusal.place() as u64 == place);
    refusal.unwrap_or_else(|| panic!("there is no refusal {number} at {place}"))
}

/// Makes one call of distance, step and slot and counts the answers.
fn compare_ticks(tallies: &mut [Tally; 3], cycle: u32, [a, b, w]: [u16; 3]) {
    let call = (cycle, a, b, w);
    let due = direct::distance(cycle, a, b);
    assert_eq!(told(sys::circle_median_distance(cycle, a, b)), due.map(i64::from), "distance {call:?}");
    assert_eq!(circle_median::distance(cycle, a, b), due, "distance {call:?}");
    tallies[0].count(&due);

    let due = direct::step(cycle, a, b);
    assert_eq!(told(sys::circle_median_step(cycle, a, b)), due.map(i64::from), "step {call:?}");
    assert_eq!(circle_median::step(cycle, a, b), due, "step {call:?}");
    tallies[1].count(&due);

    let due = direct::slot(cycle, a, b, w);
    assert_eq!(told(sys::circle_median_slot(cycle, a, b, w)), due.map(i64::from), "slot {call:?}");
    assert_eq!(circle_median::slot(cycle, a, b, w), due, "slot {call:?}");
    tallies[2].count(&due);
}

fn tallies() -> [Tally; 3] {
    ["distance", "step", "slot"].map(Tally::of)
}

/// A cycle, short or of any length, now and then none.
fn any_cycle(random: &mut Random) -> u32 {
    match random.within(0..=9) {
        0 => random.one_of(&[0, 65_536, 65_537, u32::MAX]),
        1..=4 => random.within(1..=40),
        5 => random.one_of(&[1, 2, 65_534, 65_535]),
        _ => random.within(1..=65_535),
    }
}

#[test]
fn ticks_of_random_cycles() {
    let mut random = Random::seeded(1);
    let mut tallies = tallies();
    for _ in 0..20_000 {
        let cycle = any_cycle(&mut random);
        let length = cycle.clamp(1, 65_535);
        let mut ticks = [0; 3].map(|_| random.within(0..=length - 1) as u16);
        if random.once_in(4) {
            spoil(&mut random, length, &mut ticks);
        }
        if random.once_in(8) {
            ticks[random.index(3)] = SILENT;
        }
        compare_ticks(&mut tallies, cycle, ticks);
    }
    tallies.iter().for_each(|tally| tally.must_have(&[0, 1, 9], 1_000));
}

#[test]
fn all_ticks_of_short_cycles() {
    let mut tallies = tallies();
    for cycle in 0..=11 {
        for a in 0..=cycle + 1 {
            for b in 0..=cycle + 1 {
                for w in 0..=cycle + 1 {
                    compare_ticks(&mut tallies, cycle, [a, b, w].map(|tick| tick as u16));
                }
            }
        }
    }
    tallies.iter().for_each(|tally| tally.must_have(&[0, 1, 9], 8));
}

/// Makes one call of drift and counts the answer.
fn compare_drift(tally: &mut Tally, cycle: u32, row: &Lent<u16>) {
    let lent = row.clone();
    let call = (cycle, lent.slice());
    let due = direct::drift(cycle, row.slice());
    // SAFETY: the pointer and the length are those of a slice.
    let raw = unsafe { sys::circle_median_drift(cycle, lent.slice().as_ptr(), lent.slice().len()) };
    assert_eq!(told(raw), due.map(i64::from), "drift {call:?}");
    assert_eq!(circle_median::drift(cycle, lent.slice()), due, "drift {call:?}");
    lent.must_be(row, "row", &call);
    tally.count(&due);
}

#[test]
fn drift_of_random_rows() {
    let mut random = Random::seeded(2);
    let mut tally = Tally::of("drift");
    for _ in 0..10_000 {
        let cycle = any_cycle(&mut random);
        let length = match random.within(0..=39) {
            0..=3 => 0,
            4 => random.one_of(&[8191, 8192, 8193, 9000]),
            _ => random.within(1..=60) as usize,
        };
        let mut row = readings(&mut random, cycle.clamp(1, 65_535), length);
        if random.once_in(4) {
            spoil(&mut random, cycle.clamp(1, 65_535), &mut row);
        }
        let row = Lent::holding(&mut random, &row);
        compare_drift(&mut tally, cycle, &row);
    }
    tally.must_have(&[0, 1, 2, 9], 500);
}

/// Every row of three on short cycles: of ticks, silent readings, and what is neither.
#[test]
fn drift_of_every_short_row() {
    let mut random = Random::seeded(4);
    let mut tally = Tally::of("drift of short rows");
    for cycle in 1..=6 {
        let any: Vec<u16> = (0..=cycle as u16).chain([65_534, SILENT]).collect();
        for &a in &any {
            for &b in &any {
                for &c in &any {
                    let row = Lent::holding(&mut random, &[a, b, c]);
                    compare_drift(&mut tally, cycle, &row);
                }
            }
        }
    }
    tally.must_have(&[0, 9], 300);
}

/// The largest drifts: 8,191 steps of 32,767 ticks, ahead and back on a cycle of 65,535, and on 65,534, where each is
/// half a cycle and so a step back.
#[test]
fn largest_drifts() {
    let mut random = Random::seeded(3);
    let mut tally = Tally::of("largest drifts");
    for (cycle, pace, step) in [(65_535, 32_767, 32_767), (65_535, 32_768, -32_767), (65_534, 32_767, -32_767)] {
        let row: Vec<u16> = (0..8192).map(|at: u64| (at * pace % u64::from(cycle)) as u16).collect();
        let row = Lent::holding(&mut random, &row);
        assert_eq!(direct::drift(cycle, row.slice()), Ok(8191 * step));
        compare_drift(&mut tally, cycle, &row);
    }
    tally.must_have(&[0], 3);
}
