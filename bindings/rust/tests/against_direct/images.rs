//! Random cycles, shapes and readings.

use circle_median::{Shape, SILENT};

use crate::random::Random;

/// Readings of a cycle, of which now and then some are silent: few, half, most or all.
pub fn readings(random: &mut Random, cycle: u32, length: usize) -> Vec<u16> {
    let mut readings = ticks(random, cycle, length);
    if random.once_in(2) {
        let silent_of_ten = random.one_of(&[1, 1, 3, 5, 8, 10]);
        for reading in &mut readings {
            if random.within(1..=10) <= silent_of_ten {
                *reading = SILENT;
            }
        }
    }
    readings
}

/// Ticks of a cycle: anywhere; or few; or parts of the cycle apart, so that many sums are equal; or the last ones, whose
/// numbers come closest to that of a silent reading.
fn ticks(random: &mut Random, cycle: u32, length: usize) -> Vec<u16> {
    let start = random.within(0..=cycle - 1);
    let (parts, kinds) = (random.within(1..=6), random.within(1..=4));
    let style = random.within(0..=4);
    let draw = |_| {
        let tick = match style {
            0 => random.within(0..=cycle - 1),
            1 => start + random.within(0..=kinds),
            2 => start + random.within(0..=kinds) * cycle / parts,
            3 => cycle - 1 - random.within(0..=kinds).min(cycle - 1),
            _ => start + random.one_of(&[0, 0, 0, 1, 2, cycle / 2, cycle - 1]),
        };
        (tick % cycle) as u16
    };
    (0..length).map(draw).collect()
}

/// Puts numbers that are neither ticks nor silent at some places; on 65,535 ticks there are none, and the places fall
/// silent.
pub fn spoil(random: &mut Random, cycle: u32, readings: &mut [u16]) {
    let most = cycle.max(65_534);
    for _ in 0..random.within(1..=3) {
        if !readings.is_empty() {
            let any = random.within(cycle..=most);
            readings[random.index(readings.len())] = random.one_of(&[cycle, any, most]) as u16;
        }
    }
}

/// A mask side for an axis of this size: odd, most often short, now and then as far as one reflection reaches, or several.
pub fn side(random: &mut Random, size: u32) -> u32 {
    let reach = match random.within(0..=15) {
        0 | 1 => size,
        2 => 5 * size,
        _ => size.min(3),
    };
    2 * random.within(0..=reach) + 1
}

/// A good shape with at most so many rows and columns.
pub fn shape(random: &mut Random, cycle: u32, rows: u32, columns: u32) -> Shape {
    let (rows, columns) = (random.within(1..=rows), random.within(1..=columns));
    Shape { cycle, rows, columns, mask_rows: side(random, rows), mask_columns: side(random, columns) }
}

/// Makes one of the first three tests fail, by its number; `limit` is the longest cycle.
pub fn break_shape(random: &mut Random, shape: &mut Shape, number: u32, limit: u32) {
    let first = random.once_in(2);
    match (number, first) {
        (1, _) => shape.cycle = random.one_of(&[0, limit + 1, limit + 2, 65_536, 65_536 + 8, u32::MAX]),
        (2, true) => shape.rows = random.one_of(&[0, 1025, 65_537, u32::MAX]),
        (2, false) => shape.columns = random.one_of(&[0, 8193, 65_537, u32::MAX]),
        (_, true) => shape.mask_rows = random.one_of(&[0, 2, 4, 256, 257, u32::MAX]),
        (_, false) => shape.mask_columns = random.one_of(&[0, 2, 4, 256, 257, u32::MAX]),
    }
}

/// A length that is not the one due: none, one less or one more.
pub fn other_length(random: &mut Random, due: usize) -> usize {
    random.one_of(&[0, due.saturating_sub(1), due + 1])
}

/// A length below one that is not 0.
pub fn shorter(random: &mut Random, due: usize) -> usize {
    let any = random.index(due);
    random.one_of(&[0, any, due - 1])
}

/// The length due, or some more.
pub fn at_least(random: &mut Random, due: usize) -> usize {
    due + if random.once_in(2) { 0 } else { random.index(20) }
}
