//! The two engines on random calls, on every small mask and at the limits of each size.

use circle_median::Engine::{Level, Reading};
use circle_median::{filter, Engine, Shape};

use crate::filter_call::{limit, Call};
use crate::images::{readings, shape, spoil};
use crate::random::Random;
use crate::tally::Tally;

/// Compares one call, now and then with up to two of its tests broken.
fn compare_random(random: &mut Random, tally: &mut Tally, engine: Engine) {
    let mut call = Call::good(random, engine, 6, 12);
    let cycle = call.shape.cycle;
    let broken = if random.once_in(2) { 0 } else { random.within(1..=2) };
    let broken: Vec<u32> = (0..broken).map(|_| random.one_of(&[1, 2, 3, 5, 6, 7, 8, 9])).collect();
    for &number in broken.iter().filter(|&&number| number != 9) {
        call.break_test(random, number);
    }
    let mut image = readings(random, cycle, call.input);
    if broken.contains(&9) {
        spoil(random, cycle, &mut image);
    }
    let memory = call.memory(random, &image);
    tally.count(&call.compare(&memory));
}

#[test]
fn level_engine_on_random_calls() {
    let mut random = Random::seeded(10);
    let mut tally = Tally::of("level");
    (0..40_000).for_each(|_| compare_random(&mut random, &mut tally, Level));
    tally.must_have(&[0, 1, 2, 3, 5, 6, 7, 8, 9], 1_000);
}

#[test]
fn reading_engine_on_random_calls() {
    let mut random = Random::seeded(11);
    let mut tally = Tally::of("reading");
    (0..40_000).for_each(|_| compare_random(&mut random, &mut tally, Reading));
    tally.must_have(&[0, 1, 2, 3, 5, 6, 7, 8, 9], 1_000);
}

/// Compares a call of all rows on a random image.
fn compare_whole(random: &mut Random, tally: &mut Tally, call: &Call) {
    let image = readings(random, call.shape.cycle, call.input);
    let memory = call.memory(random, &image);
    tally.count(&call.compare(&memory));
}

/// Every mask, even ones too, up to more than three times the image, on every small image.
#[test]
fn every_small_mask() {
    let mut random = Random::seeded(12);
    let mut tally = Tally::of("small masks");
    for (rows, columns) in (1..=4).flat_map(|rows| (1..=5).map(move |columns| (rows, columns))) {
        for mask_rows in 0..=6 * rows + 3 {
            for mask_columns in 0..=6 * columns + 3 {
                let cycle = random.within(1..=20);
                let shape = Shape { cycle, rows, columns, mask_rows, mask_columns };
                compare_whole(&mut random, &mut tally, &Call::whole(Level, shape));
                compare_whole(&mut random, &mut tally, &Call::whole(Reading, shape));
            }
        }
    }
    tally.must_have(&[0, 3], 3_000);
}

/// Cycles on which the formula of a distance, used for the number of a silent reading, would not give 0.
#[test]
fn reading_engine_on_long_cycles() {
    let mut random = Random::seeded(16);
    let mut tally = Tally::of("long cycles");
    for _ in 0..5_000 {
        let any = random.within(32_769..=65_535);
        let cycle = random.one_of(&[32_769, 32_770, 40_000, 65_534, 65_535, any]);
        let shape = shape(&mut random, cycle, 6, 12);
        compare_whole(&mut random, &mut tally, &Call::whole(Reading, shape));
    }
    tally.must_have(&[0], 5_000);
}

/// Shapes of which one number is as large as can be; all are accepted.
#[test]
fn sizes_at_their_limits() {
    let mut random = Random::seeded(13);
    let mut tally = Tally::of("limits");
    for engine in [Level, Reading] {
        for (cycle, rows, columns, mask_rows, mask_columns) in [
            (limit(engine), 2, 3, 3, 3),
            (limit(engine), 1, 1, 1, 1),
            (1, 3, 4, 3, 3),
            (7, 1024, 2, 3, 3),
            (6, 2, 8192, 3, 5),
            (5, 127, 2, 255, 3),
            (9, 2, 127, 3, 255),
            (8, 1, 300, 3, 255),
            (8, 1, 1, 255, 255),
            (7, 1, 4, 1, 255),
            (7, 4, 1, 255, 1),
        ] {
            let shape = Shape { cycle, rows, columns, mask_rows, mask_columns };
            compare_whole(&mut random, &mut tally, &Call::whole(engine, shape));
        }
    }
    tally.must_have(&[0], 22);
}

/// The largest mask on the longest cycle. Few readings are half a cycle off the others, so that their sums come close
/// to 65,025 times half a cycle.
#[test]
fn largest_sums() {
    let mut random = Random::seeded(14);
    let mut tally = Tally::of("largest sums");
    for engine in [Level, Reading] {
        let cycle = limit(engine);
        let shape = Shape { cycle, rows: 127, columns: 127, mask_rows: 255, mask_columns: 255 };
        let call = Call { rows: 60..61, ..Call::whole(engine, shape) };
        let draw = |_| if random.once_in(16) { (cycle / 2) as u16 } else { 0 };
        let image: Vec<u16> = (0..call.input).map(draw).collect();
        let memory = call.memory(&mut random, &image);
        tally.count(&call.compare_safe(&memory));
    }
    tally.must_have(&[0], 2);
}

/// Both engines write the same rows: compared with each other, beside the direct filter.
#[test]
fn engines_write_the_same_rows() {
    let mut random = Random::seeded(15);
    let mut written = 0;
    for _ in 0..2_000 {
        let shape = Call::good(&mut random, Level, 6, 12).shape;
        let image = readings(&mut random, shape.cycle, (shape.rows * shape.columns) as usize);
        let [level, reading] = [Level, Reading].map(|engine| {
            let call = Call::whole(engine, shape);
            let mut memory = call.memory(&mut random, &image);
            let (output, work) = (memory.output.slice_mut(), memory.work.slice_mut());
            assert_eq!(filter(engine, shape, call.rows, &image, output, work), Ok(()), "{shape:?}");
            output.to_vec()
        });
        assert_eq!(level, reading, "{shape:?} of {image:?}");
        written += level.len();
    }
    println!("same rows: {written} phases of 2000 images");
    assert!(written > 20_000);
}
