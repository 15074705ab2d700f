//! Row ranges filtered in parallel: what is written and refused is what one whole call writes and refuses.

use std::num::NonZeroUsize;

use circle_median::Engine::{Level, Reading};
use circle_median::{filter, filter_parallel, Engine, Refusal, Shape};

use crate::direct;
use crate::filter_call::{Call, Memory};
use crate::images::{readings, spoil};
use crate::random::Random;
use crate::tally::Tally;

/// Compares a call in so many threads with the direct filter, and with one whole call if it is accepted.
fn compare(call: &Call, memory: &Memory, threads: usize) -> Result<(), Refusal> {
    let (shape, rows, input) = (call.shape, call.rows.clone(), memory.input.slice());
    let due = direct::test_filter(call.engine, shape, &rows, input, call.output, usize::MAX);
    let mut expected = memory.clone();
    if due.is_ok() {
        direct::write_rows(shape, rows.clone(), input, expected.output.slice_mut());
        let mut whole = memory.clone();
        let (output, work) = (whole.output.slice_mut(), whole.work.slice_mut());
        assert_eq!(filter(call.engine, shape, rows.clone(), input, output, work), Ok(()));
        whole.output.must_be(&expected.output, "output of one call", call);
    }

    let mut lent = memory.clone();
    let threads = NonZeroUsize::new(threads).unwrap();
    let said = filter_parallel(call.engine, shape, rows, lent.input.slice(), lent.output.slice_mut(), threads);
    assert_eq!(said, due, "{threads} threads: {call:?} of {input:?}");
    lent.input.must_be(&expected.input, "input", call);
    lent.output.must_be(&expected.output, "output", &(call, threads));
    due
}

/// One random call, now and then with up to two of its tests broken; the work memory has no test here.
fn compare_random(random: &mut Random, tally: &mut Tally, engine: Engine, threads: usize) {
    let mut call = Call::good(random, engine, 20, 4);
    let cycle = call.shape.cycle;
    let broken = if random.once_in(2) { 0 } else { random.within(1..=2) };
    let broken: Vec<u32> = (0..broken).map(|_| random.one_of(&[1, 2, 3, 5, 6, 7, 9])).collect();
    for &number in broken.iter().filter(|&&number| number != 9) {
        call.break_test(random, number);
    }
    let mut image = readings(random, cycle, call.input);
    if broken.contains(&9) {
        spoil(random, cycle, &mut image);
    }
    let memory = call.memory(random, &image);
    tally.count(&compare(&call, &memory, threads));
}

#[test]
fn random_calls() {
    let mut random = Random::seeded(20);
    let mut tally = Tally::of("parallel");
    for at in 0..3_000 {
        compare_random(&mut random, &mut tally, [Level, Reading][at % 2], 1 + at / 2 % 5);
    }
    tally.must_have(&[0, 1, 2, 3, 5, 6, 7, 9], 60);
}

/// Every range of a few rows, with masks that reach from no row to more than twice all of them.
#[test]
fn every_range_and_reach() {
    let mut random = Random::seeded(21);
    let mut tally = Tally::of("parallel ranges");
    for rows in 1..=6 {
        for (first, end) in (0..=rows).flat_map(|first| (first..=rows).map(move |end| (first, end))) {
            for reach in 0..=2 * rows + 1 {
                let shape = Shape { cycle: 16, rows, columns: 2, mask_rows: 2 * reach + 1, mask_columns: 3 };
                let engine = random.one_of(&[Level, Reading]);
                let call = Call { rows: first..end, ..Call::whole(engine, shape) };
                let image = readings(&mut random, 16, call.input);
                let memory = call.memory(&mut random, &image);
                (1..=5).for_each(|threads| tally.count(&compare(&call, &memory, threads)));
            }
        }
    }
    tally.must_have(&[0], 3_000);
}

/// More threads than rows or than any machine has.
#[test]
fn many_threads() {
    let mut random = Random::seeded(22);
    let shape = Shape { cycle: 12, rows: 9, columns: 3, mask_rows: 5, mask_columns: 3 };
    let call = Call::whole(Level, shape);
    let image = readings(&mut random, 12, call.input);
    let memory = call.memory(&mut random, &image);
    for threads in [8, 9, 10, 1_000_000, usize::MAX] {
        assert_eq!(compare(&call, &memory, threads), Ok(()));
    }
}
