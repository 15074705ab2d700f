//! Rows filtered in several threads.
//!
//! A call of the library is lent the whole output and writes the rows of its range, and no two threads can be lent
//! the same output. So each thread filters a part of the image by a call of its own, with memory of its own: its rows
//! and those that their windows reach. Then it copies its rows to their place, a part of the output that is its alone.

use std::num::NonZeroUsize;
use std::ops::Range;
use std::thread;

use crate::{filter, work_len, Engine, Refusal, Shape};

/// Filters rows of an image in up to `threads` threads, of which the calling one is one. What is written is what one
/// call of [`filter`] writes; `rows`, `input` and `output` are as there.
///
/// Memory: each thread allocates [`work_len`] numbers of 32 bits, and as many of 16 bits as there are in its rows and in
/// the mask_rows / 2 rows on either side of them. Time: before the threads start, one call on an empty range tests all
/// readings and clears one work memory; then each thread sets up its first row afresh, so a thread should have many more
/// rows than the mask.
///
/// # Errors
///
/// As of [`filter`] with enough work memory.
///
/// # Panics
///
/// If a thread cannot be started.
///
/// ```
/// use std::num::NonZeroUsize;
/// use circle_median::{filter_parallel, Engine, Shape};
///
/// let shape = Shape { cycle: 8, rows: 2, columns: 5, mask_rows: 1, mask_columns: 3 };
/// let input = [1, 4, 1, 7, 7, 5, 0, 0, 0, 0];
/// let mut output = [0; 10];
/// let threads = NonZeroUsize::new(2).unwrap();
/// filter_parallel(Engine::Level, shape, 0..2, &input, &mut output, threads)?;
/// assert_eq!(output, [1, 1, 1, 7, 7, 5, 0, 0, 0, 0]);
/// # Ok::<(), circle_median::Refusal>(())
/// ```
pub fn filter_parallel(
    engine: Engine,
    shape: Shape,
    rows: Range<u32>,
    input: &[u16],
    output: &mut [u16],
    threads: NonZeroUsize,
) -> Result<(), Refusal> {
    let mut work = accept(engine, shape, &rows, input, output)?;
    let columns = shape.columns as usize;
    let each = rows_each(rows.len(), threads);
    let written = &mut output[rows.start as usize * columns..rows.end as usize * columns];
    let mut parts = rows.step_by(each).zip(written.chunks_mut(each * columns));

    thread::scope(|scope| {
        let here = parts.next();
        for (first, rows) in parts {
            scope.spawn(move || filter_part(engine, shape, first, input, rows, &mut vec![0; work_len(engine, shape)]));
        }
        if let Some((first, rows)) = here {
            filter_part(engine, shape, first, input, rows, &mut work);
        }
    });
    Ok(())
}

/// The rows of each part, the last of which may have fewer: as few as there can be with no more parts than threads.
fn rows_each(rows: usize, threads: NonZeroUsize) -> usize {
    rows.div_ceil(threads.get()).max(1)
}

/// Refuses what one call on these rows with enough work memory would refuse, and else returns such a memory. The
/// output stays as it is.
fn accept(
    engine: Engine,
    shape: Shape,
    rows: &Range<u32>,
    input: &[u16],
    output: &mut [u16],
) -> Result<Vec<u32>, Refusal> {
    // A range that is in order is refused exactly if the empty one at its end is; one that is not is refused itself.
    let tested = rows.start.max(rows.end)..rows.end;
    // Without work memory all tests before that one are made, so that none is allocated for a shape that is refused.
    match filter(engine, shape, tested.clone(), input, output, &mut []) {
        Ok(()) | Err(Refusal::Work) => (),
        Err(refusal) => return Err(refusal),
    }
    let mut work = vec![0; work_len(engine, shape)];
    filter(engine, shape, tested, input, output, &mut work)?;
    Ok(work)
}

/// Filters the rows of an accepted image from `first` on, as many as `output` holds.
///
/// The call is on these rows and the `reach` rows on either side, or up to the image's edge. So each window is mirrored
/// at the edges of the whole image alone, and has the same readings in the same order. A window that is mirrored more
/// than once reaches past all rows, and its part is the whole image.
fn filter_part(engine: Engine, shape: Shape, first: u32, input: &[u16], output: &mut [u16], work: &mut [u32]) {
    let columns = shape.columns as usize;
    let reach = shape.mask_rows / 2;
    let end = first + (output.len() / columns) as u32;
    let top = first.saturating_sub(reach);
    let bottom = shape.rows.min(end + reach);

    let part = Shape { rows: bottom - top, ..shape };
    let part_input = &input[top as usize * columns..bottom as usize * columns];
    let mut part_output = vec![0; part_input.len()];
    filter(engine, part, first - top..end - top, part_input, &mut part_output, work)
        .expect("a part of an accepted image is accepted");
    output.copy_from_slice(&part_output[(first - top) as usize * columns..][..output.len()]);
}

#[cfg(test)]
mod tests {
    use super::*;

    #[test]
    fn no_more_parts_than_threads() {
        for (rows, threads) in (0..50).flat_map(|rows| (1..60).map(move |threads| (rows, threads))) {
            let each = rows_each(rows, NonZeroUsize::new(threads).unwrap());
            assert!((0..rows).step_by(each).count() <= threads, "{rows} rows, {threads} threads");
            assert!(each == 1 || (0..rows).step_by(each - 1).count() > threads, "{rows} rows, {threads} threads");
        }
    }
}
