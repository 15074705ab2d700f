//! The two engines.

use std::ops::Range;

use crate::refusal::answered;
use crate::{sys, Refusal, Shape};

/// The engine that filters. Both write the same numbers. They differ in time, in the cycles that they take and in the
/// work memory that they need, which [`work_len`](crate::work_len) tells: the time of the level engine grows with the
/// cycle, that of the reading engine with the mask. SPECIFICATION, "Engines".
///
/// ```
/// use circle_median::{work_len, Engine, Shape, LEVEL_CYCLE};
///
/// // The engine that needs less work memory, of those that take the cycle.
/// fn choose(shape: Shape) -> Engine {
///     let less = work_len(Engine::Level, shape) < work_len(Engine::Reading, shape);
///     if shape.cycle <= LEVEL_CYCLE && less { Engine::Level } else { Engine::Reading }
/// }
///
/// let shape = Shape { cycle: 360, rows: 8, columns: 960, mask_rows: 1, mask_columns: 15 };
/// assert_eq!(choose(shape), Engine::Reading);
/// ```
#[derive(Debug, Clone, Copy, PartialEq, Eq, Hash)]
pub enum Engine {
    /// Weighs every tick of the cycle; takes cycles up to [`LEVEL_CYCLE`](crate::LEVEL_CYCLE).
    Level,
    /// Weighs the readings of the window; takes every cycle.
    Reading,
}

/// Filters rows of an image: each reading is replaced by the chosen phase of its window. SPECIFICATION, "Filters".
///
/// - `rows`: the rows to filter; none of an empty range
/// - `input`: the image, exactly rows · columns readings, row by row, each a tick or [`SILENT`](crate::SILENT)
/// - `output`: at least rows · columns numbers
/// - `work`: at least [`work_len`](crate::work_len) numbers
///
/// Afterwards each row of the range stands in `output` at its own place in the whole image, and the rest of `output` is
/// as before. The first [`work_len`](crate::work_len) numbers of `work` are 0, also where there was no row to filter, and
/// the rest is as before. What `output` and `work` held before makes no difference to that.
///
/// At the edges the image is mirrored, the edge repeated, as often as the mask needs.
///
/// # Errors
///
/// In this order: [`Refusal::Cycle`], [`Refusal::Size`], [`Refusal::Mask`], [`Refusal::Rows`], [`Refusal::Input`],
/// [`Refusal::Buffer`], [`Refusal::Work`], [`Refusal::Reading`]. All of the image is tested, whatever the rows.
///
/// ```
/// use circle_median::{filter, work_len, Engine, Refusal, Shape};
///
/// let shape = Shape { cycle: 8, rows: 2, columns: 3, mask_rows: 1, mask_columns: 3 };
/// let input = [5, 0, 0, 4, 1, 7];
/// let mut output = [9; 6];
/// let mut work = vec![0; work_len(Engine::Reading, shape)];
/// filter(Engine::Reading, shape, 1..2, &input, &mut output, &mut work)?;
/// assert_eq!(output, [9, 9, 9, 4, 1, 7]);
///
/// let refused = filter(Engine::Reading, shape, 1..3, &input, &mut output, &mut work);
/// assert_eq!(refused, Err(Refusal::Rows));
/// # Ok::<(), Refusal>(())
/// ```
pub fn filter(
    engine: Engine,
    shape: Shape,
    rows: Range<u32>,
    input: &[u16],
    output: &mut [u16],
    work: &mut [u32],
) -> Result<(), Refusal> {
    let call = match engine {
        Engine::Level => sys::circle_median_level,
        Engine::Reading => sys::circle_median_reading,
    };
    // SAFETY: slices are never null, aligned, and there for their whole length; the mutable ones overlap no other.
    let answer = unsafe {
        call(
            shape.cycle,
            shape.rows,
            shape.columns,
            shape.mask_rows,
            shape.mask_columns,
            rows.start,
            rows.end,
            input.as_ptr(),
            input.len(),
            output.as_mut_ptr(),
            output.len(),
            work.as_mut_ptr(),
            work.len(),
        )
    };
    answered(answer.number, answer.place, ())
}

/// [`filter`] by the level engine, which needs cycle · (columns + 1) numbers of work memory.
///
/// # Errors
///
/// As of [`filter`]; a cycle above [`LEVEL_CYCLE`](crate::LEVEL_CYCLE) is refused.
///
/// ```
/// use circle_median::{level, Shape};
///
/// let shape = Shape { cycle: 8, rows: 1, columns: 5, mask_rows: 1, mask_columns: 3 };
/// let mut output = [0; 5];
/// level(shape, 0..1, &[1, 4, 1, 7, 7], &mut output, &mut [0; 48])?;
/// assert_eq!(output, [1, 1, 1, 7, 7]);
/// # Ok::<(), circle_median::Refusal>(())
/// ```
pub fn level(
    shape: Shape,
    rows: Range<u32>,
    input: &[u16],
    output: &mut [u16],
    work: &mut [u32],
) -> Result<(), Refusal> {
    filter(Engine::Level, shape, rows, input, output, work)
}

/// [`filter`] by the reading engine, which needs mask_rows · mask_columns · (columns + 1) numbers of work memory.
///
/// # Errors
///
/// As of [`filter`].
///
/// ```
/// use circle_median::{reading, Shape};
///
/// let shape = Shape { cycle: 8, rows: 1, columns: 5, mask_rows: 1, mask_columns: 3 };
/// let mut output = [0; 5];
/// reading(shape, 0..1, &[1, 4, 1, 7, 7], &mut output, &mut [0; 18])?;
/// assert_eq!(output, [1, 1, 1, 7, 7]);
/// # Ok::<(), circle_median::Refusal>(())
/// ```
pub fn reading(
    shape: Shape,
    rows: Range<u32>,
    input: &[u16],
    output: &mut [u16],
    work: &mut [u32],
) -> Result<(), Refusal> {
    filter(Engine::Reading, shape, rows, input, output, work)
}
