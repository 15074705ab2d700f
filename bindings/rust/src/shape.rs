//! The five numbers of an image and its mask, and the memory that they call for.

use crate::Engine;

/// The ticks of the cycle, the sizes of the image and the sides of the mask. SPECIFICATION, "Sizes" and "Mask".
///
/// Any numbers may stand here; the calls refuse those outside their range.
///
/// ```
/// use circle_median::Shape;
///
/// let shape = Shape { cycle: 360, rows: 8, columns: 960, mask_rows: 1, mask_columns: 15 };
/// let unfiltered = Shape { mask_columns: 1, ..shape };
/// assert_ne!(shape, unfiltered);
/// ```
#[derive(Debug, Clone, Copy, PartialEq, Eq, Hash)]
pub struct Shape {
    /// Ticks of the cycle, 1 to [`LONGEST_CYCLE`](crate::LONGEST_CYCLE).
    pub cycle: u32,
    /// Rows (labels) of the image, 1 to [`MOST_ROWS`](crate::MOST_ROWS).
    pub rows: u32,
    /// Columns (wakes) of the image, 1 to [`MOST_COLUMNS`](crate::MOST_COLUMNS).
    pub columns: u32,
    /// Rows (labels) of the mask: odd, 1 to [`MOST_MASK_ROWS`](crate::MOST_MASK_ROWS), and maybe more than the image has.
    pub mask_rows: u32,
    /// Columns (wakes) of the mask: odd, 1 to [`MOST_MASK_COLUMNS`](crate::MOST_MASK_COLUMNS), and maybe more than the
    /// image has.
    pub mask_columns: u32,
}

/// The work memory that an engine needs, in numbers of 32 bits: cycle · (columns + 1) for the level engine,
/// mask_rows · mask_columns · (columns + 1) for the reading engine.
///
/// The most is 33,558,528 for the level engine and 532,749,825 for the reading engine. For a shape that the engine
/// refuses the result has no use; it stops at `usize::MAX`.
///
/// ```
/// use circle_median::{work_len, Engine, Shape};
///
/// let shape = Shape { cycle: 8, rows: 1, columns: 5, mask_rows: 1, mask_columns: 3 };
/// assert_eq!(work_len(Engine::Level, shape), 48);
/// assert_eq!(work_len(Engine::Reading, shape), 18);
/// ```
pub fn work_len(engine: Engine, shape: Shape) -> usize {
    let columns = u64::from(shape.columns) + 1;
    let each = match engine {
        Engine::Level => u64::from(shape.cycle),
        Engine::Reading => u64::from(shape.mask_rows) * u64::from(shape.mask_columns),
    };
    length(each.saturating_mul(columns))
}

/// The length in bytes of a record, as [`write`](crate::write) writes it: 22 + rows · (3 + 2 · columns).
///
/// For a shape that is refused the result has no use; it stops at `usize::MAX`.
///
/// ```
/// use circle_median::{record_len, Shape};
///
/// let shape = Shape { cycle: 8, rows: 1, columns: 5, mask_rows: 1, mask_columns: 3 };
/// assert_eq!(record_len(shape), 35);
/// ```
pub fn record_len(shape: Shape) -> usize {
    let row = 3 + 2 * u64::from(shape.columns);
    length(u64::from(shape.rows).saturating_mul(row).saturating_add(22))
}

fn length(elements: u64) -> usize {
    usize::try_from(elements).unwrap_or(usize::MAX)
}
