//! The circle median of wake phases: safe calls of the proved library.
//!
//! A shelf label wakes once in a cycle. A reading is the tick at which it did, from 0 to cycle - 1, or [`SILENT`] where
//! the wake was not heard. The filter gives each reading of an image, labels by wakes, the chosen phase of its window:
//! the heard reading of the window with the least sum of distances, round the cycle, to all that are heard there; of
//! several the one nearest to the window's centre, and of two as near the one ahead of it. [`filter`] does so for an
//! image that is stored, and a [`LiveWindow`] for one label, wake by wake. The rules are those of docs/SPECIFICATION.md,
//! which the comments cite by headings.
//!
//! Each call returns its result or one [`Refusal`]. A refused call has changed no memory. No argument makes a call panic.
//! All memory is the caller's; [`filter_parallel`] alone allocates some.
//!
//! ```
//! use circle_median::{drift, filter, work_len, Engine, Shape};
//!
//! let shape = Shape { cycle: 8, rows: 1, columns: 5, mask_rows: 1, mask_columns: 3 };
//! let mut output = [0; 5];
//! let mut work = vec![0; work_len(Engine::Level, shape)];
//! filter(Engine::Level, shape, 0..1, &[1, 4, 1, 7, 7], &mut output, &mut work)?;
//! assert_eq!(output, [1, 1, 1, 7, 7]);
//! assert_eq!(drift(8, &output)?, -2);
//! # Ok::<(), circle_median::Refusal>(())
//! ```
#![warn(missing_docs)]

mod cycle;
mod filter;
mod limits;
mod live;
mod parallel;
mod record;
mod refusal;
mod shape;
pub mod sys;

pub use cycle::{distance, drift, slot, step};
pub use filter::{filter, level, reading, Engine};
pub use limits::{
    LEVEL_CYCLE, LIVE_CYCLE, LIVE_LENGTH, LONGEST_CYCLE, MOST_COLUMNS, MOST_MASK_COLUMNS, MOST_MASK_ROWS, MOST_ROWS,
};
pub use live::{Live, LiveWindow};
pub use parallel::filter_parallel;
pub use record::{read, write};
pub use refusal::Refusal;
pub use shape::{record_len, work_len, Shape};

/// The reading of a wake that was not heard, on every cycle. SPECIFICATION, "Silence".
///
/// It has no distance and adds to no sum. Where it is the centre of a window, the first reading that was heard there, row
/// by row, stands in for it; where all of the window is silent, so is the phase. [`drift`] passes over it. It is a tick of
/// no cycle, so [`distance`], [`step`] and [`slot`] refuse it.
///
/// ```
/// use circle_median::{distance, drift, level, Refusal, Shape, SILENT};
///
/// let shape = Shape { cycle: 8, rows: 1, columns: 7, mask_rows: 1, mask_columns: 3 };
/// let mut output = [0; 7];
/// level(shape, 0..1, &[1, SILENT, 7, SILENT, SILENT, SILENT, 3], &mut output, &mut [0; 64])?;
/// assert_eq!(output, [1, 1, 7, 7, SILENT, 3, 3]);
/// assert_eq!(drift(8, &output), Ok(-6));
/// assert_eq!(distance(8, 1, SILENT), Err(Refusal::Reading(1)));
/// # Ok::<(), Refusal>(())
/// ```
pub const SILENT: u16 = 65_535;

/// The Rust examples of bindings/README.md are tests.
#[cfg(doctest)]
#[doc = include_str!("../../README.md")]
struct Readme;
