//! The largest sizes that the calls accept; the smallest is 1 for each. The names and numbers are those of the header.

/// Ticks of a cycle.
///
/// ```
/// use circle_median::{distance, Refusal, LONGEST_CYCLE};
///
/// assert_eq!(distance(LONGEST_CYCLE, 0, 65_534), Ok(1));
/// assert_eq!(distance(LONGEST_CYCLE + 1, 0, 65_534), Err(Refusal::Cycle));
/// ```
pub const LONGEST_CYCLE: u32 = 65_535;

/// Ticks of a cycle for [`Engine::Level`](crate::Engine::Level).
pub const LEVEL_CYCLE: u32 = 4_096;

/// Rows (labels) of an image.
pub const MOST_ROWS: u32 = 1_024;

/// Columns (wakes) of an image, and readings of a row whose [`drift`](crate::drift) is asked.
pub const MOST_COLUMNS: u32 = 8_192;

/// Rows (labels) of a mask, an odd number.
pub const MOST_MASK_ROWS: u32 = 255;

/// Columns (wakes) of a mask, an odd number.
pub const MOST_MASK_COLUMNS: u32 = 255;

/// Ticks of a cycle for a [`LiveWindow`](crate::LiveWindow).
pub const LIVE_CYCLE: u32 = 512;

/// Wakes of a [`LiveWindow`](crate::LiveWindow), an odd number.
pub const LIVE_LENGTH: u32 = 63;
