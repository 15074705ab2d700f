//! Distance, step, slot and drift.

use crate::refusal::answered;
use crate::{sys, Refusal};

fn value(answer: sys::ValueAnswer) -> Result<i64, Refusal> {
    answered(answer.number, answer.place, answer.value)
}

/// How far apart ticks `a` and `b` are, in ticks, the shorter way round the cycle: 0 to cycle / 2.
/// SPECIFICATION, "Distance".
///
/// # Errors
///
/// In this order: [`Refusal::Cycle`]; [`Refusal::Reading`] at 0 if `a` is no tick, at 1 if `b` is none.
///
/// ```
/// use circle_median::{distance, Refusal};
///
/// assert_eq!(distance(360, 359, 1), Ok(2));
/// assert_eq!(distance(360, 359, 360), Err(Refusal::Reading(1)));
/// ```
pub fn distance(cycle: u32, a: u16, b: u16) -> Result<u16, Refusal> {
    value(sys::circle_median_distance(cycle, a, b)).map(|distance| distance as u16)
}

/// The way from tick `a` to tick `b`, in ticks, the shorter one: above 0 ahead, below 0 back. A way of half a cycle is
/// back. SPECIFICATION, "Step".
///
/// # Errors
///
/// As of [`distance`].
///
/// ```
/// use circle_median::step;
///
/// assert_eq!(step(8, 1, 4), Ok(3));
/// assert_eq!(step(8, 1, 5), Ok(-4));
/// assert_eq!(step(8, 1, 6), Ok(-3));
/// ```
pub fn step(cycle: u32, a: u16, b: u16) -> Result<i32, Refusal> {
    value(sys::circle_median_step(cycle, a, b)).map(|step| step as i32)
}

/// Whether tick `p` is in the slot that starts at tick `s` and ends `w` ticks later, both ends included.
/// SPECIFICATION, "Slot".
///
/// # Errors
///
/// In this order: [`Refusal::Cycle`]; [`Refusal::Reading`] at 0, 1 or 2 if `p`, `s` or `w` is no tick.
///
/// ```
/// use circle_median::slot;
///
/// assert_eq!(slot(8, 1, 6, 3), Ok(true)); // 6, 7, 0 and 1
/// assert_eq!(slot(8, 2, 6, 3), Ok(false));
/// ```
pub fn slot(cycle: u32, p: u16, s: u16, w: u16) -> Result<bool, Refusal> {
    value(sys::circle_median_slot(cycle, p, s, w)).map(|inside| inside != 0)
}

/// How far a label has moved over a row of its readings, in ticks: the sum of the steps from each heard reading to the
/// next one heard, whatever is [`SILENT`](crate::SILENT) between; 0 with fewer than two heard. SPECIFICATION, "Drift".
///
/// # Errors
///
/// In this order: [`Refusal::Cycle`]; [`Refusal::Size`] if the row has no reading or more than
/// [`MOST_COLUMNS`](crate::MOST_COLUMNS); [`Refusal::Reading`].
///
/// ```
/// use circle_median::{drift, Refusal, SILENT};
///
/// assert_eq!(drift(8, &[1, 1, 1, 7, 7]), Ok(-2));
/// assert_eq!(drift(8, &[1, SILENT, SILENT, 7]), Ok(-2));
/// assert_eq!(drift(8, &[SILENT]), Ok(0));
/// assert_eq!(drift(8, &[]), Err(Refusal::Size));
/// ```
pub fn drift(cycle: u32, row: &[u16]) -> Result<i32, Refusal> {
    // SAFETY: a slice is never null, aligned, and there for its whole length.
    let answer = unsafe { sys::circle_median_drift(cycle, row.as_ptr(), row.len()) };
    value(answer).map(|drift| drift as i32)
}
