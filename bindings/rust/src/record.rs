//! The bench record.

use crate::refusal::answered;
use crate::{sys, Refusal, Shape};

/// Writes a bench record and returns its length in bytes, which is [`record_len`](crate::record_len).
/// SPECIFICATION, "Writer".
///
/// - `readings`: the image, exactly rows · columns readings, row by row; [`SILENT`](crate::SILENT) is written as FF FF
/// - `bytes`: at least [`record_len`](crate::record_len) bytes
///
/// Afterwards the record is at the front of `bytes`, and what is behind it is as before.
///
/// # Errors
///
/// In this order: [`Refusal::Cycle`], [`Refusal::Size`], [`Refusal::Mask`], [`Refusal::Input`], [`Refusal::Buffer`],
/// [`Refusal::Reading`].
///
/// ```
/// use circle_median::{record_len, write, Shape};
///
/// let shape = Shape { cycle: 8, rows: 1, columns: 5, mask_rows: 1, mask_columns: 3 };
/// let mut bytes = vec![0; record_len(shape)];
/// assert_eq!(write(shape, &[1, 4, 1, 7, 7], &mut bytes)?, 35);
/// assert_eq!(bytes[..12], [1, 0, 2, 0, 8, 2, 0, 4, 0, 1, 0, 5]);
/// # Ok::<(), circle_median::Refusal>(())
/// ```
pub fn write(shape: Shape, readings: &[u16], bytes: &mut [u8]) -> Result<usize, Refusal> {
    // SAFETY: slices are never null, aligned, and there for their whole length; the mutable one overlaps no other.
    let answer = unsafe {
        sys::circle_median_write(
            shape.cycle,
            shape.rows,
            shape.columns,
            shape.mask_rows,
            shape.mask_columns,
            readings.as_ptr(),
            readings.len(),
            bytes.as_mut_ptr(),
            bytes.len(),
        )
    };
    answered(answer.number, answer.place, answer.value as usize)
}

/// Reads the bench record that fills `bytes`, and returns its shape; an empty mask field is a mask of 1 by 7.
/// SPECIFICATION, "Reader".
///
/// - `readings`: room for at least as many readings as the record has
///
/// Afterwards the rows · columns readings are at the front of `readings`, FF FF as [`SILENT`](crate::SILENT), and what is
/// behind them is as before.
///
/// # Errors
///
/// Field by field, as the bytes come. In each field: [`Refusal::Cut`] if fewer than three bytes are left,
/// [`Refusal::Tag`], [`Refusal::Length`], [`Refusal::Cut`] if the body is not all there; then by what the body holds
/// [`Refusal::Cycle`]; [`Refusal::Size`]; [`Refusal::Mask`] and then [`Refusal::Buffer`]; and, for each row in turn,
/// [`Refusal::Reading`]. Behind the end field: [`Refusal::Trailing`].
///
/// ```
/// use circle_median::{read, write, Refusal, Shape, SILENT};
///
/// let shape = Shape { cycle: 8, rows: 1, columns: 5, mask_rows: 1, mask_columns: 3 };
/// let mut bytes = [0; 35];
/// write(shape, &[1, 4, SILENT, 7, 7], &mut bytes)?;
///
/// let mut readings = [0; 5];
/// assert_eq!(read(&bytes, &mut readings)?, shape);
/// assert_eq!(readings, [1, 4, SILENT, 7, 7]);
/// assert_eq!(read(&bytes[..30], &mut readings), Err(Refusal::Cut(19)));
/// # Ok::<(), Refusal>(())
/// ```
pub fn read(bytes: &[u8], readings: &mut [u16]) -> Result<Shape, Refusal> {
    // SAFETY: slices are never null, aligned, and there for their whole length; the mutable one overlaps no other.
    let answer = unsafe { sys::circle_median_read(bytes.as_ptr(), bytes.len(), readings.as_mut_ptr(), readings.len()) };
    let shape = Shape {
        cycle: answer.cycle,
        rows: answer.rows,
        columns: answer.columns,
        mask_rows: answer.mask_rows,
        mask_columns: answer.mask_columns,
    };
    answered(answer.number, answer.place, shape)
}
