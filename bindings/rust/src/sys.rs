//! The library's C functions and structs as `include/circle_median.h` declares them; that file says of each what it
//! answers, what it refuses and what it leaves in memory. The other calls of this crate are made of these.
//!
//! Functions of plain numbers are safe. A function that takes pointers needs each to be not null and aligned, also
//! where the length is 0, its memory to be there for the whole length, and memory that it writes to overlap no other
//! argument. A reference to an array is all this, so the functions of a live window are safe too; what the header has
//! around them is [`LiveWindow`](crate::LiveWindow). [`Refusal::from_number`](crate::Refusal::from_number) tells what a
//! number and a place mean.

/// An answer without a value.
#[repr(C)]
#[derive(Debug, Clone, Copy, PartialEq, Eq)]
pub struct Answer {
    /// 0, or the refusal's number.
    pub number: u32,
    /// The refusal's place, 0 where it has none.
    pub place: u64,
}

/// An answer with a value.
#[repr(C)]
#[derive(Debug, Clone, Copy, PartialEq, Eq)]
pub struct ValueAnswer {
    /// 0, or the refusal's number.
    pub number: u32,
    /// The refusal's place, 0 where it has none.
    pub place: u64,
    /// The call's value, 0 if it was refused.
    pub value: i64,
}

/// An answer with the five numbers of a record, all 0 if it was refused.
#[repr(C)]
#[derive(Debug, Clone, Copy, PartialEq, Eq)]
pub struct RecordAnswer {
    /// 0, or the refusal's number.
    pub number: u32,
    /// The refusal's place, 0 where it has none.
    pub place: u64,
    /// Ticks of the cycle.
    pub cycle: u32,
    /// Rows of the image.
    pub rows: u32,
    /// Columns of the image.
    pub columns: u32,
    /// Rows of the mask.
    pub mask_rows: u32,
    /// Columns of the mask.
    pub mask_columns: u32,
}

/// An answer to a reading that was pushed into a live window.
#[repr(C)]
#[derive(Debug, Clone, Copy, PartialEq, Eq)]
pub struct WindowAnswer {
    /// 0, or the refusal's number.
    pub number: u32,
    /// The refusal's place, 0 where it has none.
    pub place: u64,
    /// The chosen phase, a tick; [`SILENT`](crate::SILENT) if no reading of the window was heard; -1 while fewer have come
    /// than the window is long; 0 if the reading was refused.
    pub value: i64,
    /// How many of the window's readings are there afterwards; as given if the reading was refused.
    pub filled: u32,
}

/// The elements of a live window's readings, and of its sums.
pub const WINDOW: usize = crate::LIVE_LENGTH as usize;

unsafe extern "C" {
    /// Filters the rows from `first` up to `end`, without `end`, by the level engine.
    ///
    /// # Safety
    ///
    /// Of each pointer as the head of this module says.
    pub fn circle_median_level(
        cycle: u32,
        rows: u32,
        columns: u32,
        mask_rows: u32,
        mask_columns: u32,
        first: u32,
        end: u32,
        input: *const u16,
        input_length: usize,
        output: *mut u16,
        output_length: usize,
        work: *mut u32,
        work_length: usize,
    ) -> Answer;

    /// Filters the rows from `first` up to `end`, without `end`, by the reading engine.
    ///
    /// # Safety
    ///
    /// Of each pointer as the head of this module says.
    pub fn circle_median_reading(
        cycle: u32,
        rows: u32,
        columns: u32,
        mask_rows: u32,
        mask_columns: u32,
        first: u32,
        end: u32,
        input: *const u16,
        input_length: usize,
        output: *mut u16,
        output_length: usize,
        work: *mut u32,
        work_length: usize,
    ) -> Answer;

    /// The value is the distance of ticks `a` and `b`.
    pub safe fn circle_median_distance(cycle: u32, a: u16, b: u16) -> ValueAnswer;

    /// The value is the step from tick `a` to tick `b`.
    pub safe fn circle_median_step(cycle: u32, a: u16, b: u16) -> ValueAnswer;

    /// The value is 1 if tick `p` is in the slot that starts at `s` and is `w` wide, and else 0.
    pub safe fn circle_median_slot(cycle: u32, p: u16, s: u16, w: u16) -> ValueAnswer;

    /// The value is the drift of a row.
    ///
    /// # Safety
    ///
    /// Of the pointer as the head of this module says.
    pub fn circle_median_drift(cycle: u32, row: *const u16, row_length: usize) -> ValueAnswer;

    /// Writes a record to the front of `bytes`; the value is its length.
    ///
    /// # Safety
    ///
    /// Of each pointer as the head of this module says.
    pub fn circle_median_write(
        cycle: u32,
        rows: u32,
        columns: u32,
        mask_rows: u32,
        mask_columns: u32,
        readings: *const u16,
        readings_length: usize,
        bytes: *mut u8,
        bytes_length: usize,
    ) -> ValueAnswer;

    /// Reads the record that fills `bytes`, and puts its readings at the front of `readings`.
    ///
    /// # Safety
    ///
    /// Of each pointer as the head of this module says.
    pub fn circle_median_read(
        bytes: *const u8,
        bytes_length: usize,
        readings: *mut u16,
        readings_length: usize,
    ) -> RecordAnswer;

    /// Makes the readings and sums of a live window those of one without readings.
    pub safe fn circle_median_window_fresh(
        cycle: u32,
        length: u32,
        readings: &mut [u16; WINDOW],
        sums: &mut [u16; WINDOW],
    ) -> Answer;

    /// Pushes a reading into the readings and sums of a live window of which `filled` have come.
    pub safe fn circle_median_window_enter(
        cycle: u32,
        length: u32,
        filled: u32,
        reading: u16,
        readings: &mut [u16; WINDOW],
        sums: &mut [u16; WINDOW],
    ) -> WindowAnswer;
}
