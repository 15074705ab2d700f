//! The live window.

use crate::refusal::answered;
use crate::{sys, Refusal, SILENT};

/// A live window: the filter for one label, wake by wake, where no image is stored. SPECIFICATION, "Live window".
///
/// A reading that is pushed is answered by the chosen phase of the last `length` readings, of which the middle one is the
/// centre, and by [`Live::Filling`] while fewer have come. [`SILENT`] readings are counted like others, refused ones are
/// not. The phase is what [`filter`](crate::filter) writes in the same row, under a mask of 1 by `length`, for the wake
/// that came `length` / 2 wakes before.
///
/// [`new`](LiveWindow::new) alone makes a window, and a clone is a window by itself. Two windows are equal if they have
/// the same cycle and length and hold the same readings.
///
/// ```
/// use circle_median::{Live, LiveWindow, Refusal, SILENT};
///
/// let mut window = LiveWindow::new(8, 3)?;
/// let answers: Result<Vec<Live>, Refusal> = [1, 4, 1, 7, 7].into_iter().map(|reading| window.push(reading)).collect();
/// assert_eq!(answers?, [Live::Filling, Live::Filling, Live::Phase(1), Live::Phase(1), Live::Phase(7)]);
///
/// // A refused reading changes nothing.
/// assert_eq!(window.push(8), Err(Refusal::Reading(0)));
/// assert_eq!(window.push(SILENT), Ok(Live::Phase(7)));
///
/// window.reset();
/// assert_eq!(window, LiveWindow::new(8, 3)?);
/// # Ok::<(), Refusal>(())
/// ```
#[derive(Debug, Clone, PartialEq, Eq)]
pub struct LiveWindow {
    cycle: u32,
    length: u32,
    filled: u32,
    readings: [u16; sys::WINDOW],
    sums: [u16; sys::WINDOW],
}

/// What a reading that was pushed is answered.
#[derive(Debug, Clone, Copy, PartialEq, Eq, Hash)]
pub enum Live {
    /// Fewer readings have come than the window is long.
    Filling,
    /// The chosen phase of the window, a tick.
    Phase(u16),
    /// No reading of the window was heard.
    Silent,
}

impl Live {
    /// The meaning of a value of the library.
    fn of(value: i64) -> Self {
        match value {
            -1 => Live::Filling,
            silent if silent == i64::from(SILENT) => Live::Silent,
            phase => Live::Phase(phase as u16),
        }
    }
}

impl LiveWindow {
    /// A window without readings, of a cycle up to [`LIVE_CYCLE`](crate::LIVE_CYCLE) ticks and of an odd length up to
    /// [`LIVE_LENGTH`](crate::LIVE_LENGTH) wakes.
    ///
    /// # Errors
    ///
    /// In this order: [`Refusal::Cycle`], [`Refusal::Mask`] for the length.
    ///
    /// ```
    /// use circle_median::{LiveWindow, Refusal};
    ///
    /// assert!(LiveWindow::new(512, 63).is_ok());
    /// assert_eq!(LiveWindow::new(513, 64), Err(Refusal::Cycle));
    /// assert_eq!(LiveWindow::new(512, 64), Err(Refusal::Mask));
    /// ```
    pub fn new(cycle: u32, length: u32) -> Result<Self, Refusal> {
        let (mut readings, mut sums) = ([0; sys::WINDOW], [0; sys::WINDOW]);
        let answer = sys::circle_median_window_fresh(cycle, length, &mut readings, &mut sums);
        answered(answer.number, answer.place, LiveWindow { cycle, length, filled: 0, readings, sums })
    }

    /// Pushes a reading, and takes off the oldest one where the window is full.
    ///
    /// # Errors
    ///
    /// [`Refusal::Reading`] at 0 if the reading is neither a tick nor [`SILENT`]. The window is then as before.
    ///
    /// ```
    /// use circle_median::{Live, LiveWindow, SILENT};
    ///
    /// let mut window = LiveWindow::new(360, 1)?;
    /// assert_eq!(window.push(359)?, Live::Phase(359));
    /// assert_eq!(window.push(SILENT)?, Live::Silent);
    /// assert!(window.push(360).is_err());
    /// # Ok::<(), circle_median::Refusal>(())
    /// ```
    pub fn push(&mut self, reading: u16) -> Result<Live, Refusal> {
        let answer = sys::circle_median_window_enter(
            self.cycle,
            self.length,
            self.filled,
            reading,
            &mut self.readings,
            &mut self.sums,
        );
        self.filled = answer.filled;
        answered(answer.number, answer.place, Live::of(answer.value))
    }

    /// Takes all readings off the window, whose cycle and length stay. It is never refused.
    ///
    /// ```
    /// use circle_median::{Live, LiveWindow};
    ///
    /// let mut window = LiveWindow::new(8, 3)?;
    /// window.push(1)?;
    /// window.push(4)?;
    /// window.reset();
    /// assert_eq!(window.push(1)?, Live::Filling);
    /// # Ok::<(), circle_median::Refusal>(())
    /// ```
    pub fn reset(&mut self) {
        *self = LiveWindow::new(self.cycle, self.length).expect("the cycle and the length of a window are accepted");
    }

    /// The ticks of the cycle.
    pub fn cycle(&self) -> u32 {
        self.cycle
    }

    /// How many of the last readings count.
    pub fn length(&self) -> u32 {
        self.length
    }
}
