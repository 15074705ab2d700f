//! The refusal of a call.

use std::error::Error;
use std::fmt;

/// Why a call was not answered: the first of its tests that failed, and a place where the test has one. The comment on
/// each call has its tests in their order.
///
/// The numbers, names and places are those of docs/SPECIFICATION.md, "Numbers", and of `enum circle_median_refusal` in
/// the header. Number 4 is reserved: no call gives it.
///
/// ```
/// use circle_median::{drift, Refusal};
///
/// let refusal = drift(8, &[1, 4, 8, 7]).unwrap_err();
/// assert_eq!(refusal, Refusal::Reading(2));
/// assert_eq!((refusal.number(), refusal.place()), (9, 2));
/// assert_eq!(
///     refusal.to_string(),
///     "refused 9 at 2: a reading is neither below the cycle nor silent, or an argument is not below the cycle"
/// );
/// assert_eq!(Refusal::Cycle.to_string(), "refused 1: the cycle is 0 or longer than the call takes");
/// ```
#[derive(Debug, Clone, Copy, PartialEq, Eq, Hash)]
pub enum Refusal {
    /// 1: the cycle is 0, or longer than the call takes: [`LONGEST_CYCLE`](crate::LONGEST_CYCLE),
    /// [`LEVEL_CYCLE`](crate::LEVEL_CYCLE) for the level engine, [`LIVE_CYCLE`](crate::LIVE_CYCLE) for a live window.
    Cycle,
    /// 2: rows are 0 or above [`MOST_ROWS`](crate::MOST_ROWS), or columns, or the readings of a row by itself, are 0 or
    /// above [`MOST_COLUMNS`](crate::MOST_COLUMNS).
    Size,
    /// 3: a side of the mask is even, 0 or above [`MOST_MASK_ROWS`](crate::MOST_MASK_ROWS) or
    /// [`MOST_MASK_COLUMNS`](crate::MOST_MASK_COLUMNS), or the length of a live window is even, 0 or above
    /// [`LIVE_LENGTH`](crate::LIVE_LENGTH).
    Mask,
    /// 5: the first row is above the end row, or the end row above the rows.
    Rows,
    /// 6: the input, or the readings to write, are not rows · columns.
    Input,
    /// 7: the output, the room for readings or the room for bytes is too short.
    Buffer,
    /// 8: the work memory is too short.
    Work,
    /// 9: a reading is neither a tick nor silent, or an argument is no tick. The place is the index of the first such
    /// reading in the image or the row, or of the first such argument, from 0.
    Reading(usize),
    /// 10: the record ends within a field or before it. The place is the offset of that field.
    Cut(usize),
    /// 11: the tag of a field is not the one due. The place is the offset of the tag.
    Tag(usize),
    /// 12: the length of a field is not the one due. The place is the offset of the field's tag.
    Length(usize),
    /// 13: bytes follow the end field. The place is the offset of the first.
    Trailing(usize),
    /// 14: the record is longer than a bench sheet takes. The sheet's program gives it, no call of this crate.
    Record,
}

impl Refusal {
    /// The refusal of a number and a place, as the functions of [`sys`](crate::sys) answer them. `None` for 0, which is no
    /// refusal, for 4, and for what is above 14. A place is passed over where the number has none.
    ///
    /// ```
    /// use circle_median::{sys, Refusal};
    ///
    /// let answer = sys::circle_median_distance(360, 359, 360);
    /// assert_eq!(Refusal::from_number(answer.number, answer.place), Some(Refusal::Reading(1)));
    /// assert_eq!(Refusal::from_number(0, 0), None);
    /// ```
    pub fn from_number(number: u32, place: u64) -> Option<Self> {
        let place = place as usize;
        Some(match number {
            1 => Refusal::Cycle,
            2 => Refusal::Size,
            3 => Refusal::Mask,
            5 => Refusal::Rows,
            6 => Refusal::Input,
            7 => Refusal::Buffer,
            8 => Refusal::Work,
            9 => Refusal::Reading(place),
            10 => Refusal::Cut(place),
            11 => Refusal::Tag(place),
            12 => Refusal::Length(place),
            13 => Refusal::Trailing(place),
            14 => Refusal::Record,
            _ => return None,
        })
    }

    /// The number, from 1 to 14 and never 4.
    ///
    /// ```
    /// assert_eq!(circle_median::Refusal::Trailing(35).number(), 13);
    /// ```
    pub fn number(self) -> u32 {
        match self {
            Refusal::Cycle => 1,
            Refusal::Size => 2,
            Refusal::Mask => 3,
            Refusal::Rows => 5,
            Refusal::Input => 6,
            Refusal::Buffer => 7,
            Refusal::Work => 8,
            Refusal::Reading(_) => 9,
            Refusal::Cut(_) => 10,
            Refusal::Tag(_) => 11,
            Refusal::Length(_) => 12,
            Refusal::Trailing(_) => 13,
            Refusal::Record => 14,
        }
    }

    /// The place: an index or an offset, and 0 where the number has none.
    ///
    /// ```
    /// use circle_median::Refusal;
    ///
    /// assert_eq!(Refusal::Trailing(35).place(), 35);
    /// assert_eq!(Refusal::Cycle.place(), 0);
    /// ```
    pub fn place(self) -> usize {
        self.placed().unwrap_or(0)
    }

    /// The reason in words, without number and place.
    ///
    /// ```
    /// assert_eq!(circle_median::Refusal::Trailing(35).reason(), "bytes follow the end field");
    /// ```
    pub fn reason(self) -> &'static str {
        match self {
            Refusal::Cycle => "the cycle is 0 or longer than the call takes",
            Refusal::Size => "rows outside 1 to 1024, or columns or a row's readings outside 1 to 8192",
            Refusal::Mask => "a mask side is even, 0 or above 255, or a live window's length even, 0 or above 63",
            Refusal::Rows => "the first row is above the end row, or the end row above the rows",
            Refusal::Input => "the input is not rows * columns readings long",
            Refusal::Buffer => "the output, readings or byte buffer is too short",
            Refusal::Work => "the work memory is too short",
            Refusal::Reading(_) => {
                "a reading is neither below the cycle nor silent, or an argument is not below the cycle"
            }
            Refusal::Cut(_) => "the record ends within a field",
            Refusal::Tag(_) => "a tag is not the one due",
            Refusal::Length(_) => "a length is not the one due",
            Refusal::Trailing(_) => "bytes follow the end field",
            Refusal::Record => "the record is longer than a bench sheet takes",
        }
    }

    /// The place of a number that has one.
    fn placed(self) -> Option<usize> {
        match self {
            Refusal::Reading(place)
            | Refusal::Cut(place)
            | Refusal::Tag(place)
            | Refusal::Length(place)
            | Refusal::Trailing(place) => Some(place),
            _ => None,
        }
    }
}

/// The number, the place where there is one, and the reason: `refused 9 at 1: a reading ..`, `refused 1: the cycle ..`.
impl fmt::Display for Refusal {
    fn fmt(&self, f: &mut fmt::Formatter<'_>) -> fmt::Result {
        write!(f, "refused {}", self.number())?;
        if let Some(place) = self.placed() {
            write!(f, " at {place}")?;
        }
        write!(f, ": {}", self.reason())
    }
}

impl Error for Refusal {}

/// What the library's number and place say: the value if the call was accepted, and else the refusal.
pub(crate) fn answered<T>(number: u32, place: u64, value: T) -> Result<T, Refusal> {
    if number == 0 {
        return Ok(value);
    }
    Err(Refusal::from_number(number, place).expect("the library refuses by the numbers of its header"))
}

#[cfg(test)]
mod tests {
    use super::*;

    #[test]
    fn numbers_there_and_back() {
        for number in 0..=20 {
            let refusal = Refusal::from_number(number, 35);
            assert_eq!(refusal.is_some(), (1..=14).contains(&number) && number != 4, "{number}");
            assert!(refusal.is_none_or(|refusal| refusal.number() == number), "{number}");
        }
    }
}
