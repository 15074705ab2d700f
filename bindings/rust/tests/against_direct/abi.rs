//! The structs are laid out as C has them, on a machine of 64 bits.

use std::mem::{align_of, offset_of, size_of};

use circle_median::sys::{Answer, RecordAnswer, ValueAnswer, WindowAnswer};

#[test]
fn answer() {
    assert_eq!((size_of::<Answer>(), align_of::<Answer>()), (16, 8));
    assert_eq!((offset_of!(Answer, number), offset_of!(Answer, place)), (0, 8));
}

#[test]
fn value_answer() {
    assert_eq!((size_of::<ValueAnswer>(), align_of::<ValueAnswer>()), (24, 8));
    assert_eq!((offset_of!(ValueAnswer, number), offset_of!(ValueAnswer, place)), (0, 8));
    assert_eq!(offset_of!(ValueAnswer, value), 16);
}

#[test]
fn record_answer() {
    assert_eq!((size_of::<RecordAnswer>(), align_of::<RecordAnswer>()), (40, 8));
    assert_eq!((offset_of!(RecordAnswer, number), offset_of!(RecordAnswer, place)), (0, 8));
    assert_eq!((offset_of!(RecordAnswer, cycle), offset_of!(RecordAnswer, rows)), (16, 20));
    assert_eq!(offset_of!(RecordAnswer, columns), 24);
    assert_eq!((offset_of!(RecordAnswer, mask_rows), offset_of!(RecordAnswer, mask_columns)), (28, 32));
}

#[test]
fn window_answer() {
    assert_eq!((size_of::<WindowAnswer>(), align_of::<WindowAnswer>()), (32, 8));
    assert_eq!((offset_of!(WindowAnswer, number), offset_of!(WindowAnswer, place)), (0, 8));
    assert_eq!((offset_of!(WindowAnswer, value), offset_of!(WindowAnswer, filled)), (16, 24));
}
