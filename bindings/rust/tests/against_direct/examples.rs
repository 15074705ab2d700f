//! The worked examples of docs/SPECIFICATION.md, E1 to E13, and small calls with their answers.

use circle_median::Engine::{Level, Reading};
use circle_median::{distance, drift, filter, read, slot, step, work_len, write};
use circle_median::{Engine, Live, LiveWindow, Refusal, Shape, SILENT};
use circle_median::{LEVEL_CYCLE, LIVE_CYCLE, LIVE_LENGTH, LONGEST_CYCLE};
use circle_median::{MOST_COLUMNS, MOST_MASK_COLUMNS, MOST_MASK_ROWS, MOST_ROWS};

fn shape(cycle: u32, rows: u32, columns: u32, mask_rows: u32, mask_columns: u32) -> Shape {
    Shape { cycle, rows, columns, mask_rows, mask_columns }
}

/// All rows by an engine with just the memory that it needs.
fn filtered(engine: Engine, shape: Shape, image: &[u16]) -> Result<Vec<u16>, Refusal> {
    let mut output = vec![0; image.len()];
    let mut work = vec![0; work_len(engine, shape)];
    filter(engine, shape, 0..shape.rows, image, &mut output, &mut work).map(|()| output)
}

/// The number and place of a refusal, 0 and 0 if there is none.
fn refused<T>(answer: Result<T, Refusal>) -> (u32, usize) {
    answer.err().map_or((0, 0), |refusal| (refusal.number(), refusal.place()))
}

#[test]
fn windows_e1_to_e11() {
    let windows: [(u32, &[u16], u16); 11] = [
        (8, &[4, 1, 7], 1),
        (8, &[1, 7, 4], 7),
        (8, &[5, 3, 0, 3, 5], 3),
        (5, &[2, 0, 3], 2),
        (9, &[0, 3, 6], 3),
        (8, &[0, 4, 3], 3),
        (32, &[23, 23, 0, 9, 9], 0),
        (48, &[0, 39, 16], 0),
        (360, &[359, 0, 1], 0),
        (1, &[0, 0, 0], 0),
        (2, &[0, 1, 1], 1),
    ];
    for (cycle, window, chosen) in windows {
        let size = window.len() as u32;
        for engine in [Level, Reading] {
            let row = filtered(engine, shape(cycle, 1, size, 1, size), window).unwrap();
            assert_eq!(row[window.len() / 2], chosen, "{engine:?} {cycle} {window:?}");
            let column = filtered(engine, shape(cycle, size, 1, size, 1), window).unwrap();
            assert_eq!(column[window.len() / 2], chosen, "{engine:?} {cycle} {window:?}, upright");
        }
    }
}

#[test]
fn steps_e12_and_drift() {
    assert_eq!(step(8, 1, 5), Ok(-4));
    assert_eq!(step(8, 5, 1), Ok(-4));
    assert_eq!(step(8, 1, 6), Ok(-3));
    assert_eq!(step(65_534, 0, 32_767), Ok(-32_767));
    assert_eq!(drift(8, &[1, 1, 1, 7, 7]), Ok(-2));
    assert_eq!(drift(8, &[0, 4, 0, 4, 1, 5, 1, 5, 2, 6]), Ok(-34));
    assert_eq!(drift(8, &[5]), Ok(0));
}

#[test]
fn row_and_edges() {
    for engine in [Level, Reading] {
        assert_eq!(filtered(engine, shape(8, 1, 5, 1, 3), &[1, 4, 1, 7, 7]), Ok(vec![1, 1, 1, 7, 7]));
        assert_eq!(filtered(engine, shape(8, 1, 3, 1, 3), &[5, 0, 0]).map(|row| row[0]), Ok(5));
        assert_eq!(filtered(engine, shape(8, 1, 1, 3, 3), &[6]), Ok(vec![6]));
        assert_eq!(filtered(engine, shape(8, 1, 200, 3, 255), &[6; 200]), Ok(vec![6; 200]));
    }
    assert_eq!(filtered(Level, shape(4096, 1, 1, 1, 1), &[4095]), Ok(vec![4095]));
}

/// Masks longer than the image, which is mirrored more than once.
#[test]
fn runs_shorter_than_the_mask() {
    for engine in [Level, Reading] {
        assert_eq!(filtered(engine, shape(8, 1, 1, 5, 1), &[3]), Ok(vec![3]));
        assert_eq!(filtered(engine, shape(8, 1, 4, 1, 31), &[1, 4, 1, 7]), Ok(vec![1; 4]));
        assert_eq!(filtered(engine, shape(9, 1, 4, 1, 31), &[0, 3, 6, 1]), Ok(vec![1, 0, 1, 0]));
        assert_eq!(filtered(engine, shape(9, 4, 1, 31, 1), &[0, 3, 6, 1]), Ok(vec![1, 0, 1, 0]));
        assert_eq!(filtered(engine, shape(8, 1, 1, 255, 255), &[6]), Ok(vec![6]));
    }
}

/// Silent readings: as a centre, in all of a window, with an even number heard, and example E13.
#[test]
fn silent_windows() {
    const S: u16 = SILENT;
    assert_eq!(S, 65_535);
    for engine in [Level, Reading] {
        let row = |cycle, mask, image: &[u16]| filtered(engine, shape(cycle, 1, image.len() as u32, 1, mask), image);
        assert_eq!(row(8, 3, &[0, S, 4]), Ok(vec![0, 0, 4]));
        assert_eq!(row(8, 3, &[4, S, 0]), Ok(vec![4, 4, 0]));
        assert_eq!(row(8, 3, &[1, S, 7, S, S, S, 3]), Ok(vec![1, 1, 7, 7, S, 3, 3]));
        assert_eq!(row(16, 5, &[15, 1, S, 8, 8]).map(|row| row[2]), Ok(8));
        assert_eq!(row(8, 1, &[3, S]), Ok(vec![3, S]));
        assert_eq!(filtered(engine, shape(1, 2, 2, 3, 3), &[S; 4]), Ok(vec![S; 4]));
        assert_eq!(filtered(engine, shape(4096, 2, 1, 3, 1), &[S, 4095]), Ok(vec![4095, 4095]));
    }
    assert_eq!(filtered(Reading, shape(65_535, 1, 4, 1, 3), &[65_534, S, 0, S]), Ok(vec![65_534, 65_534, 0, 0]));
    assert_eq!(drift(8, &[1, 1, 7, 7, S, 3, 3]), Ok(-6));
    assert_eq!(drift(8, &[S, 5, S]), Ok(0));
    assert_eq!(drift(65_535, &[S, S]), Ok(0));
}

/// No call takes a silent argument; images, rows and records are refused at the first that is neither tick nor silent.
#[test]
fn silent_refusals() {
    const S: u16 = SILENT;
    for cycle in [1, 8, 65_535] {
        assert_eq!((refused(distance(cycle, S, 0)), refused(distance(cycle, 0, S))), ((9, 0), (9, 1)));
        assert_eq!((refused(step(cycle, S, 0)), refused(step(cycle, 0, S))), ((9, 0), (9, 1)));
        let slots = [slot(cycle, S, 0, 0), slot(cycle, 0, S, 0), slot(cycle, 0, 0, S)];
        assert_eq!(slots.map(refused), [(9, 0), (9, 1), (9, 2)]);
    }
    assert_eq!(refused(drift(8, &[S, 65_534, 8])), (9, 1));
    for engine in [Level, Reading] {
        assert_eq!(refused(filtered(engine, shape(8, 2, 2, 1, 3), &[S, 1, S, 8])), (9, 3));
    }
    let mut bytes = [0; 35];
    assert_eq!(refused(write(shape(8, 1, 5, 1, 3), &[S, 4, S, 65_534, 7], &mut bytes)), (9, 3));
    assert_eq!(write(shape(8, 1, 5, 1, 3), &[S, 4, S, 7, 7], &mut bytes), Ok(35));
    bytes[24..26].copy_from_slice(&[0, 8]);
    assert_eq!(refused(read(&bytes, &mut [0; 5])), (9, 1));
}

#[test]
fn refused_filters() {
    let row = shape(8, 1, 5, 1, 3);
    let image = [1, 4, 1, 7, 7];
    let call = |shape, rows, input: &[u16], output: usize, work: usize| {
        refused(filter(Level, shape, rows, input, &mut vec![0; output], &mut vec![0; work]))
    };
    assert_eq!(call(Shape { cycle: 4097, ..row }, 0..1, &image, 5, 48), (1, 0));
    assert_eq!(call(Shape { rows: 0, ..row }, 0..1, &image, 5, 48), (2, 0));
    assert_eq!(call(Shape { mask_columns: 4, ..row }, 0..1, &image, 5, 48), (3, 0));
    assert_eq!(call(Shape { mask_columns: 257, ..row }, 0..1, &image, 5, 48), (3, 0));
    assert_eq!(call(shape(8, 2, 5, 1, 3), 1..3, &image, 5, 48), (5, 0));
    assert_eq!(call(row, 0..1, &image[..4], 5, 48), (6, 0));
    assert_eq!(call(row, 0..1, &image, 4, 48), (7, 0));
    assert_eq!(call(row, 0..1, &image, 5, 47), (8, 0));
    assert_eq!(call(shape(8, 1, 2, 1, 1), 0..1, &[1, 8], 2, 24), (9, 1));
    assert_eq!(call(row, 0..1, &image, 5, 48), (0, 0));
}

#[test]
fn refused_records() {
    let mut bytes = [0; 36];
    assert_eq!(write(shape(8, 1, 5, 1, 3), &[1, 4, 1, 7, 7], &mut bytes), Ok(35));
    let call = |bytes: &[u8]| refused(read(bytes, &mut [0; 5]));
    assert_eq!(call(&[]), (10, 0));
    assert_eq!(call(&[2, 0, 4]), (11, 0));
    assert_eq!(call(&[1, 0, 3, 0, 8, 0]), (12, 0));
    assert_eq!(call(&bytes), (13, 35));
    assert_eq!(call(&bytes[..35]), (0, 0));
}

/// A row wake by wake, rows with silent readings, a window of one reading, which never fills, and the longest window.
#[test]
fn live_rows() {
    const S: u16 = SILENT;
    use Live::{Filling, Phase, Silent};
    let answers = |cycle, length, row: &[u16]| {
        let mut window = LiveWindow::new(cycle, length).unwrap();
        row.iter().map(|&reading| window.push(reading).unwrap()).collect::<Vec<_>>()
    };
    assert_eq!(answers(8, 3, &[1, 4, 1, 7, 7]), [Filling, Filling, Phase(1), Phase(1), Phase(7)]);
    assert_eq!(answers(8, 3, &[S, S, S, 3, S]), [Filling, Filling, Silent, Phase(3), Phase(3)]);
    assert_eq!(answers(16, 5, &[15, 1, S, 8, 8])[4], Phase(8));
    assert_eq!(answers(1, 1, &[0, S, 0]), [Phase(0), Silent, Phase(0)]);
    assert_eq!(answers(512, 63, &[511; 64])[61..], [Filling, Phase(511), Phase(511)]);
}

/// A refused reading does not count towards filling, and a reset makes a window fresh whatever it holds.
#[test]
fn refused_and_reset_windows() {
    let mut window = LiveWindow::new(8, 3).unwrap();
    assert_eq!((window.cycle(), window.length()), (8, 3));
    assert_eq!((window.push(1), window.push(4)), (Ok(Live::Filling), Ok(Live::Filling)));
    let before = window.clone();
    assert_eq!([8, 512, 65_534].map(|reading| refused(window.push(reading))), [(9, 0); 3]);
    assert_eq!(window, before);
    assert_eq!(window.push(1), Ok(Live::Phase(1)));
    window.reset();
    assert_eq!(Ok(&window), LiveWindow::new(8, 3).as_ref());
    assert_eq!([1, 4, 1].map(|reading| window.push(reading).unwrap())[1..], [Live::Filling, Live::Phase(1)]);

    let new = |cycle, length| refused(LiveWindow::new(cycle, length));
    assert_eq!([new(512, 63), new(1, 1)], [(0, 0); 2]);
    assert_eq!([new(0, 3), new(513, 3), new(0, 2), new(513, 65)], [(1, 0); 4]);
    assert_eq!([new(8, 0), new(8, 2), new(8, 64), new(8, 65)], [(3, 0); 4]);
}

/// What a refusal says: its number, its place if it has one, and the reason.
#[test]
fn refusals_in_words() {
    for number in (1..=14).filter(|&number| number != 4) {
        let refusal = Refusal::from_number(number, 35).unwrap();
        let place = if (9..=13).contains(&number) { " at 35" } else { "" };
        assert_eq!(refusal.to_string(), format!("refused {number}{place}: {}", refusal.reason()));
        assert!(!refusal.reason().is_empty());
        let error: Box<dyn std::error::Error> = refusal.into();
        assert_eq!(error.to_string(), refusal.to_string());
    }
}

/// Each limit is accepted, and what is beyond it refused.
#[test]
fn limits() {
    assert_eq!(refused(distance(LONGEST_CYCLE, 0, 0)), (0, 0));
    assert_eq!(refused(distance(LONGEST_CYCLE + 1, 0, 0)), (1, 0));
    let wide = shape(8, 1, MOST_COLUMNS, MOST_MASK_ROWS, MOST_MASK_COLUMNS);
    let tall = shape(LEVEL_CYCLE, MOST_ROWS, 1, 1, 1);
    let call = |shape: Shape| refused(filtered(Level, shape, &vec![SILENT; (shape.rows * shape.columns) as usize]));
    assert_eq!([call(wide), call(tall)], [(0, 0); 2]);
    assert_eq!(call(Shape { cycle: LEVEL_CYCLE + 1, ..tall }), (1, 0));
    assert_eq!(call(Shape { rows: MOST_ROWS + 1, ..tall }), (2, 0));
    assert_eq!(call(Shape { columns: MOST_COLUMNS + 1, ..wide }), (2, 0));
    assert_eq!(call(Shape { mask_rows: MOST_MASK_ROWS + 2, ..wide }), (3, 0));
    assert_eq!(call(Shape { mask_columns: MOST_MASK_COLUMNS + 2, ..wide }), (3, 0));
    assert_eq!(refused(LiveWindow::new(LIVE_CYCLE, LIVE_LENGTH)), (0, 0));
    assert_eq!(refused(LiveWindow::new(LIVE_CYCLE + 1, LIVE_LENGTH)), (1, 0));
    assert_eq!(refused(LiveWindow::new(LIVE_CYCLE, LIVE_LENGTH + 2)), (3, 0));
}

/// No shape is too large for the lengths to be told.
#[test]
fn lengths_of_any_shape() {
    let huge = shape(u32::MAX, u32::MAX, u32::MAX, u32::MAX, u32::MAX);
    assert_eq!(work_len(Level, huge), usize::MAX - u32::MAX as usize);
    assert_eq!(work_len(Reading, huge), usize::MAX);
    assert_eq!(circle_median::record_len(huge), usize::MAX);
    assert_eq!(work_len(Reading, shape(65_535, 1024, 8192, 255, 255)), 532_749_825);
    assert_eq!(work_len(Level, shape(4096, 1024, 8192, 255, 255)), 33_558_528);
    assert_eq!(circle_median::record_len(shape(1, 1024, 8192, 1, 1)), 16_780_310);
}
