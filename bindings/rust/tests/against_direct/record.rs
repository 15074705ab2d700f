//! The record's writer and reader, on good records and on damaged ones.

use circle_median::{record_len, sys, Refusal, Shape, SILENT};

use crate::cycle::{refusal, told};
use crate::direct;
use crate::images::{at_least, break_shape, other_length, readings, shape, shorter, spoil};
use crate::lent::Lent;
use crate::random::Random;
use crate::tally::Tally;

type Write = fn(Shape, &[u16], &mut [u8]) -> Result<usize, Refusal>;
type Read = fn(&[u8], &mut [u16]) -> Result<Shape, Refusal>;

fn any_shape(random: &mut Random) -> Shape {
    let limit = random.one_of(&[1, 8, 40, 256, 4096, 65_535]);
    let cycle = random.within(1..=limit);
    shape(random, cycle, 5, 8)
}

fn raw_write(shape: Shape, readings: &[u16], bytes: &mut [u8]) -> Result<usize, Refusal> {
    let Shape { cycle: c, rows: m, columns: n, mask_rows: r, mask_columns: t } = shape;
    let (into, length) = (bytes.as_mut_ptr(), bytes.len());
    // SAFETY: the pointers and the lengths are those of slices, which overlap nowhere.
    let answer = unsafe { sys::circle_median_write(c, m, n, r, t, readings.as_ptr(), readings.len(), into, length) };
    told(answer).map(|length| length as usize)
}

fn raw_read(bytes: &[u8], readings: &mut [u16]) -> Result<Shape, Refusal> {
    let (into, length) = (readings.as_mut_ptr(), readings.len());
    // SAFETY: the pointers and the lengths are those of slices, which overlap nowhere.
    let answer = unsafe { sys::circle_median_read(bytes.as_ptr(), bytes.len(), into, length) };
    let sys::RecordAnswer { number, place, cycle, rows, columns, mask_rows, mask_columns } = answer;
    let shape = Shape { cycle, rows, columns, mask_rows, mask_columns };
    let nothing = Shape { cycle: 0, rows: 0, columns: 0, mask_rows: 0, mask_columns: 0 };
    match number {
        0 if place == 0 => Ok(shape),
        1.. if shape == nothing => Err(refusal(number, place)),
        _ => panic!("{answer:?}"),
    }
}

/// Writes directly, through C and safely; all must answer and leave the same.
fn compare_write(tally: &mut Tally, shape: Shape, readings: &Lent<u16>, bytes: &Lent<u8>) {
    let call = (shape, readings.slice(), bytes.slice().len());
    let mut expected = bytes.clone();
    let due = direct::write(shape, readings.slice(), expected.slice_mut());
    for write in [raw_write as Write, circle_median::write] {
        let (from, mut into) = (readings.clone(), bytes.clone());
        assert_eq!(write(shape, from.slice(), into.slice_mut()), due, "write {call:?}");
        from.must_be(readings, "readings", &call);
        into.must_be(&expected, "bytes", &call);
    }
    tally.count(&due);
}

/// Reads directly, through C and safely; all must answer and leave the same.
fn compare_read(tally: &mut Tally, bytes: &Lent<u8>, readings: &Lent<u16>) -> Result<Shape, Refusal> {
    let call = (bytes.slice(), readings.slice().len());
    let mut expected = readings.clone();
    let due = direct::read(bytes.slice(), expected.slice_mut());
    for read in [raw_read as Read, circle_median::read] {
        let (from, mut into) = (bytes.clone(), readings.clone());
        assert_eq!(read(from.slice(), into.slice_mut()), due, "read {call:?}");
        from.must_be(bytes, "bytes", &call);
        into.must_be(&expected, "readings", &call);
    }
    tally.count(&due);
    due
}

#[test]
fn random_writes() {
    let mut random = Random::seeded(30);
    let mut tally = Tally::of("write");
    for _ in 0..20_000 {
        let mut shape = any_shape(&mut random);
        let cycle = shape.cycle;
        let mut length = (shape.rows * shape.columns) as usize;
        let mut room = at_least(&mut random, record_len(shape));
        let broken = if random.once_in(3) { 0 } else { random.within(1..=2) };
        let broken: Vec<u32> = (0..broken).map(|_| random.one_of(&[1, 2, 3, 6, 7, 9])).collect();
        for &number in &broken {
            match number {
                6 => length = other_length(&mut random, length),
                7 => room = shorter(&mut random, record_len(shape).clamp(1, room.max(1))),
                9 => (),
                _ => break_shape(&mut random, &mut shape, number, 65_535),
            }
        }
        let mut image = readings(&mut random, cycle, length);
        if broken.contains(&9) {
            spoil(&mut random, cycle, &mut image);
        }
        let (image, bytes) = (Lent::holding(&mut random, &image), Lent::garbage(&mut random, room));
        compare_write(&mut tally, shape, &image, &bytes);
    }
    tally.must_have(&[0, 1, 2, 3, 6, 7, 9], 500);
}

/// The bytes of a good record, with a mask field that is full or empty.
fn good_record(random: &mut Random, shape: Shape) -> Vec<u8> {
    let image = readings(random, shape.cycle, (shape.rows * shape.columns) as usize);
    let mask = [shape.mask_rows as u16, shape.mask_columns as u16];
    direct::record(shape, if random.once_in(4) { &[] } else { &mask }, &image)
}

/// The offsets at which the fields of a good record start.
fn fields(bytes: &[u8]) -> Vec<usize> {
    let mut offsets = vec![0];
    while let Some(&last) = offsets.last().filter(|&&last| bytes[last] != 0xFF) {
        offsets.push(last + 3 + usize::from(bytes[last + 1]) * 256 + usize::from(bytes[last + 2]));
    }
    offsets
}

fn put_number(bytes: &mut [u8], at: usize, number: u16) {
    bytes[at..at + 2].copy_from_slice(&number.to_be_bytes());
}

/// Changes a record in one of the ways in which one goes wrong. The offsets are those of the fields before.
fn damage(random: &mut Random, bytes: &mut Vec<u8>, offsets: &[usize]) {
    let field = random.one_of(offsets);
    let number = random.one_of(&[0, 1, 2, 3, 4, 5, 9, 255, 256, 257, 1024, 1025, 8192, 8193, 65_535]);
    match random.within(0..=9) {
        0 => bytes.truncate(random.index(bytes.len() + 1)),
        1 => bytes.truncate(field),
        2 => bytes[field] = random.one_of(&[0, 1, 2, 3, 4, 5, 0xFE, 0xFF]),
        3 => put_number(bytes, field + 1, number),
        4 => put_number(bytes, 3, random.one_of(&[0, number])),
        5 => put_number(bytes, random.one_of(&[8, 10]), number),
        6 => put_number(bytes, random.one_of(&[15, 17]), number),
        7 => {
            let at = random.index(bytes.len());
            bytes[at] = random.bits() as u8;
        }
        8 => bytes.extend((0..random.within(1..=4)).map(|at| [0, 0xFF][at as usize % 2])),
        _ => drop(bytes.drain(field..(field + 1 + random.index(4)).min(bytes.len()))),
    }
}

#[test]
fn random_reads() {
    let mut random = Random::seeded(31);
    let mut tally = Tally::of("read");
    for _ in 0..40_000 {
        let shape = any_shape(&mut random);
        let mut bytes = good_record(&mut random, shape);
        let offsets = fields(&bytes);
        for _ in 0..random.one_of(&[0, 1, 1, 2]) {
            let whole = bytes.len() > offsets[offsets.len() - 1] + 2;
            if whole {
                damage(&mut random, &mut bytes, &offsets);
            }
        }
        let image = (shape.rows * shape.columns) as usize;
        let room = if random.once_in(8) { shorter(&mut random, image) } else { at_least(&mut random, image) };
        let (bytes, into) = (Lent::holding(&mut random, &bytes), Lent::garbage(&mut random, room));
        let _ = compare_read(&mut tally, &bytes, &into);
    }
    tally.must_have(&[0, 1, 2, 3, 7, 9, 10, 11, 12, 13], 300);
}

/// Each cut of a record, and each change of one of its bytes.
#[test]
fn every_cut_and_every_changed_byte() {
    let mut random = Random::seeded(32);
    let mut tally = Tally::of("cuts and changes");
    let shape = Shape { cycle: 200, rows: 2, columns: 3, mask_rows: 3, mask_columns: 1 };
    let record = direct::record(shape, &[3, 1], &[0, 199, 128, SILENT, 44, 1]);
    let into = Lent::garbage(&mut random, 6);
    for end in 0..record.len() {
        let cut = Lent::holding(&mut random, &record[..end]);
        let _ = compare_read(&mut tally, &cut, &into);
    }
    for at in 0..record.len() {
        for byte in 0..=255 {
            let mut changed = Lent::holding(&mut random, &record);
            changed.slice_mut()[at] = byte;
            let _ = compare_read(&mut tally, &changed, &into);
        }
    }
    tally.must_have(&[0, 1, 2, 3, 7, 9, 10, 11, 12], 1);
}

/// A record is written, read back and written again.
fn there_and_back(random: &mut Random, shape: Shape) {
    let image = readings(random, shape.cycle, (shape.rows * shape.columns) as usize);
    let mut bytes = Lent::garbage(random, record_len(shape));
    assert_eq!(circle_median::write(shape, &image, bytes.slice_mut()), Ok(record_len(shape)), "{shape:?}");

    let mut back = Lent::garbage(random, image.len());
    assert_eq!(circle_median::read(bytes.slice(), back.slice_mut()), Ok(shape));
    assert!(back.slice() == image, "{shape:?}");

    let mut again = Lent::garbage(random, record_len(shape));
    assert_eq!(circle_median::write(shape, back.slice(), again.slice_mut()), Ok(record_len(shape)));
    assert!(again.slice() == bytes.slice(), "{shape:?}");
}

#[test]
fn written_records_read_back() {
    let mut random = Random::seeded(33);
    for _ in 0..2_000 {
        let shape = any_shape(&mut random);
        there_and_back(&mut random, shape);
    }
    for (rows, columns) in [(1024, 1), (1, 8192), (1024, 8192)] {
        there_and_back(&mut random, Shape { cycle: 65_535, rows, columns, mask_rows: 3, mask_columns: 3 });
    }
}

/// An empty mask field stands for a mask of 1 by 7, on rows of every length.
#[test]
fn default_mask() {
    let mut random = Random::seeded(34);
    let mut tally = Tally::of("default mask");
    for columns in 1..=9 {
        let shape = Shape { cycle: 8, rows: 2, columns, mask_rows: 1, mask_columns: 7 };
        let image = readings(&mut random, 8, 2 * columns as usize);
        let bytes = Lent::holding(&mut random, &direct::record(shape, &[], &image));
        let into = Lent::garbage(&mut random, image.len());
        assert_eq!(compare_read(&mut tally, &bytes, &into), Ok(shape));
    }
    tally.must_have(&[0], 9);
}
