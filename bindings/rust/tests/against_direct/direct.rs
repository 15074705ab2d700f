//! The rules of docs/SPECIFICATION.md written down directly: every window is gathered, every heard reading of it
//! weighed, every test made in its order. The functions have the signatures of the library's safe ones, and do to lent
//! memory what those should do.

use std::array;
use std::collections::BTreeMap;
use std::iter;
use std::ops::Range;

use circle_median::{Engine, Live, Refusal, Shape, SILENT};

type Answer<T> = Result<T, Refusal>;

// Tests.

fn refuse_if(condition: bool, refusal: Refusal) -> Answer<()> {
    refuse_at(condition.then_some(0), |_| refusal)
}

fn refuse_at(place: Option<usize>, refusal: impl FnOnce(usize) -> Refusal) -> Answer<()> {
    place.map_or(Ok(()), |place| Err(refusal(place)))
}

fn test_cycle(cycle: u32, limit: u32) -> Answer<()> {
    refuse_if(cycle == 0 || cycle > limit, Refusal::Cycle)
}

fn test_sizes(rows: u32, columns: u32) -> Answer<()> {
    refuse_if(!(1..=1024).contains(&rows) || !(1..=8192).contains(&columns), Refusal::Size)
}

fn test_mask(shape: Shape) -> Answer<()> {
    let bad = |side: u32| side % 2 == 0 || side > 255;
    refuse_if(bad(shape.mask_rows) || bad(shape.mask_columns), Refusal::Mask)
}

fn test_shape(shape: Shape, limit: u32) -> Answer<()> {
    test_cycle(shape.cycle, limit)?;
    test_sizes(shape.rows, shape.columns)?;
    test_mask(shape)
}

/// Arguments must be below the cycle.
fn test_arguments(cycle: u32, arguments: &[u16]) -> Answer<()> {
    refuse_at(arguments.iter().position(|&argument| u32::from(argument) >= cycle), Refusal::Reading)
}

/// Readings must be below the cycle or silent.
fn test_readings(cycle: u32, readings: &[u16]) -> Answer<()> {
    let bad = |&reading: &u16| u32::from(reading) >= cycle && reading != SILENT;
    refuse_at(readings.iter().position(bad), Refusal::Reading)
}

/// The readings that were heard, in their order.
fn heard(readings: &[u16]) -> Vec<u16> {
    readings.iter().copied().filter(|&reading| reading != SILENT).collect()
}

// The cycle.

fn apart(cycle: u64, a: u64, b: u64) -> u64 {
    let e = a.abs_diff(b);
    e.min(cycle - e)
}

/// Half a cycle is a step back.
fn stepped(cycle: i64, a: i64, b: i64) -> i64 {
    let e = (b - a).rem_euclid(cycle);
    if 2 * e < cycle {
        e
    } else {
        e - cycle
    }
}

pub fn distance(cycle: u32, a: u16, b: u16) -> Answer<u16> {
    test_cycle(cycle, 65_535)?;
    test_arguments(cycle, &[a, b])?;
    Ok(apart(cycle.into(), a.into(), b.into()) as u16)
}

pub fn step(cycle: u32, a: u16, b: u16) -> Answer<i32> {
    test_cycle(cycle, 65_535)?;
    test_arguments(cycle, &[a, b])?;
    Ok(stepped(cycle.into(), a.into(), b.into()) as i32)
}

pub fn slot(cycle: u32, p: u16, s: u16, w: u16) -> Answer<bool> {
    test_cycle(cycle, 65_535)?;
    test_arguments(cycle, &[p, s, w])?;
    Ok((i64::from(p) - i64::from(s)).rem_euclid(cycle.into()) <= w.into())
}

pub fn drift(cycle: u32, row: &[u16]) -> Answer<i32> {
    test_cycle(cycle, 65_535)?;
    refuse_if(row.is_empty() || row.len() > 8192, Refusal::Size)?;
    test_readings(cycle, row)?;
    let steps = heard(row).windows(2).map(|pair| stepped(cycle.into(), pair[0].into(), pair[1].into())).sum::<i64>();
    Ok(steps as i32)
}

// The filter.

/// What `index` stands for on an axis of `size`, which is mirrored at its edges: one reflection after the other, until the
/// index lies on the axis.
fn mirrored(mut index: i64, size: i64) -> i64 {
    while !(0..size).contains(&index) {
        index = if index < 0 { -index - 1 } else { 2 * size - 1 - index };
    }
    index
}

/// The readings of a window, row by row.
fn window(shape: Shape, input: &[u16], row: u32, column: u32) -> Vec<u16> {
    let (r, t) = (i64::from(shape.mask_rows / 2), i64::from(shape.mask_columns / 2));
    let (row, column) = (i64::from(row), i64::from(column));
    let mut readings = Vec::new();
    for i in row - r..=row + r {
        for j in column - t..=column + t {
            let i = mirrored(i, shape.rows.into());
            let j = mirrored(j, shape.columns.into());
            readings.push(input[(i * i64::from(shape.columns) + j) as usize]);
        }
    }
    readings
}

/// What is written for a window: the chosen one of its heard readings, or silence. The first one heard stands in for a
/// centre that was not.
fn phase(cycle: u32, window: &[u16], centre: u16) -> u16 {
    let heard = heard(window);
    match heard.first() {
        None => SILENT,
        Some(&first) => chosen(cycle, &heard, if centre == SILENT { first } else { centre }),
    }
}

/// The reading with the least sum; of several the nearest to the centre, of two such the one ahead.
fn chosen(cycle: u32, heard: &[u16], centre: u16) -> u16 {
    let (cycle, centre) = (u64::from(cycle), u64::from(centre));
    let mut counted = BTreeMap::new();
    heard.iter().for_each(|&reading| *counted.entry(u64::from(reading)).or_default() += 1);
    let key = |tick: u64| {
        let sum: u64 = counted.iter().map(|(&reading, times): (_, &u64)| times * apart(cycle, tick, reading)).sum();
        let from_centre = apart(cycle, tick, centre);
        let behind = (centre + from_centre) % cycle != tick;
        (sum, from_centre, behind)
    };
    counted.keys().copied().min_by_key(|&tick| key(tick)).unwrap() as u16
}

/// The numbers of work memory that an engine needs.
fn need(engine: Engine, shape: Shape) -> usize {
    let each = match engine {
        Engine::Level => shape.cycle,
        Engine::Reading => shape.mask_rows * shape.mask_columns,
    };
    each as usize * (shape.columns as usize + 1)
}

/// The tests of an engine's call.
pub fn test_filter(
    engine: Engine,
    shape: Shape,
    rows: &Range<u32>,
    input: &[u16],
    output: usize,
    work: usize,
) -> Answer<()> {
    test_shape(shape, if engine == Engine::Level { 4096 } else { 65_535 })?;
    let image = shape.rows as usize * shape.columns as usize;
    refuse_if(rows.start > rows.end || rows.end > shape.rows, Refusal::Rows)?;
    refuse_if(input.len() != image, Refusal::Input)?;
    refuse_if(output < image, Refusal::Buffer)?;
    refuse_if(work < need(engine, shape), Refusal::Work)?;
    test_readings(shape.cycle, input)
}

/// Writes the rows of a range, of an image that was tested.
pub fn write_rows(shape: Shape, rows: Range<u32>, input: &[u16], output: &mut [u16]) {
    for row in rows {
        for column in 0..shape.columns {
            let at = (row * shape.columns + column) as usize;
            output[at] = phase(shape.cycle, &window(shape, input, row, column), input[at]);
        }
    }
}

pub fn filter(
    engine: Engine,
    shape: Shape,
    rows: Range<u32>,
    input: &[u16],
    output: &mut [u16],
    work: &mut [u32],
) -> Answer<()> {
    test_filter(engine, shape, &rows, input, output.len(), work.len())?;
    write_rows(shape, rows, input, output);
    work[..need(engine, shape)].fill(0);
    Ok(())
}

// The live window.

/// All readings that were accepted since the window was fresh.
#[derive(Debug)]
pub struct LiveWindow {
    cycle: u32,
    length: u32,
    accepted: Vec<u16>,
}

impl LiveWindow {
    pub fn new(cycle: u32, length: u32) -> Answer<Self> {
        test_cycle(cycle, 512)?;
        refuse_if(length % 2 == 0 || length > 63, Refusal::Mask)?;
        Ok(LiveWindow { cycle, length, accepted: Vec::new() })
    }

    pub fn push(&mut self, reading: u16) -> Answer<Live> {
        test_readings(self.cycle, &[reading])?;
        self.accepted.push(reading);
        if self.accepted.len() < self.length as usize {
            return Ok(Live::Filling);
        }
        let last = self.last();
        Ok(match phase(self.cycle, &last, last[last.len() / 2]) {
            SILENT => Live::Silent,
            phase => Live::Phase(phase),
        })
    }

    pub fn reset(&mut self) {
        self.accepted.clear();
    }

    /// The last readings, oldest first, as many as the window is long; silent ones stand for those before the first.
    fn last(&self) -> Vec<u16> {
        let newest_first = self.accepted.iter().rev().copied().chain(iter::repeat(SILENT));
        let mut last: Vec<u16> = newest_first.take(self.length as usize).collect();
        last.reverse();
        last
    }

    /// What is stored: how many of the last readings are there, and each with its sum; behind them there is silence.
    pub fn stored(&self) -> (u32, [u16; 63], [u16; 63]) {
        let last = self.last();
        let heard = heard(&last);
        let sum = |tick: u16| heard.iter().map(|&q| apart(self.cycle.into(), tick.into(), q.into()) as u16).sum();
        let readings = array::from_fn(|at| last.get(at).copied().unwrap_or(SILENT));
        let sums = readings.map(|reading| if reading == SILENT { 0 } else { sum(reading) });
        (self.length.min(self.accepted.len() as u32), readings, sums)
    }
}

// The record.

fn put(bytes: &mut Vec<u8>, tag: u8, numbers: &[u16]) {
    bytes.push(tag);
    bytes.extend((2 * numbers.len() as u16).to_be_bytes());
    bytes.extend(numbers.iter().flat_map(|number| number.to_be_bytes()));
}

/// The bytes of a record whose numbers fit, in range or not; field 03 has the mask, or no body for the default.
pub fn record(shape: Shape, mask: &[u16], readings: &[u16]) -> Vec<u8> {
    let mut bytes = Vec::new();
    put(&mut bytes, 1, &[shape.cycle as u16]);
    put(&mut bytes, 2, &[shape.rows as u16, shape.columns as u16]);
    put(&mut bytes, 3, mask);
    for row in readings.chunks(shape.columns as usize) {
        put(&mut bytes, 4, row);
    }
    put(&mut bytes, 0xFF, &[]);
    bytes
}

pub fn write(shape: Shape, readings: &[u16], bytes: &mut [u8]) -> Answer<usize> {
    test_shape(shape, 65_535)?;
    let (rows, columns) = (shape.rows as usize, shape.columns as usize);
    refuse_if(readings.len() != rows * columns, Refusal::Input)?;
    refuse_if(bytes.len() < 22 + rows * (3 + 2 * columns), Refusal::Buffer)?;
    test_readings(shape.cycle, readings)?;
    let record = record(shape, &[shape.mask_rows as u16, shape.mask_columns as u16], readings);
    bytes[..record.len()].copy_from_slice(&record);
    Ok(record.len())
}

/// Takes the fields of a record one by one.
struct Fields<'a> {
    bytes: &'a [u8],
    at: usize,
}

impl Fields<'_> {
    /// The numbers of the next field, which must have this tag and one of these lengths.
    fn take(&mut self, tag: u8, lengths: &[usize]) -> Answer<Vec<u16>> {
        let (at, left) = (self.at, &self.bytes[self.at..]);
        refuse_if(left.len() < 3, Refusal::Cut(at))?;
        refuse_if(left[0] != tag, Refusal::Tag(at))?;
        let length = usize::from(left[1]) * 256 + usize::from(left[2]);
        refuse_if(!lengths.contains(&length), Refusal::Length(at))?;
        refuse_if(left.len() < 3 + length, Refusal::Cut(at))?;
        self.at += 3 + length;
        Ok(left[3..3 + length].chunks(2).map(|pair| u16::from(pair[0]) * 256 + u16::from(pair[1])).collect())
    }

    /// The shape in the first three fields, tested.
    fn take_shape(&mut self) -> Answer<Shape> {
        let cycle = u32::from(self.take(1, &[2])?[0]);
        test_cycle(cycle, 65_535)?;
        let sizes = self.take(2, &[4])?;
        let (rows, columns) = (u32::from(sizes[0]), u32::from(sizes[1]));
        test_sizes(rows, columns)?;
        let mask = self.take(3, &[0, 4])?;
        let mask = if mask.is_empty() { vec![1, 7] } else { mask };
        let shape = Shape { cycle, rows, columns, mask_rows: mask[0].into(), mask_columns: mask[1].into() };
        test_mask(shape)?;
        Ok(shape)
    }
}

pub fn read(bytes: &[u8], readings: &mut [u16]) -> Answer<Shape> {
    let mut fields = Fields { bytes, at: 0 };
    let shape = fields.take_shape()?;
    let image = shape.rows as usize * shape.columns as usize;
    refuse_if(readings.len() < image, Refusal::Buffer)?;
    let mut read = Vec::new();
    for _ in 0..shape.rows {
        read.extend(fields.take(4, &[2 * shape.columns as usize])?);
        test_readings(shape.cycle, &read)?;
    }
    fields.take(0xFF, &[0])?;
    refuse_if(fields.at < bytes.len(), Refusal::Trailing(fields.at))?;
    readings[..image].copy_from_slice(&read);
    Ok(shape)
}
