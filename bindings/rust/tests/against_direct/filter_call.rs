//! Calls of the two engines, good and damaged, and their comparison with the direct filter.

use std::ops::Range;

use circle_median::{sys, work_len, Engine, Refusal, Shape};

use crate::cycle::refusal;
use crate::direct;
use crate::images::{at_least, break_shape, other_length, shape, shorter};
use crate::lent::Lent;
use crate::random::Random;

/// A call of an engine, with the lengths of what it is lent.
#[derive(Clone, Debug)]
pub struct Call {
    pub engine: Engine,
    pub shape: Shape,
    pub rows: Range<u32>,
    pub input: usize,
    pub output: usize,
    pub work: usize,
}

/// What a call is lent.
#[derive(Clone)]
pub struct Memory {
    pub input: Lent<u16>,
    pub output: Lent<u16>,
    pub work: Lent<u32>,
}

type Filter = fn(&Call, &mut Memory) -> Result<(), Refusal>;

/// The longest cycle that an engine takes.
pub fn limit(engine: Engine) -> u32 {
    match engine {
        Engine::Level => 4096,
        Engine::Reading => 65_535,
    }
}

impl Call {
    /// All rows, with no memory to spare.
    pub fn whole(engine: Engine, shape: Shape) -> Self {
        let image = shape.rows as usize * shape.columns as usize;
        Call { engine, shape, rows: 0..shape.rows, input: image, output: image, work: work_len(engine, shape) }
    }

    /// A good call: any range, with or without memory to spare. Short cycles are more frequent, since sums are often
    /// equal on them.
    pub fn good(random: &mut Random, engine: Engine, rows: u32, columns: u32) -> Self {
        let longest = if random.once_in(6) { limit(engine) } else { 40 };
        let cycle = random.within(1..=longest);
        let shape = shape(random, cycle, rows, columns);
        let mut call = Call::whole(engine, shape);
        if random.once_in(2) {
            let first = random.within(0..=shape.rows);
            call.rows = first..random.within(first..=shape.rows);
        }
        call.output = at_least(random, call.output);
        call.work = at_least(random, call.work);
        call
    }

    /// Makes one of the tests 1 to 8 fail, by its number; there is no 4.
    pub fn break_test(&mut self, random: &mut Random, number: u32) {
        match number {
            1..=3 => break_shape(random, &mut self.shape, number, limit(self.engine)),
            5 => {
                let past = self.shape.rows.saturating_add(1);
                let ranges = [(1, 0), (past, past), (0, past), (past, 0), (u32::MAX, u32::MAX)];
                let (first, end) = random.one_of(&ranges);
                self.rows = first..end;
            }
            6 => self.input = other_length(random, self.input),
            7 => self.output = shorter(random, self.input.max(1)),
            _ => self.work = shorter(random, work_len(self.engine, self.shape).clamp(1, self.work.max(1))),
        }
    }

    /// The image, and garbage in the rest.
    pub fn memory(&self, random: &mut Random, image: &[u16]) -> Memory {
        Memory {
            input: Lent::holding(random, image),
            output: Lent::garbage(random, self.output),
            work: Lent::garbage(random, self.work),
        }
    }

    /// Makes the call directly, through C and safely, each on a copy of the memory; all must answer and leave the same.
    pub fn compare(&self, memory: &Memory) -> Result<(), Refusal> {
        self.compare_with(&[Call::raw, Call::safe], memory)
    }

    /// The same for a call that takes long: directly and safely alone.
    pub fn compare_safe(&self, memory: &Memory) -> Result<(), Refusal> {
        self.compare_with(&[Call::safe], memory)
    }

    fn compare_with(&self, calls: &[Filter], memory: &Memory) -> Result<(), Refusal> {
        let mut expected = memory.clone();
        let due = self.direct(&mut expected);
        for call in calls {
            let mut lent = memory.clone();
            assert_eq!(call(self, &mut lent), due, "{self:?} of {:?}", memory.input.slice());
            lent.input.must_be(&expected.input, "input", self);
            lent.output.must_be(&expected.output, "output", self);
            lent.work.must_be(&expected.work, "work", self);
        }
        due
    }

    fn direct(&self, memory: &mut Memory) -> Result<(), Refusal> {
        let Memory { input, output, work } = memory;
        direct::filter(self.engine, self.shape, self.rows.clone(), input.slice(), output.slice_mut(), work.slice_mut())
    }

    fn safe(&self, memory: &mut Memory) -> Result<(), Refusal> {
        let (input, output, work) = (memory.input.slice(), memory.output.slice_mut(), memory.work.slice_mut());
        match self.engine {
            Engine::Level => circle_median::level(self.shape, self.rows.clone(), input, output, work),
            Engine::Reading => circle_median::reading(self.shape, self.rows.clone(), input, output, work),
        }
    }

    fn raw(&self, memory: &mut Memory) -> Result<(), Refusal> {
        let call = match self.engine {
            Engine::Level => sys::circle_median_level,
            Engine::Reading => sys::circle_median_reading,
        };
        let Shape { cycle, rows, columns, mask_rows, mask_columns } = self.shape;
        let (input, output, work) = (memory.input.slice(), memory.output.slice_mut(), memory.work.slice_mut());
        // SAFETY: the pointers and the lengths are those of slices, which overlap nowhere.
        let answer = unsafe {
            call(
                cycle,
                rows,
                columns,
                mask_rows,
                mask_columns,
                self.rows.start,
                self.rows.end,
                input.as_ptr(),
                input.len(),
                output.as_mut_ptr(),
                output.len(),
                work.as_mut_ptr(),
                work.len(),
            )
        };
        match answer {
            sys::Answer { number: 0, place: 0 } => Ok(()),
            sys::Answer { number, place } => Err(refusal(number, place)),
        }
    }
}
