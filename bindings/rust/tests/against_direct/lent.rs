//! Memory to lend to a call: a slice in the middle of a larger vector, with garbage all over.

use std::fmt::Debug;

use crate::random::Random;

pub trait Element: Copy + PartialEq + Debug {
    fn of(bits: u64) -> Self;
}

impl Element for u8 {
    fn of(bits: u64) -> Self {
        bits as u8
    }
}

impl Element for u16 {
    fn of(bits: u64) -> Self {
        bits as u16
    }
}

impl Element for u32 {
    fn of(bits: u64) -> Self {
        bits as u32
    }
}

#[derive(Clone, Debug)]
pub struct Lent<T> {
    all: Vec<T>,
    start: usize,
    length: usize,
}

impl<T: Element> Lent<T> {
    /// Garbage, between guards of 1 to 16 elements, so that the slice starts at any alignment.
    pub fn garbage(random: &mut Random, length: usize) -> Self {
        let start = 1 + random.index(16);
        let all = (0..start + length + 1 + random.index(16)).map(|_| T::of(random.bits())).collect();
        Lent { all, start, length }
    }

    /// The same with these elements in the slice.
    pub fn holding(random: &mut Random, elements: &[T]) -> Self {
        let mut lent = Self::garbage(random, elements.len());
        lent.slice_mut().copy_from_slice(elements);
        lent
    }

    pub fn slice(&self) -> &[T] {
        &self.all[self.start..][..self.length]
    }

    pub fn slice_mut(&mut self) -> &mut [T] {
        &mut self.all[self.start..][..self.length]
    }

    /// Fails if any element differs, in the slice or in the guards.
    pub fn must_be(&self, expected: &Self, what: &str, call: &impl Debug) {
        assert_eq!((self.start, self.all.len()), (expected.start, expected.all.len()));
        if let Some(at) = (0..self.all.len()).find(|&at| self.all[at] != expected.all[at]) {
            let (is, due) = (self.all[at], expected.all[at]);
            let index = at as i64 - self.start as i64;
            panic!("{what}[{index}] of {} is {is:?} and not {due:?} after {call:?}", self.length);
        }
    }
}
