//! A slice that is lent between guard cells, so that what is written outside of it is seen.

use crate::generate::rng::Rng;
use std::fmt::Debug;

/// Cells on both sides of a lent slice that must stay as they are.
const GUARD: usize = 8;

pub struct Guarded<T> {
    cells: Vec<T>,
    start: usize,
    length: usize,
    guard: T,
}

impl Guarded<u8> {
    /// At any address, between bytes that would end a text or carry it on, if they were read.
    pub fn bytes(bytes: &[u8], rng: &mut Rng) -> Guarded<u8> {
        Guarded::new(bytes, rng.pick(&[0, b'4', b']', b'a', 0xbf, 0xff]), rng.below(8))
    }
}

impl<T: Copy + PartialEq + Debug> Guarded<T> {
    pub fn new(content: &[T], guard: T, shift: usize) -> Guarded<T> {
        let (start, length) = (GUARD + shift, content.len());
        let mut cells = vec![guard; start + length + GUARD];
        cells[start..start + length].copy_from_slice(content);
        Guarded { cells, start, length, guard }
    }

    /// So many cells like those around them.
    pub fn filled(length: usize, guard: T, shift: usize) -> Guarded<T> {
        Guarded { cells: vec![guard; GUARD + shift + length + GUARD], start: GUARD + shift, length, guard }
    }

    pub fn lent(&self) -> &[T] {
        &self.cells[self.start..self.start + self.length]
    }

    pub fn lent_mut(&mut self) -> &mut [T] {
        &mut self.cells[self.start..self.start + self.length]
    }

    /// These cells first, the rest as long as the lent slice goes, and the guards as they were.
    pub fn holds(&self, name: &str, first: &[T], rest: T) -> Result<(), String> {
        if first.len() > self.length {
            return Err(format!("{name}: {} cells are too few for {}", self.length, first.len()));
        }
        let (begin, end) = self.lent().split_at(first.len());
        if begin != first || end.iter().any(|&cell| cell != rest) {
            let wanted = |index: usize| first.get(index).copied().unwrap_or(rest);
            let index = (0..self.length).find(|&index| self.lent()[index] != wanted(index)).unwrap_or(0);
            return Err(format!("{name}: cell {index} is {:x?}, not {:x?}", self.lent()[index], wanted(index)));
        }
        let (before, after) = (&self.cells[..self.start], &self.cells[self.start + self.length..]);
        if before.iter().chain(after).all(|&cell| cell == self.guard) {
            return Ok(());
        }
        Err(format!("{name}: written outside"))
    }
}
