//! Buffers to lend, each between two guards, and what has to stand in them after a call.

use oracle::generate::rng::Rng;

/// Cells before and behind what is lent.
const GUARD: usize = 8;

/// A cell of a buffer.
pub trait Cell: Copy + PartialEq + std::fmt::Debug {
    fn any(rng: &mut Rng) -> Self;
}

impl Cell for u8 {
    fn any(rng: &mut Rng) -> u8 {
        rng.below(256) as u8
    }
}

impl Cell for u32 {
    fn any(rng: &mut Rng) -> u32 {
        rng.below(1 << 32) as u32
    }
}

impl Cell for usize {
    fn any(rng: &mut Rng) -> usize {
        rng.below(u64::MAX) as usize
    }
}

/// A buffer with its guards, and the same cells as they are expected to be.
#[derive(Clone)]
pub struct Lent<T> {
    cells: Vec<T>,
    expected: Vec<T>,
    length: usize,
}

impl<T: Cell> Lent<T> {
    /// A buffer with anything in it: a few cells over and over.
    pub fn any(rng: &mut Rng, length: usize) -> Self {
        let few: Vec<T> = (0..2 * GUARD + 1).map(|_| T::any(rng)).collect();
        let mut cells = few.repeat((length + 2 * GUARD).div_ceil(few.len()));
        cells.truncate(length + 2 * GUARD);
        Lent { expected: cells.clone(), cells, length }
    }

    /// A buffer that begins with these cells, or with as many of them as it has room for.
    pub fn with(rng: &mut Rng, these: &[T], length: usize) -> Self {
        let mut lent = Lent::any(rng, length);
        lent.put(&these[..these.len().min(length)]);
        lent
    }

    /// A buffer of exactly these cells.
    pub fn of(rng: &mut Rng, these: &[T]) -> Self {
        Lent::with(rng, these, these.len())
    }

    /// One cell with anything in it, for a number to be written to.
    pub fn place(rng: &mut Rng) -> Self {
        Lent::any(rng, 1)
    }

    pub fn len(&self) -> usize {
        self.length
    }

    /// What is lent.
    pub fn cells(&self) -> &[T] {
        &self.cells[GUARD..GUARD + self.length]
    }

    /// The host writes to the front of the buffer.
    pub fn put(&mut self, these: &[T]) {
        self.cells[GUARD..GUARD + these.len()].copy_from_slice(these);
        self.expect(these);
    }

    /// A call has to write these to the front of the buffer, and nothing else.
    pub fn expect(&mut self, these: &[T]) {
        self.expected[GUARD..GUARD + these.len()].copy_from_slice(these);
    }

    pub fn pointer(&self) -> *const T {
        self.cells[GUARD..].as_ptr()
    }

    /// The place that is lent; the guards are of the same memory, so that writing to them is seen.
    pub fn pointer_mut(&mut self) -> *mut T {
        self.cells.as_mut_ptr().wrapping_add(GUARD)
    }

    /// Compares every cell, guards included, and tells the first that is not as expected.
    pub fn check(&self, name: &str) -> Result<(), String> {
        if self.cells == self.expected {
            return Ok(());
        }
        let differs = self.cells.iter().zip(&self.expected).position(|(cell, expected)| cell != expected);
        let at = differs.unwrap_or(0);
        let (cell, expected) = (self.cells[at], self.expected[at]);
        let place = at as isize - GUARD as isize;
        Err(format!("{name}, cell {place} of {}: {cell:?}, where {expected:?} is expected", self.length))
    }
}

#[cfg(test)]
mod tests {
    use super::*;

    #[test]
    fn what_is_written_before_inside_and_behind_is_seen() {
        let fresh = Lent::<u32>::with(&mut Rng::new(1), &[1, 2, 3], 5);
        assert_eq!(fresh.check("words"), Ok(()));
        for at in [0, GUARD - 1, GUARD, GUARD + 2, GUARD + 4, GUARD + 5, 2 * GUARD + 4] {
            let mut lent = fresh.clone();
            lent.cells[at] ^= 1;
            assert!(lent.check("words").is_err(), "{at}");
        }
    }

    #[test]
    fn what_is_expected_has_to_be_written() {
        let mut lent = Lent::<u8>::with(&mut Rng::new(1), b"abc", 4);
        lent.expect(b"ax");
        assert_eq!(lent.check("text"), Err("text, cell 1 of 4: 98, where 120 is expected".to_owned()));
        lent.put(b"ax");
        assert_eq!((lent.check("text"), &lent.cells()[..3]), (Ok(()), &b"axc"[..]));
    }
}
