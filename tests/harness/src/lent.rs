//! Memory that shows a step outside a lent slice.

/// What lent memory consists of.
pub trait Cell: Copy + PartialEq {
    /// What the cell at `index` holds before a call.
    fn pattern(index: usize) -> Self;
}

/// A number that differs from cell to cell and has no zero byte next to another.
fn mixed(index: usize) -> u64 {
    (index as u64 ^ 0xa5c3_96e1_5a7d_b487).wrapping_mul(0x9e37_79b9_7f4a_7c15)
}

impl Cell for u8 {
    fn pattern(index: usize) -> u8 {
        (mixed(index) >> 56) as u8
    }
}

impl Cell for i64 {
    fn pattern(index: usize) -> i64 {
        mixed(index) as i64
    }
}

/// Fills the cells with the pattern.
pub fn fill<T: Cell>(cells: &mut [T]) {
    for (index, cell) in cells.iter_mut().enumerate() {
        *cell = T::pattern(index);
    }
}

/// Whether the cells, the first of which has the index `first`, still hold the pattern.
pub fn holds_pattern<T: Cell>(cells: &[T], first: usize) -> bool {
    let mut numbered = cells.iter().zip(first..);
    numbered.all(|(cell, index)| *cell == T::pattern(index))
}

/// Cells kept on either side of what is lent, to see that they stay.
pub const MARGIN: usize = 16;

/// Memory of which one slice at a time is lent.
pub trait Lent<T: Cell> {
    /// A slice of exactly that many cells, with canaries beside it.
    fn lend(&mut self, length: usize) -> &mut [T];

    /// Whether the canaries beside the slice lent last are as they were.
    fn canaries_live(&self) -> bool;
}

/// The memory for the slices of a call.
pub trait Memory {
    fn bytes(&self) -> Box<dyn Lent<u8>>;
    fn numbers(&self) -> Box<dyn Lent<i64>>;
}

/// Ordinary memory with canaries on both sides.
pub struct Padded;

impl Memory for Padded {
    fn bytes(&self) -> Box<dyn Lent<u8>> {
        Box::new(PaddedCells::default())
    }

    fn numbers(&self) -> Box<dyn Lent<i64>> {
        Box::new(PaddedCells::default())
    }
}

/// Cells with canaries on both sides.
#[derive(Default)]
pub struct PaddedCells<T> {
    cells: Vec<T>,
}

impl<T: Cell> Lent<T> for PaddedCells<T> {
    fn lend(&mut self, length: usize) -> &mut [T] {
        self.cells.resize(length + 2 * MARGIN, T::pattern(0));
        let (before, rest) = self.cells.split_at_mut(MARGIN);
        let (lent, after) = rest.split_at_mut(length);
        fill(before);
        fill(after);
        lent
    }

    fn canaries_live(&self) -> bool {
        let (before, rest) = self.cells.split_at(MARGIN);
        let (_, after) = rest.split_at(rest.len() - MARGIN);
        holds_pattern(before, 0) && holds_pattern(after, 0)
    }
}
