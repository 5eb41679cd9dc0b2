//! The coders that the benchmark compares, behind one trait: the proved library, a plain coder over logarithm tables, and libfec.
//! A coder that was not linked is absent from `coders`.

pub mod blocks;
pub mod coder;
#[cfg(fec)]
pub mod fec;
pub mod proved;
pub mod table;

use coder::Coder;

/// Numbers of a profile that matter to a block: n, r and b.
#[derive(Clone, Copy)]
pub struct Shape {
    pub n: usize,
    pub r: usize,
    pub b: usize,
}

impl Shape {
    /// The longest run that is surely corrected, half of r.
    pub fn half(self) -> usize {
        self.r / 2
    }
}

/// The coders that are linked, the proved one first.
pub fn coders(shape: Shape) -> Vec<Box<dyn Coder>> {
    vec![
        Box::new(proved::Proved::new(shape)),
        Box::new(table::Table::new(shape)),
        #[cfg(fec)]
        Box::new(fec::Fec::new(shape)),
    ]
}

/// The cells in a coder's order.
pub fn turned(highest_first: bool, cells: &[u8]) -> Vec<u8> {
    let mut cells = cells.to_vec();
    if highest_first {
        cells.reverse();
    }
    cells
}

#[cfg(test)]
mod tests;
