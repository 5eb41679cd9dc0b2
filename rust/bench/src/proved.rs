//! The proved library, through its wrapper. Each call takes the profile anew and builds the generator.

use std::ops::Range;

use crate::{Coder, Shape};
use tishwabe::{Profile, Run};

pub struct Proved(Profile);

impl Proved {
    pub fn new(shape: Shape) -> Proved {
        let Shape { n, r, b } = shape;
        Proved(Profile::new(n, r, b, r / 2, 1).expect("the shapes are in range"))
    }
}

impl Coder for Proved {
    fn name(&self) -> &'static str {
        "proved"
    }

    fn write(&mut self, message: &[u8], cells: &mut [u8]) {
        assert_eq!(self.0.write_block(message, cells), Ok(()));
    }

    fn check(&mut self, cells: &[u8]) -> bool {
        self.0.is_codeword(cells) == Ok(true)
    }

    fn correct(&mut self, read: &[u8], out: &mut [u8]) -> Option<bool> {
        Some(self.0.correct_block(read, out).is_ok())
    }

    fn look(&mut self, read: &[u8]) -> Option<bool> {
        Some(self.0.look_block(read).is_ok())
    }

    fn fill(&mut self, read: &[u8], run: Range<usize>, out: &mut [u8]) -> Option<bool> {
        let (start, length) = (run.start, run.len());
        Some(self.0.fill_block(read, Run { start, length }, out).is_ok())
    }

    fn correct_spots(&mut self, read: &[u8], out: &mut [u8]) -> Option<bool> {
        Some(self.0.correct_spots(read, out).is_ok())
    }
}
