//! The blocks of a measurement. They are made and damaged lowest cell first, once for all coders, and turned round as a whole for a coder that
//! takes the highest cell first.

use std::ops::Range;

use second::random::Random;
use second::{block, Profile};

use crate::coder::Coder;
use crate::{turned, Shape};

/// A block: its message, itself, itself with a run of half of r cells wrong, where that run lies, and itself with some number of cells wrong
/// anywhere.
pub struct Block {
    pub message: Vec<u8>,
    pub clean: Vec<u8>,
    pub run: Vec<u8>,
    pub wrong: Range<usize>,
    pub spots: Vec<u8>,
}

/// So many different blocks, each with so many spots, lowest cell first.
pub fn blocks(shape: Shape, spots: usize, count: usize) -> Vec<Block> {
    let mut random = Random::new(11);
    (0..count).map(|_| Block::new(shape, spots, &mut random)).collect()
}

impl Block {
    fn new(shape: Shape, count: usize, random: &mut Random) -> Block {
        let Shape { n, r, b } = shape;
        let message = random.bytes(n - r);
        let mut clean = vec![0; n];
        block::write(&Profile::from([n, r, b, 0, 1]), &message, &mut clean).expect("the shapes are in range");
        let mut run = clean.clone();
        let start = random.between(0, n - shape.half());
        let wrong = start..start + shape.half();
        for cell in &mut run[wrong.clone()] {
            *cell ^= random.nonzero();
        }
        let mut spots = clean.clone();
        random.change(&mut spots, count);
        Block {
            message,
            clean,
            run,
            wrong,
            spots,
        }
    }

    /// The block in the coder's order of cells, which the coder must write and correct.
    pub fn given_to(&self, coder: &mut dyn Coder) -> Block {
        let highest_first = coder.highest_first();
        let turn = |cells: &[u8]| turned(highest_first, cells);
        let (n, Range { start, end }) = (self.clean.len(), self.wrong.clone());
        let block = Block {
            message: turn(&self.message),
            clean: turn(&self.clean),
            run: turn(&self.run),
            wrong: if highest_first { n - end..n - start } else { start..end },
            spots: turn(&self.spots),
        };
        block.hold(coder);
        block
    }

    /// Asserts that the coder writes this block, takes it, and corrects the run and the spots to it, as far as it corrects.
    fn hold(&self, coder: &mut dyn Coder) {
        let mut out = vec![0; self.clean.len()];
        coder.write(&self.message, &mut out);
        assert!(out == self.clean && coder.check(&out), "{} writes", coder.name());
        if let Some(done) = coder.correct(&self.run, &mut out) {
            assert!(done && out == self.clean, "{} corrects a run", coder.name());
        }
        out.fill(0);
        if let Some(done) = coder.fill(&self.run, self.wrong.clone(), &mut out) {
            assert!(done && out == self.clean, "{} fills a run", coder.name());
        }
        assert_ne!(coder.look(&self.run), Some(false), "{} looks at a run", coder.name());
        if let Some(done) = coder.correct_spots(&self.spots, &mut out) {
            assert!(done && out == self.clean, "{} corrects spots", coder.name());
        }
    }
}
