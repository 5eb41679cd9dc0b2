//! Random numbers: SplitMix64, with a seed for each block, so that a run is repeatable on any number of processors.
//! It multiplies integers, so its numbers are not linear over GF(2), as the code's words are; a linear generator might make chances of its own.

pub struct Draws(u64);

const STEP: u64 = 0x9E37_79B9_7F4A_7C15;

fn mixed(mut z: u64) -> u64 {
    z = (z ^ (z >> 30)).wrapping_mul(0xBF58_476D_1CE4_E5B9);
    z = (z ^ (z >> 27)).wrapping_mul(0x94D0_49BB_1331_11EB);
    z ^ (z >> 31)
}

impl Draws {
    /// The draws for one block of one row of the table.
    pub fn new(row: u64, block: u64) -> Draws {
        Draws(mixed(mixed(row.wrapping_add(STEP)).wrapping_add(block)))
    }

    fn next(&mut self) -> u64 {
        self.0 = self.0.wrapping_add(STEP);
        mixed(self.0)
    }

    /// A number below `end`.
    pub fn below(&mut self, end: usize) -> usize {
        ((u128::from(self.next()) * end as u128) >> 64) as usize
    }

    /// A number from `least` to `most`, both included.
    pub fn between(&mut self, least: usize, most: usize) -> usize {
        least + self.below(most - least + 1)
    }

    pub fn byte(&mut self) -> u8 {
        self.below(256) as u8
    }

    /// A difference that changes a cell: 1 to 255.
    pub fn change(&mut self) -> u8 {
        self.between(1, 255) as u8
    }

    /// True with a chance of so many quarters.
    pub fn quarters(&mut self, quarters: usize) -> bool {
        self.below(4) < quarters
    }

    pub fn bytes(&mut self, length: usize) -> Vec<u8> {
        (0..length).map(|_| self.byte()).collect()
    }
}
