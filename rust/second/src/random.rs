//! A small deterministic generator of numbers (xorshift, 64 bits).
//! Tests and test vectors draw from it with fixed seeds, so each run gives the same.

pub struct Random(u64);

impl Random {
    /// The seed must not be 0.
    pub fn new(seed: u64) -> Random {
        assert!(seed != 0);
        Random(seed)
    }

    fn draw(&mut self) -> u64 {
        self.0 ^= self.0 << 13;
        self.0 ^= self.0 >> 7;
        self.0 ^= self.0 << 17;
        self.0
    }

    /// A number from `least` to `most`, both included.
    pub fn between(&mut self, least: usize, most: usize) -> usize {
        least + (self.draw() >> 11) as usize % (most - least + 1)
    }

    pub fn byte(&mut self) -> u8 {
        self.between(0, 255) as u8
    }

    pub fn nonzero(&mut self) -> u8 {
        self.between(1, 255) as u8
    }

    pub fn bytes(&mut self, length: usize) -> Vec<u8> {
        (0..length).map(|_| self.byte()).collect()
    }

    /// So many numbers below `end`, each another one.
    pub fn distinct(&mut self, end: usize, count: usize) -> Vec<usize> {
        let mut left: Vec<usize> = (0..end).collect();
        (0..count)
            .map(|_| left.swap_remove(self.between(0, left.len() - 1)))
            .collect()
    }

    /// Changes exactly so many cells, each another one.
    pub fn change(&mut self, cells: &mut [u8], count: usize) {
        for cell in self.distinct(cells.len(), count) {
            cells[cell] ^= self.nonzero();
        }
    }

    /// Changes exactly so many cells of a run, each another one, the first and the last for certain: no shorter run holds them all. So one of one cell,
    /// and at least two of more.
    pub fn change_run(&mut self, run: &mut [u8], count: usize) {
        let last = run.len() - 1;
        assert!(count <= run.len() && count >= run.len().min(2));
        let inner = self.distinct(last.saturating_sub(1), count.saturating_sub(2));
        run[0] ^= self.nonzero();
        if last > 0 {
            run[last] ^= self.nonzero();
        }
        for cell in inner {
            run[1 + cell] ^= self.nonzero();
        }
    }
}
