//! The modes in which a sheet may be read. They differ in the codeword that a block goes to and in the numbers by which a block is refused.

use crate::block::{self, Profile};
use crate::refusal::Refusal;
use crate::spots;

#[derive(Clone, Copy, Debug, PartialEq, Eq)]
pub enum Mode {
    /// Scratch mode, as the pages call it, document 01: the codeword within the shortest run.
    Burst,
    /// Spot mode, document 02, Note 1: the codeword that differs in the fewest cells.
    Spots,
}

impl Mode {
    pub const ALL: [Mode; 2] = [Mode::Burst, Mode::Spots];

    /// Corrects a block in this mode: start and length of the run, or the number of cells changed and the lowest of them.
    pub fn correct(self, profile: &Profile, read: &[u8], corrected: &mut [u8]) -> Result<(usize, usize), Refusal> {
        match self {
            Mode::Burst => block::correct(profile, read, corrected).map(|run| (run.start, run.length)),
            Mode::Spots => spots::correct(profile, read, corrected).map(|changes| (changes.count, changes.lowest)),
        }
    }
}
