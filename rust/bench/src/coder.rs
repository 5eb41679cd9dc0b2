//! What a coder does to a block of n cells: check cells in 0 to r − 1, the message above them.

use std::ops::Range;

pub trait Coder {
    fn name(&self) -> &'static str;

    /// Whether cells run from the highest coefficient down.
    fn highest_first(&self) -> bool {
        false
    }

    /// Writes the n cells of a message.
    fn write(&mut self, message: &[u8], cells: &mut [u8]);

    /// Takes a clean block; whether the coder took it.
    fn check(&mut self, cells: &[u8]) -> bool;

    /// Writes the corrected block, a run of wrong cells put right, to `out`; whether there is one. A coder that cannot correct answers `None`.
    fn correct(&mut self, read: &[u8], out: &mut [u8]) -> Option<bool>;

    /// Whether there is a corrected block, with nothing written. A coder that cannot tell without writing answers `None`.
    fn look(&mut self, _read: &[u8]) -> Option<bool> {
        None
    }

    /// Writes the corrected block where it is known in which run the wrong cells lie; whether there is one. A coder that has no use for a known run
    /// answers `None`.
    fn fill(&mut self, _read: &[u8], _run: Range<usize>, _out: &mut [u8]) -> Option<bool> {
        None
    }

    /// As `correct`, for wrong cells anywhere, up to half of r.
    fn correct_spots(&mut self, read: &[u8], out: &mut [u8]) -> Option<bool>;
}
