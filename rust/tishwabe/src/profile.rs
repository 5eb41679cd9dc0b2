//! Profiles, and the entries on blocks and sheets.

mod candidates;

use crate::error::{accepted, Error};
use crate::ffi::{self, Numbers};

/// The five numbers of document 01, all in range: n, r, b, L (`limit`) and D (`depth`).
#[derive(Clone, Copy, Debug, PartialEq, Eq, Hash)]
pub struct Profile {
    numbers: Numbers,
    k: usize,
    h: usize,
}

/// A run of cells in a block: its first cell and its length. That of a clean block is 0 and 0.
#[derive(Clone, Copy, Debug, PartialEq, Eq, Hash)]
pub struct Run {
    /// The first cell.
    pub start: usize,
    /// The number of cells.
    pub length: usize,
}

/// The cells changed in a block that was corrected in spot mode: how many, and the lowest of them. 0 and 0 for a clean block; where cell 0 is changed
/// the count tells.
#[derive(Clone, Copy, Debug, PartialEq, Eq, Hash)]
pub struct Changes {
    /// The number of cells changed, at most h.
    pub count: usize,
    /// The lowest cell changed.
    pub lowest: usize,
}

/// How a sheet is read: which codeword a block goes to.
#[derive(Clone, Copy, Debug, PartialEq, Eq, Hash)]
pub enum Mode {
    /// Scratch mode, as the pages call it, document 01: the codeword within the shortest run of up to L cells, unless that run is long but thin. Refusals
    /// 3, 4 and 16.
    Burst,
    /// Spot mode, document 02: the codeword that differs in the fewest cells, up to h anywhere; L has no effect. Refusal 11.
    Spots,
}

impl Profile {
    /// A profile of `n` cells in a block, `r` check cells, starting power `b`, longest run `limit` that may be corrected, and
    /// `depth` blocks in a sheet.
    ///
    /// ```
    /// use tishwabe::{Error, Profile};
    /// let profile = Profile::new(255, 16, 0, 8, 16)?;
    /// assert_eq!((profile.k(), profile.h()), (239, 8));
    /// assert_eq!((profile.sheet_length(), profile.payload_length()), (4080, 3824));
    /// assert_eq!((profile.scratch_length(), profile.pairs_length()), (255, 510));
    /// assert_eq!(Profile::new(255, 16, 0, 16, 16), Err(Error::BadProfile));
    /// # Ok::<(), Error>(())
    /// ```
    pub fn new(n: usize, r: usize, b: usize, limit: usize, depth: usize) -> Result<Profile, Error> {
        let numbers = [n, r, b, limit, depth];
        let (number, k, h) = ffi::profile(numbers);
        accepted(number, 0, Profile { numbers, k, h })
    }

    /// Cells in a block.
    pub fn n(&self) -> usize {
        self.numbers[0]
    }

    /// Check cells in a block.
    pub fn r(&self) -> usize {
        self.numbers[1]
    }

    /// Starting power.
    pub fn b(&self) -> usize {
        self.numbers[2]
    }

    /// Longest run that may be corrected: L.
    pub fn limit(&self) -> usize {
        self.numbers[3]
    }

    /// Blocks in a sheet: D.
    pub fn depth(&self) -> usize {
        self.numbers[4]
    }

    /// Message bytes in a block: n − r.
    pub fn k(&self) -> usize {
        self.k
    }

    /// r/2 rounded down. If L is at least h, any scratch of at most D × h cells of a sheet is corrected; in spot mode, whatever L is, any h
    /// cells of each block.
    pub fn h(&self) -> usize {
        self.h
    }

    /// Cells in a sheet: D × n.
    pub fn sheet_length(&self) -> usize {
        self.depth() * self.n()
    }

    /// Bytes in a sheet's payload: D × k.
    pub fn payload_length(&self) -> usize {
        self.depth() * self.k()
    }

    /// Bytes in the scratch that the reader of a sheet takes, in either mode: n.
    pub fn scratch_length(&self) -> usize {
        self.n()
    }

    /// Bytes in the buffer that [`Profile::list_candidates`] takes: 2 × n.
    pub fn pairs_length(&self) -> usize {
        2 * self.n()
    }

    /// Writes the block of a message: k bytes in, n cells out. A refusal leaves `cells` as it was.
    ///
    /// ```
    /// use tishwabe::{Error, Profile};
    /// let profile = Profile::new(5, 2, 1, 0, 1)?;
    /// let mut cells = [0; 5];
    /// profile.write_block(&[1, 0, 0], &mut cells)?;
    /// assert_eq!(cells, [8, 6, 1, 0, 0]);
    /// assert_eq!(profile.write_block(&[1, 0], &mut cells), Err(Error::WrongLength));
    /// # Ok::<(), Error>(())
    /// ```
    pub fn write_block(&self, message: &[u8], cells: &mut [u8]) -> Result<(), Error> {
        accepted(ffi::write_block(self.numbers, message, cells), 0, ())
    }

    /// Whether the n cells are a codeword.
    ///
    /// ```
    /// use tishwabe::{Error, Profile};
    /// let profile = Profile::new(4, 3, 0, 0, 1)?;
    /// assert_eq!(profile.is_codeword(&[8, 14, 7, 1]), Ok(true));
    /// assert_eq!(profile.is_codeword(&[9, 14, 7, 1]), Ok(false));
    /// assert_eq!(profile.is_codeword(&[8, 14, 7]), Err(Error::WrongLength));
    /// # Ok::<(), Error>(())
    /// ```
    pub fn is_codeword(&self, cells: &[u8]) -> Result<bool, Error> {
        let (number, clean) = ffi::check_block(self.numbers, cells);
        accepted(number, 0, clean == 1)
    }

    /// Corrects a block in scratch mode: n cells read, and the codeword within the shortest run of up to L cells written to the n bytes of
    /// `out`. A refusal leaves `out` as it was.
    ///
    /// A run of more than r/2 cells is accepted only if more than half of its cells would be changed, and is [`Error::Sparse`] if not; no longer run is
    /// taken in its place. Earlier versions accepted it. A run of up to r/2 cells, and so of up to h, is accepted as ever.
    ///
    /// ```
    /// use tishwabe::{Error, Profile, Run};
    /// let profile = Profile::new(4, 3, 0, 2, 1)?;
    /// let mut out = [0; 4];
    /// assert_eq!(profile.correct_block(&[8, 15, 6, 1], &mut out), Ok(Run { start: 1, length: 2 }));
    /// assert_eq!(out, [8, 14, 7, 1]);
    /// assert_eq!(profile.correct_block(&[8, 14, 0, 0], &mut out), Err(Error::Ambiguous { block: 0 }));
    /// assert_eq!(profile.correct_block(&[9, 14, 7, 0], &mut out), Err(Error::Uncorrectable { block: 0 }));
    ///
    /// // From the first wrong cell to the last these are runs of four cells, more than half of r.
    /// let profile = Profile::new(6, 5, 0, 4, 1)?;
    /// let mut out = [0; 6];
    /// assert_eq!(profile.correct_block(&[0, 7, 8, 0, 9, 0], &mut out), Ok(Run { start: 1, length: 4 }));
    /// assert_eq!(profile.correct_block(&[0, 7, 0, 0, 9, 0], &mut out), Err(Error::Sparse { block: 0 }));
    /// # Ok::<(), Error>(())
    /// ```
    pub fn correct_block(&self, read: &[u8], out: &mut [u8]) -> Result<Run, Error> {
        let (number, start, length) = ffi::correct_block(Mode::Burst, self.numbers, read, out);
        accepted(number, 0, Run { start, length })
    }

    /// Looks at a block in scratch mode and writes nothing: n cells read, and the run or the refusal that [`Profile::correct_block`] answers with
    /// an `out` of n bytes. [`Profile::fill_block`] with that run then writes the same cells.
    ///
    /// ```
    /// use tishwabe::{Error, Profile, Run};
    /// let profile = Profile::new(4, 3, 0, 2, 1)?;
    /// let read = [8, 15, 6, 1];
    /// let run = profile.look_block(&read)?;
    /// assert_eq!(run, Run { start: 1, length: 2 });
    /// let mut out = [0; 4];
    /// profile.fill_block(&read, run, &mut out)?;
    /// assert_eq!(out, [8, 14, 7, 1]);
    /// assert_eq!(profile.look_block(&[8, 14, 7, 1]), Ok(Run { start: 0, length: 0 }));
    /// assert_eq!(profile.look_block(&[8, 14, 0, 0]), Err(Error::Ambiguous { block: 0 }));
    /// assert_eq!(profile.look_block(&[9, 14, 7, 0]), Err(Error::Uncorrectable { block: 0 }));
    /// let profile = Profile::new(6, 5, 0, 4, 1)?;
    /// assert_eq!(profile.look_block(&[0, 7, 0, 0, 9, 0]), Err(Error::Sparse { block: 0 }));
    /// # Ok::<(), Error>(())
    /// ```
    pub fn look_block(&self, read: &[u8]) -> Result<Run, Error> {
        let (number, start, length) = ffi::look_block(self.numbers, read);
        accepted(number, 0, Run { start, length })
    }

    /// Fills a run of a block: n cells read, and the one codeword that agrees with them outside the run written to the n bytes of `out`. Any
    /// run within the block of at most r − 1 cells may be named, the empty one at cell n too; L has no effect. Any other start and length is
    /// [`Error::BadSpan`], however large they are. [`Error::Uncorrectable`] says that this one run reaches no codeword. How many cells of the run would
    /// be changed has no effect: a run that the look refuses as [`Error::Sparse`] is filled. A refusal leaves `out` as it was.
    ///
    /// ```
    /// use tishwabe::{Error, Profile, Run};
    /// let profile = Profile::new(4, 3, 0, 0, 1)?;
    /// // Two cells from each of two codewords: the run named decides.
    /// let read = [8, 14, 0, 0];
    /// let mut out = [9; 4];
    /// profile.fill_block(&read, Run { start: 2, length: 2 }, &mut out)?;
    /// assert_eq!(out, [8, 14, 7, 1]);
    /// profile.fill_block(&read, Run { start: 0, length: 2 }, &mut out)?;
    /// assert_eq!(out, [0; 4]);
    ///
    /// let torn = Err(Error::Uncorrectable { block: 0 });
    /// assert_eq!(profile.fill_block(&read, Run { start: 1, length: 2 }, &mut out), torn);
    /// assert_eq!(profile.fill_block(&read, Run { start: 4, length: 0 }, &mut out), torn);
    /// assert_eq!(profile.fill_block(&read, Run { start: 4, length: 1 }, &mut out), Err(Error::BadSpan));
    /// assert_eq!(profile.fill_block(&read, Run { start: 0, length: 3 }, &mut out), Err(Error::BadSpan));
    ///
    /// // Two wrong cells of four: a look refuses it.
    /// let (profile, read) = (Profile::new(6, 5, 0, 4, 1)?, [0, 7, 0, 0, 9, 0]);
    /// assert_eq!(profile.look_block(&read), Err(Error::Sparse { block: 0 }));
    /// let mut out = [9; 6];
    /// profile.fill_block(&read, Run { start: 1, length: 4 }, &mut out)?;
    /// assert_eq!(out, [0; 6]);
    /// # Ok::<(), Error>(())
    /// ```
    pub fn fill_block(&self, read: &[u8], run: Run, out: &mut [u8]) -> Result<(), Error> {
        accepted(ffi::fill_block(self.numbers, read, run.start, run.length, out), 0, ())
    }

    /// Corrects a block in spot mode: n cells read, and the one codeword that differs in at most h cells, wherever they lie, written to the n
    /// bytes of `out`. L has no effect. A refusal leaves `out` as it was.
    ///
    /// ```
    /// use tishwabe::{Changes, Error, Profile};
    /// let profile = Profile::new(4, 3, 0, 0, 1)?;
    /// let mut out = [0; 4];
    /// assert_eq!(profile.correct_spots(&[8, 14, 7, 9], &mut out), Ok(Changes { count: 1, lowest: 3 }));
    /// assert_eq!(out, [8, 14, 7, 1]);
    /// assert_eq!(profile.correct_spots(&[8, 15, 7, 9], &mut out), Err(Error::TooManyErrors { block: 0 }));
    /// # Ok::<(), Error>(())
    /// ```
    pub fn correct_spots(&self, read: &[u8], out: &mut [u8]) -> Result<Changes, Error> {
        let (number, count, lowest) = ffi::correct_block(Mode::Spots, self.numbers, read, out);
        accepted(number, 0, Changes { count, lowest })
    }

    /// Writes a payload of D × k bytes as a sheet of D × n cells. A refusal leaves `sheet` as it was.
    ///
    /// ```
    /// use tishwabe::{Error, Profile};
    /// let profile = Profile::new(4, 3, 0, 0, 2)?;
    /// let mut sheet = [0; 8];
    /// profile.write_sheet(&[1, 0], &mut sheet)?;
    /// assert_eq!(sheet, [8, 0, 14, 0, 7, 0, 1, 0]);
    /// # Ok::<(), Error>(())
    /// ```
    pub fn write_sheet(&self, payload: &[u8], sheet: &mut [u8]) -> Result<(), Error> {
        accepted(ffi::write_sheet(self.numbers, payload, sheet), 0, ())
    }

    /// Reads a sheet of D × n cells in scratch mode into a payload of D × k bytes: the number of blocks changed. The buffer `scratch` of n bytes
    /// ([`Profile::scratch_length`]) is all zero afterwards, unless the lengths are refused. A refusal leaves `payload` as it was.
    ///
    /// Earlier versions took a scratch of D × n bytes. That is now [`Error::WrongLength`], unless D is 1. They also accepted a sheet with a block whose run is
    /// long but thin ([`Profile::correct_block`]). That is now [`Error::Sparse`]; [`Mode::Spots`] may read it. A scratch of up to D × h cells is no such case.
    ///
    /// ```
    /// use tishwabe::{Error, Profile};
    /// let profile = Profile::new(4, 3, 0, 2, 2)?;
    /// let (mut scratch, mut payload) = ([0; 4], [0; 2]);
    /// let sheet = [9, 0, 14, 0, 7, 0, 1, 0];
    /// assert_eq!(profile.read_sheet(&sheet, &mut scratch, &mut payload), Ok(1));
    /// assert_eq!(payload, [1, 0]);
    /// assert_eq!(profile.read_sheet(&sheet, &mut [0; 8], &mut payload), Err(Error::WrongLength));
    /// let torn = [8, 9, 14, 14, 7, 7, 1, 0];
    /// assert_eq!(profile.read_sheet(&torn, &mut scratch, &mut payload), Err(Error::Uncorrectable { block: 1 }));
    ///
    /// let profile = Profile::new(6, 5, 0, 4, 2)?;
    /// let sparse = [0, 0, 0, 7, 0, 0, 0, 0, 0, 9, 0, 0];
    /// assert_eq!(profile.read_sheet(&sparse, &mut [0; 6], &mut payload), Err(Error::Sparse { block: 1 }));
    /// # Ok::<(), Error>(())
    /// ```
    pub fn read_sheet(&self, sheet: &[u8], scratch: &mut [u8], payload: &mut [u8]) -> Result<usize, Error> {
        self.read_sheet_in(Mode::Burst, sheet, scratch, payload)
    }

    /// Reads a sheet in the mode named, with a scratch of n bytes in either; all else as in [`Profile::read_sheet`], which is this in [`Mode::Burst`].
    ///
    /// ```
    /// use tishwabe::{Error, Mode, Profile};
    /// let profile = Profile::new(12, 4, 1, 3, 1)?;
    /// let payload = [1, 2, 3, 4, 5, 6, 7, 8];
    /// let mut sheet = [0; 12];
    /// profile.write_sheet(&payload, &mut sheet)?;
    /// sheet[0] ^= 9;
    /// sheet[11] ^= 9;
    /// let (mut scratch, mut found) = ([0; 12], [0; 8]);
    /// // two cells far apart are no run of three, but they are h spots
    /// let torn = Err(Error::Uncorrectable { block: 0 });
    /// assert_eq!(profile.read_sheet(&sheet, &mut scratch, &mut found), torn);
    /// assert_eq!(profile.read_sheet_in(Mode::Spots, &sheet, &mut scratch, &mut found), Ok(1));
    /// assert_eq!(found, payload);
    /// # Ok::<(), Error>(())
    /// ```
    pub fn read_sheet_in(
        &self,
        mode: Mode,
        sheet: &[u8],
        scratch: &mut [u8],
        payload: &mut [u8],
    ) -> Result<usize, Error> {
        let (number, changed, place) = ffi::read_sheet(mode, self.numbers, sheet, scratch, payload);
        accepted(number, place, changed)
    }
}
