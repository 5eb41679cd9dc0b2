//! The list of every codeword that a run of up to L cells of a block reaches. Coding theory calls this list decoding, here of bursts.
//! The list is written to a lent buffer, or handed out with a buffer of its own.

use super::{Profile, Run};
use crate::error::{accepted, Error};
use crate::ffi;

impl Profile {
    /// Lists every codeword that some run of at most L of the n cells read reaches, and writes it to the 2 × n bytes of `pairs`
    /// ([`Profile::pairs_length`]): the number of runs listed. Of each the start and then the length, one byte each, from `pairs[0]` on; the bytes behind the
    /// list are left as they were. No two runs begin in one cell, so there are at most n.
    ///
    /// Each codeword is listed once, by the run from the first to the last cell in which it differs from those read, and by 0 and 0 if it does not differ; then
    /// it is the only one. [`Profile::fill_block`] with that run writes it. The runs are ordered by length, and those of one length by start. How many cells of a
    /// run would be changed has no effect: there is no [`Error::Sparse`].
    ///
    /// The only refusal is [`Error::WrongLength`], of `read` and of `pairs`, and it leaves `pairs` as it was. A list of no run is an answer. What
    /// [`Profile::look_block`] answers can be read off but for [`Error::Sparse`]: it is [`Error::Uncorrectable`] exactly where the list is empty,
    /// [`Error::Ambiguous`] exactly where its first length occurs twice, and otherwise it is the first run, or [`Error::Sparse`] for it, which the list does
    /// not tell.
    ///
    /// ```
    /// use tishwabe::{Error, Profile};
    /// let profile = Profile::new(4, 3, 0, 2, 1)?;
    /// let mut pairs = [9; 8];
    /// // Two cells from each of two codewords.
    /// assert_eq!(profile.list_candidates(&[8, 14, 0, 0], &mut pairs), Ok(2));
    /// assert_eq!(pairs, [0, 2, 2, 2, 9, 9, 9, 9]);
    /// assert_eq!(profile.list_candidates(&[9, 14, 7, 1], &mut pairs), Ok(1));
    /// assert_eq!(pairs, [0, 1, 2, 2, 9, 9, 9, 9]);
    /// assert_eq!(profile.list_candidates(&[9, 14, 7, 0], &mut pairs), Ok(0));
    /// assert_eq!(profile.list_candidates(&[9, 14, 7, 1], &mut pairs[..4]), Err(Error::WrongLength));
    /// assert_eq!(profile.list_candidates(&[9, 14, 7], &mut pairs), Err(Error::WrongLength));
    /// assert_eq!(pairs, [0, 1, 2, 2, 9, 9, 9, 9]);
    /// # Ok::<(), Error>(())
    /// ```
    pub fn list_candidates(&self, read: &[u8], pairs: &mut [u8]) -> Result<usize, Error> {
        let (number, count) = ffi::block_candidates(self.numbers, read, pairs);
        accepted(number, 0, count)
    }

    /// The runs of [`Profile::list_candidates`], in its order.
    ///
    /// ```
    /// use tishwabe::{Error, Profile, Run};
    /// let profile = Profile::new(4, 3, 0, 2, 1)?;
    /// let run = |start, length| Run { start, length };
    /// let between = [8, 14, 0, 0];
    /// let runs = profile.candidates(&between)?;
    /// assert_eq!(runs, [run(0, 2), run(2, 2)]);
    /// let mut out = [9; 4];
    /// for (run, codeword) in runs.into_iter().zip([[0; 4], [8, 14, 7, 1]]) {
    ///     profile.fill_block(&between, run, &mut out)?;
    ///     assert_eq!(out, codeword);
    /// }
    /// assert_eq!(profile.candidates(&[8, 14, 7, 1])?, [run(0, 0)]);
    /// assert_eq!(profile.candidates(&[9, 14, 7, 1])?, [run(0, 1)]);
    /// assert_eq!(profile.candidates(&[9, 14, 7, 0])?, []);
    /// assert_eq!(profile.candidates(&[9, 14, 7]), Err(Error::WrongLength));
    ///
    /// // The limit decides what is listed.
    /// let profile = Profile::new(4, 3, 0, 1, 1)?;
    /// assert_eq!(profile.candidates(&between)?, []);
    /// assert_eq!(profile.candidates(&[9, 14, 7, 1])?, [run(0, 1)]);
    ///
    /// // Corrected by the shorter of two runs, and the longer one is listed behind it.
    /// let profile = Profile::new(5, 4, 0, 3, 1)?;
    /// let read = [64, 120, 0, 0, 0];
    /// assert_eq!(profile.look_block(&read), Ok(run(0, 2)));
    /// assert_eq!(profile.candidates(&read)?, [run(0, 2), run(2, 3)]);
    ///
    /// // Refused because at most half of the run would be changed, and listed all the same.
    /// let profile = Profile::new(6, 5, 0, 4, 1)?;
    /// let read = [0, 7, 0, 0, 9, 0];
    /// assert_eq!(profile.look_block(&read), Err(Error::Sparse { block: 0 }));
    /// assert_eq!(profile.candidates(&read)?, [run(1, 4)]);
    /// # Ok::<(), Error>(())
    /// ```
    pub fn candidates(&self, read: &[u8]) -> Result<Vec<Run>, Error> {
        let mut pairs = vec![0; self.pairs_length()];
        let count = self.list_candidates(read, &mut pairs)?;
        let run = |pair: &[u8]| Run {
            start: pair[0].into(),
            length: pair[1].into(),
        };
        Ok(pairs.chunks_exact(2).take(count).map(run).collect())
    }
}
