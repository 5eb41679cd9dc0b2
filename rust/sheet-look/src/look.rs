//! The looks at the blocks of a sheet, and what the fills would change. That a block is refused is a verdict like any other; an error that is no verdict is
//! handed on.

use sheet_file::Sheet;
use tishwabe::{Error, Profile, Run};

use crate::candidates::Candidate;

/// What a look says of a block, its run, and the cells that a fill of the run would change.
#[derive(Debug, PartialEq)]
pub struct Look {
    pub verdict: Result<(), Error>,
    /// The run of a block that can be mended, and that of a thin one, which is refused; 0 and 0 of a clean one.
    pub run: Option<Run>,
    pub changed: Vec<usize>,
}

/// The looks at all blocks, in their order.
pub fn looks(sheet: &Sheet) -> Result<Vec<Look>, Error> {
    let blocks = 0..sheet.profile.depth();
    blocks
        .map(|block| Look::at(&sheet.profile, &sheet.block(block)))
        .collect()
}

impl Look {
    fn at(profile: &Profile, read: &[u8]) -> Result<Look, Error> {
        let looked = profile.look_block(read);
        let run = match looked {
            Ok(run) => Some(run),
            // The look does not name it. It is the first that is listed.
            Err(Error::Sparse { .. }) => profile.candidates(read)?.first().copied(),
            Err(Error::Uncorrectable { .. } | Error::Ambiguous { .. }) => None,
            Err(error) => return Err(error),
        };
        let filled = run.map(|run| Candidate::within(profile, read, run)).transpose()?;
        Ok(Look {
            verdict: looked.map(|_| ()),
            run,
            changed: filled.map_or(vec![], |filled| filled.changed),
        })
    }

    pub fn is_clean(&self) -> bool {
        self.verdict.is_ok() && self.changed.is_empty()
    }

    /// Whether there is something to mend, and it can be mended.
    pub fn is_mendable(&self) -> bool {
        self.verdict.is_ok() && !self.changed.is_empty()
    }

    /// The cells that mending would change: none of a block that is refused.
    pub fn mended(&self) -> &[usize] {
        self.verdict.map_or(&[], |()| &self.changed[..])
    }

    /// The documents' word for the verdict, with the number of a refusal. What they call mended is not mended by a look.
    pub fn word(&self) -> String {
        match self.verdict {
            Ok(()) if self.is_mendable() => "mendable".into(),
            Ok(()) => "clean".into(),
            Err(error) => format!("{} ({})", error.called(), error.number()),
        }
    }
}

#[cfg(test)]
mod tests {
    use super::*;

    /// Document 01's worked examples with n = 4, r = 3, b = 0.
    #[test]
    fn worked_examples() {
        let look = |limit, read: [u8; 4]| {
            let profile = Profile::new(4, 3, 0, limit, 1).expect("in range");
            let look = Look::at(&profile, &read).expect("the length fits");
            let run = look.run.map_or((0, 0), |run| (run.start, run.length));
            (look.word(), run, look.changed)
        };
        assert_eq!(look(0, [8, 14, 7, 1]), ("clean".into(), (0, 0), vec![]));
        assert_eq!(look(1, [9, 14, 7, 1]), ("mendable".into(), (0, 1), vec![0]));
        assert_eq!(look(0, [9, 14, 7, 1]), ("torn (3)".into(), (0, 0), vec![]));
        assert_eq!(look(2, [9, 15, 7, 1]), ("mendable".into(), (0, 2), vec![0, 1]));
        assert_eq!(look(2, [8, 15, 6, 1]), ("mendable".into(), (1, 2), vec![1, 2]));
        assert_eq!(look(2, [8, 14, 0, 0]), ("tied (4)".into(), (0, 0), vec![]));
    }

    /// A run of three cells with a right one between two wrong ones.
    #[test]
    fn a_right_cell_in_the_run() {
        let profile = Profile::new(9, 6, 1, 3, 1).expect("in range");
        let mut read = vec![0; 9];
        profile.write_block(&[1, 2, 3], &mut read).expect("the lengths fit");
        read[4] ^= 1;
        read[6] ^= 9;
        let look = Look::at(&profile, &read).expect("the length fits");
        assert_eq!(look.run, Some(Run { start: 4, length: 3 }));
        assert_eq!(look.changed, [4, 6]);
        assert_eq!((look.word().as_str(), look.mended()), ("mendable", &[4, 6][..]));
    }

    /// A run of four cells with r = 6: with three wrong cells it is mended, with two it is thin, and mending changes nothing.
    #[test]
    fn a_thin_run() {
        let profile = Profile::new(9, 6, 1, 5, 1).expect("in range");
        let mut read = vec![0; 9];
        profile.write_block(&[1, 2, 3], &mut read).expect("the lengths fit");
        for cell in [4, 5, 7] {
            read[cell] ^= 9;
        }
        let run = Some(Run { start: 4, length: 4 });
        let look = Look::at(&profile, &read).expect("the length fits");
        assert_eq!(
            (look.word().as_str(), look.run, &look.changed[..]),
            ("mendable", run, &[4, 5, 7][..])
        );
        read[5] ^= 9;
        let look = Look::at(&profile, &read).expect("the length fits");
        assert_eq!(
            (look.word().as_str(), look.run, &look.changed[..]),
            ("thin (16)", run, &[4, 7][..])
        );
        assert!(!look.is_mendable() && look.mended().is_empty());
    }

    /// A block of another length is no verdict.
    #[test]
    fn wrong_length() {
        let profile = Profile::new(4, 3, 0, 2, 1).expect("in range");
        assert_eq!(Look::at(&profile, &[8, 14, 7]), Err(Error::WrongLength));
    }
}
