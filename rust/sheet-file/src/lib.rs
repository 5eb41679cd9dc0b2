//! A sheet with its profile, from a file that has the plot lister's input: the bytes n, r, b, L and D, then the cells. The programs that read
//! sheets share it.

use std::fmt::Display;
use std::fs::File;
use std::io::{self, Read};
use std::path::Path;

use tishwabe::{Error, Profile};

/// The bytes of the longest sheet, 16 blocks of 255 cells, with its profile.
const LONGEST: usize = 5 + 16 * 255;

#[derive(Debug, PartialEq)]
pub struct Sheet {
    pub profile: Profile,
    pub cells: Vec<u8>,
}

impl Sheet {
    /// The sheet of a file, of which no more is read than tells that it is too long.
    pub fn read(path: &Path) -> Result<Sheet, String> {
        let start = |path| -> io::Result<Vec<u8>> {
            let mut bytes = Vec::new();
            File::open(path)?.take(LONGEST as u64 + 1).read_to_end(&mut bytes)?;
            Ok(bytes)
        };
        Sheet::parse(&start(path).map_err(|error| error.to_string())?)
    }

    /// The sheet of these bytes, or why they are none, with document 01's word and number for it.
    fn parse(bytes: &[u8]) -> Result<Sheet, String> {
        let Some((&numbers, cells)) = bytes.split_first_chunk() else {
            let reason = format!("{}, and the profile alone has five", counted(bytes.len(), "byte"));
            return Err(refusal(Error::BadProfile, &reason));
        };
        let profile = profile(numbers.map(usize::from))?;
        let (n, depth, length) = (profile.n(), profile.depth(), profile.sheet_length());
        if cells.len() != length {
            let found = match cells.len() {
                more if more > length => "more".to_string(),
                less => (5 + less).to_string(),
            };
            let (whole, blocks) = (5 + length, counted(depth, "block"));
            let reason = format!("a profile and {blocks} of {n} cells have {whole} bytes, and the file has {found}");
            return Err(refusal(Error::WrongLength, &reason));
        }
        let cells = cells.to_vec();
        Ok(Sheet { profile, cells })
    }

    /// The same cells under another limit, or why the profile has no such limit.
    pub fn with_limit(self, limit: usize) -> Result<Sheet, String> {
        let Sheet { profile: p, cells } = self;
        let profile = profile([p.n(), p.r(), p.b(), limit, p.depth()])?;
        Ok(Sheet { profile, cells })
    }

    /// The cells of a block: sheet cell p is cell p/D (rounded down) of block p mod D.
    pub fn block(&self, block: usize) -> Vec<u8> {
        self.cells
            .iter()
            .skip(block)
            .step_by(self.profile.depth())
            .copied()
            .collect()
    }
}

/// So many of what the word names.
pub fn counted<N: Display + PartialEq + From<u8>>(number: N, word: &str) -> String {
    let plural = if number == N::from(1) { "" } else { "s" };
    format!("{number} {word}{plural}")
}

fn refusal(error: Error, reason: &str) -> String {
    format!("{} (refusal {}): {reason}", error.called(), error.number())
}

fn profile([n, r, b, limit, depth]: [usize; 5]) -> Result<Profile, String> {
    let numbers = format!("n = {n}, r = {r}, b = {b}, L = {limit}, D = {depth}");
    let ranges = "n is 3 to 255, r 2 to 64 and below n, b 0 to 254, L below r, D 1 to 16";
    Profile::new(n, r, b, limit, depth).map_err(|error| refusal(error, &format!("{numbers} is no profile ({ranges})")))
}

#[cfg(test)]
mod tests {
    use super::*;

    /// Two blocks of four cells.
    const BYTES: [u8; 13] = [4, 3, 0, 2, 2, 8, 0, 14, 0, 7, 0, 1, 5];

    #[test]
    fn blocks() {
        let sheet = Sheet::parse(&BYTES).expect("a sheet");
        assert_eq!(sheet.profile, Profile::new(4, 3, 0, 2, 2).expect("in range"));
        assert_eq!((sheet.block(0), sheet.block(1)), (vec![8, 14, 7, 1], vec![0, 0, 0, 5]));
    }

    #[test]
    fn other_limits() {
        let with = |limit| Sheet::parse(&BYTES).expect("a sheet").with_limit(limit);
        for limit in 0..3 {
            let mut bytes = BYTES;
            bytes[3] = limit;
            assert_eq!(with(limit.into()), Sheet::parse(&bytes));
        }
        for limit in [3, 258, usize::MAX] {
            let refused = with(limit).expect_err("no profile");
            let start = format!("misprint (refusal 1): n = 4, r = 3, b = 0, L = {limit}, D = 2 is no profile (");
            assert!(refused.starts_with(&start), "{refused}");
        }
    }

    #[test]
    fn other_lengths() {
        let refused = |found: &str| {
            let reason = "a profile and 2 blocks of 4 cells have 13 bytes, and the file has";
            Err(format!("wrong frame (refusal 2): {reason} {found}"))
        };
        assert_eq!(Sheet::parse(&BYTES[..12]), refused("12"));
        assert_eq!(Sheet::parse(&BYTES[..5]), refused("5"));
        assert_eq!(Sheet::parse(&[&BYTES[..], &[0]].concat()), refused("more"));
        let one_block = "a profile and 1 block of 4 cells have 9 bytes, and the file has 5";
        assert_eq!(
            Sheet::parse(&[4, 3, 0, 2, 1]),
            Err(format!("wrong frame (refusal 2): {one_block}"))
        );
        for (length, found) in [(4, "4 bytes"), (1, "1 byte"), (0, "0 bytes")] {
            let reason = format!("misprint (refusal 1): {found}, and the profile alone has five");
            assert_eq!(Sheet::parse(&BYTES[..length]), Err(reason));
        }
    }

    /// Each number just outside its range. A byte is never too much for n.
    #[test]
    fn no_profiles() {
        for numbers in [
            [2, 2, 0, 0, 1],
            [4, 4, 0, 0, 1],
            [255, 65, 0, 0, 1],
            [4, 1, 0, 0, 1],
            [4, 3, 255, 0, 1],
            [4, 3, 0, 3, 1],
            [4, 3, 0, 0, 0],
            [4, 3, 0, 0, 17],
        ] {
            let refused = Sheet::parse(&numbers).expect_err("no profile");
            let [n, r, b, limit, depth] = numbers;
            let start =
                format!("misprint (refusal 1): n = {n}, r = {r}, b = {b}, L = {limit}, D = {depth} is no profile");
            assert!(refused.starts_with(&start), "{refused}");
        }
    }
}
