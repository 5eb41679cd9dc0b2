//! The candidates of a block: every codeword that a run of at most L cells reaches, and the cells on which they agree or differ. The library lists the runs, in
//! the order in which the candidates stand here, and fills each of them; nothing here searches.

use sheet_file::Sheet;
use tishwabe::{Error, Profile, Run};

/// A codeword of n cells, with the run within which it lies and the cells in which it differs from the read block.
#[derive(Clone, Debug, PartialEq)]
pub struct Candidate {
    pub run: Run,
    pub codeword: Vec<u8>,
    pub changed: Vec<usize>,
}

impl Candidate {
    /// The codeword within this run.
    pub fn within(profile: &Profile, read: &[u8], run: Run) -> Result<Candidate, Error> {
        let mut codeword = vec![0; profile.n()];
        profile.fill_block(read, run, &mut codeword)?;
        let changed = (0..read.len()).filter(|&i| codeword[i] != read[i]).collect();
        Ok(Candidate { run, codeword, changed })
    }

    /// The k message bytes.
    pub fn message(&self, profile: &Profile) -> &[u8] {
        &self.codeword[profile.r()..]
    }
}

/// The candidates of all blocks, in their order. A clean block has itself alone.
pub fn candidates(sheet: &Sheet) -> Result<Vec<Vec<Candidate>>, Error> {
    let blocks = 0..sheet.profile.depth();
    blocks.map(|block| of(&sheet.profile, &sheet.block(block))).collect()
}

/// The candidates of a block. The first is the one that correcting takes, if it takes one, and there is none exactly if the block is torn.
fn of(profile: &Profile, read: &[u8]) -> Result<Vec<Candidate>, Error> {
    let runs = profile.candidates(read)?;
    runs.into_iter()
        .map(|run| Candidate::within(profile, read, run))
        .collect()
}

/// The cells in which two of the codewords differ.
pub fn disputed(list: &[Candidate]) -> Vec<usize> {
    let Some((first, others)) = list.split_first() else {
        return vec![];
    };
    let differs = |&i: &usize| others.iter().any(|other| other.codeword[i] != first.codeword[i]);
    (0..first.codeword.len()).filter(differs).collect()
}

/// The cells in which all codewords have the same value, and it is not the one that was read.
pub fn agreed(list: &[Candidate]) -> Vec<usize> {
    let disputed = disputed(list);
    let changed = list.first().map_or(&[][..], |first| &first.changed);
    changed.iter().copied().filter(|i| !disputed.contains(i)).collect()
}

#[cfg(test)]
mod tests {
    use super::*;

    fn found(numbers: [usize; 5], read: &[u8]) -> Vec<Candidate> {
        let [n, r, b, limit, depth] = numbers;
        let profile = Profile::new(n, r, b, limit, depth).expect("in range");
        of(&profile, read).expect("the length fits")
    }

    /// Document 01's examples with n = 4, r = 3, b = 0: a clean block, a torn one, one to be mended, and one that is tied with the zero codeword.
    #[test]
    fn worked_examples() {
        let listed = |limit, read: [u8; 4]| -> Vec<(usize, usize, Vec<u8>, Vec<usize>)> {
            let list = found([4, 3, 0, limit, 1], &read).into_iter();
            list.map(|one| (one.run.start, one.run.length, one.codeword, one.changed))
                .collect()
        };
        let generator = vec![8, 14, 7, 1];
        assert_eq!(listed(2, [8, 14, 7, 1]), [(0, 0, generator.clone(), vec![])]);
        assert_eq!(listed(2, [9, 14, 7, 0]), []);
        assert_eq!(listed(2, [8, 15, 6, 1]), [(1, 2, generator.clone(), vec![1, 2])]);
        let both = [(0, 2, vec![0; 4], vec![0, 1]), (2, 2, generator, vec![2, 3])];
        assert_eq!(listed(2, [8, 14, 0, 0]), both);
        assert_eq!(listed(1, [8, 14, 0, 0]), []);
    }

    #[test]
    fn messages() {
        let profile = Profile::new(4, 3, 0, 2, 1).expect("in range");
        let list = found([4, 3, 0, 2, 1], &[8, 14, 0, 0]);
        assert_eq!([list[0].message(&profile), list[1].message(&profile)], [[0], [1]]);
    }

    /// Cells of no block at all: of three codewords, cell 0 is as read in each, cell 1 is another but the same in each, and cells 2 and 3 are not the same in
    /// each. In cell 3 the first has what was read.
    #[test]
    fn cells() {
        let read = [5, 5, 5, 5];
        let codewords = [[5, 6, 7, 5], [5, 6, 8, 5], [5, 6, 7, 9]];
        let candidate = |codeword: &[u8; 4]| Candidate {
            run: Run { start: 0, length: 4 },
            codeword: codeword.to_vec(),
            changed: (0..4).filter(|&i| codeword[i] != read[i]).collect(),
        };
        let list: Vec<Candidate> = codewords.iter().map(candidate).collect();
        assert_eq!((agreed(&list), disputed(&list)), (vec![1], vec![2, 3]));
        assert_eq!((agreed(&list[..1]), disputed(&list[..1])), (vec![1, 2], vec![]));
        assert_eq!((agreed(&[]), disputed(&[])), (vec![], vec![]));
    }
}
