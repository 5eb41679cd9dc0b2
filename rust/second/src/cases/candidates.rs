//! Lists of candidates found by hand. n is r+1 and b is 0, so a codeword is a multiple of the generator, and each of its cells tells which one: two runs that
//! reach different codewords have together all cells of the block.

use crate::block::Profile;

/// A row of the table: start and length of each run, or the refusal's number.
pub struct Candidates {
    pub profile: Profile,
    pub read: Vec<u8>,
    /// The length of the lent buffer, of which each run takes two bytes.
    pub pairs_length: usize,
    pub expected: Result<Vec<(usize, usize)>, u8>,
}

const AMBIGUOUS: [u8; 4] = [8, 14, 0, 0];
const UNCORRECTABLE: [u8; 4] = [9, 14, 7, 0];

/// Read block, L, and the runs that are due.
type Row = (&'static [u8], usize, &'static [(usize, usize)]);

/// r is 3, and the generator is 8 14 7 1. Twice it is 16 28 14 2.
const FOUR_CELLS: [Row; 28] = [
    (&[8, 14, 7, 1], 0, &[(0, 0)]),
    (&[8, 14, 7, 1], 1, &[(0, 0)]),
    (&[8, 14, 7, 1], 2, &[(0, 0)]),
    (&[0, 0, 0, 0], 2, &[(0, 0)]),
    (&[16, 28, 14, 2], 0, &[(0, 0)]),
    (&[9, 14, 7, 1], 0, &[]),
    (&[9, 14, 7, 1], 1, &[(0, 1)]),
    (&[9, 14, 7, 1], 2, &[(0, 1)]),
    (&[8, 14, 7, 0], 1, &[(3, 1)]),
    (&[8, 14, 7, 0], 2, &[(3, 1)]),
    (&[0, 0, 9, 0], 1, &[(2, 1)]),
    (&[9, 15, 7, 1], 1, &[]),
    (&[9, 15, 7, 1], 2, &[(0, 2)]),
    (&[8, 15, 6, 1], 2, &[(1, 2)]),
    (&[8, 14, 6, 0], 2, &[(2, 2)]),
    (&[0, 5, 9, 0], 2, &[(1, 2)]),
    (&AMBIGUOUS, 0, &[]),
    (&AMBIGUOUS, 1, &[]),
    (&AMBIGUOUS, 2, &[(0, 2), (2, 2)]),
    (&[0, 0, 7, 1], 2, &[(0, 2), (2, 2)]),
    (&[8, 14, 14, 2], 2, &[(0, 2), (2, 2)]),
    (&[16, 28, 7, 1], 2, &[(0, 2), (2, 2)]),
    (&[8, 28, 14, 1], 2, &[(1, 2)]),
    (&UNCORRECTABLE, 0, &[]),
    (&UNCORRECTABLE, 2, &[]),
    (&[7, 0, 0, 9], 2, &[]),
    (&[8, 0, 7, 0], 2, &[]),
    (&[0, 14, 0, 1], 2, &[]),
];

/// r is 2 and the generator 2 3 1; then r is 4 and the generator 64 120 54 15 1; then r is 5, and runs of three and four cells are long. The longer of two
/// runs is behind the other, though it begins before it.
const OTHERS: [Row; 24] = [
    (&[2, 3, 1], 0, &[(0, 0)]),
    (&[4, 6, 2], 1, &[(0, 0)]),
    (&[2, 3, 0], 0, &[]),
    (&[2, 3, 0], 1, &[(2, 1)]),
    (&[0, 3, 1], 1, &[(0, 1)]),
    (&[2, 9, 1], 1, &[(1, 1)]),
    (&[2, 6, 5], 1, &[]),
    (&[64, 120, 54, 15, 1], 3, &[(0, 0)]),
    (&[64, 0, 0, 0, 0], 3, &[(0, 1)]),
    (&[64, 120, 54, 15, 0], 3, &[(4, 1)]),
    (&[64, 120, 0, 0, 0], 1, &[]),
    (&[64, 120, 0, 0, 0], 2, &[(0, 2)]),
    (&[64, 120, 0, 0, 0], 3, &[(0, 2), (2, 3)]),
    (&[64, 120, 54, 0, 0], 2, &[(3, 2)]),
    (&[64, 120, 54, 0, 0], 3, &[(3, 2), (0, 3)]),
    (&[64, 120, 9, 0, 0], 2, &[]),
    (&[64, 120, 9, 0, 0], 3, &[(0, 3), (2, 3)]),
    (&[64, 9, 9, 9, 1], 3, &[(1, 3)]),
    (&[64, 9, 9, 9, 0], 3, &[]),
    (&[0, 7, 0, 9, 0, 0], 4, &[(1, 3)]),
    (&[0, 7, 0, 0, 9, 0], 4, &[(1, 4)]),
    (&[0, 7, 0, 0, 9, 0], 3, &[]),
    (&[0, 7, 8, 8, 9, 0], 4, &[(1, 4)]),
    (&[7, 0, 0, 0, 0, 9], 4, &[]),
];

/// For n=4: lengths of the read block and of the lent buffer, not both of them right.
pub const WRONG_PAIRS: [(usize, usize); 12] = [
    (4, 7),
    (4, 9),
    (4, 0),
    (4, 2),
    (4, 4),
    (4, 16),
    (3, 8),
    (5, 8),
    (0, 8),
    (8, 8),
    (3, 6),
    (5, 10),
];

/// The table.
pub fn candidates() -> Vec<Candidates> {
    let row = |(read, limit, runs): Row| Candidates {
        profile: Profile::from([read.len(), read.len() - 1, 0, limit, 1]),
        read: read.into(),
        pairs_length: 2 * read.len(),
        expected: Ok(runs.into()),
    };
    let refused = |limit, read: &[u8], length, pairs_length, number| Candidates {
        profile: Profile::from([4, 3, 0, limit, 1]),
        read: read.iter().copied().cycle().take(length).collect(),
        pairs_length,
        expected: Err(number),
    };
    let mut rows: Vec<Candidates> = FOUR_CELLS.into_iter().chain(OTHERS).map(row).collect();
    rows.extend(WRONG_PAIRS.map(|(length, pairs)| refused(2, &AMBIGUOUS, length, pairs, 2)));
    rows.push(refused(0, &UNCORRECTABLE, 4, 7, 2));
    rows.extend([(4, 8), (4, 7), (3, 8), (0, 0)].map(|(length, pairs)| refused(3, &AMBIGUOUS, length, pairs, 1)));
    rows
}
