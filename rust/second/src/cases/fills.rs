//! Runs to fill, with answers found by hand. For n=4, r=3, b=0 a codeword is a multiple of 8 14 7 1, so it is known by any one of its cells.

use crate::block::{Profile, Run};

/// A row of the table: the codeword, or the refusal's number.
pub struct Filling {
    pub profile: Profile,
    pub read: [u8; 4],
    pub run: Run,
    pub expected: Result<[u8; 4], u8>,
}

const CODEWORD: [u8; 4] = [8, 14, 7, 1];
const TIED: [u8; 4] = [8, 14, 0, 0];
const TORN: [u8; 4] = [9, 14, 7, 0];

/// Read block, L, start and length, and what is due.
type Row = ([u8; 4], usize, (usize, usize), Result<[u8; 4], u8>);

/// Runs within the block.
const WITHIN: [Row; 20] = [
    (CODEWORD, 0, (0, 0), Ok(CODEWORD)),
    (CODEWORD, 0, (4, 0), Ok(CODEWORD)),
    (CODEWORD, 1, (1, 2), Ok(CODEWORD)),
    ([9, 14, 7, 1], 1, (0, 1), Ok(CODEWORD)),
    ([9, 14, 7, 1], 0, (0, 1), Ok(CODEWORD)),
    ([9, 14, 7, 1], 2, (0, 2), Ok(CODEWORD)),
    ([9, 14, 7, 1], 2, (1, 2), Err(3)),
    ([9, 14, 7, 1], 1, (0, 0), Err(3)),
    ([9, 14, 7, 1], 1, (4, 0), Err(3)),
    ([8, 15, 6, 1], 0, (1, 2), Ok(CODEWORD)),
    ([8, 15, 6, 1], 2, (0, 2), Err(3)),
    ([8, 15, 6, 1], 2, (1, 1), Err(3)),
    ([8, 14, 7, 0], 2, (3, 1), Ok(CODEWORD)),
    (TIED, 2, (2, 2), Ok(CODEWORD)),
    (TIED, 2, (0, 2), Ok([0; 4])),
    (TIED, 2, (1, 2), Err(3)),
    (TIED, 0, (2, 2), Ok(CODEWORD)),
    (TORN, 2, (0, 2), Err(3)),
    (TORN, 2, (1, 2), Err(3)),
    (TORN, 2, (2, 2), Err(3)),
];

/// Starts and lengths that end past the block or are r cells and more; sums that wrap to 0 and to 1 are among them.
const OUTSIDE: [(usize, usize); 12] = [
    (0, 3),
    (0, 4),
    (2, 3),
    (3, 2),
    (4, 1),
    (5, 0),
    (0, usize::MAX),
    (4, usize::MAX),
    (usize::MAX, 0),
    (usize::MAX, 1),
    (usize::MAX, 2),
    (usize::MAX, usize::MAX),
];

/// The table.
pub fn fills() -> Vec<Filling> {
    let row = |(read, limit, (start, length), expected): Row| Filling {
        profile: Profile::from([4, 3, 0, limit, 1]),
        read,
        run: Run { start, length },
        expected,
    };
    let outside = |read, limit, number| OUTSIDE.map(|run| row((read, limit, run, Err(number))));
    let misprints = [(CODEWORD, (0, 0)), (TORN, (0, 3)), (TORN, (usize::MAX, 1))];
    let mut rows: Vec<Filling> = WITHIN.map(row).into();
    rows.extend(outside(CODEWORD, 2, 12));
    rows.extend(outside(TORN, 0, 12));
    rows.extend(misprints.map(|(read, run)| row((read, 3, run, Err(1)))));
    rows
}
