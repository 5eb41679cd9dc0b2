//! Document 02, Note 7: repairs long and short, dense and thin, with answers found by hand. n is r+1 and b is 0, so a codeword is a multiple of the
//! generator, and of every one but the zero codeword no cell is zero. A block whose first and last cells are zero differs from these in both, so no run of
//! fewer than r+1 cells reaches one of them: what counts are the cells that are not zero, and a run from the first to the last of them.

use crate::block::Profile;
use crate::generator::generator;

/// A row of the table: start and length of the run, which reaches the zero codeword, or the refusal's number.
pub struct Repair {
    pub profile: Profile,
    pub read: Vec<u8>,
    pub expected: Result<(usize, usize), u8>,
}

/// Read block, L, and what is due.
type Row = (&'static [u8], usize, Result<(usize, usize), u8>);

/// With r up to 4 every run has enough changed cells, its first and its last. With r = 5 runs of 3 and 4 cells are long, with r = 6 those of 4 and 5.
const SMALL: [Row; 17] = [
    (&[0, 7, 9, 0], 2, Ok((1, 2))),
    (&[0, 7, 0, 9, 0], 3, Ok((1, 3))),
    (&[0, 7, 9, 0, 0, 0], 4, Ok((1, 2))),
    (&[0, 0, 7, 0, 9, 0], 4, Ok((2, 3))),
    (&[0, 7, 0, 0, 9, 0], 4, Err(16)),
    (&[0, 7, 0, 0, 9, 0], 3, Err(3)),
    (&[0, 7, 8, 0, 9, 0], 4, Ok((1, 4))),
    (&[0, 7, 0, 8, 9, 0], 4, Ok((1, 4))),
    (&[0, 7, 8, 8, 9, 0], 4, Ok((1, 4))),
    (&[0, 7, 0, 9, 0, 0, 0], 5, Ok((1, 3))),
    (&[0, 0, 7, 0, 0, 9, 0], 5, Err(16)),
    (&[0, 0, 7, 0, 0, 9, 0], 4, Err(16)),
    (&[0, 0, 7, 0, 0, 9, 0], 3, Err(3)),
    (&[0, 0, 7, 8, 0, 9, 0], 4, Ok((2, 4))),
    (&[0, 7, 0, 0, 0, 9, 0], 5, Err(16)),
    (&[0, 7, 0, 8, 0, 9, 0], 5, Ok((1, 5))),
    (&[0, 7, 8, 0, 8, 9, 0], 5, Ok((1, 5))),
];

/// With r = 7 and r = 8 runs of 4 and of 5 cells are the shortest long ones, with r = 9 runs of 5. A run of 4 is exempt with r = 8 and r = 9, though half of it
/// is right.
const LARGER: [Row; 15] = [
    (&[0, 7, 0, 9, 0, 0, 0, 0], 6, Ok((1, 3))),
    (&[0, 7, 0, 0, 9, 0, 0, 0], 6, Err(16)),
    (&[0, 7, 0, 8, 9, 0, 0, 0], 6, Ok((1, 4))),
    (&[0, 7, 0, 0, 0, 0, 9, 0], 6, Err(16)),
    (&[0, 7, 8, 0, 0, 0, 9, 0], 6, Err(16)),
    (&[0, 7, 8, 0, 0, 8, 9, 0], 6, Ok((1, 6))),
    (&[0, 7, 0, 0, 9, 0, 0, 0, 0], 7, Ok((1, 4))),
    (&[0, 0, 7, 0, 0, 0, 9, 0, 0], 7, Err(16)),
    (&[0, 0, 7, 0, 8, 0, 9, 0, 0], 7, Ok((2, 5))),
    (&[0, 7, 0, 8, 0, 0, 0, 9, 0], 7, Err(16)),
    (&[0, 7, 0, 8, 0, 8, 0, 9, 0], 7, Ok((1, 7))),
    (&[0, 0, 0, 0, 7, 0, 0, 9, 0, 0], 8, Ok((4, 4))),
    (&[0, 0, 0, 0, 7, 0, 0, 0, 9, 0], 8, Err(16)),
    (&[0, 0, 0, 0, 7, 0, 8, 0, 9, 0], 8, Ok((4, 5))),
    (&[0, 7, 8, 0, 0, 8, 0, 0, 9, 0], 8, Err(16)),
];

/// r of the tied blocks and of the sheets.
const R: usize = 7;

/// The generator in these cells, and zero in the others.
fn part_of_generator(cells: &[usize]) -> Vec<u8> {
    let cell = |(i, value)| if cells.contains(&i) { value } else { 0 };
    generator(0, R).into_iter().enumerate().map(cell).collect()
}

/// Six cells from the zero codeword and six from the generator, whose run of cells 0 to 5 and whose run of cells 2 to 7 are equally long; of one of the two
/// three cells are changed, of the other five. Both cannot be thin: two codewords differ in more than r cells.
fn tied() -> Vec<Vec<u8>> {
    [&[0, 1, 5][..], &[2, 6, 7], &[2, 3, 4, 6, 7], &[0, 1, 3, 4, 5]]
        .map(part_of_generator)
        .into()
}

/// The table.
pub fn repairs() -> Vec<Repair> {
    let row = |(read, limit, expected): (&[u8], usize, _)| Repair {
        profile: Profile::from([read.len(), read.len() - 1, 0, limit, 1]),
        read: read.into(),
        expected,
    };
    let mut rows: Vec<Repair> = SMALL.into_iter().chain(LARGER).map(row).collect();
    for read in tied() {
        rows.extend([(&read[..], R - 1, Err(4)), (&read[..], R - 2, Err(3))].map(row));
    }
    rows
}

/// A sheet of such blocks, with the number of blocks changed, or the refusal's number and the block's.
pub struct RepairSheet {
    pub profile: Profile,
    pub cells: Vec<u8>,
    pub expected: Result<usize, (u8, usize)>,
}

/// Sheets of three blocks, r and L being 7 and 6: the lowest block that is refused decides.
pub fn repair_sheets() -> Vec<RepairSheet> {
    let (clean, short, dense) = (vec![0; 8], vec![0, 7, 0, 9, 0, 0, 0, 0], vec![0, 7, 8, 0, 0, 8, 9, 0]);
    let (sparse, torn, tied) = (vec![0, 7, 0, 0, 9, 0, 0, 0], vec![7, 0, 0, 0, 0, 0, 0, 9], &tied()[0]);
    let rows = [
        ([&clean, &clean, &clean], Ok(0)),
        ([&short, &dense, &clean], Ok(2)),
        ([&dense, &dense, &dense], Ok(3)),
        ([&sparse, &clean, &clean], Err((16, 0))),
        ([&clean, &clean, &sparse], Err((16, 2))),
        ([&short, &dense, &sparse], Err((16, 2))),
        ([&sparse, &sparse, &sparse], Err((16, 0))),
        ([&clean, &sparse, &torn], Err((16, 1))),
        ([&sparse, &torn, &clean], Err((16, 0))),
        ([&torn, &sparse, &clean], Err((3, 0))),
        ([&clean, &torn, &sparse], Err((3, 1))),
        ([&sparse, tied, &torn], Err((16, 0))),
        ([&short, &sparse, tied], Err((16, 1))),
        ([tied, &sparse, &clean], Err((4, 0))),
        ([&dense, tied, &sparse], Err((4, 1))),
    ];
    let sheet = |(blocks, expected): ([&Vec<u8>; 3], _)| RepairSheet {
        profile: Profile::from([R + 1, R, 0, R - 1, 3]),
        cells: (0..3 * (R + 1)).map(|p| blocks[p % 3][p / 3]).collect(),
        expected,
    };
    rows.map(sheet).into()
}
