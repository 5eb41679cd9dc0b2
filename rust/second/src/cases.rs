//! Examples with answers found by hand: document 01's bench sheet, a table for spot mode, one of runs to fill, one of long and thin repairs, one of lists of
//! candidates, one of stand tables, and tables of refusals with their places; for a bad tally, `refuse_line` has the place, the figure and the line.
//! The unit tests hold the library to them, and the test vectors include their inputs.

mod bad_lines;
mod candidates;
mod fills;
mod lists;
mod repairs;
mod stand;

use crate::block::Profile;
use crate::plot::record;
use crate::refusal::{refuse, refuse_line, Refusal};
pub use candidates::{candidates, Candidates, WRONG_PAIRS};
pub use fills::{fills, Filling};
pub use lists::lists;
pub use repairs::{repair_sheets, repairs, Repair, RepairSheet};
pub use stand::{tracts, Tract};

/// The codeword and two numbers of a corrected block, or the refusal's number. The numbers are start and length of the run, in spot mode the number
/// of cells changed and the lowest of them.
type Corrected = Result<([u8; 4], usize, usize), u8>;

/// A row of a table of read blocks.
pub struct Correction {
    pub profile: Profile,
    pub read: [u8; 4],
    pub expected: Corrected,
}

/// A table for n=4, r=3, b=0 from read blocks, L and what they go to.
fn table<const N: usize>(rows: [([u8; 4], usize, Corrected); N]) -> Vec<Correction> {
    let row = |(read, limit, expected)| Correction {
        profile: Profile::from([4, 3, 0, limit, 1]),
        read,
        expected,
    };
    rows.map(row).into()
}

/// Document 01's table of read blocks.
pub fn corrections() -> Vec<Correction> {
    let codeword = [8, 14, 7, 1];
    table([
        (codeword, 0, Ok((codeword, 0, 0))),
        ([9, 14, 7, 1], 1, Ok((codeword, 0, 1))),
        ([9, 14, 7, 1], 0, Err(3)),
        ([9, 15, 7, 1], 2, Ok((codeword, 0, 2))),
        ([8, 15, 6, 1], 2, Ok((codeword, 1, 2))),
        ([8, 14, 0, 0], 1, Err(3)),
        ([8, 14, 0, 0], 2, Err(4)),
        ([9, 14, 7, 0], 2, Err(3)),
        (codeword, 3, Err(1)),
        ([9, 14, 7, 0], 3, Err(1)),
    ])
}

/// Document 01's read blocks and others in spot mode: h is 1 and two codewords differ in all four cells, so a block is within one cell of a multiple
/// of 8 14 7 1 or is refused. Twice it is 16 28 14 2.
pub fn spot_corrections() -> Vec<Correction> {
    let codeword = [8, 14, 7, 1];
    table([
        (codeword, 0, Ok((codeword, 0, 0))),
        ([9, 14, 7, 1], 0, Ok((codeword, 1, 0))),
        ([9, 14, 7, 1], 2, Ok((codeword, 1, 0))),
        ([8, 0, 7, 1], 1, Ok((codeword, 1, 1))),
        ([8, 14, 255, 1], 0, Ok((codeword, 1, 2))),
        ([8, 14, 7, 0], 2, Ok((codeword, 1, 3))),
        ([16, 28, 14, 1], 0, Ok(([16, 28, 14, 2], 1, 3))),
        ([0, 0, 9, 0], 0, Ok(([0; 4], 1, 2))),
        ([9, 15, 7, 1], 2, Err(11)),
        ([8, 15, 6, 1], 2, Err(11)),
        ([8, 14, 0, 0], 1, Err(11)),
        ([8, 14, 0, 0], 2, Err(11)),
        ([9, 14, 7, 0], 2, Err(11)),
        ([8, 14, 14, 2], 2, Err(11)),
        (codeword, 3, Err(1)),
        ([9, 14, 7, 0], 3, Err(1)),
    ])
}

/// Document 01's written blocks, for n=5, r=2, b=1: profile, message, codeword.
pub fn written_blocks() -> Vec<(Profile, Vec<u8>, Vec<u8>)> {
    let profile = Profile::from([5, 2, 1, 0, 1]);
    vec![
        (profile, vec![1, 0, 0], vec![8, 6, 1, 0, 0]),
        (profile, vec![0, 1, 0], vec![48, 28, 0, 1, 0]),
    ]
}

/// Profiles with a number outside its range.
pub fn profiles_out_of_range() -> Vec<Profile> {
    let rows = [
        [2, 1, 0, 0, 1],
        [2, 2, 0, 0, 1],
        [0, 0, 0, 0, 0],
        [256, 3, 0, 0, 1],
        [65535, 3, 0, 0, 1],
        [4, 1, 0, 0, 1],
        [4, 0, 0, 0, 1],
        [4, 4, 0, 0, 1],
        [4, 5, 0, 0, 1],
        [255, 65, 0, 0, 1],
        [4, 3, 255, 0, 1],
        [4, 3, 256, 0, 1],
        [4, 3, 65535, 0, 1],
        [4, 3, 0, 3, 1],
        [4, 3, 0, 65535, 1],
        [255, 64, 0, 64, 1],
        [4, 3, 0, 0, 0],
        [4, 3, 0, 0, 17],
        [4, 3, 0, 0, 65535],
    ];
    rows.map(Profile::from).into()
}

/// For n=4, r=3 and D=2: lengths of sheet, scratch and payload, not all of them right.
pub const WRONG_LENGTHS: [[usize; 3]; 8] = [
    [7, 4, 2],
    [9, 4, 2],
    [8, 3, 2],
    [8, 5, 2],
    [8, 4, 1],
    [8, 4, 3],
    [4, 4, 1],
    [0, 0, 0],
];

/// For n=4: D, and lengths of the scratch, of which 4 is right. D × n is not, unless D is 1.
pub const SCRATCHES: [(usize, &[usize]); 4] = [
    (1, &[4, 0, 3, 5]),
    (2, &[4, 0, 3, 5, 8]),
    (3, &[12]),
    (16, &[4, 63, 64]),
];

/// One tally line: species 3, class 32, count 2.
const LINE: [u8; 3] = [3, 32, 2];

/// This many good lines.
fn lines(count: u8) -> Vec<u8> {
    (1..=count).flat_map(|i| [1 + i / 10, 100 + i, 255]).collect()
}

/// Records of these plots, one line each.
fn plots(numbers: &[u16]) -> Vec<u8> {
    numbers.iter().flat_map(|&plot| record(plot, &LINE)).collect()
}

/// The eight bytes of a record of plot 7, then these bytes.
fn after_plot_7(bytes: &[u8]) -> Vec<u8> {
    [&plots(&[7]), bytes].concat()
}

/// The longest payload, 4,048 bytes, full of plots 1 to 35.
fn full() -> Vec<u8> {
    (1..=35)
        .flat_map(|plot| record(plot, &lines(if plot < 32 { 37 } else { 36 })))
        .collect()
}

/// The longest payload with plots 1 to `last` of no lines, five bytes each.
fn without_lines(last: u16) -> Vec<u8> {
    let mut payload: Vec<u8> = (1..=last).flat_map(|plot| record(plot, &[])).collect();
    payload.resize(4048, 0);
    payload
}

/// Payload, and what the checker answers.
pub type Check = (Vec<u8>, Result<(), Refusal>);

/// Payloads that are accepted, and refused ones.
pub fn payloads() -> Vec<Check> {
    [
        accepted_payloads(),
        payloads_with_bad_header(),
        payloads_with_bad_plot(),
        bad_lines::payloads(),
    ]
    .concat()
}

fn accepted_payloads() -> Vec<Check> {
    let accepted = [
        vec![],
        vec![0],
        vec![0; 4048],
        plots(&[7]),
        after_plot_7(&[0; 5]),
        record(1, &[]),
        record(65535, &[99, 200, 255]),
        record(9, &lines(40)),
        plots(&[1, 2, 255, 256, 65535]),
        record(7, &[1, 1, 1, 1, 2, 1, 2, 1, 1]),
        full(),
        without_lines(809),
    ];
    accepted.map(|payload| (payload, Ok(()))).into()
}

fn payloads_with_bad_header() -> Vec<Check> {
    vec![
        (vec![0; 4049], refuse(2, 0)),
        (vec![1; 4049], refuse(2, 0)),
        (vec![0, 1], refuse(5, 0)),
        (vec![0, 0, 0, 7], refuse(5, 0)),
        (after_plot_7(&[0, 0, 9, 0]), refuse(5, 8)),
        (after_plot_7(&[&[0], &plots(&[8])[..]].concat()), refuse(5, 8)),
        (vec![0x50], refuse(6, 0)),
        (vec![0x4C], refuse(5, 0)),
        (after_plot_7(&[0x50]), refuse(6, 8)),
        (after_plot_7(&[0x51]), refuse(5, 8)),
        (vec![0x50, 0], refuse(5, 0)),
        (vec![0x50, 0x4D, 7, 0, 0], refuse(5, 0)),
        (vec![0x51, 0x4C, 7, 0, 0], refuse(5, 0)),
        (vec![0x4C, 0x50, 7, 0, 0], refuse(5, 0)),
        (vec![0x50, 0x4C], refuse(6, 0)),
        (vec![0x50, 0x4C, 0, 0], refuse(6, 0)),
        (after_plot_7(&[0x50, 0x4C, 8]), refuse(6, 8)),
        (after_plot_7(&[0x50, 0x4D, 8]), refuse(5, 8)),
        (vec![0x50, 0x4C, 0, 0, 41], refuse(7, 0)),
        (vec![0x50, 0x4C, 7, 0, 255], refuse(7, 0)),
        (after_plot_7(&record(8, &lines(41))), refuse(7, 8)),
        (vec![0x50, 0x4C, 0, 0, 1], refuse(6, 0)),
        (vec![0x50, 0x4C, 7, 0, 1, 3, 32], refuse(6, 0)),
        (vec![0x50, 0x4C, 7, 0, 2, 0, 0, 0, 3, 32], refuse(6, 0)),
        (after_plot_7(&[0x50, 0x4C, 6, 0, 40]), refuse(6, 8)),
    ]
}

fn payloads_with_bad_plot() -> Vec<Check> {
    vec![
        (record(0, &[]), refuse(7, 0)),
        (after_plot_7(&record(0, &LINE)), refuse(7, 8)),
        (record(7, &[0, 32, 2]), refuse_line(0, 1, 0)),
        (record(7, &[100, 32, 2]), refuse_line(0, 1, 0)),
        (record(7, &[3, 0, 2]), refuse_line(0, 2, 0)),
        (record(7, &[3, 201, 2]), refuse_line(0, 2, 0)),
        (record(7, &[3, 32, 0]), refuse_line(0, 3, 0)),
        (record(7, &[3, 32, 2, 3, 32, 2]), refuse_line(0, 4, 1)),
        (record(7, &[3, 32, 2, 3, 31, 2]), refuse_line(0, 4, 1)),
        (record(7, &[3, 32, 2, 2, 33, 2]), refuse_line(0, 4, 1)),
        (
            after_plot_7(&record(8, &[1, 1, 1, 1, 2, 1, 1, 2, 1])),
            refuse_line(8, 4, 2),
        ),
        (after_plot_7(&record(6, &[3, 32, 0])), refuse_line(8, 3, 0)),
        (plots(&[7, 7]), refuse(8, 8)),
        (plots(&[7, 6]), refuse(8, 8)),
        (plots(&[256, 255]), refuse(8, 8)),
        (plots(&[1, 2, 3, 3]), refuse(8, 24)),
        ([plots(&[7, 7]), vec![0, 1]].concat(), refuse(8, 8)),
        ([plots(&[7, 8]), vec![0, 1]].concat(), refuse(5, 16)),
        ([record(7, &[3, 32, 0]), plots(&[6])].concat(), refuse_line(0, 3, 0)),
    ]
}

/// Payload, plot asked for, and its record's first byte and length or the refusal.
pub type Ask = (Vec<u8>, u16, Result<(usize, usize), Refusal>);

/// Asks for plots that are there, absent, or in a refused payload.
pub fn asks() -> Vec<Ask> {
    [plain_asks(), bad_lines::asks()].concat()
}

fn plain_asks() -> Vec<Ask> {
    let three = [plots(&[7]), record(8, &[]), record(300, &lines(40)), vec![0; 6]].concat();
    vec![
        (three.clone(), 7, Ok((0, 8))),
        (three.clone(), 8, Ok((8, 5))),
        (three.clone(), 300, Ok((13, 125))),
        (three.clone(), 0, refuse(9, 0)),
        (three.clone(), 9, refuse(9, 0)),
        (three.clone(), 44, refuse(9, 0)),
        (three, 65535, refuse(9, 0)),
        (record(65535, &[]), 65535, Ok((0, 5))),
        (full(), 35, Ok((3935, 113))),
        (without_lines(809), 809, Ok((4040, 5))),
        (vec![], 1, refuse(9, 0)),
        (vec![], 0, refuse(9, 0)),
        (vec![0; 20], 1, refuse(9, 0)),
        (vec![0; 4049], 1, refuse(2, 0)),
        (plots(&[7, 7]), 7, refuse(8, 8)),
        (after_plot_7(&[0, 1]), 7, refuse(5, 8)),
        (after_plot_7(&[0x50, 0x4C]), 7, refuse(6, 8)),
        (after_plot_7(&record(8, &[0, 1, 1])), 7, refuse_line(8, 1, 0)),
        (after_plot_7(&record(8, &[0, 1, 1])), 0, refuse_line(8, 1, 0)),
        (after_plot_7(&record(8, &[0, 1, 1])), 8, refuse_line(8, 1, 0)),
        (plots(&[7, 7]), 9, refuse(8, 8)),
        (after_plot_7(&[0, 1]), 9, refuse(5, 8)),
        (after_plot_7(&[0x50, 0x4C]), 9, refuse(6, 8)),
        (after_plot_7(&record(8, &[0, 1, 1])), 9, refuse_line(8, 1, 0)),
        (full(), 36, refuse(9, 0)),
        ([full(), vec![0]].concat(), 35, refuse(2, 0)),
    ]
}

/// Payload, plot and lines to add, and the record's first byte or the refusal.
pub type Add = (Vec<u8>, u16, Vec<u8>, Result<usize, Refusal>);

/// Adds to payloads with room, without room, and refused ones.
pub fn adds() -> Vec<Add> {
    [
        adds_with_room(),
        adds_with_faults(),
        adds_without_room(),
        bad_lines::adds(),
    ]
    .concat()
}

fn adds_with_room() -> Vec<Add> {
    vec![
        (vec![0; 8], 7, LINE.into(), Ok(0)),
        (vec![0; 5], 1, vec![], Ok(0)),
        (vec![0; 12], 65535, LINE.into(), Ok(0)),
        (after_plot_7(&[0; 8]), 8, LINE.into(), Ok(8)),
        (after_plot_7(&[0; 9]), 256, vec![], Ok(8)),
        (vec![0; 125], 9, lines(40), Ok(0)),
        (vec![0; 4048], 9, lines(40), Ok(0)),
        (without_lines(808), 809, LINE.into(), Ok(4040)),
    ]
}

fn adds_with_faults() -> Vec<Add> {
    let room = after_plot_7(&[0; 40]);
    let faults = [
        (8, vec![3], refuse(7, 8)),
        (8, vec![3, 32], refuse(7, 8)),
        (8, vec![3, 32, 2, 4], refuse(7, 8)),
        (8, vec![1; 121], refuse(7, 8)),
        (8, lines(41), refuse(7, 8)),
        (8, vec![1; 300], refuse(7, 8)),
        (0, vec![], refuse(7, 8)),
        (0, LINE.into(), refuse(7, 8)),
        (8, vec![0, 1, 1], refuse_line(8, 1, 0)),
        (8, vec![3, 32, 2, 3, 32, 2], refuse_line(8, 4, 1)),
        (6, vec![3, 201, 2], refuse_line(8, 2, 0)),
        (7, LINE.into(), refuse(8, 8)),
        (6, lines(40), refuse(8, 8)),
    ];
    faults
        .map(|(plot, lines, expected)| (room.clone(), plot, lines, expected))
        .into()
}

fn adds_without_room() -> Vec<Add> {
    vec![
        (vec![0; 7], 7, LINE.into(), refuse(10, 0)),
        (vec![], 7, vec![], refuse(10, 0)),
        (vec![0; 4], 7, vec![], refuse(10, 0)),
        (after_plot_7(&[0; 7]), 8, LINE.into(), refuse(10, 8)),
        (after_plot_7(&[]), 8, vec![], refuse(10, 8)),
        (after_plot_7(&[]), 7, vec![], refuse(8, 8)),
        (after_plot_7(&[]), 8, vec![1], refuse(7, 8)),
        (after_plot_7(&[]), 0, vec![], refuse(7, 8)),
        (vec![0; 124], 9, lines(40), refuse(10, 0)),
        (full(), 36, vec![], refuse(10, 4048)),
        (without_lines(809), 810, vec![], refuse(10, 4045)),
        (vec![0; 4049], 9, vec![1], refuse(2, 0)),
        (vec![0, 0, 1], 9, vec![1], refuse(5, 0)),
        (after_plot_7(&[0x50]), 0, vec![1], refuse(6, 8)),
        (plots(&[7, 8, 8]), 9, vec![], refuse(8, 16)),
        (record(7, &[0, 0, 0]), 8, vec![], refuse_line(0, 1, 0)),
    ]
}
