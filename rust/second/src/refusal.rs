//! Refusals: document 01's numbers 1 to 10 and document 02's from 11 on, each with one place, and for a bad tally the value and the line.
//! One struct serves blocks, sheets, payloads, the lister and the stand table.

/// Document 01: "misprint".
pub const PROFILE_RANGE: u8 = 1;
/// Document 01: "wrong frame".
pub const BUFFER_LENGTH: u8 = 2;
/// Document 01: "torn".
pub const NO_CODEWORD: u8 = 3;
/// Document 01: "tied".
pub const AMBIGUOUS: u8 = 4;
/// Document 01: "bad mark".
pub const BAD_MARK: u8 = 5;
/// Document 01: "cut short".
pub const TRUNCATED: u8 = 6;
/// Document 01: "bad tally".
pub const BAD_LINES: u8 = 7;
/// Document 01: "plot order".
pub const PLOT_ORDER: u8 = 8;
/// Document 01: "no such plot".
pub const NO_SUCH_PLOT: u8 = 9;
/// Document 01: "full".
pub const NO_SPACE: u8 = 10;
/// Document 02, Note 1: "spotted".
pub const NO_CODEWORD_NEAR: u8 = 11;
/// Document 02, Note 3: "bad span".
pub const RUN_OUT_OF_RANGE: u8 = 12;
/// Document 02, Note 4: "species list".
pub const SPECIES_LIST: u8 = 13;
/// Document 02, Note 4: "tract full".
pub const TRACT_FULL: u8 = 14;
/// Document 02, Note 4: "no plots".
pub const NO_PLOTS: u8 = 15;
/// Document 02, Note 7: "thin".
pub const SPARSE: u8 = 16;

/// Document 02, Note 2: what fails in a tally line is its species.
pub const SPECIES: u8 = 1;
/// Document 02, Note 2: its class.
pub const CLASS: u8 = 2;
/// Document 02, Note 2: its count.
pub const COUNT: u8 = 3;
/// Document 02, Note 2: its rise above the line before.
pub const RISE: u8 = 4;

/// A refusal's number and place; beside number 7, what fails first in the first bad line and that line's index from 0. Both are 0 for a fault
/// outside a line and for every other number.
#[derive(Clone, Copy, Debug, PartialEq, Eq)]
pub struct Refusal {
    pub number: u8,
    pub place: usize,
    pub figure: u8,
    pub line: usize,
}

/// The refusal of this number at this place, with no line at fault, as an error.
pub fn refuse<T>(number: u8, place: usize) -> Result<T, Refusal> {
    Err(Refusal {
        number,
        place,
        figure: 0,
        line: 0,
    })
}

/// The refusal of a tally at this place for what fails in one of its lines, as an error.
pub fn refuse_line<T>(place: usize, figure: u8, line: usize) -> Result<T, Refusal> {
    Err(Refusal {
        number: BAD_LINES,
        place,
        figure,
        line,
    })
}
