//! The refusals of documents 01 and 02, with their numbers and places, and for a bad tally the line and the value at fault.

use crate::ffi::PayloadAnswer;
use std::fmt;

/// What fails first in a tally line: document 02's figures.
#[derive(Clone, Copy, Debug, PartialEq, Eq, Hash)]
pub enum Figure {
    /// 1: the species number is not 1 to 99.
    Species = 1,
    /// 2: the diameter class is not 1 to 200.
    Class = 2,
    /// 3: the tree count is 0.
    Count = 3,
    /// 4: the line does not rise above the line before, by species and then by class.
    Order = 4,
}

impl Figure {
    const ALL: [Figure; 4] = [Figure::Species, Figure::Class, Figure::Count, Figure::Order];

    /// Its number, 1 to 4 in document 02.
    pub fn number(self) -> u8 {
        self as u8
    }

    /// None for 0, where no line is at fault. The library answers no number above 4.
    fn from_number(number: usize) -> Option<Figure> {
        Figure::ALL
            .into_iter()
            .find(|figure| usize::from(figure.number()) == number)
    }
}

impl fmt::Display for Figure {
    fn fmt(&self, f: &mut fmt::Formatter<'_>) -> fmt::Result {
        f.write_str(match self {
            Figure::Species => "species number out of range",
            Figure::Class => "diameter class out of range",
            Figure::Count => "tree count out of range",
            Figure::Order => "species and class not above the line before",
        })
    }
}

/// The first bad line of a tally, and what fails first in it.
#[derive(Clone, Copy, Debug, PartialEq, Eq, Hash)]
pub struct LineFault {
    /// The line's index in its record or among the lent lines. It counts from 0, as document 02 does: the record's first line is line 0.
    pub index: usize,
    /// What fails first.
    pub figure: Figure,
}

impl fmt::Display for LineFault {
    fn fmt(&self, f: &mut fmt::Formatter<'_>) -> fmt::Result {
        write!(f, "line {}: {}", self.index, self.figure)
    }
}

/// Why an entry refused. `Display` gives the documents' word for it, its number and its place; from 11 on it says what is meant, and for a fault
/// in a tally line which line, that the first line is 0, and which value.
///
/// ```
/// use tishwabe::{Error, Figure, LineFault};
/// assert_eq!(Error::BadMark { place: 8 }.to_string(), "bad mark (refusal 5, place 8)");
/// assert_eq!(Error::Uncorrectable { block: 2 }.to_string(), "torn (refusal 3, place 2)");
/// let spotted = Error::TooManyErrors { block: 2 }.to_string();
/// assert_eq!(spotted, "spotted: no codeword differs in at most h cells (refusal 11, place 2)");
/// let span = Error::BadSpan.to_string();
/// assert_eq!(span, "bad span: start plus length exceeds n, or length exceeds r − 1 (refusal 12, place 0)");
/// let list = Error::SpeciesList.to_string();
/// assert_eq!(list, "species list: a number outside 1 to 99, a repeat, or more than 16 (refusal 13, place 0)");
/// let tract = Error::TractFull.to_string();
/// assert_eq!(tract, "tract full: a payload beyond 1,000, or a cell or counter above 400,000,000 (refusal 14, place 0)");
/// assert_eq!(Error::NoPlots.to_string(), "no plots: no record was added (refusal 15, place 0)");
/// let sparse = Error::Sparse { block: 2 }.to_string();
/// assert_eq!(sparse, "thin: a run of more than r/2 cells, of which at most half would be changed (refusal 16, place 2)");
///
/// let outside_a_line = Error::BadTally { place: 12, line: None };
/// assert_eq!(outside_a_line.to_string(), "bad tally (refusal 7, place 12)");
/// let text = |figure| Error::BadTally { place: 12, line: Some(LineFault { index: 3, figure }) }.to_string();
/// let (start, end) = ("bad tally: plot record at byte 12, line 3:", "(refusal 7, place 12, lines counted from 0)");
/// assert_eq!(text(Figure::Species), format!("{start} species number out of range {end}"));
/// assert_eq!(text(Figure::Class), format!("{start} diameter class out of range {end}"));
/// assert_eq!(text(Figure::Count), format!("{start} tree count out of range {end}"));
/// assert_eq!(text(Figure::Order), format!("{start} species and class not above the line before {end}"));
/// ```
#[derive(Clone, Copy, Debug, PartialEq, Eq, Hash)]
pub enum Error {
    /// 1, "misprint": a profile number is outside its range.
    BadProfile,
    /// 2, "wrong frame": a lent buffer, lent lines aside, hasn't exactly its length, or a payload exceeds 4,048 bytes.
    WrongLength,
    /// 3, "torn": no run up to the profile's limit reaches a codeword. The block is 0 for a lone block. From [`Profile::fill_block`] it speaks of
    /// the run named alone, whatever the limit is: no codeword agrees with the read cells outside that run.
    ///
    /// [`Profile::fill_block`]: crate::Profile::fill_block
    Uncorrectable {
        /// The number of the block.
        block: usize,
    },
    /// 4, "tied": shortest runs reach two different codewords. The block is 0 for a lone block.
    Ambiguous {
        /// The number of the block.
        block: usize,
    },
    /// 5, "bad mark": mark wrong, or a byte after the first zero isn't zero.
    BadMark {
        /// The byte of the payload.
        place: usize,
    },
    /// 6, "cut short": header or lines pass the payload's end.
    CutShort {
        /// The byte of the payload.
        place: usize,
    },
    /// 7, "bad tally": more than 40 lines, plot number 0, range or rise of lines, or lent lines not 0 to 120 bytes in threes.
    BadTally {
        /// The byte of the payload.
        place: usize,
        /// The line at fault, if the fault is in a line.
        line: Option<LineFault>,
    },
    /// 8, "plot order": plot number not above the one before.
    PlotOrder {
        /// The byte of the payload.
        place: usize,
    },
    /// 9, "no such plot": payload accepted, plot absent.
    NoSuchPlot,
    /// 10, "full": the record needs more bytes than are left after the last record.
    Full {
        /// The byte of the payload.
        place: usize,
    },
    /// 11, "spotted", in spot mode only: no codeword differs in at most h cells. The block is 0 for a lone block.
    TooManyErrors {
        /// The number of the block.
        block: usize,
    },
    /// 12, "bad span": of the run to be filled, start plus length exceeds n, or length exceeds r − 1.
    BadSpan,
    /// 13, "species list": a listed species number is not 1 to 99, one is repeated, or there are more than 16.
    SpeciesList,
    /// 14, "tract full": the table has 1,000 payloads, or a cell or a counter of the state handed in is above 400,000,000.
    TractFull,
    /// 15, "no plots", of the trees per plot only: no record was added.
    NoPlots,
    /// 16, "thin", in scratch mode only: the shortest run that reaches a codeword is longer than half of r, and at most half of its cells would be changed.
    /// The block is 0 for a lone block. Earlier versions accepted such a run. [`Profile::fill_block`] still fills it where it is named, and in spot mode
    /// ([`Profile::correct_spots`], [`Mode::Spots`]) the block goes to the same codeword, which differs in at most h cells.
    ///
    /// [`Profile::fill_block`]: crate::Profile::fill_block
    /// [`Profile::correct_spots`]: crate::Profile::correct_spots
    /// [`Mode::Spots`]: crate::Mode::Spots
    Sparse {
        /// The number of the block.
        block: usize,
    },
}

impl Error {
    /// Its number, 1 to 10 in document 01, 11 to 16 in document 02.
    pub fn number(self) -> u8 {
        match self {
            Error::BadProfile => 1,
            Error::WrongLength => 2,
            Error::Uncorrectable { .. } => 3,
            Error::Ambiguous { .. } => 4,
            Error::BadMark { .. } => 5,
            Error::CutShort { .. } => 6,
            Error::BadTally { .. } => 7,
            Error::PlotOrder { .. } => 8,
            Error::NoSuchPlot => 9,
            Error::Full { .. } => 10,
            Error::TooManyErrors { .. } => 11,
            Error::BadSpan => 12,
            Error::SpeciesList => 13,
            Error::TractFull => 14,
            Error::NoPlots => 15,
            Error::Sparse { .. } => 16,
        }
    }

    /// Its place: a block's number, or a byte of the payload, or 0.
    pub fn place(self) -> usize {
        match self {
            Error::BadProfile | Error::WrongLength | Error::NoSuchPlot | Error::BadSpan => 0,
            Error::SpeciesList | Error::TractFull | Error::NoPlots => 0,
            Error::Uncorrectable { block }
            | Error::Ambiguous { block }
            | Error::TooManyErrors { block }
            | Error::Sparse { block } => block,
            Error::BadMark { place }
            | Error::CutShort { place }
            | Error::BadTally { place, .. }
            | Error::PlotOrder { place }
            | Error::Full { place } => place,
        }
    }

    /// The line at fault, if there is one.
    fn line_fault(self) -> Option<LineFault> {
        match self {
            Error::BadTally { line, .. } => line,
            _ => None,
        }
    }

    /// The number of what fails first in the line at fault, or 0 if no line is.
    ///
    /// ```
    /// use tishwabe::{add, Error, Figure, LineFault};
    /// let refused = add(&mut [0; 20], 7, &[3, 32, 2, 3, 201, 1]).unwrap_err();
    /// let line = Some(LineFault { index: 1, figure: Figure::Class });
    /// assert_eq!(refused, Error::BadTally { place: 0, line });
    /// assert_eq!((refused.number(), refused.place(), refused.figure(), refused.line()), (7, 0, 2, 1));
    /// ```
    pub fn figure(self) -> u8 {
        self.line_fault().map_or(0, |fault| fault.figure.number())
    }

    /// The index of the line at fault, counted from 0, or 0 if no line is.
    pub fn line(self) -> usize {
        self.line_fault().map_or(0, |fault| fault.index)
    }

    /// The documents' word for it.
    pub fn called(self) -> &'static str {
        match self {
            Error::BadProfile => "misprint",
            Error::WrongLength => "wrong frame",
            Error::Uncorrectable { .. } => "torn",
            Error::Ambiguous { .. } => "tied",
            Error::BadMark { .. } => "bad mark",
            Error::CutShort { .. } => "cut short",
            Error::BadTally { .. } => "bad tally",
            Error::PlotOrder { .. } => "plot order",
            Error::NoSuchPlot => "no such plot",
            Error::Full { .. } => "full",
            Error::TooManyErrors { .. } => "spotted",
            Error::BadSpan => "bad span",
            Error::SpeciesList => "species list",
            Error::TractFull => "tract full",
            Error::NoPlots => "no plots",
            Error::Sparse { .. } => "thin",
        }
    }
}

impl fmt::Display for Error {
    fn fmt(&self, f: &mut fmt::Formatter<'_>) -> fmt::Result {
        f.write_str(self.called())?;
        match self {
            Error::TooManyErrors { .. } => f.write_str(": no codeword differs in at most h cells")?,
            Error::BadSpan => f.write_str(": start plus length exceeds n, or length exceeds r − 1")?,
            Error::SpeciesList => f.write_str(": a number outside 1 to 99, a repeat, or more than 16")?,
            Error::TractFull => f.write_str(": a payload beyond 1,000, or a cell or counter above 400,000,000")?,
            Error::NoPlots => f.write_str(": no record was added")?,
            Error::Sparse { .. } => {
                f.write_str(": a run of more than r/2 cells, of which at most half would be changed")?
            }
            Error::BadTally {
                place,
                line: Some(fault),
            } => write!(f, ": plot record at byte {place}, {fault}")?,
            _ => {}
        }
        write!(f, " (refusal {}, place {}", self.number(), self.place())?;
        f.write_str(self.line_fault().map_or(")", |_| ", lines counted from 0)"))
    }
}

impl std::error::Error for Error {}

/// The value, unless the number is a refusal's. Only an entry that takes a payload names a line.
pub(crate) fn accepted<T>(number: usize, place: usize, value: T) -> Result<T, Error> {
    let answer = PayloadAnswer {
        number,
        place,
        ..PayloadAnswer::default()
    };
    payload_accepted(answer, value)
}

/// The value, unless the number is a refusal's. The library answers no number above 16.
pub(crate) fn payload_accepted<T>(answer: PayloadAnswer, value: T) -> Result<T, Error> {
    let PayloadAnswer { place, line: index, .. } = answer;
    Err(match answer.number {
        0 => return Ok(value),
        1 => Error::BadProfile,
        2 => Error::WrongLength,
        3 => Error::Uncorrectable { block: place },
        4 => Error::Ambiguous { block: place },
        5 => Error::BadMark { place },
        6 => Error::CutShort { place },
        7 => {
            let line = Figure::from_number(answer.figure).map(|figure| LineFault { index, figure });
            Error::BadTally { place, line }
        }
        8 => Error::PlotOrder { place },
        9 => Error::NoSuchPlot,
        10 => Error::Full { place },
        11 => Error::TooManyErrors { block: place },
        12 => Error::BadSpan,
        13 => Error::SpeciesList,
        14 => Error::TractFull,
        15 => Error::NoPlots,
        _ => Error::Sparse { block: place },
    })
}
