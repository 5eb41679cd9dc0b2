//! The stand table of a tract: trees by species and diameter class, over many payloads.

mod text;

use crate::error::{accepted, payload_accepted, Error};
use crate::ffi::table::{self, State};
use std::fmt;
use std::ops::RangeInclusive;

/// Seventeen rows of twenty counts.
pub type Counts = [[u32; StandTable::COLUMNS]; StandTable::ROWS];

/// The row of the species that are not listed.
const LAST: usize = StandTable::ROWS - 1;

/// Whose trees a row counts. `Display` gives the species number, or `others`.
#[derive(Clone, Copy, Debug, PartialEq, Eq, Hash)]
pub enum RowLabel {
    /// Those of a listed species.
    Species(u8),
    /// Those of every species that is not listed.
    Others,
}

impl fmt::Display for RowLabel {
    fn fmt(&self, f: &mut fmt::Formatter<'_>) -> fmt::Result {
        match self {
            RowLabel::Species(number) => number.fmt(f),
            RowLabel::Others => f.pad("others"),
        }
    }
}

/// Trees per plot, exactly: so many whole trees on each plot, and so many left over. With 149 trees on 12 plots the quotient is 12 and the remainder
/// 5, as 149 = 12 × 12 + 5: 12 trees and 5/12 of a tree per plot.
#[derive(Clone, Copy, Debug, PartialEq, Eq, Hash)]
pub struct TreesPerPlot {
    /// The total over the number of records, rounded down.
    pub quotient: u64,
    /// What that leaves of the total. It is below the number of records.
    pub remainder: u64,
}

/// One table over a whole tract, with its species list and two counters. Payloads are added one after another, up to 1,000. Each of up to 16 listed
/// species has a row, in the list's order, and the last row, row 16, takes all others; column 0 takes the classes 1 to 10, column 1 those from 11 to
/// 20, and so on to 191 to 200. `Default` is the empty table of the empty list.
///
/// ```
/// use tishwabe::{add, Error, StandTable, TreesPerPlot};
/// let mut payload = [0; 40];
/// add(&mut payload, 101, &[3, 32, 2, 7, 18, 5])?;
/// add(&mut payload, 102, &[3, 38, 1, 9, 44, 3])?;
///
/// let mut table = StandTable::new(&[7, 3])?;
/// table.add(&payload)?;
/// assert_eq!((table.cell(0, 1), table.cell(1, 3), table.cell(16, 4)), (Some(5), Some(3), Some(3)));
/// assert_eq!((table.payloads(), table.records(), table.total()), (1, 2, Ok(11)));
/// assert_eq!(table.trees_per_plot(), Ok(TreesPerPlot { quotient: 5, remainder: 1 }));
/// assert_eq!(table.to_string(), "\
/// species  11-20  31-40  41-50  total
///       7      5      0      0      5
///       3      0      3      0      3
///  others      0      0      3      3
///   total      5      3      3     11");
///
/// // A refusal changes nothing.
/// let before = table.clone();
/// assert_eq!(table.add(&[0, 1]), Err(Error::BadMark { place: 0 }));
/// assert_eq!(table, before);
/// # Ok::<(), Error>(())
/// ```
///
/// `Display` is a table to look at: a line for each row in use, headed by its species, with its sum at the end, then the sums of the columns; the
/// headings are the classes of the columns. Columns in which no row has a tree are left out. At most ten columns stand side by side; further ones
/// follow below, with the sums of the rows at the end of the last ones. A row that is not in use has a line only if it has trees, which a state handed
/// in may have.
#[derive(Clone, Debug, Default, PartialEq, Eq)]
pub struct StandTable {
    species: Vec<u8>,
    state: State,
}

impl StandTable {
    /// The rows of a table: 16 for listed species, and one for the others.
    pub const ROWS: usize = 17;
    /// The columns of a table, ten diameter classes each.
    pub const COLUMNS: usize = 20;

    /// The empty table of a species list, which may be empty.
    ///
    /// ```
    /// use tishwabe::{Error, StandTable};
    /// assert_eq!(StandTable::new(&[7, 3])?.total(), Ok(0));
    /// assert_eq!(StandTable::new(&[])?, StandTable::default());
    /// assert_eq!(StandTable::new(&[7, 3, 7]), Err(Error::SpeciesList));
    /// assert_eq!(StandTable::new(&[100]), Err(Error::SpeciesList));
    /// # Ok::<(), Error>(())
    /// ```
    pub fn new(species: &[u8]) -> Result<StandTable, Error> {
        let mut state = State::default();
        let number = table::begin(species, &mut state);
        let species = species.to_vec();
        accepted(number, 0, StandTable { species, state })
    }

    /// A table that was kept elsewhere, as [`StandTable::species`], [`StandTable::table`], [`StandTable::payloads`] and [`StandTable::records`] gave
    /// it. Nothing is checked here. Adding, total and trees per plot refuse a list that [`StandTable::new`] refuses, and a cell or a counter above
    /// 400,000,000; a table that was begun empty and only added to never has one.
    ///
    /// ```
    /// use tishwabe::{Error, StandTable};
    /// let mut counts = [[0; 20]; 17];
    /// counts[0][3] = 149;
    /// let table = StandTable::from_state(&[3], counts, 2, 12);
    /// assert_eq!(table.trees_per_plot().map(|found| (found.quotient, found.remainder)), Ok((12, 5)));
    ///
    /// counts[16][19] = 400_000_001;
    /// let table = StandTable::from_state(&[3], counts, 2, 12);
    /// assert_eq!(table.total(), Err(Error::TractFull));
    /// ```
    pub fn from_state(species: &[u8], table: Counts, payloads: u32, records: u32) -> StandTable {
        let state = State {
            table,
            payloads,
            records,
        };
        StandTable {
            species: species.to_vec(),
            state,
        }
    }

    /// Adds the trees of every record of a payload of at most 4,048 bytes. A payload counts though it has no record, and a plot number that came in an
    /// earlier payload counts again. A refusal leaves the table and its counters as they were.
    ///
    /// ```
    /// use tishwabe::{Error, StandTable};
    /// let mut table = StandTable::new(&[3])?;
    /// for _ in 0..1_000 {
    ///     table.add(&[0x50, 0x4C, 7, 0, 1, 3, 32, 2])?;
    /// }
    /// assert_eq!(table.add(&[]), Err(Error::TractFull));
    /// assert_eq!(table.total(), Ok(2_000));
    /// # Ok::<(), Error>(())
    /// ```
    pub fn add(&mut self, payload: &[u8]) -> Result<(), Error> {
        payload_accepted(table::add(&self.species, &mut self.state, payload), ())
    }

    /// The sum of the cells.
    pub fn total(&self) -> Result<u64, Error> {
        let (number, total) = table::total(&self.species, &self.state);
        accepted(number, 0, total)
    }

    /// The total over the number of records.
    ///
    /// ```
    /// use tishwabe::{Error, StandTable};
    /// assert_eq!(StandTable::new(&[3])?.trees_per_plot(), Err(Error::NoPlots));
    /// # Ok::<(), Error>(())
    /// ```
    pub fn trees_per_plot(&self) -> Result<TreesPerPlot, Error> {
        let (number, quotient, remainder) = table::trees_per_plot(&self.species, &self.state);
        accepted(number, 0, TreesPerPlot { quotient, remainder })
    }

    /// The listed species.
    pub fn species(&self) -> &[u8] {
        &self.species
    }

    /// All cells, row by row.
    pub fn table(&self) -> &Counts {
        &self.state.table
    }

    /// The number of payloads added.
    pub fn payloads(&self) -> u32 {
        self.state.payloads
    }

    /// The number of records added.
    pub fn records(&self) -> u32 {
        self.state.records
    }

    /// The count of a cell, row and column from 0, if the table has it.
    pub fn cell(&self, row: usize, column: usize) -> Option<u32> {
        self.table().get(row)?.get(column).copied()
    }

    /// Whose trees a row counts. There is none where the row is not in use.
    pub fn row_label(&self, row: usize) -> Option<RowLabel> {
        match row {
            LAST => Some(RowLabel::Others),
            0..LAST => self.species.get(row).map(|&number| RowLabel::Species(number)),
            _ => None,
        }
    }

    /// The rows in use: those of the listed species in their order, then the last one.
    ///
    /// ```
    /// use tishwabe::{RowLabel, StandTable};
    /// let table = StandTable::new(&[7, 3])?;
    /// let labels: Vec<RowLabel> = table.rows().map(|(label, _)| label).collect();
    /// assert_eq!(labels, [RowLabel::Species(7), RowLabel::Species(3), RowLabel::Others]);
    /// # Ok::<(), tishwabe::Error>(())
    /// ```
    pub fn rows(&self) -> impl Iterator<Item = (RowLabel, &[u32; StandTable::COLUMNS])> {
        let rows = self.table().iter().enumerate();
        rows.filter_map(|(row, counts)| Some((self.row_label(row)?, counts)))
    }

    /// The diameter classes of a column, if the table has it.
    ///
    /// ```
    /// use tishwabe::StandTable;
    /// assert_eq!(StandTable::column_range(0), Some(1..=10));
    /// assert_eq!(StandTable::column_range(19), Some(191..=200));
    /// assert_eq!(StandTable::column_range(20), None);
    /// ```
    pub fn column_range(column: usize) -> Option<RangeInclusive<u8>> {
        let first = u8::try_from(column).ok().filter(|_| column < StandTable::COLUMNS)? * 10 + 1;
        Some(first..=first + 9)
    }
}
