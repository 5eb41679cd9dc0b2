//! Document 02, Note 4: one table of trees by species and diameter class over a whole tract.
//! No cell is added to. The state that was handed in is kept as it was, and beside it the lines of every payload that was added. A cell is what was handed
//! in for it and the trees of all lines that fall in it, counted afresh from the lines each time; so are the counters.

use crate::plot::{self, HEADER};
use crate::refusal::{refuse, Refusal, BUFFER_LENGTH, NO_PLOTS, SPECIES_LIST, TRACT_FULL};
use std::collections::BTreeSet;

pub const ROWS: usize = 17;
pub const COLUMNS: usize = 20;
const MOST_LISTED: usize = 16;
const MOST_PAYLOADS: u64 = 1_000;
const MOST_HANDED_IN: u64 = 400_000_000;

/// Seventeen rows of twenty counts.
pub type Cells = [[u32; COLUMNS]; ROWS];

/// A table with its counters, as it is handed in and comes out.
#[derive(Clone, Debug, PartialEq, Eq)]
pub struct State {
    pub cells: Cells,
    pub payloads: u32,
    pub records: u32,
}

impl State {
    pub const EMPTY: State = State {
        cells: [[0; COLUMNS]; ROWS],
        payloads: 0,
        records: 0,
    };
}

/// Species, class and count.
type Line = [u8; 3];

/// The lines of a record.
type Tally = Vec<Line>;

/// Trees per plot: whole quotient and exact remainder.
#[derive(Clone, Copy, Debug, PartialEq, Eq)]
pub struct PerPlot {
    pub quotient: u64,
    pub remainder: u64,
}

#[derive(Clone, Debug)]
pub struct Stand {
    species: Vec<u8>,
    handed_in: State,
    /// The tallies of each payload that was added.
    added: Vec<Vec<Tally>>,
}

/// Refusal 13 unless the list has at most 16 numbers, all of them within 1 to 99 and none twice.
fn check_list(species: &[u8]) -> Result<(), Refusal> {
    let different: BTreeSet<&u8> = species.iter().filter(|number| (1..=99).contains(*number)).collect();
    if different.len() == species.len() && species.len() <= MOST_LISTED {
        Ok(())
    } else {
        refuse(SPECIES_LIST, 0)
    }
}

/// Whether the column is that of the class: 1 to 10, 11 to 20 and on to 191 to 200.
fn has_class(column: usize, class: u8) -> bool {
    (10 * column + 1..=10 * column + 10).contains(&usize::from(class))
}

/// The tallies of an accepted payload.
fn tallies(payload: &[u8]) -> Result<Vec<Tally>, Refusal> {
    let lines = |bytes: &[u8]| bytes.chunks(3).map(|line| [line[0], line[1], line[2]]).collect();
    let found = plot::records(payload)?.into_iter();
    Ok(found
        .map(|record| lines(&payload[record.start + HEADER..record.end]))
        .collect())
}

impl Stand {
    /// The empty table of these species.
    pub fn begin(species: &[u8]) -> Result<Stand, Refusal> {
        check_list(species)?;
        Ok(Stand::handed_in(species, State::EMPTY))
    }

    /// A state handed in with its species list. Nothing is refused here: each entry on the table refuses for itself.
    pub fn handed_in(species: &[u8], state: State) -> Stand {
        Stand {
            species: species.to_vec(),
            handed_in: state,
            added: Vec::new(),
        }
    }

    /// Adds a payload. Refusal 2, then those of the state, then that of a payload beyond 1,000, then the payload's others.
    pub fn add(&mut self, payload: &[u8]) -> Result<(), Refusal> {
        let tallies = tallies(payload);
        match tallies {
            Err(refusal) if refusal.number == BUFFER_LENGTH => return Err(refusal),
            _ => self.check()?,
        }
        if self.payloads() + 1 > MOST_PAYLOADS {
            return refuse(TRACT_FULL, 0);
        }
        self.added.push(tallies?);
        Ok(())
    }

    /// The sum of the cells.
    pub fn total(&self) -> Result<u64, Refusal> {
        self.check()?;
        Ok(self.cells().iter().sum())
    }

    /// The total over the number of records.
    pub fn trees_per_plot(&self) -> Result<PerPlot, Refusal> {
        let total = self.total()?;
        if self.records() == 0 {
            return refuse(NO_PLOTS, 0);
        }
        let remainder = total % self.records();
        let quotient = (total - remainder) / self.records();
        Ok(PerPlot { quotient, remainder })
    }

    /// The table and its counters as they are now.
    pub fn state(&self) -> State {
        let narrow = |number: u64| u32::try_from(number).expect("one payload more than the limit fits");
        let mut state = State::EMPTY;
        for (cell, number) in state.cells.as_flattened_mut().iter_mut().zip(self.cells()) {
            *cell = narrow(number);
        }
        state.payloads = narrow(self.payloads());
        state.records = narrow(self.records());
        state
    }

    /// Refusals 13 and 14 of a state: the list, then the cells and the counters.
    fn check(&self) -> Result<(), Refusal> {
        check_list(&self.species)?;
        let counters = [self.payloads(), self.records()];
        if self.cells().into_iter().chain(counters).max() > Some(MOST_HANDED_IN) {
            return refuse(TRACT_FULL, 0);
        }
        Ok(())
    }

    /// All cells, row by row.
    fn cells(&self) -> Vec<u64> {
        let places = (0..ROWS).flat_map(|row| (0..COLUMNS).map(move |column| (row, column)));
        places.map(|(row, column)| self.cell(row, column)).collect()
    }

    fn cell(&self, row: usize, column: usize) -> u64 {
        let lines = self.added.iter().flatten().flatten();
        let trees = lines
            .filter(|[species, class, _]| self.has_species(row, *species) && has_class(column, *class))
            .map(|[_, _, count]| u64::from(*count));
        u64::from(self.handed_in.cells[row][column]) + trees.sum::<u64>()
    }

    /// Whether the row is that of the species: its place in the list, or the last row if it is not listed.
    fn has_species(&self, row: usize, species: u8) -> bool {
        match self.species.get(row) {
            Some(listed) => *listed == species,
            None => row + 1 == ROWS && !self.species.contains(&species),
        }
    }

    fn payloads(&self) -> u64 {
        u64::from(self.handed_in.payloads) + self.added.len() as u64
    }

    fn records(&self) -> u64 {
        let added: usize = self.added.iter().map(Vec::len).sum();
        u64::from(self.handed_in.records) + added as u64
    }
}

#[cfg(test)]
mod tests;
