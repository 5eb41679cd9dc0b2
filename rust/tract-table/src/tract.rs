//! The sheets of a tract, read and added to one table.

use std::path::{Path, PathBuf};

use sheet_file::Sheet;
use tishwabe::{Error, Mode, StandTable};

use crate::species::List;

/// What a sheet brought into the table.
#[derive(Debug, PartialEq)]
pub struct Added {
    pub plots: u32,
    pub trees: u64,
    /// The blocks mended, and all blocks.
    pub mended: usize,
    pub blocks: usize,
}

/// A table with the sheets that it was made of.
pub struct Tract {
    pub table: StandTable,
    /// Each sheet with what it brought, or why it is not in the table.
    pub sheets: Vec<(PathBuf, Result<Added, String>)>,
    /// How many species were found, if no list was given.
    pub found: Option<usize>,
}

/// A sheet that was read.
struct Reading {
    payload: Vec<u8>,
    mended: usize,
    blocks: usize,
}

impl Reading {
    fn of(path: &Path, mode: Mode) -> Result<Reading, String> {
        let Sheet { profile, cells } = Sheet::read(path)?;
        let mut scratch = vec![0; profile.scratch_length()];
        let mut payload = vec![0; profile.payload_length()];
        let mended = profile
            .read_sheet_in(mode, &cells, &mut scratch, &mut payload)
            .map_err(|error| error.to_string())?;
        Ok(Reading {
            payload,
            mended,
            blocks: profile.depth(),
        })
    }

    /// Adds the payload to the table, and counts what that brought.
    fn add_to(&self, table: &mut StandTable) -> Result<Added, Error> {
        let (plots, trees) = (table.records(), table.total()?);
        table.add(&self.payload)?;
        Ok(Added {
            plots: table.records() - plots,
            trees: table.total()? - trees,
            mended: self.mended,
            blocks: self.blocks,
        })
    }
}

impl Tract {
    /// The sheets in these files, each read in its mode, and added in turn to a table of these species, or of those found.
    pub fn of(files: Vec<(PathBuf, Mode)>, species: Option<Vec<u8>>) -> Result<Tract, Error> {
        let readings: Vec<_> = files.iter().map(|(path, mode)| Reading::of(path, *mode)).collect();
        let (species, found) = match species {
            Some(species) => (species, None),
            None => {
                let List { species, found } = List::of(readings.iter().flatten().map(|reading| &reading.payload[..]))?;
                (species, Some(found))
            }
        };
        let mut table = StandTable::new(&species)?;
        let mut add = |reading: Reading| reading.add_to(&mut table).map_err(|error| error.to_string());
        let outcomes: Vec<Result<Added, String>> = readings.into_iter().map(|reading| add(reading?)).collect();
        let sheets = files.into_iter().map(|(path, _)| path).zip(outcomes).collect();
        Ok(Tract { table, sheets, found })
    }

    /// The number of sheets that are not in the table.
    pub fn left_out(&self) -> usize {
        self.sheets.iter().filter(|(_, outcome)| outcome.is_err()).count()
    }
}
