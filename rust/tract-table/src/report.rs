//! The text: a line for each sheet, the table, and a line for the tract.

use std::path::Path;

use sheet_file::counted;
use tishwabe::{Error, TreesPerPlot};

use crate::tract::{Added, Tract};

pub fn text(tract: &Tract) -> Result<String, Error> {
    let sheets: String = tract
        .sheets
        .iter()
        .map(|(path, outcome)| sheet(path, outcome))
        .collect();
    let heading = format!("Trees by species and diameter class in centimetres{}:", rows(tract));
    Ok(format!(
        "{sheets}\n{heading}\n\n{}\n\n{}\n",
        tract.table,
        summary(tract)?
    ))
}

fn sheet(path: &Path, outcome: &Result<Added, String>) -> String {
    let path = path.display();
    match outcome {
        Ok(added) => {
            let (plots, trees) = (counted(added.plots, "plot"), counted(added.trees, "tree"));
            let blocks = counted(added.blocks, "block");
            format!("{path}: {plots}, {trees}, {} of {blocks} mended\n", added.mended)
        }
        Err(reason) => format!("{path}: not in the table: {reason}\n"),
    }
}

/// Which species have a row, where more were found than can have one.
fn rows(tract: &Tract) -> String {
    let listed = tract.table.species().len();
    match tract.found {
        Some(found) if found > listed => {
            format!(", the {listed} of {found} species with the most trees in rows of their own")
        }
        _ => String::new(),
    }
}

/// The tract in one line: trees, plots and trees per plot, and whether a sheet is left out.
fn summary(tract: &Tract) -> Result<String, Error> {
    let trees = counted(tract.table.total()?, "tree");
    let plots = counted(tract.table.records(), "plot");
    let per_plot = match tract.table.trees_per_plot() {
        Ok(TreesPerPlot { quotient, remainder }) => {
            format!(": {} per plot and {remainder} over.", counted(quotient, "tree"))
        }
        Err(error) => format!(
            ", and so no trees per plot: {} (refusal {}).",
            error.called(),
            error.number()
        ),
    };
    let left_out = left_out(tract).map_or(String::new(), |text| format!(" {text}."));
    Ok(format!("{trees} on {plots}{per_plot}{left_out}"))
}

/// How many sheets are not in the table, if there is one.
pub fn left_out(tract: &Tract) -> Option<String> {
    let (left_out, all) = (tract.left_out(), counted(tract.sheets.len(), "sheet"));
    let verb = if left_out == 1 { "is" } else { "are" };
    (left_out > 0).then(|| format!("{left_out} of {all} {verb} not in the table"))
}
