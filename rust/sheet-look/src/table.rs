//! The table: a line for each block, and one for the sheet. The drawing tells the same of the sheet, with the sentences that are made here.

use sheet_file::counted;
use tishwabe::Profile;

use crate::look::Look;

pub fn text(profile: &Profile, looks: &[Look]) -> String {
    let rows = looks.iter().enumerate().map(|(block, look)| row(block, look));
    let head = "block  verdict    start  length  changed\n".to_string();
    head + &rows.collect::<String>() + &summary(profile, looks) + "\n"
}

fn row(block: usize, look: &Look) -> String {
    let [start, length, changed] = match look.run {
        Some(run) => [run.start, run.length, look.changed.len()].map(|number| number.to_string()),
        None => ["-"; 3].map(String::from),
    };
    format!("{block:5}  {:9}  {start:>5}  {length:>6}  {changed:>7}\n", look.word())
}

/// The limit looked with, which need not be the sheet's own.
pub fn limits(profile: &Profile, own: usize) -> String {
    format!("Looked at with L = {}; the L of the sheet is {own}.", profile.limit())
}

/// How many blocks have which verdict.
pub fn counts(profile: &Profile, looks: &[Look]) -> String {
    let refused = looks.iter().filter(|look| look.verdict.is_err()).count();
    let mendable = looks.iter().filter(|look| look.is_mendable()).count();
    let clean = looks.len() - mendable - refused;
    let (blocks, n) = (counted(looks.len(), "block"), profile.n());
    format!("{blocks} of {n} cells: {clean} clean, {mendable} mendable, {refused} refused")
}

/// How many cells the fills of mendable blocks would change, and where on the sheet the first and the last of them lie.
pub fn changes(profile: &Profile, looks: &[Look]) -> String {
    let mut changed: Vec<usize> = vec![];
    for (block, look) in looks.iter().enumerate() {
        changed.extend(look.mended().iter().map(|cell| cell * profile.depth() + block));
    }
    changed.sort();
    let cells = match changed[..] {
        [] => "no cell".into(),
        [cell] => format!("1 cell, sheet cell {cell}"),
        [first, .., last] => format!("{} cells, from sheet cell {first} to {last}", changed.len()),
    };
    format!("Filling would change {cells}.")
}

/// The sheet in one line: the counts, the changes, and for which block its reader would refuse it.
pub fn summary(profile: &Profile, looks: &[Look]) -> String {
    let mut text = format!("{}. {}", counts(profile, looks), changes(profile, looks));
    if let Some((block, look)) = looks.iter().enumerate().find(|(_, look)| look.verdict.is_err()) {
        text += &format!(" The reader would refuse the sheet for block {block}, {}.", look.word());
    }
    text + " No payload was written."
}
