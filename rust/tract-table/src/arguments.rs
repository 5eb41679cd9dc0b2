//! The program's arguments, and its help.

use std::ffi::OsString;
use std::path::PathBuf;

use tishwabe::Mode;

pub const USAGE: &str = "usage: tract-table [--species LIST] {[--scratch | --spots] SHEET...}...";

const HELP: &str = "
Adds the plots of the film sheets of a tract to one stand table, trees by species and diameter class, and prints it.

  SHEET           an input of the plot lister: the bytes n, r, b, L and D of the profile, then the D × n cells of the sheet
  --species LIST  the species that have a row each, in this order: up to 16 different numbers from 1 to 99 with commas between, such as 3,7,12;
                  the row `others` takes the rest, and every tree if LIST is empty (''). Without --species every species that is found has a
                  row, in rising order; of more than 16 those with the most trees have one
  --spots         reads the sheets after it in spot mode, for damp film with single spots
  --scratch       reads the sheets after it in scratch mode, which is the mode at the beginning
  --help          prints this

First comes a line for each sheet: its plots, its trees, and how many of its blocks were mended; or why it is not in the table, with the number and
the place of the refusal. For torn (3), tied (4), spotted (11) and thin (16) the place is the block's number, for 5 to 8 it is a byte of the payload.
Up to 1,000 sheets go into a table. A plot that is on two sheets counts twice, and so does a sheet that is named twice.

Then comes the table. Its headings are diameter classes in centimetres; columns without a tree are left out, and of more than ten the rest follow
below. Last come all trees, all plots, and the trees per plot: a whole number, and how many trees that leaves over.

The status is 0 if every sheet is in the table, 1 if one is not or the text could not be written, and 2 if the arguments are wrong.
";

/// What the arguments ask for.
#[derive(Debug, PartialEq)]
pub enum Request {
    Help,
    Table {
        species: Option<Vec<u8>>,
        sheets: Vec<(PathBuf, Mode)>,
    },
}

pub fn help() -> String {
    format!("{USAGE}\n{HELP}")
}

pub fn parse(mut arguments: impl Iterator<Item = OsString>) -> Result<Request, String> {
    let (mut species, mut mode, mut sheets) = (None, Mode::Burst, Vec::new());
    // The option for the mode, until a sheet follows it.
    let mut unused: Option<String> = None;
    let needs_sheet = |option| Err(format!("{option} needs a SHEET after it"));
    while let Some(argument) = arguments.next() {
        match argument.to_str() {
            Some("--help" | "-h") => return Ok(Request::Help),
            Some(option @ ("--scratch" | "--spots")) => {
                mode = if option == "--spots" { Mode::Spots } else { Mode::Burst };
                if let Some(before) = unused.replace(option.into()) {
                    return needs_sheet(before);
                }
            }
            Some("--species") => {
                let list = arguments.next().and_then(|list| numbers(list.to_str()?));
                let list = list.ok_or("--species needs numbers with commas between, such as 3,7,12")?;
                if species.replace(list).is_some() {
                    return Err("--species is given twice".into());
                }
            }
            _ if is_option(&argument) => return Err(format!("unknown argument {}", argument.display())),
            _ => {
                sheets.push((argument.into(), mode));
                unused = None;
            }
        }
    }
    match unused {
        Some(option) => needs_sheet(option),
        None if sheets.is_empty() => Err("SHEET is missing".into()),
        None => Ok(Request::Table { species, sheets }),
    }
}

/// The numbers of a list. Whether they may be listed is for the table to say.
fn numbers(list: &str) -> Option<Vec<u8>> {
    if list.is_empty() {
        return Some(Vec::new());
    }
    list.split(',').map(|number| number.parse().ok()).collect()
}

fn is_option(argument: &OsString) -> bool {
    argument.as_encoded_bytes().starts_with(b"-")
}

#[cfg(test)]
mod tests {
    use super::*;

    fn parsed(arguments: &[&str]) -> Result<Request, String> {
        parse(arguments.iter().map(OsString::from))
    }

    fn table(species: Option<&[u8]>, sheets: &[(&str, Mode)]) -> Result<Request, String> {
        Ok(Request::Table {
            species: species.map(<[u8]>::to_vec),
            sheets: sheets.iter().map(|&(path, mode)| (path.into(), mode)).collect(),
        })
    }

    #[test]
    fn accepted() {
        let (a, b) = (("a", Mode::Burst), ("b", Mode::Burst));
        assert_eq!(parsed(&["a"]), table(None, &[a]));
        assert_eq!(parsed(&["a", "b", "a"]), table(None, &[a, b, a]));
        let list = [3, 7, 12];
        assert_eq!(parsed(&["--species", "3,7,12", "a", "b"]), table(Some(&list), &[a, b]));
        assert_eq!(parsed(&["a", "--species", ""]), table(Some(&[]), &[a]));
        // numbers that the table refuses
        assert_eq!(parsed(&["a", "--species", "0,100,0"]), table(Some(&[0, 100, 0]), &[a]));
        assert_eq!(parsed(&["a", "--help"]), Ok(Request::Help));
        assert_eq!(parsed(&["-h"]), Ok(Request::Help));
    }

    /// An option for the mode holds for the sheets after it, up to the next one.
    #[test]
    fn modes() {
        let (a, b) = (("a", Mode::Burst), ("b", Mode::Burst));
        let (c, d) = (("c", Mode::Spots), ("d", Mode::Spots));
        for (arguments, sheets) in [
            (&["--scratch", "a"][..], &[a][..]),
            (&["--spots", "c", "d"], &[c, d]),
            (&["a", "b", "--spots", "c", "d"], &[a, b, c, d]),
            (&["a", "--spots", "c", "--scratch", "b", "a"], &[a, c, b, a]),
            (
                &["--scratch", "a", "--spots", "c", "--scratch", "b", "--spots", "d"],
                &[a, c, b, d],
            ),
            (&["--spots", "c", "--spots", "d"], &[c, d]),
        ] {
            assert_eq!(parsed(arguments), table(None, sheets), "{arguments:?}");
        }
        let due = table(Some(&[3]), &[a, c]);
        assert_eq!(parsed(&["a", "--spots", "--species", "3", "c"]), due);
        assert_eq!(parsed(&["a", "--spots", "c", "--species", "3"]), due);
    }

    #[test]
    fn refused() {
        let needs = "--species needs numbers with commas between, such as 3,7,12";
        let (scratch, spots) = ("--scratch needs a SHEET after it", "--spots needs a SHEET after it");
        for (arguments, message) in [
            (&[][..], "SHEET is missing"),
            (&["--species", "3"], "SHEET is missing"),
            (&["--spots"], spots),
            (&["--spots", "--species", "3"], spots),
            (&["a", "--spots"], spots),
            (&["--spots", "a", "--scratch"], scratch),
            (&["a", "--scratch", "--species", ""], scratch),
            (&["--spots", "--scratch", "a"], spots),
            (&["--scratch", "--spots", "a"], scratch),
            (&["--spots", "--spots", "a"], spots),
            (&["a", "--species"], needs),
            (&["a", "--species", " "], needs),
            (&["a", "--species", ","], needs),
            (&["a", "--species", "3,"], needs),
            (&["a", "--species", "3, 7"], needs),
            (&["a", "--species", "256"], needs),
            (&["a", "--species", "pine"], needs),
            (&["--species", "3", "a", "--species", "7"], "--species is given twice"),
            (&["--species", "", "a", "--species", ""], "--species is given twice"),
            (&["a", "--mould"], "unknown argument --mould"),
            (&["-"], "unknown argument -"),
        ] {
            assert_eq!(parsed(arguments), Err(message.into()), "{arguments:?}");
        }
    }
}
