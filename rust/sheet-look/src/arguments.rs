//! The program's arguments, and its help. Only the arguments themselves are judged here; whether the file is a sheet, and whether its profile takes the limit,
//! shows when it is read.

use std::ffi::OsString;
use std::path::PathBuf;

pub const USAGE: &str = "usage: sheet-look FILE [--svg OUT]";

const HELP: &str = "
Looks at a film sheet in scratch mode and tells where its scratches lie, before anything is mended. No payload is written.

  FILE       an input of the plot lister: the bytes n, r, b, L and D of the profile, then the D × n cells of the sheet
  --limit L  looks with this L, 0 to r − 1, in place of the one in FILE; what is then said of the reader is said of one with this L
  --all      lists every codeword within a run of up to L cells of each block that is not clean, after the table
  --svg OUT  draws the sheet to OUT as well; a file of that name is overwritten only if it is empty or begins with <svg
  --help     prints this

The table has a line for each block. Blocks and their cells are counted from 0.

  verdict    clean: nothing is to be mended
             mendable: a fill of this run mends the block
             torn (3): no run of up to L cells can be filled
             tied (4): two fills within equally short runs differ, so neither is taken
             thin (16): the shortest run has more than r/2 cells, and a fill would change at most half of them, so it is not taken
  start      the first cell of the run
  length     the cells of the run
  changed    the cells that a fill would change; the others of the run stay as they are

With --all a section follows for each block that is not clean. It lists every codeword within a run of up to L cells, once, by the run from the first to the
last cell that it changes, the shortest run first.

  chosen     the codeword that mending would take; where the block is refused there is none, and the first stands in for it
  bytes      the message in hexadecimal, each line with the number of its first byte; those in [] differ from those of the first codeword
  payload    the plots and trees on the sheet under this codeword, or why the payload is refused; and the plots and tally lines that read differently from
             those of the first codeword, or, where its payload is refused, of the first one listed whose payload is accepted. For every other block its
             first codeword is taken: as read, as mended, or, where that block is refused, only assumed; other combinations are not tried. No payload is
             shown where some block lists no codeword

The drawing then shows the cells of these blocks that are as read in every listed codeword, those that are changed to the same value in all of them, and
those that are disputed, as two of them differ there, with a dark centre if mending would change them.

The status is 0 if the sheet could be looked at, whatever the verdicts are, 1 if the file is no sheet, the L given is not below its r, or something could not
be read or written, and 2 if the arguments are wrong.
";

/// What the arguments ask for.
#[derive(Debug, PartialEq)]
pub enum Request {
    Help,
    Look {
        file: PathBuf,
        limit: Option<usize>,
        all: bool,
        svg: Option<PathBuf>,
    },
}

pub fn help() -> String {
    format!("{USAGE}\n{HELP}")
}

pub fn parse(mut arguments: impl Iterator<Item = OsString>) -> Result<Request, String> {
    let (mut file, mut limit, mut all, mut svg) = (None, None, false, None);
    while let Some(argument) = arguments.next() {
        match argument.to_str() {
            Some("--help" | "-h") => return Ok(Request::Help),
            Some("--limit") => {
                let number = arguments.next().and_then(|number| number.to_str()?.parse().ok());
                let number = number.ok_or("--limit needs a number from 0 to r − 1")?;
                once(&mut limit, number, "--limit")?;
            }
            Some("--all") if all => return Err("--all is given twice".into()),
            Some("--all") => all = true,
            Some("--svg") => {
                let out = arguments.next().filter(|out| !is_option(out));
                once(&mut svg, out.ok_or("--svg needs the name of a file")?.into(), "--svg")?;
            }
            _ if is_option(&argument) => return Err(format!("unknown argument {}", argument.display())),
            _ => once(&mut file, argument.into(), "FILE")?,
        }
    }
    let file = file.ok_or("FILE is missing")?;
    Ok(Request::Look { file, limit, all, svg })
}

fn is_option(argument: &OsString) -> bool {
    argument.as_encoded_bytes().starts_with(b"-")
}

fn once<T>(place: &mut Option<T>, argument: T, name: &str) -> Result<(), String> {
    match place.replace(argument) {
        None => Ok(()),
        Some(_) => Err(format!("{name} is given twice")),
    }
}

#[cfg(test)]
mod tests {
    use super::*;

    fn parsed(arguments: &[&str]) -> Result<Request, String> {
        parse(arguments.iter().map(OsString::from))
    }

    fn look(file: &str, limit: Option<usize>, all: bool, svg: Option<&str>) -> Result<Request, String> {
        let (file, svg) = (file.into(), svg.map(PathBuf::from));
        Ok(Request::Look { file, limit, all, svg })
    }

    #[test]
    fn accepted() {
        assert_eq!(parsed(&["a"]), look("a", None, false, None));
        assert_eq!(parsed(&["a", "--svg", "b"]), look("a", None, false, Some("b")));
        assert_eq!(parsed(&["--svg", "b", "a"]), look("a", None, false, Some("b")));
        assert_eq!(parsed(&["a", "--all"]), look("a", None, true, None));
        assert_eq!(parsed(&["--all", "--svg", "b", "a"]), look("a", None, true, Some("b")));
        assert_eq!(parsed(&["a", "--limit", "0"]), look("a", Some(0), false, None));
        assert_eq!(
            parsed(&["--limit", "20", "a", "--all"]),
            look("a", Some(20), true, None)
        );
        assert_eq!(parsed(&["a", "--help"]), Ok(Request::Help));
        assert_eq!(parsed(&["-h"]), Ok(Request::Help));
    }

    #[test]
    fn refused() {
        let number = "--limit needs a number from 0 to r − 1";
        for (arguments, message) in [
            (&[][..], "FILE is missing"),
            (&["--svg", "b"], "FILE is missing"),
            (&["a", "b"], "FILE is given twice"),
            (&["a", "--svg"], "--svg needs the name of a file"),
            (&["a", "--svg", "--help"], "--svg needs the name of a file"),
            (&["a", "--svg", "--all"], "--svg needs the name of a file"),
            (&["a", "--svg", "b", "--svg", "c"], "--svg is given twice"),
            (&["--all", "a", "--all"], "--all is given twice"),
            (&["a", "--limit"], number),
            (&["--limit", "a"], number),
            (&["--limit", "--all", "a"], number),
            (&["a", "--limit", "-1"], number),
            (&["a", "--limit", "99999999999999999999"], number),
            (&["a", "--limit", "1", "--limit", "1"], "--limit is given twice"),
            (&["--all"], "FILE is missing"),
            (&["a", "--fill"], "unknown argument --fill"),
            (&["-"], "unknown argument -"),
        ] {
            assert_eq!(parsed(arguments), Err(message.into()), "{arguments:?}");
        }
    }
}
