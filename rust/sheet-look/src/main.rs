//! Looks at a film sheet in scratch mode: where the scratch of each block lies and how many cells a fill would change, as a table and, if asked
//! for, as a drawing; and, if asked for, every codeword within a run of up to L cells of each block that is not clean. No payload is written.

mod arguments;
mod candidates;
mod candidates_text;
mod drawing;
mod look;
mod readings;
mod records;
mod table;

use std::ffi::OsString;
use std::io::{self, ErrorKind, Write};
use std::path::Path;
use std::process::ExitCode;

use arguments::Request;
use sheet_file::Sheet;
use tishwabe::Error;

/// Why the program ends with a status that is not 0.
enum Failure {
    /// Status 2.
    Arguments(String),
    /// Status 1.
    Work(String),
}

fn main() -> ExitCode {
    let (status, message) = match answer(std::env::args_os().skip(1)).and_then(|text| print(&text)) {
        Ok(()) => return ExitCode::SUCCESS,
        Err(Failure::Work(message)) => (1, message),
        Err(Failure::Arguments(message)) => (2, format!("{message}\n{}", arguments::USAGE)),
    };
    // Where standard error takes nothing, the status still tells.
    let _ = writeln!(io::stderr(), "sheet-look: {message}");
    ExitCode::from(status)
}

/// The text for standard output. The drawing, if one is asked for, is written before.
fn answer(arguments: impl Iterator<Item = OsString>) -> Result<String, Failure> {
    match arguments::parse(arguments).map_err(Failure::Arguments)? {
        Request::Help => Ok(arguments::help()),
        Request::Look { file, limit, all, svg } => look(&file, limit, all, svg.as_deref()).map_err(Failure::Work),
    }
}

fn look(file: &Path, limit: Option<usize>, all: bool, svg: Option<&Path>) -> Result<String, String> {
    let named = |path: &Path, error: String| format!("{}: {error}", path.display());
    let refused = |error: Error| named(file, error.to_string());
    let (sheet, own_limit) = sheet(file, limit).map_err(|error| named(file, error))?;
    let (profile, looks) = (&sheet.profile, look::looks(&sheet).map_err(refused)?);
    let lists = all
        .then(|| candidates::candidates(&sheet))
        .transpose()
        .map_err(refused)?;
    if let Some(path) = svg {
        let drawing = drawing::svg(profile, own_limit, &looks, lists.as_deref());
        drawing::write(path, &drawing).map_err(|error| named(path, error))?;
    }
    let note = own_limit.map(|own| table::limits(profile, own) + "\n\n");
    let listed = lists.map(|lists| format!("\n{}", candidates_text::text(profile, &looks, &lists)));
    Ok(note.unwrap_or_default() + &table::text(profile, &looks) + &listed.unwrap_or_default())
}

/// The sheet of a file, under this limit if one is given, and then the limit of the file too.
fn sheet(file: &Path, limit: Option<usize>) -> Result<(Sheet, Option<usize>), String> {
    let sheet = Sheet::read(file)?;
    let Some(limit) = limit else {
        return Ok((sheet, None));
    };
    let own_limit = sheet.profile.limit();
    Ok((sheet.with_limit(limit)?, Some(own_limit)))
}

/// Prints the text. A reader that has seen enough and closed the pipe is no failure.
fn print(text: &str) -> Result<(), Failure> {
    let mut out = io::stdout().lock();
    match out.write_all(text.as_bytes()).and_then(|()| out.flush()) {
        Err(error) if error.kind() != ErrorKind::BrokenPipe => Err(Failure::Work(format!("standard output: {error}"))),
        _ => Ok(()),
    }
}
