//! Adds the film sheets of a tract to one stand table and prints it: trees by species and diameter class, all trees, and trees per plot. A sheet that
//! is refused is told of and leaves the table as it was.

mod arguments;
mod report;
mod species;
mod tract;

use std::ffi::OsString;
use std::io::{self, ErrorKind, Write};
use std::path::PathBuf;
use std::process::ExitCode;

use arguments::Request;
use tishwabe::{Mode, StandTable};
use tract::Tract;

/// Why the program ends with a status that is not 0.
enum Failure {
    /// Status 2.
    Arguments(String),
    /// Status 1.
    Work(String),
}

fn main() -> ExitCode {
    let (status, message) = match run(std::env::args_os().skip(1)) {
        Ok(()) => return ExitCode::SUCCESS,
        Err(Failure::Work(message)) => (1, message),
        Err(Failure::Arguments(message)) => (2, format!("{message}\n{}", arguments::USAGE)),
    };
    // Where standard error takes nothing, the status still tells.
    let _ = writeln!(io::stderr(), "tract-table: {message}");
    ExitCode::from(status)
}

fn run(arguments: impl Iterator<Item = OsString>) -> Result<(), Failure> {
    match arguments::parse(arguments).map_err(Failure::Arguments)? {
        Request::Help => print(&arguments::help()),
        Request::Table { species, sheets } => table(species, sheets),
    }
}

/// Prints the table. It is printed too where a sheet is left out, which is a failure all the same.
fn table(species: Option<Vec<u8>>, sheets: Vec<(PathBuf, Mode)>) -> Result<(), Failure> {
    if let Some(list) = &species {
        StandTable::new(list).map_err(|error| Failure::Arguments(error.to_string()))?;
    }
    let work = |error: tishwabe::Error| Failure::Work(error.to_string());
    let tract = Tract::of(sheets, species).map_err(work)?;
    print(&report::text(&tract).map_err(work)?)?;
    report::left_out(&tract).map_or(Ok(()), |message| Err(Failure::Work(message)))
}

/// Prints the text. A reader that has seen enough and closed the pipe is no failure.
fn print(text: &str) -> Result<(), Failure> {
    let mut out = io::stdout().lock();
    match out.write_all(text.as_bytes()).and_then(|()| out.flush()) {
        Err(error) if error.kind() != ErrorKind::BrokenPipe => Err(Failure::Work(format!("standard output: {error}"))),
        _ => Ok(()),
    }
}
