//! Prints the figures of the simulation and writes their drawing to the file named by the first argument.
//! A second argument is the number of blocks for each line of the table; without it there are a million.

use std::path::Path;
use std::process::ExitCode;

use sparse_repairs::{plot, simulation, table};

const BLOCKS: u64 = 1_000_000;

fn main() -> ExitCode {
    let arguments: Vec<String> = std::env::args().skip(1).collect();
    let (file, blocks) = match &arguments[..] {
        [file] => (file, Some(BLOCKS)),
        [file, blocks] => (file, blocks.parse().ok().filter(|&blocks| blocks > 0)),
        _ => return failure("the arguments are a file for the drawing and, if wanted, a number of blocks"),
    };
    let Some(blocks) = blocks else {
        return failure("the number of blocks is no number above 0");
    };
    let rows = simulation::rows(blocks);
    print!("{}", table::text(&rows));
    match std::fs::write(Path::new(file), plot::svg(&rows)) {
        Ok(()) => ExitCode::SUCCESS,
        Err(error) => failure(&format!("{file}: {error}")),
    }
}

fn failure(message: &str) -> ExitCode {
    eprintln!("sparse-repairs: {message}");
    ExitCode::FAILURE
}
