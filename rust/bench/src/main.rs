//! Times the proved library beside a logarithm-table coder and libfec in one run, how its times grow with n, r and D, listing the candidates of a block beside
//! looking at it, and adding a payload to a stand table beside checking it. Writes the measured part of docs/PERFORMANCE.md and the plot docs/performance.svg;
//! with the argument `show` it only prints, with `candidates` and with `stand` only the times of these. With the arguments `former` and a file, it prints the
//! library's times beside those of a former commit's library, which the file has as a shared object.

mod candidates;
mod date;
mod former;
mod pairs;
mod plot;
mod report;
mod shared_object;
mod sheets;
mod spots;
mod stand;
mod timing;

use bench::Shape;
use shared_object::SharedObject;
use stand::PAYLOADS;
use std::path::Path;
use std::process::ExitCode;

const SHAPES: [(usize, usize); 4] = [(255, 16), (255, 32), (255, 64), (60, 20)];

/// Different blocks in a measurement, and its rounds.
const BLOCKS: usize = 64;
const ROUNDS: usize = 201;

fn compared(shapes: &[(usize, usize)], blocks: usize) -> String {
    let times: Vec<_> = shapes
        .iter()
        .map(|&(n, r)| Shape { n, r, b: 1 })
        .map(|shape| (shape, timing::measure(shape, blocks, ROUNDS)))
        .collect();
    report::table(&times)
}

/// Spot mode with 0 to half of r wrong cells.
fn spot_growth() -> String {
    let shape = Shape { n: 255, r: 32, b: 1 };
    let h = shape.half();
    report::growth(&spots::measure(shape, &[0, 1, h / 4, h / 2, h], BLOCKS, ROUNDS))
}

/// All tables that a run without arguments prints and puts into docs/PERFORMANCE.md.
fn tables() -> String {
    format!(
        "{}\nOne block again and again, instead of {BLOCKS} in turn:\n\n{}\nSpot mode at n = 255, r = 32 by the number of wrong cells, {BLOCKS} blocks in turn:\n\n{}\nListing every candidate of a block, and looking at it, {BLOCKS} blocks in turn:\n\n{}\nAdding a payload of 4,048 bytes to a stand table, and checking it, {PAYLOADS} new payloads in each round:\n\n{}",
        compared(&SHAPES, BLOCKS),
        compared(&[(255, 32)], 1),
        spot_growth(),
        candidates::table(BLOCKS, ROUNDS),
        stand::table(ROUNDS)
    )
}

fn write(tables: &str) {
    let docs = Path::new(env!("CARGO_MANIFEST_DIR")).join("../../docs");
    report::replace(
        &docs.join("PERFORMANCE.md"),
        &format!("{}\n{tables}", report::machine()),
    );
    std::fs::write(docs.join("performance.svg"), plot::growth()).expect("docs/ can be written");
}

fn main() -> ExitCode {
    let arguments: Vec<String> = std::env::args().skip(1).collect();
    let arguments: Vec<&str> = arguments.iter().map(String::as_str).collect();
    match arguments[..] {
        [] => {
            let tables = tables();
            println!("{tables}");
            write(&tables);
        }
        ["show"] => println!("{}", tables()),
        ["candidates"] => println!("{}", candidates::table(BLOCKS, ROUNDS)),
        ["stand"] => println!("{}", stand::table(ROUNDS)),
        ["former", path] => match SharedObject::open(Path::new(path)) {
            Ok(former) => println!("{}", former::table(&former)),
            Err(error) => {
                eprintln!("{path}: {error}");
                return ExitCode::FAILURE;
            }
        },
        _ => {
            eprintln!("the arguments are none, `show`, `candidates`, `stand`, or `former` and a file");
            return ExitCode::FAILURE;
        }
    }
    ExitCode::SUCCESS
}
