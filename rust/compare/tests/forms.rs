//! Two forms that document 01 names for places in the code stand in the source. A proof holds what a function answers, and not how its types are written.

use std::fs;
use std::path::Path;

/// A source file of a crate, with each run of white space as one space.
fn source(file: &str) -> String {
    let path = Path::new(env!("CARGO_MANIFEST_DIR")).join("../../crates").join(file);
    let text = fs::read_to_string(&path).unwrap_or_else(|error| panic!("{}: {error}", path.display()));
    text.split_whitespace().collect::<Vec<_>>().join(" ")
}

fn holds(file: &str, form: &str) {
    assert!(source(file).contains(form), "{file} has no `{form}`");
}

/// "sheet refusal enum whose case carries the block number and the block-verdict enum"
#[test]
fn a_sheet_refusal_carries_the_number_and_the_verdict_of_the_block() {
    holds(
        "block/src/numbers.rt",
        "pub type Verdict = Result<Correction, Refusal>;",
    );
    holds("sheet/src/lib.rt", "Block { number: usize, verdict: block::Verdict, }");
}

/// "stand table as a bare array of seventeen arrays of twenty counts, by value, beside the struct with species list and counters"; what judges a state takes it so too.
#[test]
fn a_stand_table_is_a_bare_array_by_value() {
    holds("stand/src/lib.rt", "pub fn empty() -> [[u32; 20]; 17]");
    for entry in ["total", "trees_per_plot"] {
        holds(
            "stand/src/lib.rt",
            &format!("pub fn {entry}(table: [[u32; 20]; 17], tract: Tract)"),
        );
    }
    holds(
        "stand/src/lib.rt",
        "fn limits_hold(table: [[u32; 20]; 17], tract: Tract)",
    );
    holds(
        "stand/src/lib.rt",
        "fn judge(table: [[u32; 20]; 17], tract: Tract, size: usize)",
    );
    holds("stand/src/count.rt", "fn cells_hold(table: [[u32; 20]; 17])");
}
