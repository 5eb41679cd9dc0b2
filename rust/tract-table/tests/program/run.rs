//! The program, and the example sheets for it.

use program_runs::Program;

pub const PROGRAM: Program = Program {
    name: "tract-table",
    file: env!("CARGO_BIN_EXE_tract-table"),
    folders: env!("CARGO_TARGET_TMPDIR"),
};

pub const EXAMPLES: [&str; 3] = [
    "examples/tract/ridge.sheet",
    "examples/tract/creek.sheet",
    "examples/tract/hollow.sheet",
];
