//! The program, the example sheets for it, and what it prints and draws for a sheet. What is run through here is held to its status, to
//! its message and to the files that it leaves.

use std::fs;
use std::path::{Path, PathBuf};

use program_runs::{stored, Ended, Program};

pub const PROGRAM: Program = Program {
    name: "sheet-look",
    file: env!("CARGO_BIN_EXE_sheet-look"),
    folders: env!("CARGO_TARGET_TMPDIR"),
};

pub fn example(name: &str) -> Vec<u8> {
    stored(&format!("examples/cruise/{name}.sheet"))
}

/// A folder with this sheet alone.
pub fn folder(name: &str, sheet: &[u8]) -> PathBuf {
    PROGRAM.folder(name, &[("a.sheet".into(), sheet.to_vec())])
}

/// The names of what is in a folder, in order.
pub fn names(folder: &Path) -> Vec<String> {
    let entries = fs::read_dir(folder).expect("the folder is there");
    let mut names: Vec<String> = entries
        .map(|entry| entry.expect("an entry").file_name().to_string_lossy().into_owned())
        .collect();
    names.sort();
    names
}

/// What the program prints for a sheet.
pub fn table(name: &str, input: &[u8]) -> String {
    printed(name, input, &[])
}

/// What the program prints for a sheet with these options, with status 0 and no message. It makes no file.
pub fn printed(name: &str, input: &[u8], options: &[&str]) -> String {
    let folder = folder(name, input);
    let Ended { status, out, err } = PROGRAM.run(&folder, &[&["a.sheet"], options].concat());
    assert_eq!((status, err.as_str()), (0, ""));
    assert_eq!(names(&folder), ["a.sheet"]);
    assert_eq!(fs::read(folder.join("a.sheet")).expect("the sheet is there"), input);
    out
}

/// What the program prints and draws for a sheet with these options. It makes no other file, and prints what it prints without a drawing.
pub fn printed_and_drawn(name: &str, input: &[u8], options: &[&str]) -> (String, String) {
    let printed = printed(name, input, options);
    let folder = folder(name, input);
    let Ended { status, out, err } = PROGRAM.run(&folder, &[&["a.sheet", "--svg", "out.svg"], options].concat());
    assert_eq!((status, out.as_str(), err.as_str()), (0, printed.as_str(), ""));
    assert_eq!(names(&folder), ["a.sheet", "out.svg"]);
    assert_eq!(fs::read(folder.join("a.sheet")).expect("the sheet is there"), input);
    let drawing = fs::read_to_string(folder.join("out.svg")).expect("the drawing is there");
    (printed, drawing)
}
