//! What is no sheet, arguments that are wrong, and output that nobody takes.

use program_runs::{stored, Ended};

use crate::run::{EXAMPLES, PROGRAM};

const USAGE: &str = "usage: tract-table [--species LIST] {[--scratch | --spots] SHEET...}...\n";

/// Files that are no sheets, with a sheet between them: each is told of, and the table is that of the sheet.
#[test]
fn what_is_no_sheet() {
    let sheet = stored(EXAMPLES[0]);
    let files = [
        ("short", vec![60, 21, 1, 12]),
        ("profile", [&[60, 21, 1, 21, 8], &sheet[5..]].concat()),
        ("cut", sheet[..484].to_vec()),
        ("good", sheet.clone()),
        ("longer", [&sheet[..], &[0]].concat()),
    ];
    let files = files.map(|(name, bytes)| (name.to_string(), bytes));
    let folder = PROGRAM.folder("no_sheet", &files);
    let Ended { status, out, err } = PROGRAM.run(&folder, &["short", "profile", "cut", "good", "absent", "longer"]);
    let absent = std::io::Error::from_raw_os_error(2).to_string();
    let cells = "wrong frame (refusal 2): a profile and 8 blocks of 60 cells have 485 bytes, and the file has";
    let ranges = "(n is 3 to 255, r 2 to 64 and below n, b 0 to 254, L below r, D 1 to 16)";
    let due = [
        "short: not in the table: misprint (refusal 1): 4 bytes, and the profile alone has five".into(),
        format!("profile: not in the table: misprint (refusal 1): n = 60, r = 21, b = 1, L = 21, D = 8 is no profile {ranges}"),
        format!("cut: not in the table: {cells} 484"),
        "good: 8 plots, 227 trees, 0 of 8 blocks mended".into(),
        format!("absent: not in the table: {absent}"),
        format!("longer: not in the table: {cells} more\n"),
    ];
    assert!(out.starts_with(&due.join("\n")), "{out}");
    assert_eq!(
        (status, err.as_str()),
        (1, "tract-table: 5 of 6 sheets are not in the table\n")
    );
    let alone = PROGRAM.run(&folder, &["good"]);
    assert_eq!((alone.status, alone.err.as_str()), (0, ""));
    let table = alone.out.split_once("\n\n").expect("a table").1.trim_end();
    assert!(
        out.ends_with(&format!("\n\n{table} 5 of 6 sheets are not in the table.\n")),
        "{out}"
    );
}

#[test]
fn wrong_arguments() {
    let needs = "--species needs numbers with commas between, such as 3,7,12";
    let list = "species list: a number outside 1 to 99, a repeat, or more than 16 (refusal 13, place 0)";
    let seventeen = "1,2,3,4,5,6,7,8,9,10,11,12,13,14,15,16,17";
    let cases = [
        (&[][..], "SHEET is missing"),
        (&["a.sheet", "--fill"], "unknown argument --fill"),
        (&["--spots"], "--spots needs a SHEET after it"),
        (&["a.sheet", "--spots"], "--spots needs a SHEET after it"),
        (&["--spots", "--scratch", "a.sheet"], "--spots needs a SHEET after it"),
        (&["--spots", "a.sheet", "--scratch"], "--scratch needs a SHEET after it"),
        (&["a.sheet", "--species"], needs),
        (&["a.sheet", "--species", "a.sheet"], needs),
        (&["a.sheet", "--species", "0"], list),
        (&["a.sheet", "--species", "3,100"], list),
        (&["a.sheet", "--species", "3,7,3"], list),
        (&["a.sheet", "--species", seventeen], list),
    ];
    PROGRAM.wrong_arguments(USAGE, &cases);
}

#[test]
fn help() {
    let out = PROGRAM.help(USAGE);
    assert!(out.contains("The status is 0 if every sheet is in the table"), "{out}");
}

#[test]
fn output_that_nobody_takes() {
    PROGRAM.output_that_nobody_takes(stored(EXAMPLES[0]));
}
