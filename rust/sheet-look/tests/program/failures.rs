//! What is no sheet, arguments that are wrong, output that nobody takes, and the help. None of these may leave a file behind.

use program_runs::Ended;

use crate::expected;
use crate::run::{example, folder, names, PROGRAM};

const USAGE: &str = "usage: sheet-look FILE [--svg OUT]\n";

/// The message for these bytes, the same with each of the options. Nothing is printed, and no drawing is made.
fn message(bytes: &[u8]) -> String {
    let folder = folder("message", bytes);
    let due = PROGRAM.run(&folder, &["a.sheet"]);
    for options in [
        &["--svg", "out.svg"][..],
        &["--all"],
        &["--all", "--svg", "out.svg"],
        &["--limit", "1", "--all", "--svg", "out.svg"],
    ] {
        assert_eq!(
            PROGRAM.run(&folder, &[&["a.sheet"], options].concat()),
            due,
            "{options:?}"
        );
        assert_eq!(names(&folder), ["a.sheet"]);
    }
    let Ended { status, out, err } = due;
    assert_eq!((status, out.as_str()), (1, ""));
    let message = err
        .strip_prefix("sheet-look: a.sheet: ")
        .and_then(|err| err.strip_suffix('\n'));
    message.expect(&err).to_string()
}

#[test]
fn bad_files() {
    let sheet = example("written");
    let profile = "and the profile alone has five";
    assert_eq!(message(&[]), format!("misprint (refusal 1): 0 bytes, {profile}"));
    assert_eq!(
        message(&sheet[..4]),
        format!("misprint (refusal 1): 4 bytes, {profile}")
    );
    let cells = "wrong frame (refusal 2): a profile and 8 blocks of 60 cells have 485 bytes, and the file has";
    assert_eq!(message(&sheet[..5]), format!("{cells} 5"));
    assert_eq!(message(&sheet[..484]), format!("{cells} 484"));
    assert_eq!(message(&[&sheet[..], &[0]].concat()), format!("{cells} more"));
    assert_eq!(message(&[&sheet[..], &[0; 9_000]].concat()), format!("{cells} more"));
    let longer = [&expected::longest()[..], &[0]].concat();
    let cells = "wrong frame (refusal 2): a profile and 16 blocks of 255 cells have 4085 bytes, and the file has";
    assert_eq!(message(&longer), format!("{cells} more"));
    let ranges = "(n is 3 to 255, r 2 to 64 and below n, b 0 to 254, L below r, D 1 to 16)";
    let numbers = "n = 60, r = 21, b = 1, L = 21, D = 8";
    let bad_profile = [&[60, 21, 1, 21, 8], &sheet[5..]].concat();
    assert_eq!(
        message(&bad_profile),
        format!("misprint (refusal 1): {numbers} is no profile {ranges}")
    );
}

#[test]
fn files_that_cannot_be_read_or_written() {
    let folder = folder("files", &example("written"));
    let absent = std::io::Error::from_raw_os_error(2).to_string();
    for (arguments, name) in [
        (&["b.sheet"][..], "b.sheet"),
        (&["a.sheet", "--svg", "b/out.svg"], "b/out.svg"),
    ] {
        let Ended { status, out, err } = PROGRAM.run(&folder, arguments);
        assert_eq!(
            (status, out.as_str(), err),
            (1, "", format!("sheet-look: {name}: {absent}\n"))
        );
    }
    let Ended { status, out, err } = PROGRAM.run(&folder, &["."]);
    assert_eq!((status, out.as_str()), (1, ""));
    assert!(err.starts_with("sheet-look: .: ") && err.lines().count() == 1, "{err}");
    assert_eq!(names(&folder), ["a.sheet"]);
}

/// A limit that is not below r, on a sheet that has a limit of its own.
#[test]
fn no_such_limit() {
    let folder = folder("no-limit", &example("written"));
    let Ended { status, out, err } = PROGRAM.run(&folder, &["a.sheet", "--limit", "21", "--svg", "out.svg"]);
    assert_eq!((status, out.as_str()), (1, ""));
    let start = "sheet-look: a.sheet: misprint (refusal 1): n = 60, r = 21, b = 1, L = 21, D = 8 is no profile (";
    assert!(err.starts_with(start) && err.lines().count() == 1, "{err}");
    assert_eq!(names(&folder), ["a.sheet"]);
}

#[test]
fn wrong_arguments() {
    let cases = [
        (&[][..], "FILE is missing"),
        (&["a.sheet", "--fill"], "unknown argument --fill"),
        (&["a.sheet", "b.sheet"], "FILE is given twice"),
        (&["a.sheet", "--svg"], "--svg needs the name of a file"),
        (&["--all", "a.sheet", "--all"], "--all is given twice"),
        (&["a.sheet", "--limit", "few"], "--limit needs a number from 0 to r − 1"),
    ];
    PROGRAM.wrong_arguments(USAGE, &cases);
}

#[test]
fn help() {
    let out = PROGRAM.help(USAGE);
    assert!(out.contains("The status is 0 if the sheet could be looked at"), "{out}");
    for option in ["--limit L", "--all", "--svg OUT"] {
        assert!(out.contains(&format!("\n  {option:9}  ")), "{out}");
    }
}

#[test]
fn output_that_nobody_takes() {
    PROGRAM.output_that_nobody_takes(example("torn"));
}
