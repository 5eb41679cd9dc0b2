//! The tables in README.md and examples/README.md are what the program prints for the sheets that they name.

use std::fs;

use program_runs::{top, Ended};

use crate::run::{EXAMPLES, PROGRAM};

/// A command, and what the program prints for it, as a page shows them.
fn shown(arguments: &[&str], due: (i32, &str)) -> (String, String) {
    let Ended { status, out, err } = PROGRAM.run(&top(), arguments);
    assert_eq!((status, err.as_str()), due);
    let indented = |line: &str| {
        if line.is_empty() {
            "\n".into()
        } else {
            format!("    {line}\n")
        }
    };
    let command = format!("-p tract-table -- {}\n", arguments.join(" "));
    (command, out.lines().map(indented).collect())
}

fn has(page: &str, (command, text): &(String, String)) {
    let found = fs::read_to_string(top().join(page)).expect(page);
    assert!(found.contains(text), "{page} has another text than\n{text}");
    assert!(found.contains(command), "{page} has not {command}");
}

#[test]
fn examples() {
    let [ridge, creek, hollow] = EXAMPLES;
    let all_added = shown(&[ridge, creek, "--spots", hollow], (0, ""));
    has("README.md", &all_added);
    has("examples/README.md", &all_added);
    let told = "tract-table: 1 of 3 sheets is not in the table\n";
    let one_left_out = shown(&["--species", "5,2,1", ridge, creek, hollow], (1, told));
    has("examples/README.md", &one_left_out);
}
