//! The tables and lists in README.md, the drawings beside them, and the line of a thin block are what the program makes of the sheets that README.md names.
//! The page and the drawings are read as they are stored, so one that is out of date fails here.

use std::fs;

use program_runs::top;

use crate::run::{example, printed, printed_and_drawn, table};

fn stored(name: &str) -> String {
    fs::read_to_string(top().join(name)).unwrap_or_else(|error| panic!("{name}: {error}"))
}

/// A text as a page shows it.
fn shown(text: &str) -> String {
    let line = |line: &str| match line {
        "" => "\n".into(),
        line => format!("    {line}\n"),
    };
    text.lines().map(line).collect()
}

/// README.md has the command with these arguments and right after it this text.
fn held(arguments: &str, text: &str) {
    let due = format!("-p sheet-look -- {arguments}\n\n{}\n", shown(text));
    assert!(stored("README.md").contains(&due), "README.md has not\n{due}");
}

#[test]
fn readme() {
    let (scratched, drawing) = printed_and_drawn("readme", &example("scratched"), &[]);
    held("examples/cruise/scratched.sheet --svg docs/look.svg", &scratched);
    let page = stored("README.md");
    assert!(page.contains("](docs/look.svg)"));
    assert!(
        stored("docs/look.svg") == drawing,
        "docs/look.svg is not what the program draws"
    );
    let sparse = table("readme-thin", &example("thin"));
    let refused = sparse
        .lines()
        .find(|line| line.contains("thin (16)"))
        .expect("a thin block");
    let shown = format!("`examples/cruise/thin.sheet`:\n\n    {refused}\n\n");
    assert!(page.contains(&shown), "README.md has another line than\n{refused}");
}

/// The whole text for the tied sheet, and for the torn one what follows the table.
#[test]
fn readme_with_all() {
    let (ambiguous, drawing) = printed_and_drawn("readme-tied", &example("tied"), &["--all"]);
    held("examples/cruise/tied.sheet --all --svg docs/candidates.svg", &ambiguous);
    assert!(stored("README.md").contains("](docs/candidates.svg)"));
    assert!(
        stored("docs/candidates.svg") == drawing,
        "docs/candidates.svg is not what the program draws"
    );
    let uncorrectable = printed("readme-torn", &example("torn"), &["--all"]);
    let (_, listed) = uncorrectable.split_once("\n\n").expect("an empty line after the table");
    held("examples/cruise/torn.sheet --all", listed);
}
