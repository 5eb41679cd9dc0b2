//! Every public function of a library crate, and every method of a public trait, has a contract that says something (`ensures`) and asks for nothing (`requires`). With the gate's rule that each
//! function is proved, so that it returns on every input that its `requires` allows, this is why every entry point ends with a result on every input.

use std::fs;
use std::path::{Path, PathBuf};

fn sources(folder: &Path) -> Vec<PathBuf> {
    let mut found = Vec::new();
    for entry in fs::read_dir(folder).unwrap_or_else(|error| panic!("{}: {error}", folder.display())) {
        let path = entry.expect("an entry of the folder").path();
        if path.is_dir() {
            found.extend(sources(&path));
        } else if path.extension().is_some_and(|extension| extension == "rt") {
            found.push(path);
        }
    }
    found
}

/// The lines of each public function from its name to where its body begins.
fn heads(text: &str) -> Vec<Vec<&str>> {
    let lines: Vec<&str> = text.lines().map(str::trim).collect();
    let starts = (0..lines.len()).filter(|&i| lines[i].starts_with("pub fn ") || lines[i].starts_with("pub extern "));
    let is_clause = |line: &str| line.starts_with("requires") || line.starts_with("ensures");
    let head = |start: usize| {
        let length = lines[start..]
            .iter()
            .position(|line| line.ends_with('{') && !is_clause(line))
            .expect("a body");
        lines[start..=start + length].to_vec()
    };
    starts.map(head).collect()
}

/// The lines of each method that a public trait declares, from its name to the end of its clauses.
fn trait_heads(text: &str) -> Vec<Vec<&str>> {
    let lines: Vec<&str> = text.lines().collect();
    let mut found = Vec::new();
    for start in (0..lines.len()).filter(|&i| lines[i].starts_with("pub trait ")) {
        let body: Vec<&str> = lines[start..]
            .iter()
            .take_while(|line| **line != "}")
            .map(|line| line.trim())
            .collect();
        for i in (0..body.len()).filter(|&i| body[i].starts_with("fn ")) {
            let length = body[i..]
                .iter()
                .position(|line| line.ends_with(';'))
                .expect("an end of the method");
            found.push(body[i..=i + length].to_vec());
        }
    }
    found
}

#[test]
fn public_functions_ask_for_nothing() {
    let crates = Path::new(env!("CARGO_MANIFEST_DIR")).join("../../crates");
    let mut count = 0;
    for entry in fs::read_dir(&crates).expect("the folder of crates") {
        let source = entry.expect("a crate").path().join("src");
        if source.join("main.rt").exists() {
            continue;
        }
        for path in sources(&source) {
            let text = fs::read_to_string(&path).expect("a source file");
            for head in heads(&text).into_iter().chain(trait_heads(&text)) {
                let place = format!("{}: {}", path.display(), head[0]);
                assert!(
                    !head.iter().any(|line| line.starts_with("requires")),
                    "{place} has a requires"
                );
                assert!(
                    head.iter().any(|line| line.starts_with("ensures")),
                    "{place} has no ensures"
                );
                count += 1;
            }
        }
    }
    assert!(count > 60, "{count} functions");
}
