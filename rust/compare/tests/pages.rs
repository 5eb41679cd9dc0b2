//! The pages name only what exists: each path between backquotes is a file or a folder, and in PATH#NAME the file has the name.

use std::path::Path;

const PAGES: [&str; 8] = [
    "README.md",
    "docs/ARCHITECTURE.md",
    "docs/CHANGES.md",
    "docs/DECISIONS.md",
    "docs/FOR-THE-TESTER.md",
    "docs/PERFORMANCE.md",
    "docs/PROMISES.md",
    "examples/README.md",
];
const FOLDERS: [&str; 7] = ["crates/", "rust/", "docs/", "include/", "examples/", "tools/", ".ci/"];

/// What stands between backquotes and looks like a path of the repository.
fn references(page: &str) -> impl Iterator<Item = &str> {
    page.split('`')
        .skip(1)
        .step_by(2)
        .filter(|text| FOLDERS.iter().any(|folder| text.starts_with(folder)))
        .filter(|text| !text.contains(['*', ' ']))
}

#[test]
fn references_exist() {
    let top = Path::new(env!("CARGO_MANIFEST_DIR")).join("../..");
    let mut count = 0;
    for page in PAGES {
        let text = std::fs::read_to_string(top.join(page)).unwrap_or_else(|error| panic!("{page}: {error}"));
        for reference in references(&text) {
            let (path, name) = reference.split_once('#').unwrap_or((reference, ""));
            let file = top.join(path);
            assert!(file.exists(), "{page}: {path} is absent");
            let named = name.is_empty() || std::fs::read_to_string(&file).is_ok_and(|text| text.contains(name));
            assert!(named, "{page}: {path} has no {name}");
            count += 1;
        }
    }
    assert!(count > 200, "{count} references");
}
