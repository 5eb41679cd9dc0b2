//! The C example is compiled against the header and the static library, and prints what is stored beside it.

use std::path::{Path, PathBuf};
use std::process::Command;

fn run(command: &mut Command) -> Vec<u8> {
    let output = command.output().unwrap_or_else(|error| panic!("{command:?}: {error}"));
    let told = String::from_utf8_lossy(&output.stderr).into_owned();
    assert!(output.status.success(), "{command:?}: {told}");
    output.stdout
}

#[test]
fn prints_what_is_stored() {
    let root = Path::new(env!("CARGO_MANIFEST_DIR")).join("../..");
    let program = PathBuf::from(env!("CARGO_TARGET_TMPDIR")).join("c_example");
    let compiler = std::env::var("CC").unwrap_or_else(|_| "cc".into());
    let warnings = ["-std=c99", "-O1", "-Wall", "-Wextra", "-Wpedantic", "-Werror"];
    run(Command::new(compiler)
        .args(warnings)
        .arg("-I")
        .arg(root.join("include"))
        .arg(root.join("examples/c/example.c"))
        .arg(root.join("crates/capi/out/libcapi.a"))
        .arg("-o")
        .arg(&program));
    let stored = std::fs::read_to_string(root.join("examples/c/stdout")).expect("examples/c/stdout");
    assert_eq!(String::from_utf8_lossy(&run(&mut Command::new(program))), stored);
}
