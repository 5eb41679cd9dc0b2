//! Links the static library of the proved crate `capi`, which `rt lib` in crates/capi makes, and `.ci/run`.

use std::path::PathBuf;
use std::process::exit;

fn main() {
    let package = PathBuf::from(std::env::var_os("CARGO_MANIFEST_DIR").unwrap_or_default());
    let folder = package.join("../../crates/capi/out");
    let archive = folder.join("libcapi.a");
    println!("cargo:rerun-if-changed={}", archive.display());
    if !archive.is_file() {
        eprintln!("error: {} is missing", archive.display());
        eprintln!("Run `rt lib` in crates/capi first, or, after `rt ci`, `tools/static-library` at the root of the repository.");
        exit(1);
    }
    println!("cargo:rustc-link-search=native={}", folder.display());
    println!("cargo:rustc-link-lib=static=capi");
}
