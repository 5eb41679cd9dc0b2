//! Links libfec where it is installed; without it the package still builds, and its lines are absent.

use std::path::Path;
use std::process::Command;

fn main() {
    println!("cargo:rustc-check-cfg=cfg(fec)");
    let header = "/usr/include/fec.h";
    println!("cargo:rerun-if-changed={header}");
    if Path::new(header).exists() {
        println!("cargo:rustc-cfg=fec");
        println!("cargo:rustc-link-lib=fec");
    }
    let rustc = std::env::var("RUSTC").unwrap_or_else(|_| "rustc".into());
    println!("cargo:rustc-env=BENCH_RUSTC={}", first_line(&rustc));
}

fn first_line(program: &str) -> String {
    let output = Command::new(program).arg("--version").output();
    let text = output
        .map(|o| String::from_utf8_lossy(&o.stdout).into_owned())
        .unwrap_or_default();
    text.lines().next().unwrap_or("unknown").to_string()
}
