//! The measured part of docs/PERFORMANCE.md: the machine, and a table of times and ratios.

use std::path::Path;
use std::process::Command;

use bench::Shape;

use crate::date::today;
use crate::timing::Times;

const BEGIN: &str = "<!-- measured: begin -->\n";
const END: &str = "<!-- measured: end -->\n";

/// How a kind of work is called, and its time.
type Work = (String, fn(&Times) -> Option<f64>);

/// One line for each shape, work and coder; the ratio says how many times the proved library's time the coder takes.
pub fn table(compared: &[(Shape, Vec<Times>)]) -> String {
    let mut text =
        String::from("| n | r | work | coder | time, µs | times the proved library's |\n|---|---|---|---|---|---|\n");
    for (shape, times) in compared {
        let works: [Work; 7] = [
            ("writing".into(), |t| Some(t.write)),
            ("checking a clean block".into(), |t| Some(t.check)),
            (format!("correcting a run of {}", shape.half()), |t| t.correct),
            (format!("looking at a run of {}", shape.half()), |t| t.look),
            (format!("filling a run of {}", shape.half()), |t| t.fill),
            ("a clean block in spot mode".into(), |t| t.spots_clean),
            (format!("correcting {} spots", shape.half()), |t| t.spots),
        ];
        for (work, time_of) in works {
            for time in times {
                let (Some(own), Some(base)) = (time_of(time), time_of(&times[0])) else {
                    continue;
                };
                let Shape { n, r, .. } = shape;
                text += &format!(
                    "| {n} | {r} | {work} | {} | {:.2} | {:.1} |\n",
                    time.name,
                    own / 1000.0,
                    own / base
                );
            }
        }
    }
    text
}

/// A line for each number of wrong cells, and a time for each coder; the ratio as in `table`.
pub fn growth(spots: &[(usize, Vec<(&'static str, f64)>)]) -> String {
    let mut text = String::from("| spots | coder | time, µs | times the proved library's |\n|---|---|---|---|\n");
    for (count, times) in spots {
        for (name, time) in times {
            let ratio = time / times[0].1;
            text += &format!("| {count} | {name} | {:.2} | {ratio:.1} |\n", time / 1000.0);
        }
    }
    text
}

/// Processor, compilers and date.
pub fn machine() -> String {
    let processors = std::fs::read_to_string("/proc/cpuinfo").unwrap_or_default();
    let model = processors
        .lines()
        .find_map(|line| line.strip_prefix("model name"))
        .unwrap_or("unknown");
    let kit = Command::new("rt").arg("version").output();
    let kit = kit
        .map(|o| String::from_utf8_lossy(&o.stdout).trim().to_string())
        .unwrap_or_else(|_| "unknown".into());
    format!(
        "Measured on {} by `{}` (proved library: {kit}; tables: {}).\n",
        today(),
        model.trim_start_matches([' ', '\t', ':']),
        env!("BENCH_RUSTC"),
    )
}

/// Puts the text between the two marks of the file.
pub fn replace(path: &Path, text: &str) {
    let old = std::fs::read_to_string(path).expect("docs/PERFORMANCE.md is there");
    let begin = old.find(BEGIN).expect("the begin mark is there") + BEGIN.len();
    let end = old.find(END).expect("the end mark is there");
    let new = format!("{}{text}{}", &old[..begin], &old[end..]);
    std::fs::write(path, new).expect("docs/PERFORMANCE.md can be written");
}
