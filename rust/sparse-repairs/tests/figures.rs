//! The figures: a thousand blocks of each kind give what is stored, and the stored run of a million is what the drawing shows and what the page for the
//! tester says. The counts are held to another way of counting.

use std::path::Path;

use sparse_repairs::counting::sparse_share;
use sparse_repairs::damage::Damage;
use sparse_repairs::simulation::{profiles, rows, Row, Tally};
use sparse_repairs::{plot, table};

const THOUSAND: &str = include_str!("../figures/thousand.txt");
const MILLION: &str = include_str!("../figures/million.txt");

#[test]
fn a_thousand_blocks() {
    let rows = rows(1_000);
    assert!(rows.iter().all(|row| row.tally.blocks() == 1_000));
    assert_eq!(table::text(&rows), THOUSAND);
}

/// A row of the table read back: torn, tied, thin, right without and with the rule, wrong without and with it.
fn tally(line: &str) -> Tally {
    let figures: Vec<u64> = line
        .split('|')
        .skip(2)
        .map(|cell| cell.trim().replace(',', ""))
        .filter(|cell| !cell.is_empty())
        .map(|cell| cell.parse().expect("a number"))
        .collect();
    let [uncorrectable, ambiguous, sparse, right_without, right, wrong_without, wrong] = figures[..] else {
        panic!("seven figures in {line}");
    };
    let tally = Tally {
        uncorrectable,
        ambiguous,
        sparse_right: right_without - right,
        sparse_wrong: wrong_without - wrong,
        right,
        wrong,
    };
    assert_eq!((tally.sparse(), tally.blocks()), (sparse, 1_000_000), "{line}");
    tally
}

/// The rows of the stored run.
fn stored() -> Vec<Row> {
    let kinds = profiles()
        .into_iter()
        .flat_map(|p| Damage::ALL.map(|damage| (p, damage)));
    let lines = MILLION.lines().filter(|line| is_row(line) && !line.contains(" / "));
    kinds
        .zip(lines)
        .map(|((profile, damage), line)| Row {
            profile,
            damage,
            tally: tally(line),
        })
        .collect()
}

/// Whether the line is a row of one of the tables.
fn is_row(line: &str) -> bool {
    Damage::ALL
        .iter()
        .any(|damage| line.starts_with(&format!("| {} |", damage.label())))
}

fn page(name: &str) -> String {
    let file = Path::new(env!("CARGO_MANIFEST_DIR")).join("../../docs").join(name);
    std::fs::read_to_string(file).expect("a page")
}

#[test]
fn the_drawing_shows_the_stored_run() {
    let rows = stored();
    assert_eq!(table::text(&rows), MILLION);
    assert_eq!(plot::svg(&rows), page("sparse-repairs.svg"));
}

/// A row on the page is a row of the stored run, and where the page shows the drawing it has rows.
#[test]
fn the_page_says_what_was_measured() {
    let page = page("FOR-THE-TESTER.md");
    let rows: Vec<&str> = page.lines().filter(|line| is_row(line)).collect();
    for row in &rows {
        assert!(MILLION.lines().any(|line| line == *row), "{row}");
    }
    assert!(!rows.is_empty() || !page.contains("sparse-repairs.svg"));
}

/// The share of thin bursts, by going through every set of changed cells between the ends.
#[test]
fn shares_by_sets() {
    for profile in &profiles()[..2] {
        for f in 2..=profile.limit() {
            let share: f64 = (0u32..1 << (f - 2))
                .map(|set| set.count_ones() as usize)
                .filter(|inner| 2 * f > profile.r() && 2 * (inner + 2) <= f)
                .map(|inner| (255.0 / 256.0f64).powi(inner as i32) * (1.0 / 256.0f64).powi((f - 2 - inner) as i32))
                .sum();
            assert!(
                (sparse_share(profile, f) - share).abs() <= 1e-9 * share,
                "{profile:?}, {f}"
            );
        }
    }
    assert_eq!(sparse_share(&profiles()[0], 4), 1.0 / 65_536.0);
}
