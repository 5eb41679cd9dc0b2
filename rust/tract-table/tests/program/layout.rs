//! How the table is laid out: right-aligned columns with two spaces between, ten columns of classes at most beside one another.

use second::stand::{State, COLUMNS};

/// What a row is called, and its counts.
type Row = (String, Vec<u64>);

/// The rows of the listed species, of the others, and of the sums.
fn rows(state: &State, species: &[u8]) -> Vec<Row> {
    let listed = species.iter().map(u8::to_string).zip(&state.cells);
    let labelled = listed.chain([("others".into(), &state.cells[16])]);
    let mut rows: Vec<Row> = labelled
        .map(|(label, counts)| (label, counts.iter().map(|&count| count.into()).collect()))
        .collect();
    let sum = |column: usize| rows.iter().map(|(_, counts)| counts[column]).sum();
    rows.push(("total".into(), (0..COLUMNS).map(sum).collect()));
    rows
}

pub fn table(state: &State, species: &[u8]) -> String {
    let rows = rows(state, species);
    let sums = &rows[rows.len() - 1].1;
    let used: Vec<usize> = (0..COLUMNS).filter(|&column| sums[column] > 0).collect();
    let mut parts: Vec<Vec<Vec<String>>> = Vec::new();
    for columns in used.chunks(10) {
        parts.push(part(&rows, columns));
    }
    if parts.is_empty() {
        parts.push(part(&rows, &[]));
    }
    let last = parts.last_mut().expect("a part");
    last[0].push("total".into());
    for (line, (_, counts)) in last[1..].iter_mut().zip(&rows) {
        line.push(counts.iter().sum::<u64>().to_string());
    }
    let texts: Vec<String> = parts.iter().map(|lines| aligned(lines)).collect();
    texts.join("\n")
}

/// The lines of these columns, headings first, as their texts.
fn part(rows: &[Row], columns: &[usize]) -> Vec<Vec<String>> {
    let headings = columns.iter().map(|j| format!("{}-{}", 10 * j + 1, 10 * j + 10));
    let mut lines: Vec<Vec<String>> = vec![["species".into()].into_iter().chain(headings).collect()];
    for (label, counts) in rows {
        let numbers = columns.iter().map(|&j| counts[j].to_string());
        lines.push([label.clone()].into_iter().chain(numbers).collect());
    }
    lines
}

fn aligned(lines: &[Vec<String>]) -> String {
    let width = |column: usize| lines.iter().map(|line| line[column].len()).max().expect("a line");
    let padded = |line: &Vec<String>| {
        let texts = line
            .iter()
            .enumerate()
            .map(|(column, text)| format!("{text:>0$}", width(column)));
        texts.collect::<Vec<String>>().join("  ") + "\n"
    };
    lines.iter().map(padded).collect()
}
