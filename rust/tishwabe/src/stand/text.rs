//! The stand table as text.

use super::StandTable;
use std::fmt;

/// The most columns of classes side by side.
const SIDE_BY_SIDE: usize = 10;

/// A row of the table, and what it is called.
struct Row<'a> {
    label: String,
    counts: &'a [u32; StandTable::COLUMNS],
}

/// A column of the text: its heading, a text for each row, and one for the last line.
type Column = Vec<String>;

impl fmt::Display for StandTable {
    fn fmt(&self, f: &mut fmt::Formatter<'_>) -> fmt::Result {
        let rows = shown_rows(self);
        let (labels, totals) = (label_column(&rows), total_column(&rows));
        let classes: Vec<Column> = (0..StandTable::COLUMNS)
            .filter_map(|column| class_column(&rows, column))
            .collect();
        let (before, last) = classes.split_at(classes.len().saturating_sub(1) / SIDE_BY_SIDE * SIDE_BY_SIDE);
        for part in before.chunks(SIDE_BY_SIDE) {
            write!(f, "{}\n\n", side_by_side([&labels].into_iter().chain(part)))?;
        }
        f.write_str(&side_by_side([&labels].into_iter().chain(last).chain([&totals])))
    }
}

/// The rows in use, and of the others those that have trees.
fn shown_rows(table: &StandTable) -> Vec<Row<'_>> {
    let rows = table.table().iter().enumerate();
    rows.filter_map(|(index, counts)| {
        let label = match table.row_label(index) {
            Some(label) => label.to_string(),
            None if counts.iter().any(|&count| count > 0) => format!("row {index}"),
            None => return None,
        };
        Some(Row { label, counts })
    })
    .collect()
}

fn label_column(rows: &[Row]) -> Column {
    let labels = rows.iter().map(|row| row.label.as_str());
    let column = ["species"].into_iter().chain(labels).chain(["total"]);
    column.map(String::from).collect()
}

/// The counts of a column below its classes, if there is a tree among them.
fn class_column(rows: &[Row], column: usize) -> Option<Column> {
    let classes = StandTable::column_range(column)?;
    let counts: Vec<u64> = rows.iter().map(|row| row.counts[column].into()).collect();
    let heading = format!("{}-{}", classes.start(), classes.end());
    counts
        .iter()
        .any(|&count| count > 0)
        .then(|| with_sum(heading, &counts))
}

/// The sums of the rows.
fn total_column(rows: &[Row]) -> Column {
    let sum = |row: &Row| row.counts.iter().map(|&count| u64::from(count)).sum();
    with_sum("total".into(), &rows.iter().map(sum).collect::<Vec<u64>>())
}

fn with_sum(heading: String, counts: &[u64]) -> Column {
    let sum: u64 = counts.iter().sum();
    let numbers = counts.iter().chain([&sum]).map(u64::to_string);
    [heading].into_iter().chain(numbers).collect()
}

/// The columns from left to right, each as wide as its longest text.
fn side_by_side<'a>(columns: impl Iterator<Item = &'a Column>) -> String {
    let mut lines: Vec<String> = Vec::new();
    for column in columns {
        let width = column.iter().map(String::len).max().unwrap_or(0);
        lines.resize(column.len(), String::new());
        for (line, text) in lines.iter_mut().zip(column) {
            let gap = if line.is_empty() { "" } else { "  " };
            *line += &format!("{gap}{text:>width$}");
        }
    }
    lines.join("\n")
}

#[cfg(test)]
mod tests {
    use super::*;

    /// Row, column and count of each cell that is not zero.
    fn text(species: &[u8], cells: &[(usize, usize, u32)]) -> String {
        let mut table = [[0; StandTable::COLUMNS]; StandTable::ROWS];
        for &(row, column, count) in cells {
            table[row][column] = count;
        }
        StandTable::from_state(species, table, 0, 0).to_string()
    }

    #[test]
    fn no_trees() {
        let due = "\
species  total
     12      0
      3      0
 others      0
  total      0";
        assert_eq!(text(&[12, 3], &[]), due);
    }

    /// Columns as wide as their longest text, and sums above four bytes.
    #[test]
    fn large_numbers() {
        let due = "\
species        1-10  191-200       total
      3  4294967295        0  4294967295
 others           1        5           6
  total  4294967296        5  4294967301";
        assert_eq!(text(&[3], &[(0, 0, u32::MAX), (16, 0, 1), (16, 19, 5)]), due);
    }

    #[test]
    fn a_row_that_is_not_in_use() {
        let due = "\
species  11-20  total
      3      2      2
  row 4      7      7
 others      0      0
  total      9      9";
        assert_eq!(text(&[3], &[(0, 1, 2), (4, 1, 7)]), due);
    }

    /// A list that is refused has as many rows as there are.
    #[test]
    fn a_longer_list() {
        let numbers: Vec<u8> = (101..=120).collect();
        let text = text(&numbers, &[(15, 1, 4), (16, 1, 5)]);
        assert_eq!(text.lines().count(), 19);
        assert!(text.ends_with("\n    116      4      4\n others      5      5\n  total      9      9"));
    }

    /// Ten columns are one part; an eleventh is a second one.
    #[test]
    fn parts() {
        let cells = |count| (0..count).map(|column| (0, column, 1)).collect::<Vec<_>>();
        let ten = text(&[3], &cells(10));
        assert_eq!((ten.lines().count(), ten.contains("91-100  total\n")), (4, true));
        let eleven = text(&[3], &cells(11));
        let due =
            "\n\nspecies  101-110  total\n      3        1     11\n others        0      0\n  total        1     11";
        assert!(eleven.contains("91-100\n") && eleven.ends_with(due), "{eleven}");
    }
}
