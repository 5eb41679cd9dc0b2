//! The table that the program prints. The texts for the example sheets are written out; those for drawn sheets are made of what the second decoder finds.

use crate::expected::{self, Expected};
use crate::run::{example, table};

const HEAD: &str = "block  verdict    start  length  changed\n";

fn clean_but(number: usize, row: &str) -> String {
    let rows = (0..8).map(|block| match block == number {
        true => row.to_string(),
        false => format!("{block:5}  clean          0       0        0\n"),
    });
    HEAD.to_string() + &rows.collect::<String>()
}

#[test]
fn examples() {
    let written = clean_but(8, "");
    let summary =
        "8 blocks of 60 cells: 8 clean, 0 mendable, 0 refused. Filling would change no cell. No payload was written.\n";
    assert_eq!(table("written", &example("written")), written + summary);
    let torn = clean_but(3, "    3  torn (3)       -       -        -\n");
    let summary = "8 blocks of 60 cells: 7 clean, 0 mendable, 1 refused. Filling would change no cell. The reader would refuse the sheet for block 3, torn (3). No payload was written.\n";
    assert_eq!(table("torn", &example("torn")), torn + summary);
    let tied = clean_but(5, "    5  tied (4)       -       -        -\n");
    let summary = "8 blocks of 60 cells: 7 clean, 0 mendable, 1 refused. Filling would change no cell. The reader would refuse the sheet for block 5, tied (4). No payload was written.\n";
    assert_eq!(table("tied", &example("tied")), tied + summary);
    let sparse = clean_but(6, "    6  thin (16)     20      12        6\n");
    let summary = "8 blocks of 60 cells: 7 clean, 0 mendable, 1 refused. Filling would change no cell. The reader would refuse the sheet for block 6, thin (16). No payload was written.\n";
    assert_eq!(table("thin", &example("thin")), sparse + summary);
}

/// The example with a scratch of 80 cells from sheet cell 133 on: block 5 has the first of them, and block 4 the last. One of them was overwritten
/// with what it was.
#[test]
fn scratched() {
    let due = "\
block  verdict    start  length  changed
    0  mendable      17      10       10
    1  mendable      17      10       10
    2  mendable      17      10       10
    3  mendable      17      10        9
    4  mendable      17      10       10
    5  mendable      16      10       10
    6  mendable      16      10       10
    7  mendable      16      10       10
8 blocks of 60 cells: 0 clean, 8 mendable, 0 refused. Filling would change 79 cells, from sheet cell 133 to 212. No payload was written.
";
    assert_eq!(table("scratched", &example("scratched")), due);
}

/// One block with one wrong cell.
#[test]
fn singular() {
    let due = "\
block  verdict    start  length  changed
    0  mendable       0       1        1
1 block of 4 cells: 0 clean, 1 mendable, 0 refused. Filling would change 1 cell, sheet cell 0. No payload was written.
";
    assert_eq!(table("singular", &[4, 3, 0, 1, 1, 9, 14, 7, 1]), due);
}

/// The line of a block.
fn row(block: usize, expected: &Expected) -> String {
    match expected {
        Expected::Accepted((run, changed)) | Expected::Sparse((run, changed)) => {
            let accepted = if run.length == 0 { "clean" } else { "mendable" };
            let word = expected.refusal().unwrap_or(accepted);
            let (start, length, changed) = (run.start, run.length, changed.len());
            format!("{block:>5}  {word:<9}  {start:>5}  {length:>6}  {changed:>7}")
        }
        Expected::Refused(number) => {
            let word = if *number == 3 { "torn" } else { "tied" };
            format!("{block:>5}  {word} ({number})       -       -        -")
        }
    }
}

/// The last line.
fn summary(input: &[u8], expected: &[Expected]) -> String {
    let (n, depth) = (input[0], expected.len());
    let accepted: Vec<_> = expected.iter().map(Expected::accepted).collect();
    let clean = accepted.iter().flatten().filter(|(run, _)| run.length == 0).count();
    let mendable = accepted.iter().flatten().count() - clean;
    let refused = depth - clean - mendable;
    let blocks = if depth == 1 {
        "1 block".into()
    } else {
        format!("{depth} blocks")
    };
    let in_block = |block: usize, cell: usize| accepted[block].is_some_and(|(_, changed)| changed.contains(&cell));
    let on_sheet = (0..depth * usize::from(n)).filter(|p| in_block(p % depth, p / depth));
    let cells: Vec<usize> = on_sheet.collect();
    let filling = match cells.len() {
        0 => "no cell".into(),
        1 => format!("1 cell, sheet cell {}", cells[0]),
        count => format!("{count} cells, from sheet cell {} to {}", cells[0], cells[count - 1]),
    };
    let lowest = expected
        .iter()
        .enumerate()
        .find_map(|(block, due)| Some((block, due.refusal()?)));
    let refusal = lowest.map_or(String::new(), |(block, word)| {
        format!(" The reader would refuse the sheet for block {block}, {word}.")
    });
    format!("{blocks} of {n} cells: {clean} clean, {mendable} mendable, {refused} refused. Filling would change {filling}.{refusal} No payload was written.")
}

/// Every line is what the second decoder makes of the sheet, and every verdict comes up.
#[test]
fn as_the_second_decoder() {
    let mut words = ["clean", "mendable", "torn (3)", "tied (4)", "thin (16)"].map(|word| (word, 0));
    let examples = ["scratched", "torn", "tied", "thin", "mould"].map(example);
    for input in examples
        .into_iter()
        .chain([expected::longest()])
        .chain(expected::drawn(150))
    {
        let due = expected::blocks(&input);
        let rows: Vec<String> = due.iter().enumerate().map(|(block, due)| row(block, due)).collect();
        let text = format!("{HEAD}{}\n{}\n", rows.join("\n"), summary(&input, &due));
        assert_eq!(table("as_the_second_decoder", &input), text);
        for (word, total) in &mut words {
            *total += rows.iter().filter(|row| row.contains(*word)).count();
        }
    }
    for (word, total) in words {
        assert!(total > 10, "{word}: {total}");
    }
}
