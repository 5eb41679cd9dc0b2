//! What the program draws, as a reader of XML finds it: marks, runs and hatchings against the second decoder, and texts against their room. Cells are counted
//! back from the places of the shapes, so a shape in a wrong place is found too.

use std::collections::BTreeSet;
use std::fs;

use second::candidates::candidate_codewords;

use crate::expected::{self, Expected};
use crate::run::{example, folder, names, printed_and_drawn, PROGRAM};
use crate::tallied::{crowded, overlapping, tallied};
use crate::xml::{elements, Element};

/// A block and one of its cells.
type Cell = (usize, usize);

/// The paths from the corner of a mark for a changed cell, of the two parts of a mark for a disputed one, and of the centre of one that mending would change.
const CHANGED: &str = "h.75v.5h-.75";
const DISPUTED: [&str; 2] = ["m0-.12h.75v.74h-.75", "m.17-.05h.41v.6h-.41"];
const CENTRE: &str = "m.17.13h.41v.24h-.41";

/// The paths of this group, each without the `z` at its end.
fn paths<'a>(elements: &'a [Element], group: &'a str) -> impl Iterator<Item = &'a str> {
    let inside = elements.iter().filter(move |e| e.inside == group);
    inside.flat_map(|e| e.get("d").split_terminator('z'))
}

/// The cells with marks of this group and path.
fn marks(elements: &[Element], group: &str, path: &str) -> Vec<Cell> {
    let place = |mark: &str| {
        let (cell, block) = mark.strip_prefix('M')?.strip_suffix(path)?.split_once(' ')?;
        Some((block.parse().ok()?, cell.parse().ok()?))
    };
    paths(elements, group).filter_map(place).collect()
}

/// The block and the cells of a rectangle over the cells, whose frame and number of cells are known.
fn covered(rectangle: &Element, frame: &Element, n: usize) -> BTreeSet<Cell> {
    let pitch = frame.number("width") / n;
    let left = rectangle.number("x") - frame.number("x");
    let block = (rectangle.number("y") - frame.number("y")) / rectangle.number("height").next_multiple_of(20);
    assert_eq!((left % pitch, (rectangle.number("width") + 1) % pitch), (0, 0));
    let cells = left / pitch..(left + rectangle.number("width") + 1) / pitch;
    cells.map(|cell| (block, cell)).collect()
}

/// What should be drawn: changed and disputed cells, those of the disputed ones that mending would change, runs that can be mended and thin ones, and blocks
/// that are torn, tied and thin.
#[derive(Default)]
struct Due {
    changed: BTreeSet<Cell>,
    disputed: BTreeSet<Cell>,
    disputed_mended: BTreeSet<Cell>,
    runs: [BTreeSet<Cell>; 2],
    refused: [BTreeSet<Cell>; 3],
}

fn due(input: &[u8]) -> Due {
    let mut due = Due::default();
    for (block, expected) in expected::blocks(input).iter().enumerate() {
        let all = || (0..usize::from(input[0])).map(|cell| (block, cell));
        let (found, is_sparse) = match expected {
            Expected::Accepted(found) => (found, false),
            Expected::Sparse(found) => (found, true),
            Expected::Refused(number) => {
                due.refused[usize::from(number - 3)].extend(all());
                continue;
            }
        };
        let (run, changed) = found;
        due.runs[usize::from(is_sparse)].extend((run.start..run.start + run.length).map(|cell| (block, cell)));
        due.changed.extend(changed.iter().map(|&cell| (block, cell)));
        due.refused[2].extend(all().filter(|_| is_sparse));
    }
    due
}

/// What should be drawn with `--all`: each cell is by what the codewords of its block have in it, compared with each other and with what was read, and a
/// disputed one by what mending would make of it.
fn due_with_all(input: &[u8]) -> Due {
    let mut due = Due {
        changed: BTreeSet::new(),
        ..due(input)
    };
    let (profile, _) = expected::parts(input);
    let expected = expected::blocks(input);
    for (block, read) in expected::read(input).iter().enumerate() {
        let list = candidate_codewords(&profile, read).expect("in range");
        for cell in 0..profile.n {
            let values: BTreeSet<u8> = list.iter().map(|(_, codeword)| codeword[cell]).collect();
            if values.len() > 1 {
                due.disputed.insert((block, cell));
                let mended = expected[block].accepted();
                if mended.is_some_and(|(_, changed)| changed.contains(&cell)) {
                    due.disputed_mended.insert((block, cell));
                }
            } else if values.iter().any(|&value| value != read[cell]) {
                due.changed.insert((block, cell));
            }
        }
    }
    due
}

/// Marks, runs and hatchings are what the second decoder makes of the sheet, and without `--all` there are as many marks as the table says.
fn held(name: &str, input: &[u8]) {
    let (text, drawing) = printed_and_drawn(name, input, &[]);
    let elements = elements(&drawing);
    let in_table: usize = text
        .lines()
        .filter_map(|line| line.get(33..)?.trim().parse::<usize>().ok())
        .sum();
    assert_eq!(marks(&elements, "changed", CHANGED).len(), in_table);
    assert!(!elements.iter().any(|e| e.get("id").starts_with("disputed")));
    as_due(&elements, input, &text, due(input));
}

/// The same with `--all`, which marks disputed cells.
fn held_with_all(name: &str, input: &[u8]) {
    let (text, drawing) = printed_and_drawn(name, input, &["--all"]);
    as_due(&elements(&drawing), input, &text, due_with_all(input));
}

fn as_due(elements: &[Element], input: &[u8], text: &str, due: Due) {
    let n = usize::from(input[0]);
    for (group, parts, cells) in [
        ("changed", &[CHANGED][..], &due.changed),
        ("disputed", &DISPUTED, &due.disputed),
        ("disputed-mended", &[CENTRE], &due.disputed_mended),
    ] {
        for path in parts {
            let marks = marks(elements, group, path);
            let found = (marks.len(), &marks.into_iter().collect());
            assert_eq!(found, (cells.len(), cells), "{group}");
        }
        let count = paths(elements, group).count();
        assert_eq!(
            count,
            parts.len() * cells.len(),
            "{group} has other paths than its marks"
        );
    }
    let frame = elements
        .iter()
        .find(|e| e.get("fill") == "url(#cell)")
        .expect("the cells");
    let all = |is: &dyn Fn(&Element) -> bool| -> BTreeSet<Cell> {
        let found = elements.iter().filter(|e| e.name == "rect" && is(e));
        found.flat_map(|e| covered(e, frame, n)).collect()
    };
    assert_eq!(["runs", "thin-runs"].map(|id| all(&|e| e.inside == id)), due.runs);
    let hatched = |word: &str| all(&|e| e.get("fill") == format!("url(#{word})") && e.number("x") == frame.number("x"));
    assert_eq!(["torn", "tied", "thin"].map(hatched), due.refused);
    marks_in_their_cells(elements, frame, n);
    labels(elements, frame, text);
    ticks(elements, frame, n);
}

/// The marks' units are a cell and a row, and each mark is within its cell.
fn marks_in_their_cells(elements: &[Element], frame: &Element, n: usize) {
    let groups = elements
        .iter()
        .filter(|e| ["changed", "disputed", "disputed-mended"].contains(&e.get("id")));
    for group in groups {
        let numbers = group.get("transform").split(['(', ')', ' ']);
        let numbers: Vec<f64> = numbers.filter_map(|number| number.parse().ok()).collect();
        let [width, left, top] = [frame.number("width") / n, frame.number("x"), frame.number("y")].map(|x| x as f64);
        assert_eq!(numbers[2..], [width, 20.0]);
        let (x, y) = (numbers[0] - left, numbers[1] - top);
        assert!(x >= 0.0 && x + 0.75 * width < width, "{numbers:?}");
        let (above, below) = if group.get("id") == "changed" {
            (0.0, 0.5)
        } else {
            (0.12, 0.62)
        };
        assert!(y - above * 20.0 >= 0.0 && y + below * 20.0 < 20.0, "{numbers:?}");
    }
}

/// The texts whose lines are from one height to below another.
fn texts(elements: &[Element], from: usize, below: usize) -> impl Iterator<Item = &Element> {
    let texts = elements.iter().filter(|e| e.name == "text");
    texts.filter(move |e| (from..below).contains(&e.number("y")))
}

/// Beside each row stand the number of its block and the table's verdict.
fn labels(elements: &[Element], frame: &Element, table: &str) {
    let rows = frame.number("height") / 20;
    for (block, line) in table.lines().skip(1).take(rows).enumerate() {
        let top = frame.number("y") + block * 20;
        let found: Vec<&str> = texts(elements, top, top + 20).map(|e| e.text.as_str()).collect();
        assert_eq!(found, [&format!("block {block}"), line[7..16].trim_end()]);
    }
}

/// Above every tenth column stands its number, and below it the number of its first cell in the sheet.
fn ticks(elements: &[Element], frame: &Element, n: usize) {
    let (left, top, height) = (frame.number("x"), frame.number("y"), frame.number("height"));
    let pitch = frame.number("width") / n;
    for (from, factor) in [(top - 20, 1), (top + height, height / 20)] {
        let numbers = texts(elements, from, from + 20).filter_map(|e| Some((e, e.text.parse::<usize>().ok()?)));
        let found: Vec<(usize, usize)> = numbers
            .map(|(e, number)| ((e.number("x") - left) / pitch, number))
            .collect();
        let due: Vec<(usize, usize)> = (0..n).step_by(10).map(|cell| (cell, cell * factor)).collect();
        assert_eq!(found, due);
    }
}

#[test]
fn examples() {
    for name in ["written", "scratched", "torn", "tied", "thin", "mould"] {
        held(&format!("drawn-{name}"), &example(name));
        held_with_all(&format!("drawn-all-{name}"), &example(name));
    }
}

#[test]
fn as_the_second_decoder() {
    for input in expected::drawn(80) {
        held("drawn", &input);
    }
}

#[test]
fn candidates_as_the_second_decoder() {
    let mut centres = 0;
    for input in expected::drawn(40).into_iter().chain(tallied(80)).chain(crowded(20)) {
        held_with_all("drawn-all", &input);
        centres += due_with_all(&input).disputed_mended.len();
    }
    assert!(centres > 0, "no disputed cell that mending would change");
}

/// A changed cell between disputed ones.
#[test]
fn overlapping_runs() {
    held_with_all("overlapping", &overlapping());
    let Due { changed, disputed, .. } = due_with_all(&overlapping());
    assert_eq!(
        (changed, disputed),
        ([(0, 3)].into(), [0, 1, 2, 4, 5, 6].map(|cell| (0, cell)).into())
    );
}

/// With another limit the drawing is that of a sheet with that limit, but that it tells both.
#[test]
fn with_another_limit() {
    for (name, limit) in [("tied", 20), ("thin", 11), ("scratched", 0)] {
        let mut input = example(name);
        let number = limit.to_string();
        let (_, drawing) = printed_and_drawn("drawn-limit", &input, &["--all", "--limit", &number]);
        input[3] = limit;
        let (_, other) = printed_and_drawn("drawn-own-limit", &input, &["--all"]);
        let note = format!("<desc>Looked at with L = {limit}; the L of the sheet is 12. ");
        let profile = format!("L = 12, D = 8; looked at with L = {limit}.</text>");
        let due = other
            .replacen("<desc>", &note, 1)
            .replacen(&format!("L = {limit}, D = 8.</text>"), &profile, 1);
        assert_eq!(drawing, due);
    }
}

/// The longest sheet, with 512 cells to change, in a drawing of no more than 20,000 bytes.
#[test]
fn longest() {
    let input = expected::longest();
    held("longest", &input);
    let (_, drawing) = printed_and_drawn("longest", &input, &[]);
    assert!(drawing.len() < 20_000, "{}", drawing.len());
    assert_eq!(marks(&elements(&drawing), "changed", CHANGED).len(), 512);
}

/// Every text is inside the drawing, at no more than 7 units a letter.
#[test]
fn texts_fit() {
    let inputs = [example("thin"), expected::longest(), vec![3, 2, 0, 1, 1, 0, 0, 0]];
    let options = [&[][..], &["--all"], &["--all", "--limit", "1"]];
    for (input, options) in inputs.iter().flat_map(|input| options.map(|options| (input, options))) {
        let (_, drawing) = printed_and_drawn("texts_fit", input, options);
        let elements = elements(&drawing);
        let (width, height) = (elements[0].number("width"), elements[0].number("height"));
        assert_eq!(elements[0].get("viewBox"), format!("0 0 {width} {height}"));
        for text in elements.iter().filter(|e| e.name == "text") {
            let room = match text.get("text-anchor") {
                "end" => text.number("x"),
                _ => width - text.number("x"),
            };
            assert!(text.text.len() * 7 <= room && text.number("y") < height, "{text:?}");
        }
    }
}

/// A drawing is overwritten, and so is an empty file; any other file, the sheet itself included, is left as it is.
#[test]
fn other_files() {
    let sheet = example("scratched");
    let folder = folder("other_files", &sheet);
    fs::write(folder.join("empty.svg"), "").expect("a file for the test");
    fs::write(folder.join("old.svg"), "<svg/>\n".repeat(9_000)).expect("a file for the test");
    fs::write(folder.join("notes"), "<sv").expect("a file for the test");
    for out in ["empty.svg", "old.svg"] {
        assert_eq!(PROGRAM.run(&folder, &["a.sheet", "--svg", out]).status, 0);
        elements(&fs::read_to_string(folder.join(out)).expect("the drawing is there"));
    }
    for out in ["a.sheet", "notes"] {
        let ended = PROGRAM.run(&folder, &["a.sheet", "--svg", out]);
        let message =
            format!("sheet-look: {out}: the file is there and does not begin with <svg, so it is left as it is\n");
        assert_eq!((ended.status, ended.out.as_str(), ended.err), (1, "", message));
    }
    assert_eq!(fs::read(folder.join("a.sheet")).expect("the sheet is there"), sheet);
    assert_eq!(fs::read(folder.join("notes")).expect("the notes are there"), b"<sv");
    assert_eq!(names(&folder), ["a.sheet", "empty.svg", "notes", "old.svg"]);
}
