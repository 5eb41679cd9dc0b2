//! What the program prints.

use program_runs::stored;
use second::plot::record;
use second::random::Random;
use second::Mode;

use crate::expected;
use crate::run::{EXAMPLES, PROGRAM};
use crate::sheets::{differently_damaged, drawn, files, with_run, written, File, LONGEST, SMALL};

/// The files' names, with an option where the mode is not that of the file before, which for the first is scratch mode.
fn arguments<'a>(files: &'a [File], modes: &[Mode]) -> Vec<&'a str> {
    let (mut arguments, mut before) = (Vec::new(), Mode::Burst);
    for ((name, _), &mode) in files.iter().zip(modes) {
        if mode != before {
            arguments.push(if mode == Mode::Spots { "--spots" } else { "--scratch" });
        }
        arguments.push(name);
        before = mode;
    }
    arguments
}

/// What the program prints for these files, each in its mode, which is what the second decoder makes of them.
fn held(name: &str, files: &[File], modes: &[Mode], species: Option<&[u8]>) -> String {
    let folder = PROGRAM.folder(name, files);
    let list = species.map(|list| list.iter().map(u8::to_string).collect::<Vec<String>>().join(","));
    let mut arguments = arguments(files, modes);
    if let Some(list) = &list {
        arguments.extend(["--species", list]);
    }
    let ended = PROGRAM.run(&folder, &arguments);
    assert_eq!(ended, expected::run(files, modes, species), "{arguments:?}");
    ended.out
}

/// The same for one sheet, of these plots, in scratch mode.
fn one_sheet(name: &str, numbers: [usize; 5], payload: &[u8], species: Option<&[u8]>) -> String {
    held(name, &files([written(numbers, payload)]), &[Mode::Burst], species)
}

/// Every choice of a mode for each of three sheets.
fn modes_of_three() -> impl Iterator<Item = [Mode; 3]> {
    (0..8).map(|choice| [0, 1, 2].map(|sheet| Mode::ALL[choice >> sheet & 1]))
}

#[test]
fn examples() {
    let sheets = files(EXAMPLES.map(stored));
    for modes in modes_of_three() {
        held("examples", &sheets, &modes, None);
        for list in [&[][..], &[5, 2, 1], &[14], &[99, 1], &[1, 2, 5, 9, 14]] {
            held("examples", &sheets, &modes, Some(list));
        }
    }
}

/// The scratched sheet is in the table if it is read in scratch mode, and the mouldy one if it is read in spot mode.
#[test]
fn a_mode_for_each_sheet() {
    let sheets = files(differently_damaged());
    for modes in modes_of_three() {
        let text = held("modes", &sheets, &modes, None);
        let torn = "2.sheet: not in the table: torn (refusal 3, place 0)\n";
        assert_eq!(text.contains(torn), modes[2] == Mode::Burst, "{text}");
        let spotted = "1.sheet: not in the table: spotted: ";
        assert_eq!(text.contains(spotted), modes[1] == Mode::Spots, "{text}");
    }
}

/// A long run is mended if more than half of it is wrong, and else leaves its sheet out, unless that is read in spot mode.
#[test]
fn a_thin_run() {
    for wrong in 2..=5 {
        let sheets = files([with_run(wrong)]);
        let text = held("thin", &sheets, &[Mode::Burst], None);
        let told = "0.sheet: not in the table: thin: a run of more than r/2 cells, of which at most half would be changed (refusal 16, place 2)\n";
        assert_eq!(text.starts_with(told), wrong <= 4, "{text}");
        let mended = "0.sheet: 1 plot, 2 trees, 1 of 4 blocks mended\n";
        assert_eq!(text.starts_with(mended), wrong == 5, "{text}");
        assert!(held("thin", &sheets, &[Mode::Spots], None).starts_with(mended));
    }
}

/// An option for the mode may be given again, and the list may stand anywhere.
#[test]
fn order_of_options() {
    let sheets = files(differently_damaged());
    let folder = PROGRAM.folder("order", &sheets);
    let held = |line: &str, order: [usize; 3], modes: [Mode; 3]| {
        let arguments: Vec<&str> = line.split(' ').collect();
        let sheets = order.map(|number| sheets[number].clone());
        let due = expected::run(&sheets, &modes, Some(&[7, 3]));
        assert_eq!(due.status, 0, "every sheet is in the table");
        assert_eq!(PROGRAM.run(&folder, &arguments), due, "{line}");
    };
    for line in [
        "--species 7,3 0.sheet 1.sheet --spots 2.sheet",
        "0.sheet --species 7,3 1.sheet --spots 2.sheet",
        "0.sheet 1.sheet --spots --species 7,3 2.sheet",
        "--scratch 0.sheet --scratch 1.sheet --spots 2.sheet --species 7,3",
    ] {
        held(line, [0, 1, 2], [Mode::Burst, Mode::Burst, Mode::Spots]);
    }
    let line = "--spots 2.sheet 0.sheet --scratch --species 7,3 1.sheet";
    held(line, [2, 0, 1], [Mode::Spots, Mode::Spots, Mode::Burst]);
    let line = "1.sheet --spots 2.sheet --scratch 0.sheet --species 7,3";
    held(line, [1, 2, 0], [Mode::Burst, Mode::Spots, Mode::Burst]);
}

/// One block with one plot and one tree.
#[test]
fn singular() {
    let due = "\
0.sheet: 1 plot, 1 tree, 0 of 1 block mended

Trees by species and diameter class in centimetres:

species  31-40  total
      3      1      1
 others      0      0
  total      1      1

1 tree on 1 plot: 1 tree per plot and 0 over.
";
    let plot = record(7, &[3, 32, 1]);
    assert_eq!(one_sheet("singular", [20, 8, 1, 4, 1], &plot, Some(&[3])), due);
}

/// The list of no species: every tree is in the last row.
#[test]
fn empty_list() {
    let due = "\
0.sheet: 1 plot, 6 trees, 0 of 4 blocks mended

Trees by species and diameter class in centimetres:

species  31-40  41-50  total
 others      2      4      6
  total      2      4      6

6 trees on 1 plot: 6 trees per plot and 0 over.
";
    let plot = record(7, &[3, 32, 2, 9, 44, 4]);
    assert_eq!(one_sheet("empty_list", SMALL, &plot, Some(&[])), due);
}

/// A sheet with no plot is no failure.
#[test]
fn no_plots() {
    let due = "\
0.sheet: 0 plots, 0 trees, 0 of 4 blocks mended

Trees by species and diameter class in centimetres:

species  total
 others      0
  total      0

0 trees on 0 plots, and so no trees per plot: no plots (refusal 15).
";
    assert_eq!(one_sheet("no_plots", SMALL, &[], None), due);
}

/// Every class, in two parts: the sums of the rows stand at the end of the second.
#[test]
fn all_classes() {
    let lines: Vec<u8> = (0..20)
        .flat_map(|column| [3, 10 * column + 1 + column / 2, 2 * column + 1])
        .collect();
    let due = "
species  1-10  11-20  21-30  31-40  41-50  51-60  61-70  71-80  81-90  91-100
      3     1      3      5      7      9     11     13     15     17      19
 others     0      0      0      0      0      0      0      0      0       0
  total     1      3      5      7      9     11     13     15     17      19

species  101-110  111-120  121-130  131-140  141-150  151-160  161-170  171-180  181-190  191-200  total
      3       21       23       25       27       29       31       33       35       37       39    400
 others        0        0        0        0        0        0        0        0        0        0      0
  total       21       23       25       27       29       31       33       35       37       39    400
";
    let text = one_sheet("all_classes", SMALL, &record(7, &lines), None);
    assert!(text.contains(due), "{text}");
}

/// Seventeen species: the one with the fewest trees has no row of its own. Of sixteen each has one.
#[test]
fn more_species_than_rows() {
    let count = |number| if number == 9 { 1 } else { 2 };
    let lines: Vec<u8> = (1..=17).flat_map(|number| [2 * number, 30, count(number)]).collect();
    let text = one_sheet("seventeen", SMALL, &record(7, &lines), None);
    let rows = "in centimetres, the 16 of 17 species with the most trees in rows of their own:\n";
    assert!(text.contains(rows) && text.contains("\n others      1 "), "{text}");
    assert!(!text.contains("\n     18 "), "{text}");
    let text = one_sheet("sixteen", SMALL, &record(7, &lines[..16 * 3]), None);
    assert!(
        text.contains("\n     18      1 ") && text.contains("\n others      0 "),
        "{text}"
    );
}

/// A thousand sheets and two more, and one among each that is refused for its own reason.
#[test]
fn more_than_a_thousand() {
    let [good, bad] = [2, 0].map(|count| written([20, 8, 1, 4, 1], &record(7, &[3, 32, count])));
    let sheet = |number| if number == 7 || number == 1_002 { &bad } else { &good };
    let sheets = files((0..1_004).map(|number| sheet(number).clone()));
    let text = held("thousand", &sheets, &[Mode::Burst; 1_004], None);
    let told = |number: usize| {
        let full = "tract full: a payload beyond 1,000, or a cell or counter above 400,000,000 (refusal 14, place 0)";
        format!("\n{number}.sheet: not in the table: {full}\n")
    };
    assert!((1_001..1_004).all(|number| text.contains(&told(number))));
    assert!(!(0..1_001).any(|number| text.contains(&told(number))));
    let due = "\n2000 trees on 1000 plots: 2 trees per plot and 0 over. 4 of 1004 sheets are not in the table.\n";
    assert!(text.ends_with(due));
}

/// The longest sheets, of as many whole records as fit.
#[test]
fn longest_sheets() {
    let lines: Vec<u8> = (1..=40).flat_map(|class| [99, 5 * class, 255]).collect();
    let payload: Vec<u8> = (1..=32).flat_map(|plot| record(plot, &lines)).collect();
    let sheets = files([written(LONGEST, &payload), written(LONGEST, &payload)]);
    let text = held("longest", &sheets, &[Mode::Burst; 2], None);
    let due = "\n652800 trees on 64 plots: 10200 trees per plot and 0 over.\n";
    assert!(text.ends_with(due), "{text}");
}

/// Tracts of a few sheets, some of them damaged, each in one of the modes, with a list and without.
#[test]
fn as_the_second_decoder() {
    let mut random = Random::new(11);
    let mut words = ["torn", "spotted", "bad", "rows of their own", "8 plots"].map(|word| (word, 0));
    for round in 0..150 {
        let sheets = files((0..random.between(1, 9)).map(|_| drawn(&mut random)));
        let list: Vec<u8> = random
            .distinct(24, 6)
            .into_iter()
            .map(|number| 4 * number as u8 + 4)
            .collect();
        let species = [None, Some(&list[..random.between(0, 6)])][round % 2];
        let modes: Vec<Mode> = sheets.iter().map(|_| Mode::ALL[random.between(0, 1)]).collect();
        let text = held("as_the_second_decoder", &sheets, &modes, species);
        for (word, times) in &mut words {
            *times += text.matches(*word).count();
        }
    }
    for (word, times) in words {
        assert!(times > 3, "{word}: {times}");
    }
}
