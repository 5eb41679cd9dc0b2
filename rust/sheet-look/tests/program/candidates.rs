//! What the program prints with `--all`, against the text that the second decoder's codewords and plots make. Each kind of line has to come up
//! on the sheets that are drawn, so that none is left untested.

use crate::expected;
use crate::listed::due;
use crate::run::{example, printed, table};
use crate::tallied::{crowded, filled, plot_zero, tallied};

/// The table comes first, as it is without `--all`; then follows what is due.
fn held(name: &str, input: &[u8]) -> String {
    let all = printed(name, input, &["--all"]);
    let listed = all.strip_prefix(&table(name, input)).expect(&all);
    assert_eq!(listed, due(input));
    listed.into()
}

#[test]
fn examples() {
    for (name, lists) in [
        ("written", "Every block is clean, and no other codeword lies within a run of at most 12 cells.\n"),
        ("scratched", "\nblock 3, mendable: 1 codeword within a run of at most 12 cells\n  its message is payload bytes 117 to 155\n  1. start 17, length 10, 9 cells changed; chosen\n"),
        ("torn", "\nblock 3, torn (3): no codeword within a run of at most 12 cells\n  its message is payload bytes 117 to 155\n"),
        ("tied", "\nblock 5, tied (4): 2 codewords within runs of at most 12 cells\n  its message is payload bytes 195 to 233\n  none is chosen; differences are from the first\n"),
        ("thin", "\nblock 6, thin (16): 1 codeword within a run of at most 12 cells\n  its message is payload bytes 234 to 272\n  none is chosen\n  1. start 20, length 12, 6 cells changed\n"),
        ("mould", "\nNo payload is shown, since no codeword is listed for blocks 0, 1, 2, 3, 4, 5, 6 and 7.\n"),
    ] {
        let text = held(&format!("all-{name}"), &example(name));
        assert!(format!("\n{text}").contains(lists), "{text}");
    }
}

/// Parts of the text that have to come up; # stands for any number but 0. Of a bad tally without a line the record has over 40 lines, or its plot is 0.
const KINDS: [&str; 29] = [
    "; chosen\n",
    "none is chosen\n",
    "none is chosen; differences are from the first\n",
    ": no codeword within a run",
    "mendable: 2 codewords",
    "thin (16): 2 codewords",
    ": 3 codewords",
    "No payload is shown, since no codeword is listed for block ",
    "No payload is shown, since no codeword is listed for blocks ",
    "is refused; these payloads have its first codeword\n",
    "are refused; these payloads have their first codewords\n",
    "payload accepted: ",
    "payload refused: bad mark",
    "payload refused: cut short",
    "payload refused: plot order",
    "payload refused: bad tally (#) at payload byte #, plot #\n",
    "payload refused: bad tally (#) at payload byte #, plot 0\n",
    "(lines counted from 0)",
    "class #: # trees instead of #\n",
    "class #: # trees, not in the chosen one\n",
    "class #: # trees, not in the first\n",
    "class #: missing, # trees in the ",
    "plot #: # trees, not in the ",
    "plot #: missing, # trees in the ",
    "plots compared with those of codeword #, since the payload of the first is refused\n",
    "class #: # trees, not in codeword #\n",
    "class #: missing, # trees in codeword #\n",
    "message bytes differ\n",
    "message bytes differs\n",
];

/// The text with # for each number but 0.
fn without_numbers(text: &str) -> String {
    let letters: Vec<char> = text.chars().collect();
    let parts = letters.chunk_by(|one, next| one.is_ascii_digit() && next.is_ascii_digit());
    parts
        .map(|part| match part {
            ['1'..='9', ..] => "#".into(),
            _ => part.iter().collect::<String>(),
        })
        .collect()
}

/// Every line is what the second decoder makes of the sheet, and each kind of line comes up.
#[test]
fn as_the_second_decoder() {
    let mut kinds = KINDS.map(|kind| (kind, 0));
    let with_plots = tallied(400).into_iter().chain(filled(150)).chain([plot_zero()]);
    for input in with_plots.chain(crowded(40)).chain(expected::drawn(80)) {
        let text = held("all", &input);
        let signs = without_numbers(&text);
        for (kind, count) in &mut kinds {
            *count += text.matches(*kind).count() + signs.matches(*kind).count();
        }
    }
    for (kind, count) in kinds {
        assert!(count > 0, "{kind:?}");
    }
}

/// With another limit the program prints what it prints of a sheet with that limit, after a note.
#[test]
fn with_another_limit() {
    for name in ["scratched", "torn", "tied", "thin"] {
        let input = example(name);
        for limit in 0..input[1] {
            let mut other = input.clone();
            other[3] = limit;
            let note = format!("Looked at with L = {limit}; the L of the sheet is {}.\n\n", input[3]);
            let text = printed("limit", &input, &["--all", "--limit", &limit.to_string()]);
            assert_eq!(text, note + &printed("own-limit", &other, &["--all"]));
        }
    }
}
