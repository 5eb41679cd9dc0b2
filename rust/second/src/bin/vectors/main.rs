//! Prints test vectors with fixed seeds: inputs, and the answers that documents 01 and 02 demand.
//!
//!     vectors KIND             one line per vector: its input, `=`, its answer, all in decimal
//!     vectors KIND --bytes     the inputs as one byte stream
//!     vectors KIND --answers   one line per vector: the numbers of its answer, single spaces between
//!     vectors lists --input I  input number I (from 0) of the kind `lists`, as it stands
//!     vectors lister           reads the lister's standard input and prints the lister's text
//!
//! In a line of text a buffer is `| length bytes |`. In the stream a word is two bytes, low first, a count is four, a long is eight, and a
//! buffer is a word for its length and then its bytes. The stream has no header and ends with its last vector.
//! A profile is five words: n, r, b, L, D. Number 0 means accepted; else it is the refusal's number. Figure and line are document 02's for a
//! fault in a tally line, and 0 and 0 in every other answer.
//!
//! KIND        stream of a vector                              answer
//! blocks      profile, buffer read block, word length of      number; start or place; length of the run (0 if
//!             the second buffer (each byte 170 at entry)      refused); the second buffer's bytes at exit
//! writes      profile, buffer message, word length of the     number; the block buffer's bytes at exit
//!             block buffer (each byte 170 at entry)
//! checks      profile, buffer read block                      number; 1 if a codeword, else 0
//! block       byte 0, then as blocks; byte 1, then as         as there
//!             writes; byte 2, then as checks
//! sheets      byte 0, profile, buffer payload, buffer sheet   number; place (0 if accepted); the sheet's bytes at exit
//!             byte 1, profile, buffer sheet, buffer scratch,  number; blocks changed or place; the scratch's bytes
//!             buffer payload                                  at exit; the payload's bytes at exit
//! plots       byte 0, buffer payload                          number; the byte after the last record, or place; figure;
//!                                                             line
//!             byte 1, buffer payload, word plot asked for     number; record's first byte or place; length of the
//!                                                             part (0 if refused); figure; line; the part's bytes
//!             byte 2, buffer payload, word plot to add,       number; record's first byte or place; figure; line; the
//!             buffer lines                                    payload's bytes at exit
//! spots       byte 0, then as blocks, in spot mode            number; cells changed; the lowest of them; the second
//!                                                             buffer's bytes at exit
//!             byte 1, then as sheets after its byte 1, in     as there
//!             spot mode
//! fills       byte 0, profile, buffer read block: the look    number; start; length of the run (0 and 0 if refused)
//!             byte 1, profile, buffer read block, long        number; the second buffer's bytes at exit
//!             start, long length, word length of the second
//!             buffer (each byte 170 at entry): the fill
//! candidates  byte 0, profile, buffer read block, word        number; runs listed; the lent buffer's bytes at exit, from
//!             length of the lent buffer (each byte 170 at     the first on start and length of each run
//!             entry)
//! stands      byte 0, buffer species list, count payloads,    number of the beginning; number, place, figure and line
//!             count records, word how many cells are not      of each payload's last addition; payloads; records;
//!             zero, for each of them byte row, byte column,   number of the total, and the total; number of the trees
//!             count; word how many payloads follow, for each  per plot, quotient, remainder; for each cell that is not
//!             of them buffer payload, word how often it is    zero its row, its column and its count
//!             added in turn
//! library     as block; then as sheets, with bytes 3 and 4;   as there
//!             then as plots, with bytes 5, 6 and 7; then as
//!             spots, with bytes 8 and 9; then as fills, with
//!             bytes 10 and 11; then as stands, with byte 12;
//!             then as candidates, with byte 13
//! lists       buffer standard input                           length of the text; its bytes
//! generators  word b, word r                                  the r+1 coefficients, lowest first

mod blocks;
mod candidates;
mod fills;
mod plots;
mod repairs;
mod sheets;
mod spots;
mod stands;
mod vector;

use std::io::{self, Read, Write};
use vector::{counted_from, Vector};

fn vectors(kind: &str) -> Option<Vec<Vector>> {
    match kind {
        "blocks" => Some(blocks::corrections()),
        "writes" => Some(blocks::writes()),
        "checks" => Some(blocks::checks()),
        "block" => Some(blocks::operations()),
        "sheets" => Some(sheets::sheets()),
        "spots" => Some(spots::spots()),
        "fills" => Some(fills::fills()),
        "stands" => Some(stands::stands()),
        "candidates" => Some(candidates::candidates()),
        "library" => Some(library()),
        "plots" => Some(plots::plots()),
        "lists" => Some(sheets::lists()),
        "generators" => Some(blocks::generators()),
        _ => None,
    }
}

/// Vectors for every operation of the library.
fn library() -> Vec<Vector> {
    let mut vectors = blocks::operations();
    vectors.extend(counted_from(3, sheets::sheets()));
    vectors.extend(counted_from(5, plots::plots()));
    vectors.extend(counted_from(8, spots::spots()));
    vectors.extend(counted_from(10, fills::fills()));
    vectors.extend(counted_from(12, stands::stands()));
    vectors.extend(counted_from(13, candidates::candidates()));
    vectors
}

fn lister_text() -> io::Result<Vec<u8>> {
    let mut input = Vec::new();
    io::stdin().read_to_end(&mut input)?;
    Ok(second::lister::list(&input))
}

/// All vectors of a kind, each printed in this way.
fn printed(kind: &str, print: impl Fn(&Vector) -> Vec<u8>) -> Option<Vec<u8>> {
    Some(vectors(kind)?.iter().flat_map(print).collect())
}

fn line(text: String) -> Vec<u8> {
    (text + "\n").into_bytes()
}

/// What to print, or none if the arguments are not understood.
fn output(arguments: &[&str]) -> io::Result<Option<Vec<u8>>> {
    Ok(match arguments {
        ["lister"] => Some(lister_text()?),
        ["lists", "--input", number] => {
            let inputs = sheets::list_inputs();
            number.parse().ok().and_then(|i: usize| inputs.get(i).cloned())
        }
        [kind] => printed(kind, |vector| line(vector.text_line())),
        [kind, "--bytes"] => printed(kind, Vector::stream),
        [kind, "--answers"] => printed(kind, |vector| line(vector.answer_line())),
        _ => None,
    })
}

fn main() -> io::Result<()> {
    let arguments: Vec<String> = std::env::args().skip(1).collect();
    let arguments: Vec<&str> = arguments.iter().map(String::as_str).collect();
    match output(&arguments)? {
        Some(bytes) => io::stdout().write_all(&bytes),
        None => {
            eprintln!(
                "vectors blocks|writes|checks|block|sheets|spots|fills|stands|candidates|library|plots|lists|generators [--bytes|--answers]"
            );
            std::process::exit(2)
        }
    }
}

#[cfg(test)]
mod tests {
    use super::*;
    use crate::vector::Field;
    use std::collections::BTreeSet;

    /// Each kind has an accepted vector and one for each refusal that its entries can give.
    #[test]
    fn every_number_occurs() {
        let expected: [(&str, &[usize]); 11] = [
            ("blocks", &[0, 1, 2, 3, 4, 16]),
            ("writes", &[0, 1, 2]),
            ("checks", &[0, 1, 2]),
            ("block", &[0, 1, 2, 3, 4, 16]),
            ("sheets", &[0, 1, 2, 3, 4, 16]),
            ("plots", &[0, 2, 5, 6, 7, 8, 9, 10]),
            ("spots", &[0, 1, 2, 11]),
            ("fills", &[0, 1, 2, 3, 4, 12, 16]),
            ("stands", &[0, 13]),
            ("candidates", &[0, 1, 2]),
            ("library", &[0, 1, 2, 3, 4, 5, 6, 7, 8, 9, 10, 11, 12, 13, 16]),
        ];
        for (kind, numbers) in expected {
            let found: BTreeSet<usize> = vectors(kind).unwrap().iter().map(|vector| vector.answer[0]).collect();
            assert_eq!(found, numbers.iter().copied().collect());
        }
    }

    /// Of the look every number but 12, of the fill every number but 4 and 16: there a tied block goes to the codeword of the run named, and so does a thin one.
    #[test]
    fn every_number_of_look_and_fill_occurs() {
        for (operation, numbers) in [(0, &[0, 1, 2, 3, 4, 16][..]), (1, &[0, 1, 2, 3, 12])] {
            let told = |vector: &Vector| match vector.fields[0] {
                Field::Byte(number) if number == operation => Some(vector.answer[0]),
                _ => None,
            };
            let found: BTreeSet<usize> = vectors("fills").unwrap().iter().filter_map(told).collect();
            assert_eq!(found, numbers.iter().copied().collect(), "{operation}");
        }
    }

    /// In each mode, of sheets of sixteen blocks: all changed, all but one, one, and every second; only the last refused; the scratch refused.
    #[test]
    fn every_answer_of_sixteen_blocks_occurs() {
        for (kind, number) in [("sheets", 3), ("spots", 11)] {
            let told = |vector: &Vector| match (&vector.fields[0], &vector.fields[5]) {
                (Field::Byte(1), Field::Word(16)) => Some((vector.answer[0], vector.answer[1])),
                _ => None,
            };
            let found: BTreeSet<(usize, usize)> = vectors(kind).unwrap().iter().filter_map(told).collect();
            for due in [(0, 16), (0, 15), (0, 1), (0, 8), (number, 15), (2, 0)] {
                assert!(found.contains(&due), "{kind} {due:?}");
            }
        }
    }

    /// Additions have every number that they can give, and so have totals and trees per plot.
    #[test]
    fn every_number_of_stand_tables_occurs() {
        let mut found = [(); 3].map(|()| BTreeSet::new());
        for vector in vectors("stands").unwrap() {
            let buffers = vector.fields.iter().filter(|field| matches!(field, Field::Bytes(_)));
            let (additions, after) = vector.answer[1..].split_at(4 * (buffers.count() - 1));
            found[0].extend(additions.iter().copied().step_by(4));
            found[1].insert(after[2]);
            found[2].insert(after[4]);
        }
        let due = [&[0, 2, 5, 6, 7, 8, 13, 14][..], &[0, 13, 14], &[0, 13, 14, 15]];
        assert_eq!(found, due.map(|numbers| numbers.iter().copied().collect()));
    }

    /// Each operation on plots has a bad tally for each figure, in the first line, in a middle one and in the last of forty, and one outside a line; the
    /// first line has no line to rise above.
    #[test]
    fn every_figure_occurs() {
        for (operation, figure_at) in [(0, 2), (1, 3), (2, 2)] {
            let told = |vector: &Vector| match vector.fields[0] {
                Field::Byte(number) if number == operation && vector.answer[0] == 7 => {
                    Some((vector.answer[figure_at], vector.answer[figure_at + 1]))
                }
                _ => None,
            };
            let found: BTreeSet<(usize, usize)> = vectors("plots").unwrap().iter().filter_map(told).collect();
            assert!(found.contains(&(0, 0)), "{operation}");
            for figure in 1..=4 {
                let first = usize::from(figure == 4);
                for line in [first, 19, 39] {
                    assert!(found.contains(&(figure, line)), "{operation} {figure} {line}");
                }
            }
            assert!(!found.contains(&(4, 0)), "{operation}");
        }
    }

    /// The program that is held to the vectors of the library reads no more than 2,000.
    #[test]
    fn the_library_has_at_most_2000() {
        assert!(library().len() <= 2_000);
    }

    /// The files that the crates' programs are held to.
    #[test]
    fn the_stored_files_are_up_to_date() {
        for (kind, form, file) in [
            ("library", "--bytes", "vectors/stdin"),
            ("library", "--answers", "vectors/stdout"),
            ("generators", "--answers", "code_examples/stdout"),
        ] {
            let stored = std::fs::read(format!("{}/../../crates/{file}", env!("CARGO_MANIFEST_DIR"))).unwrap();
            assert!(output(&[kind, form]).unwrap().unwrap() == stored, "{file}");
        }
    }

    #[test]
    fn a_vector_is_printed_as_the_header_says() {
        let second = &vectors("blocks").unwrap()[1];
        assert_eq!(second.text_line(), "4 3 0 1 1 | 4 9 14 7 1 | 4 = 0 0 1 8 14 7 1");
        assert_eq!(second.answer_line(), "0 0 1 8 14 7 1");
        let stream = [4, 0, 3, 0, 0, 0, 1, 0, 1, 0, 4, 0, 9, 14, 7, 1, 4, 0];
        assert_eq!(second.stream(), stream);
    }
}
