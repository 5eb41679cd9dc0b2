//! The text for small sheets, whole, and its parts. The sheets are document 01's blocks of four cells, of which one is the message, so that every section can
//! be written out here.

use super::*;
use crate::candidates::candidates;
use crate::look::looks;
use sheet_file::Sheet;

/// The text for a sheet with these blocks of four cells, of which three are check cells, with L = 2.
fn listed(blocks: &[[u8; 4]]) -> String {
    let cells = (0..4).flat_map(|cell| blocks.iter().map(move |block| block[cell]));
    let sheet = Sheet {
        profile: Profile::new(4, 3, 0, 2, blocks.len()).expect("in range"),
        cells: cells.collect(),
    };
    let looks = looks(&sheet).expect("the lengths fit");
    let lists = candidates(&sheet).expect("the lengths fit");
    text(&sheet.profile, &looks, &lists)
}

const CLEAN: [u8; 4] = [8, 14, 7, 1];
const AMBIGUOUS: [u8; 4] = [8, 14, 0, 0];
const UNCORRECTABLE: [u8; 4] = [9, 14, 7, 0];

const HEAD: &str = "For each block that is not clean, every codeword within a run of at most 2 cells, with its message bytes in hexadecimal. Bytes in [] differ from those of the first codeword.\n";

/// Document 01's block that is tied between its generator and the zero codeword, and one that is to be mended.
#[test]
fn sections() {
    let due = "Each payload is made of the codeword listed and, for every other block, its first codeword: as read, as mended, or, where that block is refused, only assumed; other combinations are not tried.

block 0, tied (4): 2 codewords within runs of at most 2 cells
  its message is payload byte 0
  none is chosen; differences are from the first
  1. start 0, length 2, 2 cells changed
       0:  00
     payload refused: bad mark (5) at payload byte 0
  2. start 2, length 2, 2 cells changed; 1 of 1 message byte differs
       0: [01]
     payload refused: bad mark (5) at payload byte 0

block 2, mendable: 1 codeword within a run of at most 2 cells
  its message is payload byte 2
  block 0 is refused; these payloads have its first codeword
  1. start 0, length 1, 1 cell changed; chosen
       0:  01
     payload refused: bad mark (5) at payload byte 0
";
    let blocks = [AMBIGUOUS, CLEAN, [9, 14, 7, 1]];
    assert_eq!(listed(&blocks), format!("{HEAD}{due}"));
}

#[test]
fn no_codeword() {
    let section = |block| {
        let bytes = format!("  its message is payload byte {block}\n");
        format!("\nblock {block}, torn (3): no codeword within a run of at most 2 cells\n{bytes}")
    };
    let due = format!(
        "{HEAD}No payload is shown, since no codeword is listed for block 1.\n{}",
        section(1)
    );
    assert_eq!(listed(&[CLEAN, UNCORRECTABLE]), due);
    let both = format!("{HEAD}No payload is shown, since no codeword is listed for blocks 0 and 2.\n");
    let due = format!("{both}{}{}", section(0), section(2));
    assert_eq!(listed(&[UNCORRECTABLE, CLEAN, UNCORRECTABLE]), due);
    let with_one_more = listed(&[UNCORRECTABLE, AMBIGUOUS, UNCORRECTABLE]);
    assert!(with_one_more.contains("2 codewords"), "{with_one_more}");
    for absent in ["payload refused", "payload accepted", "these payloads"] {
        assert!(!with_one_more.contains(absent), "{with_one_more}");
    }
}

#[test]
fn clean() {
    let due = "Every block is clean, and no other codeword lies within a run of at most 2 cells.\n";
    assert_eq!(listed(&[CLEAN, CLEAN]), due);
}

/// Each block is tied between a message of 0, with which the payload has no plot, and one of 1.
#[test]
fn other_refused_blocks() {
    let text = listed(&[AMBIGUOUS, AMBIGUOUS, AMBIGUOUS]);
    let line = "  blocks 0 and 2 are refused; these payloads have their first codewords\n";
    assert!(text.contains(line), "{text}");
    assert_eq!(text.matches("payload accepted: 0 plots, 0 trees\n").count(), 3);
    assert_eq!(
        text.matches("payload refused: bad mark (5) at payload byte 0\n")
            .count(),
        3
    );
    assert!(!listed(&[AMBIGUOUS]).contains("these payloads"));
}

/// Of 41 bytes the last has a line of its own.
#[test]
fn message_bytes() {
    let first: Vec<u8> = (0..41).map(|i| 6 * i).collect();
    let mut message = first.clone();
    assert_eq!(count(&first, &message), "0 of 41 message bytes differ");
    message[40] = 1;
    assert_eq!(count(&first, &message), "1 of 41 message bytes differs");
    message[19] = 0;
    let text = marked(&first, &message);
    let lines: Vec<&str> = text.lines().collect();
    assert_eq!(lines.len(), 3);
    assert!(
        lines[0].starts_with("       0:  00  06  0C ") && lines[0].ends_with(" 66  6C [00]"),
        "{text}"
    );
    assert!(
        lines[1].starts_with("      20:  78  7E ") && lines[1].ends_with(" E4  EA"),
        "{text}"
    );
    assert_eq!(lines[2], "      40: [01]");
}

#[test]
fn bytes_of_a_message() {
    assert_eq!(payload_bytes(39, 5), "payload bytes 195 to 233");
    assert_eq!(payload_bytes(2, 0), "payload bytes 0 to 1");
    assert_eq!(payload_bytes(1, 3), "payload byte 3");
}

#[test]
fn names() {
    assert_eq!(named(&[3]), "block 3");
    assert_eq!(named(&[3, 5]), "blocks 3 and 5");
    assert_eq!(named(&[3, 5, 6]), "blocks 3, 5 and 6");
}
