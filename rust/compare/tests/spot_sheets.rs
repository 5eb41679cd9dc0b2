//! Sheets read in spot mode by the library and by the second decoder, and the example sheet with mould.

use compare::block::correct_spots;
use compare::draw::{self, Size};
use compare::listing::list;
use compare::sheet::{damaged, each_block, lengths, read, read_in, scratched};
use compare::work::{called, run, Tally};
use second::random::Random;
use second::{plot, Mode, Profile};
use std::path::Path;

const SIZE: Size = Size { n: 30, r: 10 };

/// Reads with buffers of the due lengths in spot mode, and counts the answer: number, place, blocks changed, and the payload buffer afterwards.
fn read_spots(random: &mut Random, p: &Profile, cells: &[u8], tally: &mut Tally) -> (usize, usize, usize, Vec<u8>) {
    let (answer, found) = read_in(Mode::Spots, random, p, cells, lengths(p));
    tally.count("sheets");
    tally.count(called(answer.0));
    (answer.0, answer.1, answer.2, found)
}

/// Up to h cells of each block, wherever they lie and whatever L is: the payload comes back, and asking it for a plot answers as before.
#[test]
fn within_the_promise() {
    let tally = run("spots, within the promise", 2_000, |_, random, tally| {
        let size = [SIZE, draw::LARGE][random.between(0, 1)];
        let p = draw::profile(random, size);
        let payload = match random.between(0, 1) {
            0 => random.bytes(p.depth * p.k()),
            _ => {
                let mut payload = draw::good_payload(random);
                payload.resize(p.depth * p.k(), 0);
                payload
            }
        };
        let all = random.between(0, 1) == 1;
        let cells = each_block(random, &p, &payload, |random, mut block| {
            let count = if all { p.h() } else { random.between(0, p.h()) };
            random.change(&mut block, count);
            block
        });
        let (number, place, changed, found) = read_spots(random, &p, &cells, tally);
        assert_eq!((number, place, &found), (0, 0, &payload), "{p:?} {cells:?}");
        assert!(!all || changed == p.depth);
        let asked = random.between(0, 65_535) as u16;
        assert_eq!(tishwabe::ask(&found, asked), tishwabe::ask(&payload, asked));
    });
    assert_eq!(tally.of("accepted"), tally.of("sheets"));
}

/// A scratch of D × h cells gives h to each block.
#[test]
fn scratches_too() {
    run("spots, scratches", 1_000, |_, random, tally| {
        let p = draw::profile(random, SIZE);
        let payload = random.bytes(p.depth * p.k());
        let cells = scratched(random, &p, &payload, 0, p.depth * p.h());
        let (number, _, _, found) = read_spots(random, &p, &cells, tally);
        assert_eq!((number, found), (0, payload));
    });
}

/// Each block changed in its own way: refusal 11 at the lowest block that is refused alone, or all are accepted and counted.
#[test]
fn blocks_damaged_one_by_one() {
    let tally = run("spots, blocks damaged", 2_000, |_, random, tally| {
        let p = draw::profile(random, SIZE);
        let payload = random.bytes(p.depth * p.k());
        let cells = match random.between(0, 2) {
            0 => damaged(random, &p, &payload),
            _ => each_block(random, &p, &payload, |random, mut block| {
                let count = match random.between(0, 15) {
                    0 => (p.h() + 2).min(p.n),
                    1..=7 => random.between(0, p.h()),
                    _ => p.h(),
                };
                random.change(&mut block, count);
                block
            }),
        };
        let (number, place, changed, _) = read_spots(random, &p, &cells, tally);
        let blocks: Vec<_> = (0..p.depth)
            .map(|d| {
                let block: Vec<u8> = cells.iter().skip(d).step_by(p.depth).copied().collect();
                correct_spots(random, &p, &block, p.n).0
            })
            .collect();
        match blocks.iter().position(|answer| answer.0 != 0) {
            Some(lowest) => {
                assert_eq!((number, place, changed), (11, lowest, 0));
                tally.count(if lowest == 0 { "block 0" } else { "a later block" });
                let refused = blocks.iter().filter(|answer| answer.0 != 0).count();
                tally.count(if refused > 1 { "several" } else { "one" });
            }
            None => {
                let count = blocks.iter().filter(|answer| answer.2 > 0).count();
                assert_eq!((number, place, changed), (0, 0, count));
            }
        }
    });
    for kind in ["accepted", "spotted", "block 0", "a later block", "several", "one"] {
        assert!(tally.of(kind) > 50, "{kind}");
    }
}

/// Neither 3 nor 4 nor 16 in spot mode, no 11 in the other.
#[test]
fn each_mode_has_its_numbers() {
    let tally = run("both modes", 1_500, |_, random, tally| {
        let p = draw::profile(random, draw::SMALL);
        let payload = random.bytes(p.depth * p.k());
        let cells = damaged(random, &p, &payload);
        for mode in Mode::ALL {
            let (answer, _) = read_in(mode, random, &p, &cells, lengths(&p));
            tally.count(format!("{mode:?}: {}", called(answer.0)));
        }
    });
    for kind in [
        "Burst: accepted",
        "Burst: torn",
        "Burst: tied",
        "Spots: accepted",
        "Spots: spotted",
    ] {
        assert!(tally.of(kind) > 50, "{kind}");
    }
    for kind in ["Burst: spotted", "Spots: torn", "Spots: tied", "Spots: thin"] {
        assert_eq!(tally.of(kind), 0, "{kind}");
    }
}

/// An example sheet: its profile and its cells.
fn example(name: &str) -> (Vec<u8>, Profile) {
    let folder = Path::new(env!("CARGO_MANIFEST_DIR")).join("../../examples/cruise");
    let path = folder.join(name).with_extension("sheet");
    let input = std::fs::read(&path).unwrap_or_else(|error| panic!("{}: {error}", path.display()));
    let numbers: [u8; 5] = input[..5].try_into().expect("five numbers");
    (input, Profile::from(numbers.map(usize::from)))
}

/// What examples/README.md says of spot mode: the number of blocks changed and the written payload byte for byte, or 11 and the block.
#[test]
fn example_sheets() {
    let mut random = Random::new(1);
    let (written, p) = example("written");
    let (clean, payload) = read(&mut random, &p, &written[5..], lengths(&p));
    assert_eq!(clean, (0, 0, 0, 0));
    assert_eq!(plot::records(&payload).map(|records| records.len()), Ok(12));
    for (name, due) in [
        ("written", (0, 0, 0, 0)),
        ("scratched", (0, 0, 8, 0)),
        ("torn", (0, 0, 1, 0)),
        ("tied", (11, 5, 0, 0)),
        ("thin", (0, 0, 1, 0)),
        ("mould", (0, 0, 8, 0)),
    ] {
        let (input, same) = example(name);
        let (answer, found) = read_in(Mode::Spots, &mut random, &p, &input[5..], lengths(&p));
        assert_eq!((same, answer), (p, due), "{name}");
        assert_eq!(answer.0 == 0, found == payload, "{name}");
    }
}

/// The sheet with mould has h cells of every block changed, and scratch mode, and so the lister, refuses it.
#[test]
fn example_sheet_with_mould() {
    let mut random = Random::new(1);
    let ((written, p), (mould, _)) = (example("written"), example("mould"));
    for d in 0..p.depth {
        let differs = |i: &usize| written[5 + i * p.depth + d] != mould[5 + i * p.depth + d];
        assert_eq!((0..p.n).filter(differs).count(), p.h());
    }
    assert_eq!(list(&mut random, &mould), "refused,3,0\n");
}
