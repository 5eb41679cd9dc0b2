//! Entries on a sheet.

use crate::{draw, library_mode, numbers, outcome, profile, Answer};
use second::random::Random;
use second::{sheet, Mode, Profile};
use tishwabe::ffi;

/// Writes a payload into a buffer of `length` bytes with both.
pub fn write(random: &mut Random, p: &Profile, payload: &[u8], length: usize) -> (Answer, Vec<u8>) {
    let mut cells = random.bytes(length);
    let (mut due, before) = (cells.clone(), cells.clone());
    let answer = outcome(sheet::write(p, payload, &mut due), |()| (0, 0));
    assert_eq!(
        (ffi::write_sheet(numbers(p), payload, &mut cells), &cells),
        (answer.0, &due),
        "{p:?} {payload:?}"
    );
    if let Some(made) = profile(p) {
        cells = before;
        assert_eq!(outcome(made.write_sheet(payload, &mut cells), |()| (0, 0)), answer);
        assert_eq!(cells, due);
    }
    (answer, cells)
}

/// The due lengths of scratch and payload.
pub fn lengths(p: &Profile) -> (usize, usize) {
    (p.n, p.depth * p.k())
}

/// Reads a sheet with both in document 01's mode.
pub fn read(random: &mut Random, p: &Profile, cells: &[u8], lengths: (usize, usize)) -> (Answer, Vec<u8>) {
    read_in(Mode::Burst, random, p, cells, lengths)
}

/// Reads a sheet with both, with a scratch and a payload buffer of these lengths: the number of blocks changed is the first value. The bytes of
/// the payload buffer afterwards come too.
pub fn read_in(
    mode: Mode,
    random: &mut Random,
    p: &Profile,
    cells: &[u8],
    lengths: (usize, usize),
) -> (Answer, Vec<u8>) {
    let (mut scratch, mut payload) = (random.bytes(lengths.0), random.bytes(lengths.1));
    let before = (scratch.clone(), payload.clone());
    let mut due = before.clone();
    let answer = outcome(sheet::read_in(mode, p, cells, &mut due.0, &mut due.1), |changed| {
        (changed, 0)
    });
    assert_left(answer.0, &before, &due);
    let found = ffi::read_sheet(library_mode(mode), numbers(p), cells, &mut scratch, &mut payload);
    assert_eq!(found, (answer.0, answer.2, answer.1), "{p:?} {cells:?}");
    assert_eq!((&scratch, &payload), (&due.0, &due.1), "{p:?} {cells:?}");
    if let Some(made) = profile(p) {
        (scratch, payload) = before;
        let result = made.read_sheet_in(library_mode(mode), cells, &mut scratch, &mut payload);
        assert_eq!(outcome(result, |changed| (changed, 0)), answer);
        assert_eq!((scratch, payload), due);
    }
    (answer, due.1)
}

/// Scratch and payload of an answer with this number: 1 and 2 leave the scratch as it was, every other makes it zero, and a refusal leaves the payload.
fn assert_left(number: usize, before: &(Vec<u8>, Vec<u8>), after: &(Vec<u8>, Vec<u8>)) {
    match number {
        1 | 2 => assert_eq!(after.0, before.0),
        _ => assert!(after.0.iter().all(|&byte| byte == 0)),
    }
    assert!(number == 0 || after.1 == before.1);
}

/// The sheet of a payload, written with both, and scratched in one run of `least` to `most` cells.
pub fn scratched(random: &mut Random, p: &Profile, payload: &[u8], least: usize, most: usize) -> Vec<u8> {
    let (answer, mut cells) = write(random, p, payload, p.depth * p.n);
    assert_eq!(answer.0, 0);
    let length = random.between(least, most);
    let start = random.between(0, cells.len() - length);
    draw::scratch(random, &mut cells, start, length);
    cells
}

/// The sheet of a payload, written with both, and each block changed in its own way or left.
pub fn damaged(random: &mut Random, p: &Profile, payload: &[u8]) -> Vec<u8> {
    each_block(random, p, payload, |random, block| {
        let damage = draw::DAMAGES[[0, 0, 0, 0, 1, 1, 3, 4][random.between(0, 7)]];
        draw::damaged(random, p, &block, damage)
    })
}

/// The sheet of a payload, written with both, and each block then changed by what is given.
pub fn each_block(
    random: &mut Random,
    p: &Profile,
    payload: &[u8],
    changed: impl Fn(&mut Random, Vec<u8>) -> Vec<u8>,
) -> Vec<u8> {
    let (answer, mut cells) = write(random, p, payload, p.depth * p.n);
    assert_eq!(answer.0, 0);
    for d in 0..p.depth {
        let block = cells.iter().skip(d).step_by(p.depth).copied().collect();
        for (i, cell) in changed(random, block).into_iter().enumerate() {
            cells[i * p.depth + d] = cell;
        }
    }
    cells
}
