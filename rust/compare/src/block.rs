//! Entries on a block.

use crate::{library_mode, numbers, outcome, profile, Answer};
use second::candidates::candidates as second_candidates;
use second::fill::fill as second_fill;
use second::random::Random;
use second::{block, Mode, Profile, Run};
use tishwabe::ffi;

/// Writes a message into a buffer of `length` bytes with both.
pub fn write(random: &mut Random, p: &Profile, message: &[u8], length: usize) -> (Answer, Vec<u8>) {
    let mut cells = random.bytes(length);
    let mut due = cells.clone();
    let answer = outcome(block::write(p, message, &mut due), |()| (0, 0));
    let before = cells.clone();
    assert_eq!(
        (ffi::write_block(numbers(p), message, &mut cells), &cells),
        (answer.0, &due),
        "{p:?} {message:?}"
    );
    if let Some(made) = profile(p) {
        cells = before;
        assert_eq!(outcome(made.write_block(message, &mut cells), |()| (0, 0)), answer);
        assert_eq!(cells, due);
    }
    (answer, cells)
}

/// A written block of random bytes.
pub fn written(random: &mut Random, p: &Profile) -> Vec<u8> {
    let message = random.bytes(p.k());
    write(random, p, &message, p.n).1
}

/// Checks a block with both.
pub fn check(p: &Profile, read: &[u8]) -> Answer {
    let answer = outcome(block::is_codeword(p, read), |clean| (clean.into(), 0));
    assert_eq!(
        ffi::check_block(numbers(p), read),
        (answer.0, answer.2),
        "{p:?} {read:?}"
    );
    if let Some(made) = profile(p) {
        assert_eq!(outcome(made.is_codeword(read), |clean| (clean.into(), 0)), answer);
    }
    answer
}

/// Corrects a block in scratch mode into a buffer of `length` bytes with both: start and length of the run are the values.
pub fn correct(random: &mut Random, p: &Profile, read: &[u8], length: usize) -> Answer {
    correct_in(Mode::Burst, random, p, read, length).0
}

/// The same in spot mode: the number of cells changed and the lowest of them are the values. The bytes of the buffer afterwards come too.
pub fn correct_spots(random: &mut Random, p: &Profile, read: &[u8], length: usize) -> (Answer, Vec<u8>) {
    correct_in(Mode::Spots, random, p, read, length)
}

/// Corrects a block in this mode into a buffer of `length` bytes with both. The bytes of the buffer afterwards come too.
pub fn correct_in(mode: Mode, random: &mut Random, p: &Profile, read: &[u8], length: usize) -> (Answer, Vec<u8>) {
    let mut out = random.bytes(length);
    let (mut due, before) = (out.clone(), out.clone());
    let answer = outcome(mode.correct(p, read, &mut due), |values| values);
    let found = ffi::correct_block(library_mode(mode), numbers(p), read, &mut out);
    assert_eq!((found, &out), ((answer.0, answer.2, answer.3), &due), "{p:?} {read:?}");
    assert!(answer.0 == 0 || out == before, "{p:?} {read:?}");
    if let Some(made) = profile(p) {
        out = before;
        let again = match mode {
            Mode::Burst => outcome(made.correct_block(read, &mut out), |run| (run.start, run.length)),
            Mode::Spots => outcome(made.correct_spots(read, &mut out), |changes| {
                (changes.count, changes.lowest)
            }),
        };
        assert_eq!((again, &out), (answer, &due));
    }
    (answer, due)
}

/// Looks at a block with both: start and length of the run are the values. The block is left as it was.
pub fn look(p: &Profile, read: &[u8]) -> Answer {
    let before = read.to_vec();
    let answer = outcome(block::look(p, read), |run| (run.start, run.length));
    let found = ffi::look_block(numbers(p), read);
    assert_eq!(found, (answer.0, answer.2, answer.3), "{p:?} {read:?}");
    if let Some(made) = profile(p) {
        assert_eq!(outcome(made.look_block(read), |run| (run.start, run.length)), answer);
    }
    assert_eq!(read, before, "{p:?}");
    answer
}

/// Fills a run of a block with both, into a buffer of `length` bytes, which a refusal leaves. The bytes of the buffer afterwards come too.
pub fn fill(random: &mut Random, p: &Profile, read: &[u8], run: Run, length: usize) -> (Answer, Vec<u8>) {
    let mut out = random.bytes(length);
    let (mut due, before) = (out.clone(), out.clone());
    let answer = outcome(second_fill(p, read, run, &mut due), |()| (0, 0));
    let found = ffi::fill_block(numbers(p), read, run.start, run.length, &mut out);
    assert_eq!((found, &out), (answer.0, &due), "{p:?} {read:?} {run:?}");
    assert!(answer.0 == 0 || out == before, "{p:?} {read:?} {run:?}");
    if let Some(made) = profile(p) {
        out = before;
        let named = tishwabe::Run {
            start: run.start,
            length: run.length,
        };
        let again = outcome(made.fill_block(read, named, &mut out), |()| (0, 0));
        assert_eq!((again, &out), (answer, &due));
    }
    (answer, due)
}

/// Lists the candidates of a block with both, in a buffer of `length` bytes, which a refusal leaves: the number of runs is the first value. The bytes of the
/// buffer afterwards come too.
pub fn candidates(random: &mut Random, p: &Profile, read: &[u8], length: usize) -> (Answer, Vec<u8>) {
    let mut pairs = random.bytes(length);
    let (mut due, before, lent) = (pairs.clone(), pairs.clone(), read.to_vec());
    let answer = outcome(second_candidates(p, read, &mut due), |count| (count, 0));
    let found = ffi::block_candidates(numbers(p), read, &mut pairs);
    assert_eq!((found, &pairs), ((answer.0, answer.2), &due), "{p:?} {read:?}");
    assert!(answer.0 == 0 || pairs == before, "{p:?} {read:?}");
    if let Some(made) = profile(p) {
        pairs = before;
        let again = outcome(made.list_candidates(read, &mut pairs), |count| (count, 0));
        assert_eq!((again, &pairs), (answer, &due), "{p:?} {read:?}");
        let runs = made.candidates(read);
        match answer.0 {
            0 => assert_eq!(
                runs.map(in_bytes).as_deref(),
                Ok(&due[..2 * answer.2]),
                "{p:?} {read:?}"
            ),
            _ if read.len() == p.n => assert!(runs.is_ok(), "{p:?} {read:?}"),
            _ => assert_eq!(outcome(runs, |_| (0, 0)), answer, "{p:?} {read:?}"),
        }
    }
    assert_eq!(read, lent, "{p:?}");
    (answer, due)
}

/// Start and length of each run.
fn in_bytes(runs: Vec<tishwabe::Run>) -> Vec<u8> {
    let bytes = |run: tishwabe::Run| [run.start, run.length].map(|x| u8::try_from(x).expect("a byte"));
    runs.into_iter().flat_map(bytes).collect()
}
