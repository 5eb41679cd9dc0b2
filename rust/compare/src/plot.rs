//! Entries on a payload.

use crate::Refused;
use second::plot;
use std::ops::Range;
use tishwabe::ffi::{self, PayloadAnswer};

/// An answer on a payload. What it does not have is 0.
#[derive(Clone, Copy, Debug, Default, PartialEq, Eq)]
pub struct Answer {
    pub number: usize,
    pub place: usize,
    pub figure: usize,
    pub line: usize,
    /// The record's first byte, or in checking the byte after the last record.
    pub at: usize,
    /// The record's length.
    pub length: usize,
}

impl Answer {
    pub fn accepted(at: usize, length: usize) -> Answer {
        Answer {
            at,
            length,
            ..Answer::default()
        }
    }

    pub fn refused(refusal: impl Refused) -> Answer {
        let [number, place, figure, line] = refusal.numbers();
        Answer {
            number,
            place,
            figure,
            line,
            ..Answer::default()
        }
    }

    /// What the C interface hands out: place or first byte in one number, and the length in a number of its own.
    pub fn handed_out(self) -> PayloadAnswer {
        PayloadAnswer {
            number: self.number,
            place: self.place + self.at,
            figure: self.figure,
            line: self.line,
        }
    }
}

/// A result as its answer, first byte and length from what is accepted.
fn outcome<T>(result: Result<T, impl Refused>, values: impl Fn(T) -> (usize, usize)) -> Answer {
    match result.map(values) {
        Ok((at, length)) => Answer::accepted(at, length),
        Err(refusal) => Answer::refused(refusal),
    }
}

/// Checks a payload with both.
pub fn check(payload: &[u8]) -> Answer {
    let end = |found: Vec<Range<usize>>| (found.last().map_or(0, |record| record.end), 0);
    let answer = outcome(plot::records(payload), end);
    assert_eq!(ffi::check_payload(payload), answer.handed_out(), "{payload:?}");
    assert_eq!(outcome(tishwabe::check_payload(payload), |end| (end, 0)), answer);
    answer
}

/// Asks for a plot with both, as companion and as part.
pub fn ask(payload: &[u8], number: u16) -> Answer {
    let values = |record: Range<usize>| (record.start, record.len());
    let answer = outcome(plot::companion(payload, number), values);
    let found = ffi::ask(payload, number);
    assert_eq!(found, (answer.handed_out(), answer.length), "{payload:?} {number}");
    assert_eq!(outcome(tishwabe::locate(payload, number), values), answer);
    let part = plot::ask(payload, number);
    match tishwabe::ask(payload, number) {
        Ok(record) => assert_eq!((record.as_ptr(), record), (part.as_ptr(), part)),
        Err(error) => assert_eq!((Answer::refused(error), part.len()), (answer, 0)),
    }
    answer
}

/// Adds a plot with both; then what the payload holds.
pub fn add(before: &[u8], number: u16, lines: &[u8]) -> (Answer, Vec<u8>) {
    let mut due = before.to_vec();
    let answer = outcome(plot::add(&mut due, number, lines), |first| (first, 0));
    let mut payload = before.to_vec();
    let found = ffi::add(&mut payload, number, lines);
    assert_eq!(found, answer.handed_out(), "{before:?} {number} {lines:?}");
    assert_eq!(payload, due, "{before:?} {number} {lines:?}");
    payload.copy_from_slice(before);
    assert_eq!(
        outcome(tishwabe::add(&mut payload, number, lines), |first| (first, 0)),
        answer
    );
    assert_eq!(payload, due);
    (answer, due)
}
