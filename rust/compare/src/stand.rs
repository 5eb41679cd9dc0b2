//! Entries on the stand table.

use crate::plot::Answer;
use crate::Refused;
use second::plot::record;
use second::stand::{Stand, State};
use tishwabe::ffi::table;
use tishwabe::StandTable;

/// A payload of one plot with one line.
pub fn one_line(species: u8, class: u8, count: u8) -> Vec<u8> {
    record(7, &[species, class, count])
}

/// The library's state of the same numbers.
fn library_state(state: &State) -> table::State {
    table::State {
        table: state.cells,
        payloads: state.payloads,
        records: state.records,
    }
}

/// The wrapper's table of the same numbers.
fn wrapped(species: &[u8], state: &State) -> StandTable {
    StandTable::from_state(species, state.cells, state.payloads, state.records)
}

/// Begins a table with both where another one is, which a refusal leaves: the number.
pub fn begin(species: &[u8], before: &State) -> usize {
    let (number, due) = match Stand::begin(species) {
        Ok(begun) => (0, begun.state()),
        Err(refusal) => (refusal.number.into(), before.clone()),
    };
    let mut state = library_state(before);
    let found = table::begin(species, &mut state);
    assert_eq!((found, state), (number, library_state(&due)), "{species:?}");
    match StandTable::new(species) {
        Ok(begun) => assert_eq!((begun, number), (wrapped(species, &due), 0), "{species:?}"),
        Err(error) => assert_eq!(error.numbers(), [number, 0, 0, 0], "{species:?}"),
    }
    number
}

fn told(result: Result<(), impl Refused>) -> Answer {
    result.map_or_else(Answer::refused, |()| Answer::accepted(0, 0))
}

/// Adds a payload to a state with both: the answer, and the state afterwards, which a refusal leaves as it was.
pub fn add(species: &[u8], before: &State, payload: &[u8]) -> (Answer, State) {
    let lent = (species.to_vec(), payload.to_vec());
    let mut stand = Stand::handed_in(species, before.clone());
    let answer = told(stand.add(payload));
    let due = stand.state();
    assert!(answer.number == 0 || due == *before, "{species:?} {payload:?}");

    let mut state = library_state(before);
    let found = table::add(species, &mut state, payload);
    assert_eq!(found, answer.handed_out(), "{species:?} {before:?} {payload:?}");
    assert_eq!(state, library_state(&due), "{species:?} {before:?} {payload:?}");
    let mut again = wrapped(species, before);
    assert_eq!(told(again.add(payload)), answer, "{species:?} {payload:?}");
    assert_eq!(again, wrapped(species, &due), "{species:?} {payload:?}");
    assert_eq!((species, payload), (&lent.0[..], &lent.1[..]));
    (answer, due)
}

/// The total of a state with both: number and total.
pub fn total(species: &[u8], state: &State) -> (usize, u64) {
    let due = Stand::handed_in(species, state.clone()).total();
    let answer = due.map_or_else(|refusal| (refusal.number.into(), 0), |total| (0, total));
    let lent = library_state(state);
    assert_eq!(table::total(species, &lent), answer, "{species:?} {state:?}");
    let again = wrapped(species, state).total();
    let again = again.map_or_else(|error| (error.number().into(), 0), |total| (0, total));
    assert_eq!((again, lent), (answer, library_state(state)), "{species:?}");
    answer
}

/// The trees per plot of a state with both: number, quotient and remainder.
pub fn trees_per_plot(species: &[u8], state: &State) -> (usize, u64, u64) {
    let answer = match Stand::handed_in(species, state.clone()).trees_per_plot() {
        Ok(due) => (0, due.quotient, due.remainder),
        Err(refusal) => (refusal.number.into(), 0, 0),
    };
    let lent = library_state(state);
    assert_eq!(table::trees_per_plot(species, &lent), answer, "{species:?} {state:?}");
    let again = match wrapped(species, state).trees_per_plot() {
        Ok(found) => (0, found.quotient, found.remainder),
        Err(error) => (error.number().into(), 0, 0),
    };
    assert_eq!((again, lent), (answer, library_state(state)), "{species:?}");
    answer
}

/// The numbers that adding, the total and the trees per plot answer.
pub fn numbers(species: &[u8], state: &State, payload: &[u8]) -> [usize; 3] {
    let (answer, _) = add(species, state, payload);
    [answer.number, total(species, state).0, trees_per_plot(species, state).0]
}
