//! The functions on the stand table. A table goes as a pointer with no length: it always has seventeen rows of twenty counts.

use super::PayloadAnswer;
use crate::stand::Counts;

/// What a number to be handed out is before the call, as for the other functions.
const UNWRITTEN: u64 = u64::MAX;

/// A table and its counters.
#[derive(Clone, Debug, Default, PartialEq, Eq)]
pub struct State {
    pub table: Counts,
    pub payloads: u32,
    pub records: u32,
}

mod library {
    use super::Counts;

    extern "C" {
        pub fn tishwabe_begin_table(
            species: *const u8,
            species_length: usize,
            table: &mut Counts,
            payloads: &mut u32,
            records: &mut u32,
        ) -> usize;
        pub fn tishwabe_add_to_table(
            species: *const u8,
            species_length: usize,
            table: &mut Counts,
            payloads: &mut u32,
            records: &mut u32,
            payload: *const u8,
            payload_length: usize,
            place: &mut usize,
            figure: &mut usize,
            line: &mut usize,
        ) -> usize;
        pub fn tishwabe_table_total(
            species: *const u8,
            species_length: usize,
            table: &Counts,
            payloads: u32,
            records: u32,
            total: &mut u64,
        ) -> usize;
        pub fn tishwabe_trees_per_plot(
            species: *const u8,
            species_length: usize,
            table: &Counts,
            payloads: u32,
            records: u32,
            quotient: &mut u64,
            remainder: &mut u64,
        ) -> usize;
    }
}

/// The refusal's number, or 0 and the state is empty.
pub fn begin(species: &[u8], state: &mut State) -> usize {
    let State {
        table,
        payloads,
        records,
    } = state;
    unsafe { library::tishwabe_begin_table(species.as_ptr(), species.len(), table, payloads, records) }
}

/// The answer on a payload; no byte of its own comes where it is accepted.
pub fn add(species: &[u8], state: &mut State, payload: &[u8]) -> PayloadAnswer {
    let State {
        table,
        payloads,
        records,
    } = state;
    let mut answer = PayloadAnswer::UNWRITTEN;
    let PayloadAnswer {
        place, figure, line, ..
    } = &mut answer;
    answer.number = unsafe {
        library::tishwabe_add_to_table(
            species.as_ptr(),
            species.len(),
            table,
            payloads,
            records,
            payload.as_ptr(),
            payload.len(),
            place,
            figure,
            line,
        )
    };
    answer
}

/// The refusal's number, or 0; then the total.
pub fn total(species: &[u8], state: &State) -> (usize, u64) {
    let mut total = UNWRITTEN;
    let (list, length) = (species.as_ptr(), species.len());
    let number =
        unsafe { library::tishwabe_table_total(list, length, &state.table, state.payloads, state.records, &mut total) };
    (number, total)
}

/// The refusal's number, or 0; then quotient and remainder.
pub fn trees_per_plot(species: &[u8], state: &State) -> (usize, u64, u64) {
    let (mut quotient, mut remainder) = (UNWRITTEN, UNWRITTEN);
    let number = unsafe {
        library::tishwabe_trees_per_plot(
            species.as_ptr(),
            species.len(),
            &state.table,
            state.payloads,
            state.records,
            &mut quotient,
            &mut remainder,
        )
    };
    (number, quotient, remainder)
}
