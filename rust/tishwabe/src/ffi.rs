//! The exported functions of the static library, and one safe function for each.
//! Nothing else in this crate is `unsafe`. A slice goes as its pointer and its length, a number comes back through a reference; the
//! functions of the library accept every argument of these types, and keep no pointer after they return.

pub mod table;

use crate::profile::Mode;

/// n, r, b, L and D of document 01, in any range.
pub type Numbers = [usize; 5];

/// What a number to be handed out is before the call. The library writes each of them on every call, be it 0; so the tests notice one that it leaves.
const UNWRITTEN: usize = usize::MAX;

mod library {
    extern "C" {
        pub fn tishwabe_profile(
            n: usize,
            r: usize,
            b: usize,
            limit: usize,
            depth: usize,
            k: &mut usize,
            h: &mut usize,
        ) -> usize;
        pub fn tishwabe_write_block(
            n: usize,
            r: usize,
            b: usize,
            limit: usize,
            depth: usize,
            message: *const u8,
            message_length: usize,
            cells: *mut u8,
            cells_length: usize,
        ) -> usize;
        pub fn tishwabe_check_block(
            n: usize,
            r: usize,
            b: usize,
            limit: usize,
            depth: usize,
            read: *const u8,
            read_length: usize,
            clean: &mut usize,
        ) -> usize;
        pub fn tishwabe_correct_block(
            n: usize,
            r: usize,
            b: usize,
            limit: usize,
            depth: usize,
            read: *const u8,
            read_length: usize,
            out: *mut u8,
            out_length: usize,
            start: &mut usize,
            length: &mut usize,
        ) -> usize;
        pub fn tishwabe_look_block(
            n: usize,
            r: usize,
            b: usize,
            limit: usize,
            depth: usize,
            read: *const u8,
            read_length: usize,
            start: &mut usize,
            length: &mut usize,
        ) -> usize;
        pub fn tishwabe_fill_block(
            n: usize,
            r: usize,
            b: usize,
            limit: usize,
            depth: usize,
            read: *const u8,
            read_length: usize,
            start: usize,
            length: usize,
            out: *mut u8,
            out_length: usize,
        ) -> usize;
        pub fn tishwabe_block_candidates(
            n: usize,
            r: usize,
            b: usize,
            limit: usize,
            depth: usize,
            read: *const u8,
            read_length: usize,
            pairs: *mut u8,
            pairs_length: usize,
            count: &mut usize,
        ) -> usize;
        pub fn tishwabe_correct_spots(
            n: usize,
            r: usize,
            b: usize,
            limit: usize,
            depth: usize,
            read: *const u8,
            read_length: usize,
            out: *mut u8,
            out_length: usize,
            count: &mut usize,
            lowest: &mut usize,
        ) -> usize;
        pub fn tishwabe_write_sheet(
            n: usize,
            r: usize,
            b: usize,
            limit: usize,
            depth: usize,
            payload: *const u8,
            payload_length: usize,
            sheet: *mut u8,
            sheet_length: usize,
        ) -> usize;
        pub fn tishwabe_read_sheet(
            n: usize,
            r: usize,
            b: usize,
            limit: usize,
            depth: usize,
            sheet: *const u8,
            sheet_length: usize,
            scratch: *mut u8,
            scratch_length: usize,
            payload: *mut u8,
            payload_length: usize,
            changed: &mut usize,
            place: &mut usize,
        ) -> usize;
        pub fn tishwabe_read_sheet_spots(
            n: usize,
            r: usize,
            b: usize,
            limit: usize,
            depth: usize,
            sheet: *const u8,
            sheet_length: usize,
            scratch: *mut u8,
            scratch_length: usize,
            payload: *mut u8,
            payload_length: usize,
            changed: &mut usize,
            place: &mut usize,
        ) -> usize;
        pub fn tishwabe_check_payload(
            payload: *const u8,
            payload_length: usize,
            place: &mut usize,
            figure: &mut usize,
            line: &mut usize,
        ) -> usize;
        pub fn tishwabe_ask(
            payload: *const u8,
            payload_length: usize,
            plot: u16,
            place: &mut usize,
            length: &mut usize,
            figure: &mut usize,
            line: &mut usize,
        ) -> usize;
        pub fn tishwabe_add(
            payload: *mut u8,
            payload_length: usize,
            plot: u16,
            lines: *const u8,
            lines_length: usize,
            place: &mut usize,
            figure: &mut usize,
            line: &mut usize,
        ) -> usize;
        pub fn tishwabe_list(
            payload: *const u8,
            payload_length: usize,
            changed: usize,
            text: *mut u8,
            text_length: usize,
        ) -> usize;
        pub fn tishwabe_list_refusal(number: u8, place: usize, text: *mut u8, text_length: usize) -> usize;
        pub fn tishwabe_list_input(input: *const u8, input_length: usize, text: *mut u8, text_length: usize) -> usize;
    }
}

/// The refusal's number, or 0; then k and h.
pub fn profile([n, r, b, limit, depth]: Numbers) -> (usize, usize, usize) {
    let (mut k, mut h) = (UNWRITTEN, UNWRITTEN);
    let number = unsafe { library::tishwabe_profile(n, r, b, limit, depth, &mut k, &mut h) };
    (number, k, h)
}

/// The refusal's number, or 0.
pub fn write_block([n, r, b, limit, depth]: Numbers, message: &[u8], cells: &mut [u8]) -> usize {
    let (from, to) = (message.as_ptr(), cells.as_mut_ptr());
    unsafe { library::tishwabe_write_block(n, r, b, limit, depth, from, message.len(), to, cells.len()) }
}

/// The refusal's number, or 0; then 1 if the block is clean.
pub fn check_block([n, r, b, limit, depth]: Numbers, read: &[u8]) -> (usize, usize) {
    let mut clean = UNWRITTEN;
    let number = unsafe { library::tishwabe_check_block(n, r, b, limit, depth, read.as_ptr(), read.len(), &mut clean) };
    (number, clean)
}

/// The refusal's number, or 0; then start and length of the run, or in spot mode the number of cells changed and the lowest of them.
pub fn correct_block(
    mode: Mode,
    [n, r, b, limit, depth]: Numbers,
    read: &[u8],
    out: &mut [u8],
) -> (usize, usize, usize) {
    let corrector = match mode {
        Mode::Burst => library::tishwabe_correct_block,
        Mode::Spots => library::tishwabe_correct_spots,
    };
    let (mut first, mut second) = (UNWRITTEN, UNWRITTEN);
    let (from, to) = (read.as_ptr(), out.as_mut_ptr());
    let number = unsafe {
        corrector(
            n,
            r,
            b,
            limit,
            depth,
            from,
            read.len(),
            to,
            out.len(),
            &mut first,
            &mut second,
        )
    };
    (number, first, second)
}

/// The refusal's number, or 0; then start and length of the run.
pub fn look_block([n, r, b, limit, depth]: Numbers, read: &[u8]) -> (usize, usize, usize) {
    let (mut start, mut length) = (UNWRITTEN, UNWRITTEN);
    let (from, size) = (read.as_ptr(), read.len());
    let number = unsafe { library::tishwabe_look_block(n, r, b, limit, depth, from, size, &mut start, &mut length) };
    (number, start, length)
}

/// The refusal's number, or 0.
pub fn fill_block([n, r, b, limit, depth]: Numbers, read: &[u8], start: usize, length: usize, out: &mut [u8]) -> usize {
    let (from, to) = (read.as_ptr(), out.as_mut_ptr());
    unsafe { library::tishwabe_fill_block(n, r, b, limit, depth, from, read.len(), start, length, to, out.len()) }
}

/// The refusal's number, or 0; then the number of runs listed.
pub fn block_candidates([n, r, b, limit, depth]: Numbers, read: &[u8], pairs: &mut [u8]) -> (usize, usize) {
    let mut count = UNWRITTEN;
    let (from, to) = (read.as_ptr(), pairs.as_mut_ptr());
    let (size, room) = (read.len(), pairs.len());
    let number = unsafe { library::tishwabe_block_candidates(n, r, b, limit, depth, from, size, to, room, &mut count) };
    (number, count)
}

/// The refusal's number, or 0.
pub fn write_sheet([n, r, b, limit, depth]: Numbers, payload: &[u8], sheet: &mut [u8]) -> usize {
    let (from, to) = (payload.as_ptr(), sheet.as_mut_ptr());
    unsafe { library::tishwabe_write_sheet(n, r, b, limit, depth, from, payload.len(), to, sheet.len()) }
}

/// The refusal's number, or 0; then the number of blocks changed, and the refusal's place.
pub fn read_sheet(
    mode: Mode,
    [n, r, b, limit, depth]: Numbers,
    sheet: &[u8],
    scratch: &mut [u8],
    payload: &mut [u8],
) -> (usize, usize, usize) {
    let reader = match mode {
        Mode::Burst => library::tishwabe_read_sheet,
        Mode::Spots => library::tishwabe_read_sheet_spots,
    };
    let (mut changed, mut place) = (UNWRITTEN, UNWRITTEN);
    let number = unsafe {
        reader(
            n,
            r,
            b,
            limit,
            depth,
            sheet.as_ptr(),
            sheet.len(),
            scratch.as_mut_ptr(),
            scratch.len(),
            payload.as_mut_ptr(),
            payload.len(),
            &mut changed,
            &mut place,
        )
    };
    (number, changed, place)
}

/// What an entry on a payload answers: the refusal's number, or 0; its place, or the entry's own byte of the payload; figure and index of the
/// line at fault, or 0 and 0.
#[derive(Clone, Copy, Debug, Default, PartialEq, Eq)]
pub struct PayloadAnswer {
    pub number: usize,
    pub place: usize,
    pub figure: usize,
    pub line: usize,
}

impl PayloadAnswer {
    const UNWRITTEN: PayloadAnswer = PayloadAnswer {
        number: UNWRITTEN,
        place: UNWRITTEN,
        figure: UNWRITTEN,
        line: UNWRITTEN,
    };
}

/// The entry's own byte is the one after the last record.
pub fn check_payload(payload: &[u8]) -> PayloadAnswer {
    let mut answer = PayloadAnswer::UNWRITTEN;
    let PayloadAnswer {
        place, figure, line, ..
    } = &mut answer;
    answer.number = unsafe { library::tishwabe_check_payload(payload.as_ptr(), payload.len(), place, figure, line) };
    answer
}

/// The entry's own byte is the record's first; then the record's length.
pub fn ask(payload: &[u8], plot: u16) -> (PayloadAnswer, usize) {
    let (mut answer, mut length) = (PayloadAnswer::UNWRITTEN, UNWRITTEN);
    let PayloadAnswer {
        place, figure, line, ..
    } = &mut answer;
    answer.number =
        unsafe { library::tishwabe_ask(payload.as_ptr(), payload.len(), plot, place, &mut length, figure, line) };
    (answer, length)
}

/// The entry's own byte is the record's first.
pub fn add(payload: &mut [u8], plot: u16, lines: &[u8]) -> PayloadAnswer {
    let mut answer = PayloadAnswer::UNWRITTEN;
    let PayloadAnswer {
        place, figure, line, ..
    } = &mut answer;
    let (to, from) = (payload.as_mut_ptr(), lines.as_ptr());
    answer.number = unsafe { library::tishwabe_add(to, payload.len(), plot, from, lines.len(), place, figure, line) };
    answer
}

/// The number of bytes written.
pub fn list(payload: &[u8], changed: usize, text: &mut [u8]) -> usize {
    let (from, to) = (payload.as_ptr(), text.as_mut_ptr());
    unsafe { library::tishwabe_list(from, payload.len(), changed, to, text.len()) }
}

/// The number of bytes written.
pub fn list_refusal(number: u8, place: usize, text: &mut [u8]) -> usize {
    unsafe { library::tishwabe_list_refusal(number, place, text.as_mut_ptr(), text.len()) }
}

/// The number of bytes written.
pub fn list_input(input: &[u8], text: &mut [u8]) -> usize {
    let (from, to) = (input.as_ptr(), text.as_mut_ptr());
    unsafe { library::tishwabe_list_input(from, input.len(), to, text.len()) }
}
