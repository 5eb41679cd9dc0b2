//! Plot records in a payload, and the lister's text.

use crate::error::{payload_accepted, Error};
use crate::ffi;
use std::ops::Range;

/// Checks a payload of at most 4,048 bytes: the byte after its last record.
///
/// ```
/// use tishwabe::{check_payload, Error, Figure, LineFault};
/// assert_eq!(check_payload(&[0x50, 0x4C, 7, 0, 1, 3, 32, 2, 0, 0]), Ok(8));
/// assert_eq!(check_payload(&[0x50, 0x4C, 7, 0, 1, 3, 32]), Err(Error::CutShort { place: 0 }));
///
/// // The count of the record's first line is 0.
/// let line = Some(LineFault { index: 0, figure: Figure::Count });
/// assert_eq!(check_payload(&[0x50, 0x4C, 7, 0, 1, 3, 32, 0]), Err(Error::BadTally { place: 0, line }));
/// ```
pub fn check_payload(payload: &[u8]) -> Result<usize, Error> {
    let answer = ffi::check_payload(payload);
    payload_accepted(answer, answer.place)
}

/// Where the record of a plot lies in the payload, mark to last line. The whole payload is checked first.
///
/// ```
/// use tishwabe::{locate, Error};
/// let payload = [0x50, 0x4C, 7, 0, 0, 0x50, 0x4C, 9, 0, 1, 3, 32, 2, 0];
/// assert_eq!(locate(&payload, 9), Ok(5..13));
/// assert_eq!(locate(&payload, 8), Err(Error::NoSuchPlot));
/// ```
pub fn locate(payload: &[u8], plot: u16) -> Result<Range<usize>, Error> {
    let (answer, length) = ffi::ask(payload, plot);
    let end = answer.place.saturating_add(length);
    payload_accepted(answer, answer.place..end)
}

/// The record of a plot, mark to last line, as a part of the payload. The whole payload is checked first.
///
/// ```
/// use tishwabe::{ask, Error};
/// let payload = [0x50, 0x4C, 7, 0, 1, 3, 32, 2, 0];
/// assert_eq!(ask(&payload, 7), Ok(&payload[..8]));
/// assert_eq!(ask(&payload, 0), Err(Error::NoSuchPlot));
/// ```
pub fn ask(payload: &[u8], plot: u16) -> Result<&[u8], Error> {
    // A record that was located lies within the payload.
    locate(payload, plot).map(|record| payload.get(record).unwrap_or_default())
}

/// Adds a plot right after the last record: its first byte. `lines` holds species, class and count of each line. A refusal leaves
/// `payload` as it was.
///
/// ```
/// use tishwabe::{add, Error, Figure, LineFault};
/// let mut payload = [0; 10];
/// assert_eq!(add(&mut payload, 7, &[3, 32, 2]), Ok(0));
/// assert_eq!(payload, [0x50, 0x4C, 7, 0, 1, 3, 32, 2, 0, 0]);
/// assert_eq!(add(&mut payload, 8, &[3, 32, 2]), Err(Error::Full { place: 8 }));
///
/// // The second line has the class of the first.
/// let line = Some(LineFault { index: 1, figure: Figure::Order });
/// assert_eq!(add(&mut payload, 8, &[3, 32, 2, 3, 32, 1]), Err(Error::BadTally { place: 8, line }));
/// // Lent lines that are not three bytes each.
/// assert_eq!(add(&mut payload, 8, &[3, 32]), Err(Error::BadTally { place: 8, line: None }));
/// ```
pub fn add(payload: &mut [u8], plot: u16, lines: &[u8]) -> Result<usize, Error> {
    let answer = ffi::add(payload, plot, lines);
    payload_accepted(answer, answer.place)
}

/// The lister's text for the payload of a sheet with this many blocks changed, or for the payload's refusal.
///
/// ```
/// let text = tishwabe::list(&[0x50, 0x4C, 7, 0, 1, 3, 32, 2], 7);
/// assert_eq!(text, "plot,species,class,count\n7,3,32,2\nmended,7\n");
/// assert_eq!(tishwabe::list(&[1], 0), "refused,5,0\n");
/// ```
pub fn list(payload: &[u8], changed: usize) -> String {
    // A line of three bytes gives at most the 17 of `65535,99,200,255` and its end; header and last line have at most 60.
    let mut bytes = vec![0; 60 + payload.len().min(4048) * 6];
    let length = ffi::list(payload, changed, &mut bytes);
    text(&bytes, length)
}

/// The lister's text for a refusal.
///
/// ```
/// assert_eq!(tishwabe::list_refusal(tishwabe::Error::Uncorrectable { block: 3 }), "refused,3,3\n");
/// ```
pub fn list_refusal(error: Error) -> String {
    let mut bytes = [0; 40];
    let length = ffi::list_refusal(error.number(), error.place(), &mut bytes);
    text(&bytes, length)
}

/// The lister's whole answer: the text for the bytes of its standard input, n, r, b, L and D and then the sheet, which is read in scratch mode.
///
/// ```
/// let cells = [0xF0, 0xD4, 9, 0, 3, 5, 0x60, 6, 0x50, 0x4C, 7, 0, 1, 3, 32, 2];
/// let scratched = [&[3, 2, 0, 1, 8][..], &[0; 8], &cells].concat();
/// assert_eq!(tishwabe::list_input(&scratched), "plot,species,class,count\n7,3,32,2\nmended,7\n");
/// assert_eq!(tishwabe::list_input(&scratched[..28]), "refused,2,0\n");
/// assert_eq!(tishwabe::list_input(&[3, 2, 0, 1]), "refused,1,0\n");
/// let sparse = [6, 5, 0, 4, 1, 0, 7, 0, 0, 9, 0];
/// assert_eq!(tishwabe::list_input(&sparse), "refused,16,0\n");
/// ```
pub fn list_input(input: &[u8]) -> String {
    // A payload of 4,048 bytes has at most 1,349 lines of 17 bytes; header and last line, `mended,16`, have at most 35.
    let mut bytes = vec![0; 22_968];
    let length = ffi::list_input(input, &mut bytes);
    text(&bytes, length)
}

fn text(bytes: &[u8], length: usize) -> String {
    String::from_utf8_lossy(bytes.get(..length).unwrap_or_default()).into_owned()
}
