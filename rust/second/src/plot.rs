//! Plot records in a payload: checking, asking for a plot, adding a plot.
//! The checks stand in document 01's order, record by record. A tally's faults are all listed, and the first of them decides.

use crate::refusal::{
    refuse, refuse_line, Refusal, BAD_LINES, BAD_MARK, BUFFER_LENGTH, CLASS, COUNT, NO_SPACE, NO_SUCH_PLOT, PLOT_ORDER,
    RISE, SPECIES, TRUNCATED,
};
use std::collections::BTreeSet;
use std::ops::Range;

/// The mark 50 4C (hexadecimal) before each record.
pub const MARK: [u8; 2] = [0x50, 0x4C];
/// Bytes before the lines: mark, plot number, number of lines.
pub const HEADER: usize = 5;
const MOST_LINES: usize = 40;
const MOST_PAYLOAD: usize = 4048;

/// The plot number of the record that begins here.
pub fn plot_number(payload: &[u8], first: usize) -> u16 {
    u16::from_le_bytes([payload[first + 2], payload[first + 3]])
}

/// The records of a payload in their order, each from its mark to its last line.
pub fn records(payload: &[u8]) -> Result<Vec<Range<usize>>, Refusal> {
    if payload.len() > MOST_PAYLOAD {
        return refuse(BUFFER_LENGTH, 0);
    }
    let mut found: Vec<Range<usize>> = Vec::new();
    let mut place = 0;
    while place < payload.len() && payload[place] != 0 {
        let end = check_header(payload, place)?;
        check_plot(plot_number(payload, place), &payload[place + HEADER..end], place)?;
        check_rise(payload, found.last(), plot_number(payload, place), place)?;
        found.push(place..end);
        place = end;
    }
    if payload[place..].iter().any(|&x| x != 0) {
        return refuse(BAD_MARK, place);
    }
    Ok(found)
}

/// Mark, header bytes, number of lines, and presence of the lines; gives the record's end.
fn check_header(payload: &[u8], first: usize) -> Result<usize, Refusal> {
    let rest = &payload[first..];
    if rest.iter().zip(MARK).any(|(&x, mark)| x != mark) {
        return refuse(BAD_MARK, first);
    }
    if rest.len() < HEADER {
        return refuse(TRUNCATED, first);
    }
    let lines = usize::from(rest[4]);
    if lines > MOST_LINES {
        return refuse(BAD_LINES, first);
    }
    if rest.len() < HEADER + 3 * lines {
        return refuse(TRUNCATED, first);
    }
    Ok(first + HEADER + 3 * lines)
}

/// Plot number not 0, then the lines.
fn check_plot(plot: u16, lines: &[u8], first: usize) -> Result<(), Refusal> {
    if plot == 0 {
        return refuse(BAD_LINES, first);
    }
    match line_faults(lines).first() {
        Some(&(line, figure)) => refuse_line(first, figure, line),
        None => Ok(()),
    }
}

/// All that fails in the lines: the index of the line and the figure, in this order.
fn line_faults(lines: &[u8]) -> BTreeSet<(usize, u8)> {
    let lines: Vec<&[u8]> = lines.chunks(3).collect();
    let mut faults = BTreeSet::new();
    for (value, figure, range) in [(0, SPECIES, 1..=99), (1, CLASS, 1..=200), (2, COUNT, 1..=255)] {
        let outside = (0..lines.len()).filter(|&i| !range.contains(&lines[i][value]));
        faults.extend(outside.map(|i| (i, figure)));
    }
    let not_above = (1..lines.len()).filter(|&i| lines[i][..2] <= lines[i - 1][..2]);
    faults.extend(not_above.map(|i| (i, RISE)));
    faults
}

/// The plot number is above that of the last record.
fn check_rise(payload: &[u8], last: Option<&Range<usize>>, plot: u16, first: usize) -> Result<(), Refusal> {
    match last {
        Some(record) if plot_number(payload, record.start) >= plot => refuse(PLOT_ORDER, first),
        _ => Ok(()),
    }
}

/// The checker of a payload.
pub fn check(payload: &[u8]) -> Result<(), Refusal> {
    records(payload).map(|_| ())
}

/// The companion entry of asking: where the plot's record is, or why there is none.
pub fn companion(payload: &[u8], plot: u16) -> Result<Range<usize>, Refusal> {
    let found = records(payload)?;
    let mut same = found
        .into_iter()
        .filter(|record| plot_number(payload, record.start) == plot);
    same.next().map_or(refuse(NO_SUCH_PLOT, 0), Ok)
}

/// Asking for a plot: its record as a part of the payload, empty after a refusal.
pub fn ask(payload: &[u8], plot: u16) -> &[u8] {
    &payload[companion(payload, plot).unwrap_or(0..0)]
}

/// Adding a plot; the result is the record's first byte.
pub fn add(payload: &mut [u8], plot: u16, lines: &[u8]) -> Result<usize, Refusal> {
    let found = records(payload)?;
    let first = found.last().map_or(0, |record| record.end);
    if lines.len() > 3 * MOST_LINES || !lines.len().is_multiple_of(3) {
        return refuse(BAD_LINES, first);
    }
    check_plot(plot, lines, first)?;
    check_rise(payload, found.last(), plot, first)?;
    let record = record(plot, lines);
    if record.len() > payload.len() - first {
        return refuse(NO_SPACE, first);
    }
    payload[first..first + record.len()].copy_from_slice(&record);
    Ok(first)
}

/// The bytes of a record, with as many lines as there are threes; nothing is checked.
pub fn record(plot: u16, lines: &[u8]) -> Vec<u8> {
    let mut bytes = MARK.to_vec();
    bytes.extend(plot.to_le_bytes());
    bytes.push((lines.len() / 3) as u8);
    bytes.extend(lines);
    bytes
}

#[cfg(test)]
mod tests {
    use super::*;
    use crate::cases;

    #[test]
    fn payloads_are_checked_in_order() {
        for (payload, expected) in cases::payloads() {
            assert_eq!(check(&payload), expected, "{payload:?}");
        }
    }

    #[test]
    fn asking_names_the_record_or_the_refusal() {
        for (payload, plot, expected) in cases::asks() {
            let found = companion(&payload, plot);
            match expected {
                Ok((start, length)) => {
                    assert_eq!(found, Ok(start..start + length));
                    assert_eq!(ask(&payload, plot), &payload[start..start + length]);
                    assert_eq!(ask(&payload, plot).as_ptr(), payload[start..].as_ptr());
                }
                Err(refusal) => {
                    assert_eq!(found, Err(refusal), "{payload:?}");
                    assert!(ask(&payload, plot).is_empty());
                }
            }
        }
    }

    #[test]
    fn adding_writes_the_record_or_nothing() {
        for (before, plot, lines, expected) in cases::adds() {
            let mut payload = before.clone();
            let result = add(&mut payload, plot, &lines);
            let mut due = before;
            match expected {
                Ok(first) => {
                    assert_eq!(result, Ok(first));
                    let record = record(plot, &lines);
                    due[first..first + record.len()].copy_from_slice(&record);
                    assert_eq!(ask(&payload, plot), record);
                }
                Err(refusal) => assert_eq!(result, Err(refusal), "{due:?} {plot} {lines:?}"),
            }
            assert_eq!(payload, due);
        }
    }

    #[test]
    fn eight_bytes_take_the_record_and_seven_are_full() {
        let mut payload = [0; 8];
        assert_eq!(add(&mut payload, 7, &[3, 32, 2]), Ok(0));
        assert_eq!(payload, [0x50, 0x4C, 7, 0, 1, 3, 32, 2]);
        let mut payload = [0; 7];
        assert_eq!(add(&mut payload, 7, &[3, 32, 2]), refuse(NO_SPACE, 0));
        assert_eq!(payload, [0; 7]);
    }
}
