//! Bad tallies with answers found by hand: which value of which line decides, and faults outside a line, whatever the lines hold.

use super::{after_plot_7, lines, plots, Add, Ask, Check};
use crate::plot::record;
use crate::refusal::{refuse, refuse_line};

/// Lines, and the figure and the line that they are refused for.
type BadLines = (Vec<u8>, u8, usize);

/// Forty lines, all good but the one with this index.
fn forty(index: usize, line: [u8; 3]) -> Vec<u8> {
    let mut bytes = lines(40);
    bytes[3 * index..][..3].copy_from_slice(&line);
    bytes
}

/// One value of one line is bad: in a lone line, and in the first, a middle and the last of forty. The first line has no line to rise above.
fn one_fault() -> Vec<BadLines> {
    vec![
        (vec![0, 32, 2], 1, 0),
        (vec![255, 32, 2], 1, 0),
        (vec![3, 0, 2], 2, 0),
        (vec![3, 255, 2], 2, 0),
        (vec![3, 32, 0], 3, 0),
        (forty(0, [100, 101, 255]), 1, 0),
        (forty(0, [1, 201, 255]), 2, 0),
        (forty(0, [1, 101, 0]), 3, 0),
        (forty(1, [1, 101, 255]), 4, 1),
        (forty(19, [0, 120, 255]), 1, 19),
        (forty(19, [3, 0, 255]), 2, 19),
        (forty(19, [3, 120, 0]), 3, 19),
        (forty(19, [2, 119, 255]), 4, 19),
        (forty(39, [100, 140, 255]), 1, 39),
        (forty(39, [5, 201, 255]), 2, 39),
        (forty(39, [5, 140, 0]), 3, 39),
        (forty(39, [4, 138, 255]), 4, 39),
    ]
}

/// Several values are bad: the first bad line decides, and in it the first bad value.
fn several_faults() -> Vec<BadLines> {
    let mut far_apart = forty(39, [0, 0, 0]);
    far_apart[3 * 5 + 2] = 0;
    vec![
        (vec![0, 0, 0], 1, 0),
        (vec![100, 32, 0], 1, 0),
        (vec![3, 201, 0], 2, 0),
        (vec![3, 32, 2, 0, 0, 0], 1, 1),
        (vec![3, 32, 2, 0, 33, 1], 1, 1),
        (vec![3, 32, 2, 2, 201, 1], 2, 1),
        (vec![3, 32, 2, 3, 0, 1], 2, 1),
        (vec![3, 32, 2, 3, 32, 0], 3, 1),
        (vec![3, 32, 0, 0, 33, 1], 3, 0),
        (vec![3, 201, 1, 3, 200, 1], 2, 0),
        (vec![3, 32, 2, 3, 32, 2, 0, 0, 0], 4, 1),
        (vec![1, 1, 1, 1, 2, 0, 1, 2, 1], 3, 1),
        (vec![1, 9, 1, 2, 1, 1, 1, 10, 1], 4, 2),
        (far_apart, 3, 5),
    ]
}

fn bad_lines() -> Vec<BadLines> {
    [one_fault(), several_faults()].concat()
}

/// Each of the bad tallies in the first record and in a later one, then two in one payload, one after records with lines, and faults outside a
/// line in records with bad lines.
pub(super) fn payloads() -> Vec<Check> {
    let alone = |(lines, figure, line): BadLines| (record(7, &lines), refuse_line(0, figure, line));
    let later = |(lines, figure, line): BadLines| (after_plot_7(&record(8, &lines)), refuse_line(8, figure, line));
    let mut rows: Vec<Check> = bad_lines().into_iter().map(alone).collect();
    rows.extend(bad_lines().into_iter().map(later));
    let before = [record(1, &lines(40)), record(2, &lines(2))].concat();
    rows.extend([
        (
            [record(7, &[3, 32, 0]), record(8, &[0, 32, 2])].concat(),
            refuse_line(0, 3, 0),
        ),
        (
            [before, record(3, &[3, 32, 2, 3, 201, 2])].concat(),
            refuse_line(136, 2, 1),
        ),
        ([record(7, &[3, 32, 0]), vec![0, 1]].concat(), refuse_line(0, 3, 0)),
        (record(7, &[0; 41 * 3]), refuse(7, 0)),
        (
            after_plot_7(&record(8, &[&lines(40)[..], &[0; 3]].concat())),
            refuse(7, 8),
        ),
        (record(0, &[0; 3]), refuse(7, 0)),
        (after_plot_7(&record(0, &[3, 32, 2, 3, 32, 2])), refuse(7, 8)),
        (record(7, &[0; 3])[..7].into(), refuse(6, 0)),
        (after_plot_7(&[0x50, 0x4D, 8, 0, 1, 0, 0, 0]), refuse(5, 8)),
        ([plots(&[7, 7]), record(8, &[0; 3])].concat(), refuse(8, 8)),
        ([record(7, &[0; 3]), vec![0; 4041]].concat(), refuse(2, 0)),
    ]);
    rows
}

/// Each of the bad tallies in the first record, whose plot is asked for, and in a later one, where another plot is; then two for an absent plot and for
/// plot 0, and faults outside a line.
pub(super) fn asks() -> Vec<Ask> {
    let alone = |(lines, figure, line): BadLines| (record(7, &lines), 7, refuse_line(0, figure, line));
    let later = |(lines, figure, line): BadLines| {
        let payload = after_plot_7(&record(8, &lines));
        (payload, 7, refuse_line(8, figure, line))
    };
    let mut rows: Vec<Ask> = bad_lines().into_iter().map(alone).collect();
    rows.extend(bad_lines().into_iter().map(later));
    let first = record(7, &[3, 32, 2, 3, 0, 1]);
    rows.extend([
        (first.clone(), 9, refuse_line(0, 2, 1)),
        (first, 0, refuse_line(0, 2, 1)),
        (record(7, &[0; 41 * 3]), 7, refuse(7, 0)),
        (record(0, &[0; 3]), 0, refuse(7, 0)),
        ([plots(&[7, 7]), record(8, &[0; 3])].concat(), 8, refuse(8, 8)),
        ([record(7, &[0; 3]), vec![0; 4041]].concat(), 7, refuse(2, 0)),
    ]);
    rows
}

/// Each of the bad tallies added to a payload of zeros and, with a plot number that does not rise and without room, to one that is full; then
/// faults outside a line, and payloads that are refused themselves.
pub(super) fn adds() -> Vec<Add> {
    let alone = |(lines, figure, line): BadLines| (vec![0; 9], 7, lines, refuse_line(0, figure, line));
    let later = |(lines, figure, line): BadLines| (plots(&[7]), 7, lines, refuse_line(8, figure, line));
    let mut rows: Vec<Add> = bad_lines().into_iter().map(alone).collect();
    rows.extend(bad_lines().into_iter().map(later));
    for length in [1, 2, 4, 119, 121, 122, 123, 126] {
        rows.push((plots(&[7]), 8, vec![0; length], refuse(7, 8)));
    }
    let good_then_bad = [&lines(40)[..], &[0; 3]].concat();
    rows.extend([
        (plots(&[7]), 8, good_then_bad, refuse(7, 8)),
        (plots(&[7]), 8, vec![3, 32, 2, 3, 32, 0, 4], refuse(7, 8)),
        (plots(&[7]), 0, vec![0; 3], refuse(7, 8)),
        (record(7, &[3, 32, 2, 3, 0, 1]), 8, vec![3, 32, 0], refuse_line(0, 2, 1)),
        (record(7, &[3, 32, 0]), 8, vec![0; 4], refuse_line(0, 3, 0)),
        (
            after_plot_7(&record(8, &[1, 1, 1, 1, 2, 1, 1, 2, 1])),
            9,
            vec![0, 32, 2],
            refuse_line(8, 4, 2),
        ),
        (record(7, &[0; 41 * 3]), 8, vec![0; 3], refuse(7, 0)),
        (record(0, &[0; 3]), 8, vec![0; 3], refuse(7, 0)),
        (
            [record(7, &[0; 3]), vec![0; 4041]].concat(),
            8,
            vec![0; 3],
            refuse(2, 0),
        ),
        (plots(&[7, 7]), 8, vec![0; 3], refuse(8, 8)),
        (after_plot_7(&[0, 1]), 8, vec![0; 3], refuse(5, 8)),
        (after_plot_7(&[0x50, 0x4C]), 8, vec![0; 3], refuse(6, 8)),
    ]);
    rows
}
