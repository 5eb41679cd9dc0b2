//! Stand tables with answers found by hand: payloads added in turn to a state, then the total and the trees per plot.

use super::{after_plot_7, plots};
use crate::plot::record;
use crate::refusal::{refuse, refuse_line, Refusal};
use crate::stand::State;

/// Row, column and count of a cell.
pub type Cell = (usize, usize, u32);

/// A row of the table: a state handed in with its species list, the payloads added to it, and what is due.
pub struct Tract {
    pub species: Vec<u8>,
    pub state: State,
    /// Each payload with what adding it answers.
    pub payloads: Vec<(Vec<u8>, Result<(), Refusal>)>,
    /// The state afterwards.
    pub after: State,
    pub total: Result<u64, Refusal>,
    /// Quotient and remainder.
    pub per_plot: Result<(u64, u64), Refusal>,
}

/// A state of these cells, all others being zero, and of these payloads and records.
fn state(cells: &[Cell], payloads: u32, records: u32) -> State {
    let mut state = State {
        payloads,
        records,
        ..State::EMPTY
    };
    for &(row, column, count) in cells {
        state.cells[row][column] = count;
    }
    state
}

/// A state of which all cells are alike.
fn alike(count: u32, payloads: u32, records: u32) -> State {
    State {
        cells: [[count; 20]; 17],
        payloads,
        records,
    }
}

impl Tract {
    fn new(species: &[u8], state: State) -> Tract {
        Tract {
            species: species.into(),
            after: state.clone(),
            state,
            payloads: Vec::new(),
            total: Ok(0),
            per_plot: refuse(15, 0),
        }
    }

    /// One payload more, which is accepted.
    fn add(mut self, payload: Vec<u8>) -> Tract {
        self.payloads.push((payload, Ok(())));
        self
    }

    /// One payload more, which is refused.
    fn refuse(mut self, payload: Vec<u8>, refused: Result<(), Refusal>) -> Tract {
        self.payloads.push((payload, refused));
        self
    }

    fn leaves(mut self, after: State) -> Tract {
        self.after = after;
        self
    }

    fn counts(mut self, total: u64, per_plot: (u64, u64)) -> Tract {
        self.total = Ok(total);
        self.per_plot = Ok(per_plot);
        self
    }

    /// So many trees, and no plot.
    fn holds(mut self, total: u64) -> Tract {
        self.total = Ok(total);
        self
    }

    /// Total and quotient are both refused.
    fn refused(mut self, number: u8) -> Tract {
        self.total = refuse(number, 0);
        self.per_plot = refuse(number, 0);
        self
    }
}

/// The table.
pub fn tracts() -> Vec<Tract> {
    let mut rows = begun_empty();
    rows.extend(rows_and_columns());
    rows.extend(with_refused_payloads());
    rows.extend(bad_lists());
    rows.extend(at_the_limits());
    rows.extend(past_the_limits());
    rows.extend(several_faults());
    rows
}

/// Tables begun empty, and payloads that have no trees or no plot.
fn begun_empty() -> Vec<Tract> {
    let begun = |species: &[u8]| Tract::new(species, State::EMPTY);
    vec![
        begun(&[]),
        begun(&[99]),
        begun(&[3]).add(vec![]).add(vec![0; 9]).leaves(state(&[], 2, 0)),
        begun(&[3])
            .add(record(1, &[]))
            .leaves(state(&[], 1, 1))
            .counts(0, (0, 0)),
        begun(&[3])
            .add(plots(&[7]))
            .leaves(state(&[(0, 3, 2)], 1, 1))
            .counts(2, (2, 0)),
        begun(&[])
            .add(plots(&[7]))
            .leaves(state(&[(16, 3, 2)], 1, 1))
            .counts(2, (2, 0)),
        // one plot number in two payloads is two records
        begun(&[7, 3])
            .add(plots(&[7]))
            .add(plots(&[7, 8]))
            .leaves(state(&[(1, 3, 6)], 2, 3))
            .counts(6, (2, 0)),
    ]
}

/// The list's order, the last row, and the edges of the columns.
fn rows_and_columns() -> Vec<Tract> {
    let begun = |species: &[u8]| Tract::new(species, State::EMPTY);
    let sixteen: Vec<u8> = (1..=16).rev().collect();
    vec![
        begun(&[9, 2])
            .add(record(1, &[2, 10, 5, 2, 11, 6, 5, 200, 7, 9, 1, 8]))
            .leaves(state(&[(1, 0, 5), (1, 1, 6), (16, 19, 7), (0, 0, 8)], 1, 1))
            .counts(26, (26, 0)),
        begun(&sixteen)
            .add([record(1, &[1, 20, 3, 16, 21, 4]), record(2, &[17, 190, 5, 99, 191, 6])].concat())
            .leaves(state(&[(15, 1, 3), (0, 2, 4), (16, 18, 5), (16, 19, 6)], 1, 2))
            .counts(18, (9, 0)),
        begun(&[1, 2])
            .add([record(1, &[1, 1, 255, 1, 2, 255, 1, 10, 255]), record(2, &[1, 5, 4])].concat())
            .add([record(1, &[]), record(3, &[2, 100, 1, 2, 101, 1])].concat())
            .leaves(state(&[(0, 0, 769), (1, 9, 1), (1, 10, 1)], 2, 4))
            .counts(771, (192, 3)),
    ]
}

/// Payloads of every refusal among others: the table and the counters stay as they were.
fn with_refused_payloads() -> Vec<Tract> {
    let mixed = Tract::new(&[3], State::EMPTY)
        .refuse(vec![0; 4049], refuse(2, 0))
        .add(plots(&[7]))
        .refuse(after_plot_7(&[0, 1]), refuse(5, 8))
        .refuse(after_plot_7(&[0x50, 0x4C]), refuse(6, 8))
        .refuse(after_plot_7(&record(0, &[3, 32, 2])), refuse(7, 8))
        .refuse(record(7, &[3, 32, 2, 3, 201, 1]), refuse_line(0, 2, 1))
        .add(plots(&[7]))
        .refuse(plots(&[7, 8, 8]), refuse(8, 16))
        .leaves(state(&[(0, 3, 4)], 2, 2))
        .counts(4, (2, 0));
    let none = Tract::new(&[], State::EMPTY).refuse(record(7, &[0, 0, 0]), refuse_line(0, 1, 0));
    vec![mixed, none]
}

/// Lists that are refused, with a payload that is accepted and one that is not.
fn bad_lists() -> Vec<Tract> {
    let seventeen: Vec<u8> = (1..=17).collect();
    let twice: Vec<u8> = (1..=15).chain([1]).collect();
    let lists = [
        &[0][..],
        &[100],
        &[255],
        &[3, 3],
        &[3, 7, 3],
        &[1, 2, 99, 100],
        &seventeen,
        &twice,
        &[5; 300],
    ];
    let handed_in = state(&[(0, 0, 9), (16, 19, 1)], 3, 4);
    let row = |species: &[u8]| {
        Tract::new(species, handed_in.clone())
            .refuse(plots(&[7]), refuse(13, 0))
            .refuse(vec![1], refuse(13, 0))
            .refused(13)
    };
    lists.map(row).into()
}

/// Cells and counters of exactly 400,000,000 are accepted, and the thousandth payload is.
fn at_the_limits() -> Vec<Tract> {
    const MOST: u32 = 400_000_000;
    vec![
        Tract::new(&[3], state(&[(0, 3, 147)], 999, 11))
            .add(plots(&[7]))
            .refuse(plots(&[7]), refuse(14, 0))
            .refuse(vec![], refuse(14, 0))
            .leaves(state(&[(0, 3, 149)], 1_000, 12))
            .counts(149, (12, 5)),
        // what is handed in counts, not what comes out
        Tract::new(&[3], state(&[(0, 3, MOST)], 0, 0))
            .add(plots(&[7]))
            .refuse(plots(&[7]), refuse(14, 0))
            .leaves(state(&[(0, 3, MOST + 2)], 1, 1))
            .refused(14),
        Tract::new(&[3], state(&[(4, 3, MOST)], 0, 1))
            .add(plots(&[7]))
            .add(vec![])
            .leaves(state(&[(0, 3, 2), (4, 3, MOST)], 2, 2))
            .counts(400_000_002, (200_000_001, 0)),
        Tract::new(&[], state(&[], 7, MOST))
            .add(vec![0])
            .add(plots(&[7]))
            .refuse(vec![0], refuse(14, 0))
            .leaves(state(&[(16, 3, 2)], 9, MOST + 1))
            .refused(14),
        Tract::new(&[], state(&[(16, 0, 3)], MOST, 2))
            .refuse(plots(&[7]), refuse(14, 0))
            .counts(3, (1, 1)),
        Tract::new(&[], alike(MOST, 1_000, 7)).counts(136_000_000_000, (19_428_571_428, 4)),
        Tract::new(&[], alike(MOST, 0, MOST)).counts(136_000_000_000, (340, 0)),
        Tract::new(&[], state(&[(16, 0, MOST - 1)], 0, MOST)).counts(399_999_999, (0, 399_999_999)),
    ]
}

/// A cell or a counter above 400,000,000, in a row that is not in use too; more than 1,000 payloads are refused by adding alone.
fn past_the_limits() -> Vec<Tract> {
    const MORE: u32 = 400_000_001;
    let states = [
        state(&[(0, 0, MORE)], 0, 1),
        state(&[(16, 19, MORE)], 0, 1),
        state(&[(9, 9, MORE)], 0, 1),
        state(&[(15, 0, u32::MAX)], 0, 1),
        state(&[], MORE, 1),
        state(&[], u32::MAX, 1),
        state(&[], 0, MORE),
        state(&[], 0, u32::MAX),
        alike(u32::MAX, u32::MAX, u32::MAX),
    ];
    let row = |state: State| {
        Tract::new(&[3], state)
            .refuse(vec![], refuse(14, 0))
            .refuse(plots(&[7, 8]), refuse(14, 0))
            .refused(14)
    };
    let many = |payloads| {
        Tract::new(&[3], state(&[(0, 3, 5)], payloads, 2))
            .refuse(plots(&[7]), refuse(14, 0))
            .counts(5, (2, 1))
    };
    states.map(row).into_iter().chain([1_000, 1_001].map(many)).collect()
}

/// Faults of the payload's length, the list, the state and the payload's records together: 2, 13, 14, the payload's own, and 15 last.
fn several_faults() -> Vec<Tract> {
    let past = || state(&[(2, 2, 400_000_001)], 1_000, 0);
    let long = || vec![1; 4049];
    let bad = || record(7, &[3, 32, 0]);
    vec![
        Tract::new(&[3, 3], past())
            .refuse(long(), refuse(2, 0))
            .refuse(bad(), refuse(13, 0))
            .refused(13),
        Tract::new(&[3], past())
            .refuse(long(), refuse(2, 0))
            .refuse(bad(), refuse(14, 0))
            .refused(14),
        Tract::new(&[3], state(&[(0, 0, 5)], 1_000, 0))
            .refuse(bad(), refuse(14, 0))
            .holds(5),
        Tract::new(&[3], state(&[(0, 0, 5)], 0, 0))
            .refuse(bad(), refuse_line(0, 3, 0))
            .holds(5),
    ]
}
