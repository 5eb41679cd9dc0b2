//! The stand table by the words of Note 4: against a table made by hand, and against lines put into their cells one by one.

use super::*;
use crate::cases;
use crate::random::Random;
use crate::refusal::refuse_line;

#[test]
fn worked_tables() {
    for (number, case) in cases::tracts().into_iter().enumerate() {
        let mut stand = Stand::handed_in(&case.species, case.state);
        for (payload, expected) in case.payloads {
            let before = stand.state();
            assert_eq!(stand.add(&payload), expected, "row {number}: {payload:?}");
            assert!(expected.is_ok() || stand.state() == before, "row {number}");
        }
        assert_eq!(stand.state(), case.after, "row {number}");
        assert_eq!(stand.total(), case.total, "row {number}");
        let per_plot = stand.trees_per_plot().map(|found| (found.quotient, found.remainder));
        assert_eq!(per_plot, case.per_plot, "row {number}");
    }
}

/// The list of a table is refused at its beginning exactly if it is refused later.
#[test]
fn lists() {
    for case in cases::tracts() {
        let begun = Stand::begin(&case.species).map(|stand| stand.state());
        let due = match case.total {
            Err(refusal) if refusal.number == SPECIES_LIST => Err(refusal),
            _ => Ok(State::EMPTY),
        };
        assert_eq!(begun, due, "{:?}", case.species);
    }
    for number in 0..=255 {
        assert_eq!(check_list(&[number]).is_ok(), (1..100).contains(&number));
        assert_eq!(
            check_list(&[50, number]).is_ok(),
            (1..100).contains(&number) && number != 50
        );
    }
}

/// Each species and class goes to one cell: the listed ones to their rows, in ten classes a column.
#[test]
fn every_species_and_class() {
    let listed: Vec<u8> = (0..16).map(|i| 98 - 6 * i).collect();
    for species in 1..=99u8 {
        for class in (1..=200u8).filter(|class| class % 10 < 2 || class % 7 == 0) {
            let mut stand = Stand::begin(&listed).unwrap();
            stand.add(&plot::record(1, &[species, class, 5])).unwrap();
            let row = listed.iter().position(|&number| number == species).unwrap_or(16);
            let mut due = State::EMPTY;
            due.cells[row][(usize::from(class) - 1) / 10] = 5;
            (due.payloads, due.records) = (1, 1);
            assert_eq!(stand.state(), due, "{species} {class}");
        }
    }
}

/// Lines that rise, of few species.
fn lines(random: &mut Random) -> Vec<Line> {
    let pairs: BTreeSet<(u8, u8)> = (0..random.between(0, 3))
        .map(|_| (random.between(1, 6) as u8, random.between(1, 200) as u8))
        .collect();
    pairs
        .into_iter()
        .map(|(species, class)| [species, class, random.nonzero()])
        .collect()
}

/// What is kept of the lines: each put into its cell when it comes.
struct Kept {
    state: State,
    trees: u64,
}

impl Kept {
    fn add(&mut self, listed: &[u8], tallies: &[Vec<Line>]) {
        for &[species, class, count] in tallies.iter().flatten() {
            let row = listed.iter().position(|&number| number == species).unwrap_or(16);
            self.state.cells[row][(usize::from(class) - 1) / 10] += u32::from(count);
            self.trees += u64::from(count);
        }
        self.state.payloads += 1;
        self.state.records += tallies.len() as u32;
    }
}

/// A thousand payloads from the empty table on, refused ones between them: each cell is its trees, the total all trees, and one payload more is refused.
#[test]
fn a_thousand_payloads() {
    let mut random = Random::new(81);
    let listed = [5, 1, 3];
    let mut stand = Stand::begin(&listed).unwrap();
    let mut kept = Kept {
        state: State::EMPTY,
        trees: 0,
    };
    for round in 0..1_000 {
        if round % 10 == 0 {
            assert_eq!(stand.add(&[0, 1]), refuse(5, 0));
            assert_eq!(stand.add(&plot::record(1, &[3, 32, 0])), refuse_line(0, 3, 0));
        }
        let tallies: Vec<Vec<Line>> = (0..random.between(0, 2)).map(|_| lines(&mut random)).collect();
        let numbered = tallies.iter().zip(1..);
        let payload: Vec<u8> = numbered
            .flat_map(|(lines, number)| plot::record(number, &lines.concat()))
            .collect();
        assert_eq!(stand.add(&payload), Ok(()));
        kept.add(&listed, &tallies);
    }
    assert_eq!(stand.add(&[]), refuse(TRACT_FULL, 0));
    assert_eq!(stand.state(), kept.state);
    assert_eq!(stand.total(), Ok(kept.trees));
    let PerPlot { quotient, remainder } = stand.trees_per_plot().unwrap();
    let records = u64::from(kept.state.records);
    assert_eq!(quotient * records + remainder, kept.trees);
    assert!(remainder < records && quotient > 0);
}

/// Each cell in turn, and each counter, at 400,000,000 and one above it.
#[test]
fn each_number_handed_in() {
    let each = |change: &dyn Fn(&mut State, u32)| {
        for (number, due) in [(400_000_000, Ok(())), (400_000_001, refuse(TRACT_FULL, 0))] {
            let mut state = State::EMPTY;
            change(&mut state, number);
            let mut stand = Stand::handed_in(&[], state);
            assert_eq!(stand.total().map(|_| ()), due);
            let due = if stand.payloads() > 0 {
                refuse(TRACT_FULL, 0)
            } else {
                due
            };
            assert_eq!(stand.add(&[]), due);
        }
    };
    for row in 0..ROWS {
        for column in 0..COLUMNS {
            each(&|state, number| state.cells[row][column] = number);
        }
    }
    each(&|state, number| state.payloads = number);
    each(&|state, number| state.records = number);
}
