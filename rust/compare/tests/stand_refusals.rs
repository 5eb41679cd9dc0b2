//! Refusals of the stand table, by the library and by the second decoder: lists, states handed in, and several faults at once.

use compare::draw::{self, MOST};
use compare::stand::{add, begin, numbers, one_line};
use compare::work::{called, run, Tally};
use second::plot::record;
use second::random::Random;
use second::stand::{State, COLUMNS};

/// A payload for each of the payload's own refusals, 5 to 8.
fn bad_payloads() -> [(usize, Vec<u8>); 4] {
    [
        (5, vec![0, 0, 1]),
        (6, [one_line(3, 32, 2), vec![0x50]].concat()),
        (7, record(9, &[3, 32, 2, 3, 201, 2])),
        (8, [one_line(3, 32, 2), one_line(3, 32, 2)].concat()),
    ]
}

/// Begins with a list, and hands it in with a state: 13 from every entry, or from none.
fn list(random: &mut Random, species: &[u8], accepted: bool) {
    let state = draw::state(random);
    assert_eq!(begin(species, &state) == 0, accepted, "{species:?}");
    let found = numbers(species, &state, &[]);
    assert_eq!(found.contains(&13), !accepted, "{species:?}");
    assert!(accepted || found == [13; 3], "{species:?}");
}

/// Every length, every number in every place, every pair of places with one number, and long lists.
#[test]
fn lists() {
    let mut random = Random::new(1);
    for count in 0..=99 {
        let species = draw::species(&mut random, count);
        list(&mut random, &species, count <= 16);
    }
    for length in [256, 257, 272, 1_000, 65_536 + 3] {
        list(&mut random, &vec![7; length], false);
        let species: Vec<u8> = (0..length).map(|i| (i % 99) as u8 + 1).collect();
        list(&mut random, &species, false);
    }
    for count in [1, 2, 16] {
        let species = draw::species(&mut random, count);
        for (place, number) in (0..count).flat_map(|place| (0..=255).map(move |number| (place, number))) {
            let mut changed = species.clone();
            changed[place] = number;
            let repeated = changed.iter().filter(|&&listed| listed == number).count() > 1;
            list(&mut random, &changed, (1..100).contains(&number) && !repeated);
        }
    }
}

/// Drawn lists that are refused.
#[test]
fn bad_lists() {
    run("stand, bad lists", 2_000, |_, random, tally| {
        let species = draw::bad_species(random);
        list(random, &species, false);
        tally.count("lists");
    });
}

/// A state with one number changed; others are drawn.
fn one_number(random: &mut Random, change: impl Fn(&mut State, u32), tally: &mut Tally) {
    for number in [MOST - 1, MOST, MOST + 1, u32::MAX] {
        let mut state = draw::state(random);
        state.records = state.records.max(1);
        change(&mut state, number);
        let count = [0, 1, 5, 16][random.between(0, 3)];
        let species = draw::species(random, count);
        let found = numbers(&species, &state, &one_line(3, 32, 2));
        let due = if number > MOST { 14 } else { 0 };
        let adding = if state.payloads >= 1_000 { 14 } else { due };
        assert_eq!(found, [adding, due, due], "{number}");
        tally.count(called(due));
    }
}

/// Each of the 340 cells and each counter just at the limit and above it.
#[test]
fn each_number_handed_in() {
    let tally = run("stand, each number", 340, |seed, random, tally| {
        let place = seed as usize - 1;
        let cell = |state: &mut State, number| state.cells[place / COLUMNS][place % COLUMNS] = number;
        one_number(random, cell, tally);
        one_number(random, |state, number| state.payloads = number, tally);
        one_number(random, |state, number| state.records = number, tally);
    });
    assert_eq!((tally.of("accepted"), tally.of("tract full")), (340 * 6, 340 * 6));
}

/// What comes out may be above the limit; then it is refused when it is handed in again.
#[test]
fn past_the_limit_by_adding() {
    for (row, species) in [(0, vec![3]), (16, vec![]), (2, vec![1, 2, 3])] {
        let mut state = State::EMPTY;
        state.cells[row][3] = MOST;
        let (answer, after) = add(&species, &state, &one_line(3, 40, 255));
        assert_eq!((answer.number, after.cells[row][3]), (0, MOST + 255));
        assert_eq!(numbers(&species, &after, &[]), [14; 3]);
        state.records = MOST;
        let (answer, after) = add(&species, &state, &one_line(4, 9, 1));
        assert_eq!((answer.number, after.records), (0, MOST + 1));
        assert_eq!(numbers(&species, &after, &[]), [14; 3]);
    }
}

/// The counter of payloads: 999 is one more that is accepted, from 1,000 on adding alone refuses.
#[test]
fn counters_of_payloads() {
    let numbers_at = |payloads| {
        let state = State {
            payloads,
            records: 5,
            ..State::EMPTY
        };
        numbers(&[3], &state, &one_line(3, 32, 2))
    };
    for payloads in [0, 1, 255, 256, 998, 999] {
        assert_eq!(numbers_at(payloads), [0; 3]);
    }
    for payloads in [1_000, 1_001, 1_024, 65_536, MOST - 1, MOST] {
        assert_eq!(numbers_at(payloads), [14, 0, 0]);
    }
    for payloads in [MOST + 1, u32::MAX - 1, u32::MAX] {
        assert_eq!(numbers_at(payloads), [14; 3]);
    }
}

/// What is wrong in an input.
#[derive(Clone, Copy, Debug)]
struct Faults {
    /// The payload is too long.
    long: bool,
    /// The list is refused.
    list: bool,
    /// A number is above the limit.
    above: bool,
    /// A thousand payloads or more were added.
    thousand: bool,
    /// The payload has a fault of its own.
    own: bool,
    /// No plot was added.
    no_plot: bool,
}

impl Faults {
    fn all() -> impl Iterator<Item = Faults> {
        (0..64).map(|mask| {
            let [long, list, above, thousand, own, no_plot] = [0, 1, 2, 3, 4, 5].map(|bit| mask >> bit & 1 == 1);
            Faults {
                long,
                list,
                above,
                thousand,
                own,
                no_plot,
            }
        })
    }

    fn species(self, random: &mut Random) -> Vec<u8> {
        match self.list {
            true => draw::bad_species(random),
            false => draw::species(random, 4),
        }
    }

    fn state(self, random: &mut Random) -> State {
        let mut state = draw::state(random);
        state.records = if self.no_plot { 0 } else { state.records.max(1) };
        if self.thousand {
            state.payloads = random.between(1_000, 2_000) as u32;
        }
        if self.above {
            draw::overfill(random, &mut state);
        }
        state
    }

    /// A payload, and the number of its own fault.
    fn payload(self, random: &mut Random) -> (Vec<u8>, usize) {
        let (number, mut payload) = match self.own {
            true => bad_payloads()[random.between(0, 3)].clone(),
            false => (0, one_line(3, 32, 2)),
        };
        if self.long {
            payload.resize(random.between(4_049, 4_060), 0);
        }
        (payload, number)
    }

    /// What adding, total and trees per plot answer: the first fault in Note 4's order.
    fn due(self, own: usize) -> [usize; 3] {
        let (list, above) = ((self.list, 13), (self.above, 14));
        let full = (self.above || self.thousand, 14);
        let adding = [(self.long, 2), list, full, (self.own, own)];
        let asking = [list, above, (self.no_plot, 15)];
        [&adding[..], &asking[..2], &asking]
            .map(|faults| faults.iter().find(|fault| fault.0).map_or(0, |fault| fault.1))
    }
}

/// Every combination of faults: the first in the order decides, and nothing changes.
#[test]
fn every_combination_of_faults() {
    let tally = run("stand, faults together", 100, |_, random, tally| {
        for faults in Faults::all() {
            let (species, state) = (faults.species(random), faults.state(random));
            let (payload, own) = faults.payload(random);
            let due = faults.due(own);
            assert_eq!(
                numbers(&species, &state, &payload),
                due,
                "{faults:?} {species:?} {payload:?}"
            );
            for number in due {
                tally.count(called(number));
            }
        }
    });
    for number in [0, 2, 5, 6, 7, 8, 13, 14, 15] {
        assert!(tally.of(called(number)) > 10, "{number}");
    }
}
