//! Stand tables, begun, added to and asked by the library and by the second decoder.

use compare::draw::{self, MOST};
use compare::plot::Answer;
use compare::stand::{add, begin, one_line, total, trees_per_plot};
use compare::work::{called, run, Tally};
use second::plot::record;
use second::random::Random;
use second::stand::{Stand, State, ROWS};
use second::{cases, plot};

/// Every species and every class, with the species listed anywhere and not listed: its cell alone has the trees.
#[test]
fn every_species_and_class() {
    run("stand, every species and class", 99, |seed, random, tally| {
        let species = seed as u8;
        let count = random.between(0, 15);
        let mut others = draw::species(random, count);
        others.retain(|&number| number != species);
        let row = random.between(0, others.len());
        let mut listed = others.clone();
        listed.insert(row, species);
        for class in 1..=200u8 {
            for (list, row) in [(&listed, row), (&others, 16)] {
                let count = random.nonzero();
                let mut due = State::EMPTY;
                due.cells[row][usize::from(class - 1) / 10] = count.into();
                (due.payloads, due.records) = (1, 1);
                let found = add(list, &State::EMPTY, &one_line(species, class, count));
                assert_eq!(found, (Answer::default(), due), "{list:?} {species} {class}");
                tally.count("lines");
            }
        }
    });
}

/// The trees of each row and column, from all lines of these payloads.
fn counted(listed: &[u8], payloads: &[Vec<u8>]) -> State {
    let mut state = State::EMPTY;
    for payload in payloads {
        for found in plot::records(payload).expect("an accepted payload") {
            for line in payload[found.start + plot::HEADER..found.end].chunks(3) {
                let row = listed.iter().position(|&number| number == line[0]).unwrap_or(ROWS - 1);
                state.cells[row][usize::from(line[1] - 1) / 10] += u32::from(line[2]);
            }
            state.records += 1;
        }
        state.payloads += 1;
    }
    state
}

/// Payloads added to the empty table, refused ones among them, until a thousand were accepted: the state, and the payloads accepted.
fn thousand(random: &mut Random, species: &[u8], tally: &mut Tally) -> (State, Vec<Vec<u8>>) {
    assert_eq!(begin(species, &draw::state(random)), 0);
    let (mut state, mut added) = (State::EMPTY, Vec::new());
    while added.len() < 1_000 {
        let payload = draw::payload(random);
        let (answer, after) = add(species, &state, &payload);
        tally.count(called(answer.number));
        if answer.number == 0 {
            added.push(payload);
        }
        state = after;
    }
    (state, added)
}

/// The table is that of the lines of the payloads added, in whatever order they were added; the thousandth is accepted, and one more is refused.
#[test]
fn a_thousand_payloads() {
    run("stand, a thousand payloads", 4, |seed, random, tally| {
        let species = draw::species(random, [0, 3, 12, 16][seed as usize - 1]);
        let (state, mut added) = thousand(random, &species, tally);
        let due = counted(&species, &added);
        assert_eq!((&state, state.payloads), (&due, 1_000));
        let trees: u64 = due.cells.as_flattened().iter().map(|&count| u64::from(count)).sum();
        assert_eq!(total(&species, &state), (0, trees));
        let (number, quotient, remainder) = trees_per_plot(&species, &state);
        let records = u64::from(state.records);
        assert_eq!((number, quotient * records + remainder), (0, trees));
        assert!(remainder < records);

        let full = Answer {
            number: 14,
            ..Answer::default()
        };
        for payload in [vec![], one_line(3, 32, 2), vec![1]] {
            assert_eq!(add(&species, &state, &payload), (full, state.clone()));
        }
        added.reverse();
        let again = |state, payload: &Vec<u8>| add(&species, &state, payload).1;
        assert_eq!(added.iter().fold(State::EMPTY, again), state);
    });
}

/// A thousand payloads with as many trees as a payload takes: the total stays below what a single cell may be.
#[test]
fn the_most_trees() {
    let lines: Vec<u8> = (1..=40).flat_map(|class| [99, class, 255]).collect();
    let mut payload: Vec<u8> = (1..=32).flat_map(|number| record(number, &lines)).collect();
    payload.extend(record(33, &lines[..14 * 3]));
    payload.resize(4_048, 0);
    let mut state = State::EMPTY;
    for _ in 0..1_000 {
        state = add(&[7], &state, &payload).1;
    }
    let trees = (32 * 40 + 14) * 255_000;
    assert_eq!((total(&[7], &state), state.records), ((0, trees), 33_000));
    assert!(trees < u64::from(MOST));
    assert_eq!(add(&[7], &state, &payload).0.number, 14);
}

/// Lists, states and payloads of every kind, one payload after another.
#[test]
fn random_tables() {
    let tally = run("stand, random tables", 4_000, |_, random, tally| {
        let count = random.between(0, 16);
        let species = match random.between(0, 15) {
            0 => draw::bad_species(random),
            _ => draw::species(random, count),
        };
        let mut state = match random.between(0, 1) {
            0 => draw::state(random),
            _ => State::EMPTY,
        };
        match random.between(0, 9) {
            0 => draw::overfill(random, &mut state),
            1 => state.payloads = random.between(998, 1_003) as u32,
            _ => {}
        }
        for _ in 0..random.between(1, 6) {
            let payload = draw::payload(random);
            let (answer, after) = add(&species, &state, &payload);
            state = after;
            tally.count(format!("add: {}", called(answer.number)));
            tally.count(format!("total: {}", called(total(&species, &state).0)));
            tally.count(format!("per plot: {}", called(trees_per_plot(&species, &state).0)));
        }
    });
    let payload = ["wrong frame", "bad mark", "cut short", "bad tally", "plot order"];
    for kind in [&payload[..], &["accepted", "species list", "tract full"]].concat() {
        assert!(tally.of(&format!("add: {kind}")) > 50, "{kind}");
    }
    for kind in ["accepted", "species list", "tract full"] {
        assert!(tally.of(&format!("total: {kind}")) > 50, "{kind}");
        assert!(tally.of(&format!("per plot: {kind}")) > 50, "{kind}");
    }
    assert!(tally.of("per plot: no plots") > 50);
}

/// Quotients and remainders of small and of the largest totals, over all small numbers of records and large ones.
#[test]
fn quotients() {
    let mut state = State::EMPTY;
    for (trees, records) in (0..60).flat_map(|trees| (1..30).map(move |records| (trees, records))) {
        (state.cells[16][0], state.records) = (trees, records);
        assert_eq!(
            trees_per_plot(&[], &state),
            (0, (trees / records).into(), (trees % records).into())
        );
    }
    run("stand, quotients", 2_000, |_, random, tally| {
        let mut state = draw::state(random);
        let large = random.between(1, 400_000_000);
        state.records = [1, 2, 3, 1_000, 65_536, MOST - 1, MOST, large as u32][random.between(0, 7)];
        let (_, trees) = total(&[5], &state);
        let (number, quotient, remainder) = trees_per_plot(&[5], &state);
        assert_eq!(number, 0);
        assert_eq!(quotient * u64::from(state.records) + remainder, trees);
        assert!(remainder < u64::from(state.records));
        tally.count(if quotient > u64::from(u32::MAX) {
            "large"
        } else {
            "small"
        });
    });
}

/// The rows follow the list: another order of the list is the same order of the rows.
#[test]
fn rows_follow_the_list() {
    run("stand, lists in another order", 500, |_, random, tally| {
        let count = random.between(2, 16);
        let species = draw::species(random, count);
        let order = random.distinct(count, count);
        let other: Vec<u8> = order.iter().map(|&place| species[place]).collect();
        let payload = draw::good_payload(random);
        let [(_, one), (_, two)] = [&species, &other].map(|list| add(list, &State::EMPTY, &payload));
        for (row, &place) in order.iter().enumerate() {
            assert_eq!(two.cells[row], one.cells[place]);
        }
        assert_eq!(two.cells[count..], one.cells[count..]);
        tally.count("lists");
    });
}

/// The table of the second decoder.
#[test]
fn table() {
    for case in cases::tracts() {
        let mut state = case.state;
        let mut kept = Stand::handed_in(&case.species, state.clone());
        for (payload, expected) in case.payloads {
            let (answer, after) = add(&case.species, &state, &payload);
            assert_eq!(answer, expected.map_or_else(Answer::refused, |()| Answer::default()));
            assert_eq!((kept.add(&payload), kept.state()), (expected, after.clone()));
            state = after;
        }
        assert_eq!(state, case.after);
        let due = case
            .total
            .map_or_else(|refusal| (refusal.number.into(), 0), |total| (0, total));
        assert_eq!(total(&case.species, &state), due);
        let due = case.per_plot.map_or_else(
            |refusal| (refusal.number.into(), 0, 0),
            |(quotient, remainder)| (0, quotient, remainder),
        );
        assert_eq!(trees_per_plot(&case.species, &state), due);
        let begun = if due.0 == 13 { 13 } else { 0 };
        assert_eq!(begin(&case.species, &state), begun);
    }
}
