//! Adding a payload of 4,048 bytes to a stand table beside checking it: the same payloads, the two kinds of call in turn. The payloads are drawn anew
//! in each round, as a tract has each of its payloads once: a processor learns the branches of payloads that come again.

use std::collections::BTreeSet;
use std::hint::black_box;

use second::plot::{record, HEADER};
use second::random::Random;
use tishwabe::ffi::check_payload;
use tishwabe::ffi::table::{add, State};

use crate::pairs::{Pairs, Side};
use crate::timing::each_once;

/// The length of each payload.
const LENGTH: usize = 4_048;

/// The payloads of a round.
pub const PAYLOADS: usize = 64;

/// What the payloads of a measurement hold: records of so many lines of these species, as many as fit, and then zeros; or zeros only.
struct Case {
    lines: Option<usize>,
    species: Vec<u8>,
}

impl Case {
    fn records(&self) -> usize {
        self.lines.map_or(0, |lines| LENGTH / (HEADER + 3 * lines))
    }

    /// The columns for its records and its species.
    fn called(&self) -> String {
        let (records, species) = (self.records(), self.species.len());
        match self.lines {
            None => "none, only zeros | ".into(),
            Some(0) => format!("{records} of no lines | "),
            Some(1) => format!("{records} of 1 line | {species}"),
            Some(lines) => format!("{records} of {lines} lines | {species}"),
        }
    }

    fn payload(&self, random: &mut Random) -> Vec<u8> {
        let (mut payload, mut number) = (vec![], 0);
        for _ in 0..self.records() {
            number += random.between(1, 80);
            payload.extend(record(number as u16, &self.tally(random)));
        }
        payload.resize(LENGTH, 0);
        payload
    }

    /// The lines of a record.
    fn tally(&self, random: &mut Random) -> Vec<u8> {
        let mut pairs = BTreeSet::new();
        while Some(pairs.len()) < self.lines {
            let place = random.between(0, self.species.len() - 1);
            pairs.insert((self.species[place], random.between(1, 200) as u8));
        }
        let line = |(species, class)| [species, class, random.nonzero()];
        pairs.into_iter().flat_map(line).collect()
    }

    /// Checking, and adding to a table with this species list.
    fn measured(&self, random: &mut Random, list: &[u8], rounds: usize) -> Pairs {
        let mut pairs = Pairs::default();
        for _ in 0..rounds {
            let payloads: Vec<Vec<u8>> = (0..PAYLOADS).map(|_| self.payload(random)).collect();
            let mut state = State::default();
            pairs.round(|side| match side {
                Side::First => each_once(&payloads, |payload| {
                    assert_eq!(check_payload(black_box(payload)).number, 0)
                }),
                Side::Second => each_once(&payloads, |payload| {
                    assert_eq!(add(list, &mut state, black_box(payload)).number, 0)
                }),
            });
        }
        pairs
    }
}

/// Sixteen species, in no order.
fn listed(random: &mut Random) -> Vec<u8> {
    let places = random.distinct(99, 16).into_iter();
    places.map(|place| place as u8 + 1).collect()
}

/// Lines of all species and of two that are listed.
fn cases(listed: &[u8]) -> Vec<Case> {
    let mut cases = vec![];
    for lines in [40, 8, 1] {
        for species in [(1..=99).collect(), listed[..2].to_vec()] {
            let lines = Some(lines);
            cases.push(Case { lines, species });
        }
    }
    for lines in [Some(0), None] {
        let species = vec![];
        cases.push(Case { lines, species });
    }
    cases
}

/// A line for each case with a list of sixteen species and with the empty list.
pub fn table(rounds: usize) -> String {
    let mut random = Random::new(11);
    let listed = listed(&mut random);
    let mut text = String::from(
        "| records | species | listed | checking, µs | adding, µs | adding over checking | half of the rounds |\n|---|---|---|---|---|---|---|\n",
    );
    for case in cases(&listed) {
        for list in [&listed[..], &[]] {
            let pairs = case.measured(&mut random, list, rounds);
            text += &format!("| {} | {} | {}\n", case.called(), list.len(), pairs.columns());
        }
    }
    text
}

#[cfg(test)]
mod tests {
    use second::plot::records;
    use second::stand::Stand;

    use super::*;

    /// The payloads hold what they should, and the table is the second decoder's.
    #[test]
    fn same_table() {
        let mut random = Random::new(12);
        let listed = listed(&mut random);
        for (case, due) in cases(&listed).iter().zip([32, 32, 139, 139, 506, 506, 809, 0]) {
            for list in [&listed[..], &[]] {
                let mut state = State::default();
                let mut stand = Stand::begin(list).expect("a list in range");
                for _ in 0..3 {
                    let payload = case.payload(&mut random);
                    let found = records(&payload).expect("a payload in range");
                    assert_eq!((payload.len(), found.len()), (LENGTH, due), "{}", case.called());
                    assert_eq!(stand.add(&payload), Ok(()));
                    assert_eq!(add(list, &mut state, &payload).number, 0);
                }
                let due = stand.state();
                assert_eq!((state.payloads, state.records), (due.payloads, due.records));
                assert_eq!(state.table, due.cells, "{}", case.called());
            }
        }
    }

    #[test]
    fn lines_of_a_table() {
        let text = table(1);
        let lines: Vec<&str> = text.lines().collect();
        assert_eq!(lines.len(), 2 + 16);
        assert!(lines[2].starts_with("| 32 of 40 lines | 99 | 16 | "));
        assert!(lines[17].starts_with("| none, only zeros |  | 0 | "));
    }
}
