//! The species that have a row where no list is given.

use std::cmp::Reverse;

use tishwabe::{Error, StandTable};

/// The rows for listed species.
const MOST_LISTED: usize = StandTable::ROWS - 1;

/// A list made of the species that were found.
#[derive(Debug, PartialEq)]
pub struct List {
    /// In rising order: all that were found, or of too many those with the most trees.
    pub species: Vec<u8>,
    /// How many were found.
    pub found: usize,
}

impl List {
    pub fn of<'a>(payloads: impl Iterator<Item = &'a [u8]> + Clone) -> Result<List, Error> {
        let mut trees = trees_by_species(payloads)?;
        let found = trees.len();
        trees.sort_by_key(|&(number, trees)| (Reverse(trees), number));
        trees.truncate(MOST_LISTED);
        let mut species: Vec<u8> = trees.into_iter().map(|(number, _)| number).collect();
        species.sort();
        Ok(List { species, found })
    }
}

/// The species of these payloads, each with its trees: the rows of tables over all numbers that a species may have.
fn trees_by_species<'a>(payloads: impl Iterator<Item = &'a [u8]> + Clone) -> Result<Vec<(u8, u64)>, Error> {
    let numbers: Vec<u8> = (1..=99).collect();
    let mut found = Vec::new();
    for listed in numbers.chunks(MOST_LISTED) {
        let mut table = StandTable::new(listed)?;
        for payload in payloads.clone() {
            // A payload that is refused here is refused by the tract's table too, which tells why.
            let _ = table.add(payload);
        }
        let trees = table
            .table()
            .iter()
            .map(|row| row.iter().map(|&count| u64::from(count)).sum());
        found.extend(listed.iter().copied().zip(trees).filter(|(_, trees)| *trees > 0));
    }
    Ok(found)
}

#[cfg(test)]
mod tests {
    use super::*;

    /// A payload of one plot with a line for each species and count.
    fn payload(lines: &[(u8, u8)]) -> Vec<u8> {
        let mut payload = vec![0; 200];
        let lines: Vec<u8> = lines
            .iter()
            .flat_map(|&(species, count)| [species, 30, count])
            .collect();
        tishwabe::add(&mut payload, 1, &lines).expect("a plot in range");
        payload
    }

    fn list(payloads: &[Vec<u8>]) -> (Vec<u8>, usize) {
        let list = List::of(payloads.iter().map(Vec::as_slice)).expect("lists in range");
        (list.species, list.found)
    }

    #[test]
    fn all_species() {
        assert_eq!(list(&[]), (vec![], 0));
        assert_eq!(list(&[payload(&[])]), (vec![], 0));
        let two = [payload(&[(7, 1), (99, 2)]), payload(&[(1, 255), (7, 3)])];
        assert_eq!(list(&two), (vec![1, 7, 99], 3));
        let refused = [vec![0, 1], payload(&[(16, 1), (17, 1)])];
        assert_eq!(list(&refused), (vec![16, 17], 2));
    }

    /// Of eighteen species the two with the fewest trees have no row; of equals it is the higher number.
    #[test]
    fn too_many() {
        let sixteen: Vec<(u8, u8)> = (20..36).map(|number| (number, 5)).collect();
        let due: Vec<u8> = (20..36).collect();
        assert_eq!(list(&[payload(&sixteen)]), (due, 16));
        let more = [payload(&sixteen), payload(&[(3, 6), (20, 1), (40, 5)])];
        let due: Vec<u8> = [3].into_iter().chain(20..35).collect();
        assert_eq!(list(&more), (due, 18));
    }
}
