//! Linear systems over GF(256), by Gaussian elimination one column at a time.
//! Each stored column carries below its own entries the combination of given columns that it is, so a
//! target reduced to zero shows its solution in the part below.

use crate::gf::{add_multiples, inverse, product};

/// The solutions x of A·x = v.
#[derive(Clone, Debug, PartialEq, Eq)]
pub enum Solutions {
    None,
    One(Vec<u8>),
    Many,
}

/// A system A·x = v whose columns of A are given one after the other.
#[derive(Clone)]
pub struct Elimination {
    rows: usize,
    given: usize,
    /// v reduced by the pivots so far, then the combination taken from it.
    target: Vec<u8>,
    pivots: Vec<Pivot>,
}

/// A column with its pivot row, where it holds 1 and all later ones hold 0.
type Pivot = (usize, Vec<u8>);

impl Elimination {
    /// The system with this v and no column yet; at most `most` columns will come.
    pub fn new(target: &[u8], most: usize) -> Elimination {
        let mut extended = target.to_vec();
        extended.resize(target.len() + most, 0);
        Elimination {
            rows: target.len(),
            given: 0,
            target: extended,
            pivots: Vec::new(),
        }
    }

    /// Gives the next column of A.
    pub fn add_column(&mut self, column: &[u8]) {
        assert_eq!(column.len(), self.rows);
        let mut vector = column.to_vec();
        vector.resize(self.target.len(), 0);
        vector[self.rows + self.given] = 1;
        self.given += 1;
        if let Some(pivot) = next_pivot(&self.pivots, self.rows, vector) {
            clear(&pivot, &mut self.target);
            self.pivots.push(pivot);
        }
    }

    /// The solutions with the columns given so far.
    pub fn solutions(&self) -> Solutions {
        let (rest, combination) = self.target.split_at(self.rows);
        if rest.iter().any(|&x| x != 0) {
            Solutions::None
        } else if self.pivots.len() < self.given {
            Solutions::Many
        } else {
            Solutions::One(combination[..self.given].to_vec())
        }
    }
}

/// The rank of a matrix, given by its columns.
pub fn rank(columns: &[&[u8]]) -> usize {
    let mut pivots = Vec::new();
    for column in columns {
        pivots.extend(next_pivot(&pivots, column.len(), column.to_vec()));
    }
    pivots.len()
}

/// What the pivots leave of a column, as a pivot of its own; none if they leave nothing in its first so many rows.
fn next_pivot(pivots: &[Pivot], rows: usize, mut column: Vec<u8>) -> Option<Pivot> {
    for pivot in pivots {
        clear(pivot, &mut column);
    }
    let row = column[..rows].iter().position(|&x| x != 0)?;
    let factor = inverse(column[row]).expect("a pivot is not zero");
    for x in &mut column {
        *x = product(factor, *x);
    }
    Some((row, column))
}

/// Adds the multiple of the pivot that makes the vector's entry in its row zero.
fn clear((row, pivot): &Pivot, vector: &mut [u8]) {
    let factor = vector[*row];
    if factor == 0 {
        return;
    }
    add_multiples(factor, pivot, vector);
}

/// Solves A·x = v, A given by its columns.
pub fn solve(columns: &[Vec<u8>], target: &[u8]) -> Solutions {
    let mut system = Elimination::new(target, columns.len());
    for column in columns {
        system.add_column(column);
    }
    system.solutions()
}

#[cfg(test)]
mod tests {
    use super::*;
    use crate::random::Random;

    fn apply(columns: &[Vec<u8>], x: &[u8]) -> Vec<u8> {
        let row = |i: usize| {
            let terms = columns.iter().zip(x).map(|(c, &f)| product(c[i], f));
            terms.fold(0, |sum, term| sum ^ term)
        };
        (0..columns[0].len()).map(row).collect()
    }

    /// Two unknowns: every pair is tried.
    #[test]
    fn agrees_with_trying_every_pair() {
        let mut random = Random::new(11);
        for _ in 0..40 {
            let narrow = |random: &mut Random| (0..2).map(|_| random.between(0, 2) as u8).collect();
            let columns: Vec<Vec<u8>> = (0..2).map(|_| narrow(&mut random)).collect();
            let target: Vec<u8> = narrow(&mut random);
            let pairs = (0..=255u8).flat_map(|a| (0..=255u8).map(move |b| vec![a, b]));
            let mut found: Vec<Vec<u8>> = pairs.filter(|x| apply(&columns, x) == target).collect();
            let expected = match found.len() {
                0 => Solutions::None,
                1 => Solutions::One(found.remove(0)),
                _ => Solutions::Many,
            };
            assert_eq!(solve(&columns, &target), expected);
        }
    }

    /// Columns drawn from a space of so many dimensions, one more than it has: each is independent of the others until there are as many.
    #[test]
    fn a_rank_is_that_of_the_space() {
        let mut random = Random::new(13);
        for dimension in 1..12 {
            let base: Vec<Vec<u8>> = (0..dimension).map(|_| random.bytes(dimension + 3)).collect();
            let drawn: Vec<Vec<u8>> = (0..=dimension)
                .map(|_| apply(&base, &random.bytes(dimension)))
                .collect();
            for count in 0..=drawn.len() {
                let columns: Vec<&[u8]> = drawn[..count].iter().map(Vec::as_slice).collect();
                assert_eq!(rank(&columns), count.min(dimension));
            }
        }
        assert_eq!(rank(&[&[0, 0]]), 0);
        assert_eq!(rank(&[&[3, 5], &[6, 10]]), 1);
        assert_eq!(rank(&[&[3, 5], &[6, 11]]), 2);
    }

    #[test]
    fn a_solution_found_is_one() {
        let mut random = Random::new(12);
        for size in 1..20 {
            let columns: Vec<Vec<u8>> = (0..size).map(|_| random.bytes(size + 2)).collect();
            let x = random.bytes(size);
            assert_eq!(solve(&columns, &apply(&columns, &x)), Solutions::One(x));
        }
    }
}
