//! Blocks: profile, codeword test, writing and correction, by brute force.
//! Writing solves a linear system for the check cells. Correction tries every run in order of length and
//! solves, for each, the system of its cells against the r syndromes; then, by document 02's Note 7, it counts the cells that the run found would change.

use crate::gf::{add_multiples, power, product};
use crate::linear::{solve, Elimination, Solutions};
use crate::refusal::{refuse, Refusal, AMBIGUOUS, BUFFER_LENGTH, NO_CODEWORD, PROFILE_RANGE, SPARSE};

/// Document 01: a profile, with L as `limit` and D as `depth`.
#[derive(Clone, Copy, Debug, PartialEq, Eq)]
pub struct Profile {
    pub n: usize,
    pub r: usize,
    pub b: usize,
    pub limit: usize,
    pub depth: usize,
}

impl From<[usize; 5]> for Profile {
    /// n, r, b, L and D.
    fn from([n, r, b, limit, depth]: [usize; 5]) -> Profile {
        Profile { n, r, b, limit, depth }
    }
}

impl Profile {
    /// Message bytes in a block.
    pub fn k(&self) -> usize {
        self.n - self.r
    }

    /// r/2 rounded down.
    pub fn h(&self) -> usize {
        self.r / 2
    }

    /// Refusal 1 unless all five numbers are within their ranges.
    pub fn check(&self) -> Result<(), Refusal> {
        let within = (3..=255).contains(&self.n)
            && (2..=64).contains(&self.r)
            && self.r < self.n
            && self.b <= 254
            && self.limit < self.r
            && (1..=16).contains(&self.depth);
        if within {
            Ok(())
        } else {
            refuse(PROFILE_RANGE, 0)
        }
    }

    /// What a 1 in this cell adds to the r syndromes.
    pub(crate) fn column(&self, cell: usize) -> Vec<u8> {
        let (first, factor) = (power(self.b * cell), power(cell));
        std::iter::successors(Some(first), |&x| Some(product(x, factor)))
            .take(self.r)
            .collect()
    }
}

/// Document 01: a run. What the search answers lies within the block; what a fill is asked for may not.
#[derive(Clone, Copy, Debug, PartialEq, Eq)]
pub struct Run {
    pub start: usize,
    pub length: usize,
}

impl Run {
    /// The run from the first to the last cell in which two words of the same length differ; 0 and 0 if they don't.
    pub fn between(read: &[u8], codeword: &[u8]) -> Run {
        let differs = |&i: &usize| read[i] != codeword[i];
        let (first, last) = ((0..read.len()).find(differs), (0..read.len()).rfind(differs));
        let length = first.zip(last).map_or(0, |(first, last)| last + 1 - first);
        Run {
            start: first.unwrap_or(0),
            length,
        }
    }

    /// The number of its cells in which a codeword differs from the read block.
    pub fn changed(&self, read: &[u8], codeword: &[u8]) -> usize {
        let cells = self.start..self.start + self.length;
        cells.filter(|&i| codeword[i] != read[i]).count()
    }
}

/// Refusal 2 unless, in each pair, a lent buffer's length is the due one.
pub fn check_lengths(pairs: &[(usize, usize)]) -> Result<(), Refusal> {
    if pairs.iter().all(|(length, due)| length == due) {
        Ok(())
    } else {
        refuse(BUFFER_LENGTH, 0)
    }
}

/// Syndrome i is the value of the cells' polynomial at α^(b+i).
pub fn syndromes(profile: &Profile, cells: &[u8]) -> Vec<u8> {
    let columns: Vec<Vec<u8>> = (0..cells.len()).map(|cell| profile.column(cell)).collect();
    combined(profile.r, &columns, cells)
}

/// The sum of these columns of r entries, each times its cell.
fn combined(r: usize, columns: &[Vec<u8>], cells: &[u8]) -> Vec<u8> {
    let mut values = vec![0; r];
    for (column, &content) in columns.iter().zip(cells) {
        add_multiples(content, column, &mut values);
    }
    values
}

/// The checker: whether the cells are a codeword.
pub fn is_codeword(profile: &Profile, cells: &[u8]) -> Result<bool, Refusal> {
    profile.check()?;
    check_lengths(&[(cells.len(), profile.n)])?;
    Ok(syndromes(profile, cells).iter().all(|&x| x == 0))
}

/// The writer: the codeword with this message in cells r to n−1.
pub fn write(profile: &Profile, message: &[u8], cells: &mut [u8]) -> Result<(), Refusal> {
    profile.check()?;
    check_lengths(&[(message.len(), profile.k()), (cells.len(), profile.n)])?;
    let mut codeword = vec![0; profile.r];
    codeword.extend(message);
    let columns: Vec<Vec<u8>> = (0..profile.r).map(|cell| profile.column(cell)).collect();
    let Solutions::One(checks) = solve(&columns, &syndromes(profile, &codeword)) else {
        panic!("the check cells are fixed by the message");
    };
    codeword[..profile.r].copy_from_slice(&checks);
    cells.copy_from_slice(&codeword);
    Ok(())
}

/// Document 01's mender: the one codeword within a shortest run, and that run, unless the run is long but thin.
pub fn correct(profile: &Profile, read: &[u8], corrected: &mut [u8]) -> Result<Run, Refusal> {
    profile.check()?;
    check_lengths(&[(read.len(), profile.n), (corrected.len(), profile.n)])?;
    let (run, codeword) = judge(profile, read)?;
    corrected.copy_from_slice(&codeword);
    Ok(run)
}

/// Document 02, Note 3: the look. What the mender answers, and nothing is written.
pub fn look(profile: &Profile, read: &[u8]) -> Result<Run, Refusal> {
    profile.check()?;
    check_lengths(&[(read.len(), profile.n)])?;
    judge(profile, read).map(|(run, _)| run)
}

/// The run that document 01 finds, thin or not, and its codeword.
pub fn shortest(profile: &Profile, read: &[u8]) -> Result<(Run, Vec<u8>), Refusal> {
    profile.check()?;
    check_lengths(&[(read.len(), profile.n)])?;
    search(profile, read)
}

/// Document 02, Note 7: what the search finds, or refusal 16 if that run is longer than half of r and not more than half of it would be changed.
fn judge(profile: &Profile, read: &[u8]) -> Result<(Run, Vec<u8>), Refusal> {
    let (run, codeword) = search(profile, read)?;
    let long = 2 * run.length > profile.r;
    let mostly_wrong = 2 * run.changed(read, &codeword) > run.length;
    if long && !mostly_wrong {
        return refuse(SPARSE, 0);
    }
    Ok((run, codeword))
}

/// Tries the lengths in turn, and ends at the first one that reaches a codeword.
fn search(profile: &Profile, read: &[u8]) -> Result<(Run, Vec<u8>), Refusal> {
    match reached(profile, read).find(|runs| !runs.is_empty()) {
        Some(runs) => only(runs),
        None => refuse(NO_CODEWORD, 0),
    }
}

/// For each length from 0 to L in turn, every run of it that reaches a codeword, and that codeword. The read block has n cells.
pub(crate) fn reached<'a>(profile: &'a Profile, read: &'a [u8]) -> impl Iterator<Item = Vec<(Run, Vec<u8>)>> + 'a {
    let columns: Vec<Vec<u8>> = (0..profile.n).map(|cell| profile.column(cell)).collect();
    let unsolved = Elimination::new(&combined(profile.r, &columns, read), profile.limit);
    // systems[s] has the columns of the cells of the run that starts at s.
    let mut systems = vec![unsolved; profile.n + 1];
    (0..=profile.limit).map(move |length| {
        let mut runs = Vec::new();
        for (start, system) in systems.iter_mut().enumerate().take(profile.n - length + 1) {
            if length > 0 {
                system.add_column(&columns[start + length - 1]);
            }
            match system.solutions() {
                Solutions::None => {}
                Solutions::One(errors) => runs.push((Run { start, length }, without(read, start, &errors))),
                Solutions::Many => panic!("fewer than r columns are independent"),
            }
        }
        runs
    })
}

/// The read cells with the errors taken off from this start on.
fn without(read: &[u8], start: usize, errors: &[u8]) -> Vec<u8> {
    let mut cells = read.to_vec();
    for (cell, error) in cells[start..].iter_mut().zip(errors) {
        *cell ^= error;
    }
    cells
}

/// The run and codeword, unless these runs of one length reached different codewords.
fn only(mut runs: Vec<(Run, Vec<u8>)>) -> Result<(Run, Vec<u8>), Refusal> {
    if runs.iter().any(|(_, codeword)| *codeword != runs[0].1) {
        return refuse(AMBIGUOUS, 0);
    }
    // Two starts for one codeword would leave a shorter run, their common part.
    debug_assert!(runs[0].0.length == 0 || runs.len() == 1);
    Ok(runs.swap_remove(0))
}

#[cfg(test)]
mod tests;
