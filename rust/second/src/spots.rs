//! Document 02, Note 1: a block goes to the codeword that differs from it in the fewest cells, up to h cells anywhere.
//! Ranks tell which cells are wrong. If t cells are, at most h, put the syndromes into a square of h rows, each of which begins one syndrome later than the one
//! above it. Each wrong cell adds to the square a multiple, not zero, of a column of powers times a row of powers; these t are independent, so the rank is t. Now take for each
//! two neighbouring syndromes the later one plus α^j times the earlier one. That multiplies the error at each cell e by α^e+α^j: it removes the one at cell j
//! and keeps the others. So the square of these numbers has a smaller rank exactly if cell j is wrong. What to add to the wrong cells is the
//! solution of their columns against the syndromes. Where more than h cells lower the rank, or there is no solution, no codeword is within h cells.

use crate::block::{check_lengths, is_codeword, syndromes, Profile};
use crate::gf::{power, product};
use crate::linear::{rank, solve, Solutions};
use crate::refusal::{refuse, Refusal, NO_CODEWORD_NEAR};

/// The cells changed in a block: how many, and the lowest of them, 0 and 0 for a clean block.
#[derive(Clone, Copy, Debug, PartialEq, Eq)]
pub struct Changes {
    pub count: usize,
    pub lowest: usize,
}

/// Where two words of the same length differ.
pub fn changes(read: &[u8], codeword: &[u8]) -> Changes {
    let differs = |&i: &usize| read[i] != codeword[i];
    Changes {
        count: (0..read.len()).filter(differs).count(),
        lowest: (0..read.len()).find(differs).unwrap_or(0),
    }
}

/// Spot mode for a block: the one codeword within h cells, and the cells in which it differs.
pub fn correct(profile: &Profile, read: &[u8], corrected: &mut [u8]) -> Result<Changes, Refusal> {
    profile.check()?;
    check_lengths(&[(read.len(), profile.n), (corrected.len(), profile.n)])?;
    let Some(codeword) = nearest(profile, read) else {
        return refuse(NO_CODEWORD_NEAR, 0);
    };
    let changes = changes(read, &codeword);
    assert!(changes.count <= profile.h() && is_codeword(profile, &codeword) == Ok(true));
    corrected.copy_from_slice(&codeword);
    Ok(changes)
}

/// The codeword within h cells, if there is one.
fn nearest(profile: &Profile, read: &[u8]) -> Option<Vec<u8>> {
    let target = syndromes(profile, read);
    let cells = wrong_cells(profile, &target);
    if cells.len() > profile.h() {
        return None;
    }
    let columns: Vec<Vec<u8>> = cells.iter().map(|&cell| profile.column(cell)).collect();
    match solve(&columns, &target) {
        Solutions::None => None,
        Solutions::One(errors) => Some(without(read, &cells, &errors)),
        Solutions::Many => panic!("at most h columns are independent"),
    }
}

/// The cells whose removal lowers the rank: the wrong cells, if these are at most h.
fn wrong_cells(profile: &Profile, syndromes: &[u8]) -> Vec<usize> {
    let whole = square_rank(profile.h(), syndromes);
    (0..profile.n)
        .filter(|&cell| square_rank(profile.h(), &removing(syndromes, cell)) < whole)
        .collect()
}

/// The rank of the square whose rows are the first h runs of h numbers; its columns are the same.
fn square_rank(h: usize, numbers: &[u8]) -> usize {
    let rows: Vec<&[u8]> = numbers.windows(h).take(h).collect();
    rank(&rows)
}

/// Syndromes, one fewer, to which an error at this cell adds nothing.
fn removing(syndromes: &[u8], cell: usize) -> Vec<u8> {
    let point = power(cell);
    let pairs = syndromes.iter().zip(&syndromes[1..]);
    pairs
        .map(|(&earlier, &later)| later ^ product(point, earlier))
        .collect()
}

/// The read cells with the errors taken off from these cells.
fn without(read: &[u8], cells: &[usize], errors: &[u8]) -> Vec<u8> {
    let mut codeword = read.to_vec();
    for (&cell, error) in cells.iter().zip(errors) {
        codeword[cell] ^= error;
    }
    codeword
}

#[cfg(test)]
mod tests;
