//! Document 02, Note 3: a block is filled within one run that is named, whatever L is.
//! The cells of the run are unknown. The others are known and have syndromes of their own, and a codeword's are zero; so the columns of the unknown cells
//! against these syndromes are r equations, whose solution is what has to stand in the run.

use crate::block::{check_lengths, syndromes, Profile, Run};
use crate::linear::{solve, Solutions};
use crate::refusal::{refuse, Refusal, NO_CODEWORD, RUN_OUT_OF_RANGE};

/// Refusal 12 unless the run ends within the block and has fewer than r cells. The sum is too wide to wrap.
fn check_run(profile: &Profile, run: Run) -> Result<(), Refusal> {
    let end = run.start as u128 + run.length as u128;
    if end <= profile.n as u128 && run.length < profile.r {
        Ok(())
    } else {
        refuse(RUN_OUT_OF_RANGE, 0)
    }
}

/// The fill: the codeword that agrees with the read cells outside the run, or refusal 3 if there is none.
pub fn fill(profile: &Profile, read: &[u8], run: Run, filled: &mut [u8]) -> Result<(), Refusal> {
    profile.check()?;
    check_lengths(&[(read.len(), profile.n), (filled.len(), profile.n)])?;
    check_run(profile, run)?;
    let unknown = run.start..run.start + run.length;
    let mut codeword = read.to_vec();
    codeword[unknown.clone()].fill(0);
    let columns: Vec<Vec<u8>> = unknown.clone().map(|cell| profile.column(cell)).collect();
    match solve(&columns, &syndromes(profile, &codeword)) {
        Solutions::None => refuse(NO_CODEWORD, 0),
        Solutions::One(values) => {
            codeword[unknown].copy_from_slice(&values);
            filled.copy_from_slice(&codeword);
            Ok(())
        }
        Solutions::Many => panic!("fewer than r columns are independent"),
    }
}

#[cfg(test)]
mod tests;
