//! The list of every codeword that some run of at most L cells of a block reaches, by brute force: each start is tried with each length.
//! A codeword is listed once, however many runs reach it, by the run from the first to the last cell in which it differs from the read block; how many cells
//! differ between these has no effect.

use crate::block::{check_lengths, reached, Profile, Run};
use crate::refusal::Refusal;

/// The codewords, each with the run that it is listed by, by length and then by start.
pub fn candidate_codewords(profile: &Profile, read: &[u8]) -> Result<Vec<(Run, Vec<u8>)>, Refusal> {
    profile.check()?;
    check_lengths(&[(read.len(), profile.n)])?;
    let mut listed: Vec<(Run, Vec<u8>)> = Vec::new();
    for (_, codeword) in reached(profile, read).flatten() {
        if listed.iter().all(|(_, other)| *other != codeword) {
            listed.push((Run::between(read, &codeword), codeword));
        }
    }
    listed.sort_by_key(|(run, _)| (run.length, run.start));
    Ok(listed)
}

/// The list in a lent buffer of 2 × n bytes, of each run its start and then its length; the other bytes are left. The number of runs.
pub fn candidates(profile: &Profile, read: &[u8], pairs: &mut [u8]) -> Result<usize, Refusal> {
    profile.check()?;
    check_lengths(&[(read.len(), profile.n), (pairs.len(), 2 * profile.n)])?;
    let listed = candidate_codewords(profile, read)?;
    for (i, (run, _)) in listed.iter().enumerate() {
        pairs[2 * i] = run.start as u8;
        pairs[2 * i + 1] = run.length as u8;
    }
    Ok(listed.len())
}

#[cfg(test)]
mod tests;
