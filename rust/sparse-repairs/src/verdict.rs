//! What the proved library makes of a block that is read, beside what it would make of it without the rule on thin repairs.
//! The rule alone decides between the two, so both come from one block and one search.

use tishwabe::{Profile, Run};

#[derive(Clone, Copy, Debug, PartialEq, Eq)]
pub enum Verdict {
    /// Refusal 3: no run of up to L cells reaches a codeword.
    Uncorrectable,
    /// Refusal 4: two codewords at the shortest length.
    Ambiguous,
    /// Refusal 16: accepted without the rule, and then rightly or wrongly.
    Sparse { right: bool },
    /// Accepted, with the rule and without it.
    Repaired { right: bool },
}

/// The verdict on `read`, where `written` is the codeword that stood there before the damage.
pub fn verdict(profile: &Profile, written: &[u8], read: &[u8]) -> Verdict {
    let mut out = vec![0; read.len()];
    match profile.correct_block(read, &mut out).map_err(|error| error.number()) {
        Ok(_) => Verdict::Repaired { right: out == written },
        Err(3) => Verdict::Uncorrectable,
        Err(4) => Verdict::Ambiguous,
        Err(16) => Verdict::Sparse {
            right: sparse_codeword(profile, read) == written,
        },
        Err(number) => panic!("a block in range is refused by {number}"),
    }
}

/// The codeword that a thin block goes to without the rule. At most half of its run of at most r − 1 cells is changed, which is at most h cells; so
/// spot mode, which gives the only codeword within h cells, gives this one. The fill of the run, which ignores the rule, must give it too.
fn sparse_codeword(profile: &Profile, read: &[u8]) -> Vec<u8> {
    let (mut spots, mut filled) = (vec![0; read.len()], vec![0; read.len()]);
    let changes = profile
        .correct_spots(read, &mut spots)
        .expect("a thin block is within h cells of a codeword");
    let last = (0..read.len()).rfind(|&i| read[i] != spots[i]).expect("a changed cell");
    let run = Run {
        start: changes.lowest,
        length: last + 1 - changes.lowest,
    };
    assert!(is_sparse(profile, run.length, changes.count) && run.length <= profile.limit());
    profile
        .fill_block(read, run, &mut filled)
        .expect("the run reaches the codeword");
    assert_eq!(filled, spots);
    filled
}

/// Document 02, Note 7: a run of this length, longer than half of r, with at most half of its cells changed.
pub fn is_sparse(profile: &Profile, length: usize, changed: usize) -> bool {
    2 * length > profile.r() && 2 * changed <= length
}
