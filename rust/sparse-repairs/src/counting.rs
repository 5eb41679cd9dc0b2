//! What counting alone says, after source document 000, section III, where a burst of f cells has both its ends changed: such bursts of which at
//! most half the cells are changed, beside all of them. To the code a word with random damage is a random one, and so are the runs that reach a codeword.

use tishwabe::Profile;

use crate::verdict::is_sparse;

/// Elements of the field.
const Q: f64 = 256.0;

/// The number of ways to choose k of n.
fn choose(n: usize, k: usize) -> f64 {
    (0..k).fold(1.0, |ways, i| ways * (n - i) as f64 / (i + 1) as f64)
}

/// The share of the thin bursts among those of f cells with both ends changed, f at least 2: the sum over j from 0 to f/2 − 2 (rounded down) of
/// (f−2 choose j) × 255^j / 256^(f−2), where j counts the changed cells between the ends.
pub fn sparse_share(profile: &Profile, f: usize) -> f64 {
    let inner = f - 2;
    (0..=inner)
        .filter(|j| is_sparse(profile, f, j + 2))
        .map(|j| choose(inner, j) * (Q - 1.0).powi(j as i32) / Q.powi(inner as i32))
        .sum()
}

/// How many bursts of f cells, f at least 2, reach a codeword on average in a random word: (n−f+1) × 255² × 256^(f−2) / 256^r.
pub fn reached(profile: &Profile, f: usize) -> f64 {
    let (n, r) = (profile.n(), profile.r());
    (n - f + 1) as f64 * (Q - 1.0).powi(2) * Q.powi(f as i32 - 2 - r as i32)
}

/// How many thin bursts of up to L cells reach a codeword on average in a random word.
pub fn sparse_reached(profile: &Profile) -> f64 {
    (2..=profile.limit())
        .map(|f| reached(profile, f) * sparse_share(profile, f))
        .sum()
}
