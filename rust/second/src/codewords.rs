//! All codewords of a small block, for tests that try each of them.

use crate::block::{write, Profile};
use crate::gf::product;

/// Every combination of the blocks of unit messages: 256 codewords for each message cell.
pub fn all_codewords(profile: &Profile) -> Vec<Vec<u8>> {
    let mut codewords = vec![vec![0; profile.n]];
    for cell in 0..profile.k() {
        let mut message = vec![0; profile.k()];
        message[cell] = 1;
        let mut unit = vec![0; profile.n];
        write(profile, &message, &mut unit).unwrap();
        let multiple = |factor: u8| unit.iter().map(move |&x| product(factor, x));
        let sum = |codeword: &Vec<u8>, factor| codeword.iter().zip(multiple(factor)).map(|(x, y)| x ^ y).collect();
        codewords = codewords
            .iter()
            .flat_map(|codeword| (0..=255).map(move |factor| sum(codeword, factor)))
            .collect();
    }
    codewords
}
