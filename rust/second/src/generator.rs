//! The generator polynomial: the product of (x−α^(b+i)) for i from 0 to r−1.
//! Test vectors print it; no entry on a block or sheet uses it.

use crate::gf::{power, product};

/// The generator's r+1 coefficients, lowest first.
pub fn generator(b: usize, r: usize) -> Vec<u8> {
    (0..r).fold(vec![1], |polynomial, i| times_factor(&polynomial, power(b + i)))
}

/// The product of a polynomial and (x−root).
fn times_factor(polynomial: &[u8], root: u8) -> Vec<u8> {
    let mut result = vec![0; polynomial.len() + 1];
    for (i, &coefficient) in polynomial.iter().enumerate() {
        result[i + 1] ^= coefficient;
        result[i] ^= product(coefficient, root);
    }
    result
}

#[cfg(test)]
mod tests {
    use super::*;
    use crate::block::{is_codeword, Profile};

    #[test]
    fn document_01_gives_the_one_for_b_0_and_r_3() {
        assert_eq!(generator(0, 3), [8, 14, 7, 1]);
    }

    #[test]
    fn every_shift_is_a_codeword() {
        for (n, r, b) in [(255, 64, 254), (30, 5, 7), (4, 3, 0), (255, 2, 0)] {
            let profile = Profile::from([n, r, b, 0, 1]);
            for shift in 0..n - r {
                let mut cells = vec![0; n];
                cells[shift..=shift + r].copy_from_slice(&generator(b, r));
                assert_eq!(is_codeword(&profile, &cells), Ok(true));
            }
        }
    }
}
