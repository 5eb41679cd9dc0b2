//! GF(256) with the polynomial x^8+x^4+x^3+x^2+1 and α = 2.
//! A product is the plain product of two polynomials over GF(2), then the remainder of its long division
//! by that polynomial. Sums are exclusive or and need no function.

/// x^8+x^4+x^3+x^2+1, bit i being the coefficient of x^i.
const MODULUS: u16 = 0x11D;

/// Document 01: α.
pub const ALPHA: u8 = 2;

/// The product of two field elements.
pub fn product(a: u8, b: u8) -> u8 {
    let mut wide = 0u16;
    for i in 0..8 {
        if b >> i & 1 == 1 {
            wide ^= u16::from(a) << i;
        }
    }
    for degree in (8..15).rev() {
        if wide >> degree & 1 == 1 {
            wide ^= MODULUS << (degree - 8);
        }
    }
    wide as u8
}

/// Adds the factor times a vector to another one, as long. Products keep sums, so a product is the sum of those with the bits of the entry.
pub fn add_multiples(factor: u8, vector: &[u8], sum: &mut [u8]) {
    debug_assert_eq!(vector.len(), sum.len());
    let bits: [u8; 8] = std::array::from_fn(|i| product(factor, 1 << i));
    for (total, entry) in sum.iter_mut().zip(vector) {
        for (i, bit) in bits.iter().enumerate() {
            *total ^= (entry >> i & 1) * bit;
        }
    }
}

/// The inverse by Euclid's algorithm; zero has none. Up to multiples of the modulus, `rest` is `factor` times a and `other` is `other_factor` times a
/// throughout, so once `rest` is 1, `factor` is the inverse.
pub fn inverse(a: u8) -> Option<u8> {
    let (mut rest, mut factor) = (u16::from(a), 1u16);
    let (mut other, mut other_factor) = (MODULUS, 0u16);
    while rest > 1 {
        if rest.leading_zeros() > other.leading_zeros() {
            std::mem::swap(&mut rest, &mut other);
            std::mem::swap(&mut factor, &mut other_factor);
        }
        let shift = other.leading_zeros() - rest.leading_zeros();
        rest ^= other << shift;
        factor ^= other_factor << shift;
    }
    (rest == 1).then_some(factor as u8)
}

/// α to this exponent, by squares from its highest bit on; α^255 is 1.
pub fn power(exponent: usize) -> u8 {
    let exponent = exponent % 255;
    let bits = usize::BITS - exponent.leading_zeros();
    (0..bits).rev().fold(1, |result, i| {
        let square = product(result, result);
        match exponent >> i & 1 {
            0 => square,
            _ => product(square, ALPHA),
        }
    })
}

#[cfg(test)]
mod tests {
    use super::*;

    #[test]
    fn every_nonzero_element_has_one_inverse() {
        assert_eq!(inverse(0), None);
        for a in 1..=255u8 {
            let found = (0..=255u8).filter(|&x| product(a, x) == 1).count();
            assert_eq!(found, 1);
            assert_eq!(product(a, inverse(a).unwrap()), 1);
        }
    }

    #[test]
    fn alpha_has_order_255() {
        let mut seen = [false; 256];
        for exponent in 0..255 {
            let value = usize::from(power(exponent));
            assert!(value != 0 && !seen[value]);
            seen[value] = true;
        }
        assert_eq!(product(power(254), ALPHA), 1);
        assert_eq!(power(255), 1);
        assert_eq!(power(8), 0x1D);
    }

    #[test]
    fn products_obey_the_ring_laws() {
        for a in 0..=255u8 {
            assert_eq!(product(a, 1), a);
            for b in 0..=255u8 {
                assert_eq!(product(a, b), product(b, a));
                for c in [1, 2, 3, 29, 76, 128, 255] {
                    assert_eq!(product(a, product(b, c)), product(product(a, b), c));
                    assert_eq!(product(a, b ^ c), product(a, b) ^ product(a, c));
                }
            }
        }
    }
}
