//! Listing every candidate of a block beside looking at it: the same blocks, the two kinds of call in turn. The blocks have a run of wrong cells, so that a look
//! accepts them, or are random: of these a look refuses nearly all where L is well below r, and about five of eight where n is 255, r 32 and L 31.

use std::hint::black_box;

use bench::blocks::blocks;
use bench::Shape;
use second::random::Random;
use tishwabe::Profile;

use crate::pairs::{Pairs, Side};
use crate::timing::nanoseconds;

/// n, r and L.
const CASES: [(usize, usize, usize); 3] = [(255, 32, 16), (255, 32, 31), (60, 21, 12)];

/// Blocks with a run of half of r wrong cells, and blocks of random cells.
fn reads(shape: Shape, count: usize) -> [(String, Vec<Vec<u8>>); 2] {
    let runs = blocks(shape, 0, count).into_iter().map(|block| block.run);
    let mut random = Random::new(12);
    let noise = (0..count).map(|_| random.bytes(shape.n)).collect();
    [
        (format!("a run of {} wrong", shape.half()), runs.collect()),
        ("random cells".into(), noise),
    ]
}

/// Looking, and listing.
fn measured(profile: &Profile, reads: &[Vec<u8>], rounds: usize) -> Pairs {
    let (mut pairs, mut list) = (Pairs::default(), vec![0; profile.pairs_length()]);
    for _ in 0..rounds {
        pairs.round(|side| match side {
            Side::First => nanoseconds(reads, |read| {
                let _ = black_box(profile.look_block(black_box(read)));
            }),
            Side::Second => nanoseconds(reads, |read| {
                assert!(profile.list_candidates(black_box(read), black_box(&mut list)).is_ok())
            }),
        });
    }
    pairs
}

/// Two lines for each case, over so many different blocks.
pub fn table(count: usize, rounds: usize) -> String {
    let mut text = String::from(
        "| n | r | L | block | looking, µs | listing, µs | listing over looking | half of the rounds |\n|---|---|---|---|---|---|---|---|\n",
    );
    for (n, r, limit) in CASES {
        let profile = Profile::new(n, r, 1, limit, 1).expect("the cases are in range");
        for (called, reads) in reads(Shape { n, r, b: 1 }, count) {
            let pairs = measured(&profile, &reads, rounds);
            text += &format!("| {n} | {r} | {limit} | {called} | {}\n", pairs.columns());
        }
    }
    text
}

#[cfg(test)]
mod tests {
    use super::*;

    /// Blocks with a run are accepted. In random cells a run of L cells reaches a codeword once in 256^(r−L) times. With L=31 of r=32 there are 225 such
    /// runs: none reaches one in 41 blocks of 100, and more than one in 22, so about 40 of 64 are refused, and 20 are on the safe side. Elsewhere all are.
    #[test]
    fn blocks_of_both_kinds() {
        for ((n, r, limit), least) in CASES.into_iter().zip([64, 20, 64]) {
            let profile = Profile::new(n, r, 1, limit, 1).expect("the cases are in range");
            let [(_, runs), (_, noise)] = reads(Shape { n, r, b: 1 }, 64);
            assert!(runs.iter().all(|read| profile.look_block(read).is_ok()));
            let refused = noise.iter().filter(|read| profile.look_block(read).is_err()).count();
            assert!(refused >= least, "{n} {r} {limit}: {refused}");
        }
    }

    #[test]
    fn lines_of_a_table() {
        let text = table(2, 1);
        let lines: Vec<&str> = text.lines().collect();
        assert_eq!(lines.len(), 2 + 6);
        assert!(lines[2].starts_with("| 255 | 32 | 16 | a run of 16 wrong | "));
        assert!(lines[7].starts_with("| 60 | 21 | 12 | random cells | "));
    }
}
