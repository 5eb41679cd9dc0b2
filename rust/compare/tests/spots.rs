//! Blocks in spot mode, corrected by the library and by the second decoder.

use compare::block::{check, correct, correct_spots, written};
use compare::draw::{self, Size, DAMAGES, LARGE, MEDIUM, SMALL};
use compare::work::{called, run, Tally};
use second::random::Random;
use second::{cases, gf, spots, Profile};

/// Corrects with both, and counts the answer: clean, accepted or spotted.
fn count(random: &mut Random, p: &Profile, read: &[u8], tally: &mut Tally) -> Vec<u8> {
    let (answer, out) = correct_spots(random, p, read, p.n);
    let clean = (answer.0, answer.2) == (0, 0);
    assert_eq!(clean, check(p, read).2 == 1);
    tally.count("blocks");
    tally.count(if clean { "clean" } else { called(answer.0) });
    out
}

/// Exactly so many cells changed: up to h they come back with their count and the lowest; for odd r one more is refused.
fn changed_cells(random: &mut Random, p: &Profile, cells: usize, tally: &mut Tally) {
    let codeword = written(random, p);
    let mut read = codeword.clone();
    random.change(&mut read, cells);
    let (answer, out) = correct_spots(random, p, &read, p.n);
    tally.count("blocks");
    tally.count(called(answer.0));
    if cells <= p.h() {
        let changes = spots::changes(&read, &codeword);
        assert_eq!(answer, (0, 0, cells, changes.lowest), "{p:?}");
        assert_eq!((changes.count, out), (cells, codeword));
    } else if cells == p.h() + 1 && p.r % 2 == 1 {
        assert_eq!(answer, (11, 0, 0, 0), "{p:?}");
    }
}

fn compare_blocks(title: &str, seeds: u64, size: Size, least: u64) {
    let tally = run(title, seeds, |_, random, tally| {
        for damage in DAMAGES {
            let p = draw::profile(random, size);
            let block = written(random, &p);
            let read = draw::damaged(random, &p, &block, damage);
            count(random, &p, &read, tally);
        }
        for _ in 0..3 {
            let p = draw::profile(random, size);
            let most = (p.h() + 2).min(p.n);
            let cells = [random.between(0, most), p.h(), most][random.between(0, 2)];
            changed_cells(random, &p, cells, tally);
        }
    });
    for kind in ["clean", "accepted", "spotted"] {
        assert!(tally.of(kind) >= least, "{kind}");
    }
}

#[test]
fn small_blocks() {
    compare_blocks("spots, small blocks", 5_000, SMALL, 2_000);
}

#[test]
fn medium_blocks() {
    compare_blocks("spots, medium blocks", 3_000, MEDIUM, 1_000);
}

#[test]
fn large_blocks() {
    compare_blocks("spots, large blocks", 600, LARGE, 200);
}

/// Every starting power, with r = 2 and 3, an odd and an even r, a shortened block and a whole one, and 0, 1, h, h+1 and h+2 cells changed.
#[test]
fn every_starting_power() {
    let sizes = [
        (3, 2),
        (255, 2),
        (4, 3),
        (255, 3),
        (20, 9),
        (31, 16),
        (60, 21),
        (255, 64),
    ];
    let tally = run("spots, every starting power", 255, |seed, random, tally| {
        for (n, r) in sizes {
            let limit = random.between(0, r - 1);
            let p = Profile::from([n, r, seed as usize - 1, limit, 1]);
            let h = p.h();
            for cells in [0, 1, h, h + 1, h + 2] {
                changed_cells(random, &p, cells, tally);
            }
        }
    });
    // spotted: nearly all with h+1 and h+2 cells, but nearly none of n = 255, r = 2, where few blocks are not within one cell of a codeword
    assert_eq!((tally.of("blocks"), tally.of("spotted")), (255 * 8 * 5, 3_570));
}

/// Every block of n=3 to 255, r=2, up to a codeword: the two check cells take all values above a random codeword.
#[test]
fn every_difference_from_a_codeword() {
    let profiles = [(3, 0), (4, 254), (9, 77), (255, 1)].map(|(n, b)| Profile::from([n, 2, b, 1, 1]));
    let tally = run("spots, every difference", 256, |seed, random, tally| {
        for p in &profiles {
            let codeword = written(random, p);
            for second_cell in 0..=255 {
                let mut read = codeword.clone();
                read[0] ^= (seed - 1) as u8;
                read[1] ^= second_cell;
                count(random, p, &read, tally);
            }
        }
    });
    assert_eq!(tally.of("blocks"), 4 * 65_536);
    // a cell and a value for each of n cells, and the clean block: no two have one remainder
    let near = [3, 4, 9, 255].map(|n| 255 * n).iter().sum::<u64>();
    assert_eq!((tally.of("clean"), tally.of("accepted")), (4, near));
}

/// A codeword of a longer block without its last cells: errors in cells that the block has not, and some in cells that it has.
#[test]
fn errors_past_the_last_cell() {
    let tally = run("spots, past the last cell", 2_000, |_, random, tally| {
        let mut p = draw::profile(random, MEDIUM);
        let absent = random.between(1, p.h());
        p.n += absent;
        let mut read = written(random, &p);
        p.n -= absent;
        read.truncate(p.n);
        let present = random.between(0, (p.h() - absent).min(p.n));
        random.change(&mut read, present);
        count(random, &p, &read, tally);
    });
    assert!(tally.of("spotted") > 1_500);
}

/// The sum of two blocks.
fn sum(x: &[u8], y: &[u8]) -> Vec<u8> {
    x.iter().zip(y).map(|(a, b)| a ^ b).collect()
}

/// A codeword added to the block, or another L, changes neither the answer nor what is added to the block; a factor scales it.
#[test]
fn codewords_added_and_other_limits() {
    let tally = run("spots, related blocks", 3_000, |_, random, tally| {
        let size = [SMALL, MEDIUM, LARGE][random.between(0, 2)];
        let p = draw::profile(random, size);
        let block = written(random, &p);
        let damage = DAMAGES[random.between(0, DAMAGES.len() - 1)];
        let read = draw::damaged(random, &p, &block, damage);
        let (answer, out) = correct_spots(random, &p, &read, p.n);
        let accepted = answer.0 == 0;
        tally.count(called(answer.0));

        let codeword = written(random, &p);
        let (moved, moved_out) = correct_spots(random, &p, &sum(&read, &codeword), p.n);
        assert_eq!(moved, answer, "{p:?} {read:?} {codeword:?}");
        assert!(!accepted || moved_out == sum(&out, &codeword));

        for limit in [0, random.between(0, p.r - 1), p.r - 1] {
            let (other, other_out) = correct_spots(random, &Profile { limit, ..p }, &read, p.n);
            assert_eq!(other, answer, "{p:?} {read:?} {limit}");
            assert!(!accepted || other_out == out);
        }

        let factor = random.nonzero();
        let times = |cells: &[u8]| -> Vec<u8> { cells.iter().map(|&x| gf::product(factor, x)).collect() };
        let (scaled, scaled_out) = correct_spots(random, &p, &times(&read), p.n);
        assert_eq!(scaled, answer, "{p:?} {read:?} {factor}");
        assert!(!accepted || scaled_out == times(&out));
    });
    assert!(tally.of("accepted") > 1_000 && tally.of("spotted") > 500);
}

/// A run of up to h cells is h spots too: with L at least h both modes give the same codeword.
#[test]
fn short_runs_in_both_modes() {
    run("spots, short runs", 1_500, |_, random, tally| {
        let mut p = draw::profile(random, SMALL);
        p.limit = random.between(p.h(), p.r - 1);
        let codeword = written(random, &p);
        let mut read = codeword.clone();
        draw::run(random, &mut read, p.h());
        let (start, length) = {
            let answer = correct(random, &p, &read, p.n);
            assert_eq!(answer.0, 0);
            (answer.2, answer.3)
        };
        let (answer, out) = correct_spots(random, &p, &read, p.n);
        assert_eq!((answer.0, answer.3), (0, start));
        assert!(answer.2 <= length && out == codeword);
        tally.count("runs");
    });
}

/// The table of the second decoder.
#[test]
fn table() {
    let mut random = Random::new(1);
    for row in cases::spot_corrections() {
        let (answer, out) = correct_spots(&mut random, &row.profile, &row.read, 4);
        match row.expected {
            Ok((codeword, count, lowest)) => assert_eq!((answer, out), ((0, 0, count, lowest), codeword.into())),
            Err(number) => assert_eq!(answer, (number.into(), 0, 0, 0)),
        }
    }
}

/// Refusal 1 whatever the buffers are, refusal 2 for each buffer that has not its length.
#[test]
fn profiles_and_lengths_are_refused() {
    let bad = |random: &mut Random, p: &Profile, tally: &mut Tally| {
        let lengths = (random.between(0, 300), random.between(0, 300));
        let bytes = random.bytes(lengths.0);
        assert_eq!(correct_spots(random, p, &bytes, lengths.1).0, (1, 0, 0, 0));
        tally.count(called(1));
    };
    run("spots, refused blocks", 2_000, |_, random, tally| {
        let p = draw::profile_out_of_range(random);
        bad(random, &p, tally);
        let p = draw::profile(random, LARGE);
        let wrong = [p.n, p.n].map(|due| draw::wrong_length(random, due));
        for (first, second) in [(wrong[0], p.n), (p.n, wrong[1]), (wrong[0], wrong[1])] {
            let bytes = random.bytes(first);
            assert_eq!(correct_spots(random, &p, &bytes, second).0, (2, 0, 0, 0));
            tally.count(called(2));
        }
    });
    let mut random = Random::new(1);
    for p in cases::profiles_out_of_range() {
        bad(&mut random, &p, &mut Tally::default());
    }
}
