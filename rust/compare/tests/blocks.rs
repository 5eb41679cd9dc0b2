//! Blocks, written, checked and corrected by the library and by the second decoder.

use compare::block::{check, correct, write};
use compare::draw::{self, Size, DAMAGES, LARGE, MEDIUM, SMALL};
use compare::work::{called, run, Tally};
use second::random::Random;
use second::{cases, Profile};

/// A random block for each kind of damage.
fn damaged_blocks(random: &mut Random, size: Size, tally: &mut Tally) {
    for damage in DAMAGES {
        let p = draw::profile(random, size);
        let message = random.bytes(p.k());
        let (_, written) = write(random, &p, &message, p.n);
        let read = draw::damaged(random, &p, &written, damage);
        let clean = check(&p, &read).2 == 1;
        let answer = correct(random, &p, &read, p.n);
        assert_eq!(clean, (answer.0, answer.2, answer.3) == (0, 0, 0));
        tally.count("blocks");
        tally.count(if clean { "clean" } else { called(answer.0) });
    }
}

fn compare_blocks(title: &str, seeds: u64, size: Size) -> Tally {
    run(title, seeds, |_, random, tally| {
        for _ in 0..10 {
            damaged_blocks(random, size, tally);
        }
    })
}

fn all_came_up(tally: &Tally, least: u64) {
    for kind in ["clean", "accepted", "torn", "tied"] {
        assert!(tally.of(kind) >= least, "{kind}");
    }
}

#[test]
fn small_blocks() {
    all_came_up(&compare_blocks("small blocks", 2_000, SMALL), 500);
}

#[test]
fn medium_blocks() {
    all_came_up(&compare_blocks("medium blocks", 250, MEDIUM), 100);
}

#[test]
fn large_blocks() {
    all_came_up(&compare_blocks("large blocks", 10, LARGE), 5);
}

/// Every block of n=3 or 4, r=2, up to a codeword: the two check cells take all values above a random codeword.
#[test]
fn every_difference_from_a_codeword() {
    let profiles = [(3, 0), (3, 77), (4, 254)].map(|(n, b)| Profile {
        n,
        r: 2,
        b,
        limit: 1,
        depth: 1,
    });
    let tally = run("every difference", 256, |seed, random, tally| {
        for p in &profiles {
            for second_cell in 0..=255 {
                let message = random.bytes(p.k());
                let (_, mut read) = write(random, p, &message, p.n);
                read[0] ^= (seed - 1) as u8;
                read[1] ^= second_cell;
                let answer = correct(random, p, &read, p.n);
                tally.count("blocks");
                tally.count(called(answer.0));
            }
        }
    });
    assert_eq!(tally.of("blocks"), 3 * 65_536);
}

/// Document 01's table of read blocks, and its written blocks.
#[test]
fn bench_sheet() {
    let mut random = Random::new(1);
    for row in cases::corrections() {
        let answer = correct(&mut random, &row.profile, &row.read, 4);
        match row.expected {
            Ok((_, start, length)) => assert_eq!(answer, (0, 0, start, length)),
            Err(number) => assert_eq!(answer, (number.into(), 0, 0, 0)),
        }
    }
    for (p, message, codeword) in cases::written_blocks() {
        assert_eq!(write(&mut random, &p, &message, p.n), ((0, 0, 0, 0), codeword));
    }
}

/// Refusal 1 whatever the buffers are.
fn bad_profile(random: &mut Random, p: &Profile, tally: &mut Tally) {
    let length = random.between(0, 300);
    let bytes = random.bytes(length);
    let other = random.between(0, 300);
    for number in [
        write(random, p, &bytes, other).0 .0,
        check(p, &bytes).0,
        correct(random, p, &bytes, other).0,
    ] {
        assert_eq!(number, 1);
        tally.count(called(number));
    }
}

/// Refusal 2 for each buffer that has not its length.
fn bad_length(random: &mut Random, p: &Profile, tally: &mut Tally) {
    let (wrong_n, wrong_k) = (draw::wrong_length(random, p.n), draw::wrong_length(random, p.k()));
    let (cells, short) = (random.bytes(p.n), random.bytes(wrong_n));
    let (message, other) = (random.bytes(p.k()), random.bytes(wrong_k));
    for number in [
        write(random, p, &message, wrong_n).0 .0,
        write(random, p, &other, p.n).0 .0,
        write(random, p, &other, wrong_n).0 .0,
        check(p, &short).0,
        correct(random, p, &short, p.n).0,
        correct(random, p, &cells, wrong_n).0,
        correct(random, p, &short, wrong_n).0,
    ] {
        assert_eq!(number, 2);
        tally.count(called(number));
    }
}

#[test]
fn profiles_and_lengths_are_refused() {
    run("refused blocks", 2_000, |_, random, tally| {
        let p = draw::profile_out_of_range(random);
        bad_profile(random, &p, tally);
        let p = draw::profile(random, LARGE);
        bad_length(random, &p, tally);
    });
    let mut random = Random::new(1);
    for p in cases::profiles_out_of_range() {
        bad_profile(&mut random, &p, &mut Tally::default());
    }
}
