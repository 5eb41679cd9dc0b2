//! Document 02's rule on long but thin repairs, on blocks: a run longer than half of r, at most half of which would be changed, is refused by the look and by
//! the corrector, and not by the fill nor in spot mode. The library is held to the second decoder and, where the damage alone settles it, to the rule itself.

use compare::block::{correct_in, correct_spots, fill, look, written};
use compare::draw::{self, Size, LARGE, MEDIUM, SMALL};
use compare::work::{called, run, Tally};
use second::generator::generator;
use second::random::Random;
use second::{block, cases, gf, Mode, Profile, Run};

/// The rule: longer than half of r, and of its cells not more than half are changed.
fn is_sparse(r: usize, length: usize, changed: usize) -> bool {
    2 * length > r && 2 * changed <= length
}

/// A block of which this run is damaged, looked at, corrected, filled and read in spot mode with both: the number of the look.
/// If the length of the run and the number of its changed cells are at most r together, no other codeword is within so short a run, since two of them differ in
/// more than r cells: then the verdict is known.
fn held(random: &mut Random, p: &Profile, codeword: &[u8], read: &[u8], run: Run) -> usize {
    let (answer, out) = correct_in(Mode::Burst, random, p, read, p.n);
    assert_eq!(look(p, read), answer, "{p:?} {read:?}");
    let filled = fill(random, p, read, run, p.n);
    assert_eq!(filled, ((0, 0, 0, 0), codeword.to_vec()), "{p:?} {read:?} {run:?}");
    let (spotted, near) = correct_spots(random, p, read, p.n);
    let changed = run.changed(read, codeword);
    if changed <= p.h() {
        assert_eq!(
            (spotted, &near[..]),
            ((0, 0, changed, run.start), codeword),
            "{p:?} {read:?}"
        );
    }
    if run.length <= p.limit && run.length + changed <= p.r {
        let due = match is_sparse(p.r, run.length, changed) {
            true => (16, 0, 0, 0),
            false => (0, 0, run.start, run.length),
        };
        assert_eq!(answer, due, "{p:?} {read:?} {run:?}");
        assert!(answer.0 != 0 || out == codeword, "{p:?} {read:?} {run:?}");
    }
    if answer.0 == 16 {
        // The run found may be another one, but spot mode goes to its codeword, which differs in at most h cells.
        let (found, reached) = block::shortest(p, read).expect("a thin run");
        assert!(
            is_sparse(p.r, found.length, found.changed(read, &reached)),
            "{p:?} {read:?}"
        );
        assert_eq!(
            (spotted.0, spotted.3, &near),
            (0, found.start, &reached),
            "{p:?} {read:?}"
        );
    }
    answer.0
}

/// The written cells with these cells of a run changed: its first, its last, and between them those of the bits.
fn with_choice(random: &mut Random, written: &[u8], run: Run, bits: usize) -> Vec<u8> {
    let mut cells = written.to_vec();
    for i in 0..run.length {
        if i == 0 || i + 1 == run.length || bits >> (i - 1) & 1 == 1 {
            cells[run.start + i] ^= random.nonzero();
        }
    }
    cells
}

/// Every run of fewer than r cells of small blocks, and every choice of its changed cells. With r up to 4 none is thin.
#[test]
fn every_run_and_every_choice() {
    let sizes = [
        (6, 2, 1),
        (7, 3, 254),
        (8, 4, 0),
        (10, 5, 0),
        (9, 6, 254),
        (14, 7, 77),
        (12, 8, 1),
        (13, 9, 200),
        (20, 10, 5),
        (15, 11, 130),
    ];
    let tally = run("thin, every choice", sizes.len() as u64, |seed, random, tally| {
        let (n, r, b) = sizes[seed as usize - 1];
        let p = Profile::from([n, r, b, r - 1, 1]);
        for (length, start) in (1..r).flat_map(|f| (0..=n - f).map(move |s| (f, s))) {
            for bits in 0..1 << length.saturating_sub(2) {
                let codeword = written(random, &p);
                let read = with_choice(random, &codeword, Run { start, length }, bits);
                let number = held(random, &p, &codeword, &read, Run { start, length });
                assert!(number != 16 || r > 4, "{p:?} {read:?}");
                tally.count(called(number));
            }
        }
    });
    assert!(tally.of("accepted") > 5_000 && tally.of("thin") > 2_000);
}

/// Every start, every length from h to r−1 and every number of changed cells from two on, of larger blocks.
#[test]
fn every_start_length_and_count() {
    let sizes = [(30, 16, 1), (31, 15, 254), (28, 21, 1), (25, 24, 0)];
    let starts = sizes.map(|(n, r, _)| n - r / 2 + 1);
    let all = starts.iter().sum::<usize>() as u64;
    let tally = run("thin, every count", all, |seed, random, tally| {
        let (mut size, mut start) = (0, seed as usize - 1);
        while start >= starts[size] {
            start -= starts[size];
            size += 1;
        }
        let (n, r, b) = sizes[size];
        for length in (r / 2).max(2)..=(r - 1).min(n - start) {
            for changed in 2..=length {
                let p = Profile::from([n, r, b, random.between(length, r - 1), 1]);
                let codeword = written(random, &p);
                let read = draw::with_run(random, &codeword, Run { start, length }, changed);
                tally.count(called(held(random, &p, &codeword, &read, Run { start, length })));
            }
        }
    });
    assert!(tally.of("accepted") > 2_000 && tally.of("thin") > 2_000);
}

/// A long run of a random block with about half of its cells changed, with few, or with any number of them.
fn random_block(random: &mut Random, size: Size, tally: &mut Tally) {
    let p = draw::profile_of_long_runs(random, size);
    let codeword = written(random, &p);
    let run = draw::long_run(random, &p);
    let half = (run.length / 2).max(2);
    let counts = [half, (half + 1).min(run.length), 2, random.between(2, run.length)];
    let changed = counts[random.between(0, 3)];
    let read = draw::with_run(random, &codeword, run, changed);
    let number = held(random, &p, &codeword, &read, run);
    tally.count(called(number));
    tally.count(match (number, 2 * changed) {
        (16, twice) if twice == run.length => "exactly half",
        (0, twice) if twice <= run.length + 2 => "just more than half",
        _ => "others",
    });
}

fn compare_blocks(title: &str, seeds: u64, size: Size, least: u64) {
    let tally = run(title, seeds, |_, random, tally| {
        for _ in 0..10 {
            random_block(random, size, tally);
        }
    });
    for kind in ["accepted", "thin", "exactly half", "just more than half"] {
        assert!(tally.of(kind) >= least, "{kind}");
    }
}

#[test]
fn small_blocks() {
    compare_blocks("thin, small blocks", 1_500, SMALL, 1_500);
}

#[test]
fn medium_blocks() {
    compare_blocks("thin, medium blocks", 250, MEDIUM, 150);
}

#[test]
fn large_blocks() {
    compare_blocks("thin, large blocks", 20, LARGE, 10);
}

/// The sum of two blocks.
fn sum(x: &[u8], y: &[u8]) -> Vec<u8> {
    x.iter().zip(y).map(|(a, b)| a ^ b).collect()
}

/// A thin block stays thin under every larger L, and is torn under one below its run; a codeword added or a factor changes nothing. So it is with other blocks.
#[test]
fn other_limits_and_related_blocks() {
    let tally = run("thin, related blocks", 1_500, |_, random, tally| {
        let size = [SMALL, MEDIUM][random.between(0, 1)];
        let p = draw::profile_of_long_runs(random, size);
        let codeword = written(random, &p);
        let read = draw::with_sparse_run(random, &p, &codeword);
        let answer = look(&p, &read);
        tally.count(called(answer.0));
        for limit in p.limit..p.r {
            let larger = look(&Profile { limit, ..p }, &read);
            assert!(answer.0 == 3 || larger == answer, "{p:?} {read:?} {limit}");
        }
        if let Ok((found, _)) = block::shortest(&p, &read) {
            let limit = found.length - 1;
            assert_eq!(look(&Profile { limit, ..p }, &read), (3, 0, 0, 0), "{p:?} {read:?}");
        }
        let (added, factor) = (written(random, &p), random.nonzero());
        assert_eq!(look(&p, &sum(&read, &added)), answer, "{p:?} {read:?} {added:?}");
        let scaled: Vec<u8> = read.iter().map(|&x| gf::product(factor, x)).collect();
        assert_eq!(look(&p, &scaled), answer, "{p:?} {read:?} {factor}");
    });
    assert!(tally.of("thin") > 1_000);
}

/// A block that two equally long runs reach, one codeword each.
struct Tied {
    p: Profile,
    read: Vec<u8>,
    runs: [(Run, Vec<u8>); 2],
}

/// The codewords differ in r+1 neighbours, of which the first run has the first and the second the last. Of the first run those cells are changed that lie outside
/// the second, and its last.
fn tied(random: &mut Random) -> Tied {
    let size = [SMALL, MEDIUM][random.between(0, 1)];
    let mut p = draw::profile(random, size);
    p.r = p.r.max(7);
    p.n = p.n.max(p.r + 1);
    let length = random.between((2 * p.r + 4).div_ceil(3), p.r - 1);
    p.limit = random.between(length, p.r - 1);
    let codeword = written(random, &p);
    let start = random.between(0, p.n - p.r - 1);
    let (mut read, mut other) = (codeword.clone(), codeword.clone());
    for (cell, difference) in other[start..].iter_mut().zip(generator(p.b, p.r)) {
        *cell ^= difference;
    }
    let second = start + p.r + 1 - length;
    for i in (start..second).chain([start + length - 1]) {
        read[i] = other[i];
    }
    let runs = [(start, codeword), (second, other)];
    let runs = runs.map(|(start, codeword)| (Run { start, length }, codeword));
    Tied { p, read, runs }
}

/// At most half of the first run is changed, and yet the block is tied. The second is dense: both together change more than r cells.
#[test]
fn tied_though_one_run_is_thin() {
    let tally = run("thin, tied blocks", 600, |_, random, tally| {
        let Tied { p, read, runs } = tied(random);
        let length = runs[0].0.length;
        let sparse = runs
            .each_ref()
            .map(|(run, codeword)| is_sparse(p.r, length, run.changed(&read, codeword)));
        assert_eq!(sparse, [true, false], "{p:?} {read:?}");
        let (answer, _) = correct_in(Mode::Burst, random, &p, &read, p.n);
        assert_eq!(look(&p, &read), answer, "{p:?} {read:?}");
        for (run, codeword) in runs {
            let filled = fill(random, &p, &read, run, p.n);
            assert_eq!(filled, ((0, 0, 0, 0), codeword), "{p:?} {read:?}");
        }
        match block::shortest(&p, &read) {
            Err(refusal) => assert_eq!((refusal.number, answer), (4, (4, 0, 0, 0)), "{p:?} {read:?}"),
            Ok((shorter, _)) => assert!(shorter.length < length, "{p:?} {read:?}"),
        }
        tally.count(called(answer.0));
    });
    assert!(tally.of("tied") > 500);
}

/// The table of the second decoder, found by hand.
#[test]
fn table() {
    let mut random = Random::new(1);
    for row in cases::repairs() {
        let p = row.profile;
        let (answer, out) = correct_in(Mode::Burst, &mut random, &p, &row.read, p.n);
        assert_eq!(look(&p, &row.read), answer);
        match row.expected {
            Ok((start, length)) => assert_eq!((answer, out), ((0, 0, start, length), vec![0; p.n])),
            Err(number) => assert_eq!(answer, (number.into(), 0, 0, 0), "{:?}", row.read),
        }
    }
}
