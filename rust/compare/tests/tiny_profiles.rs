//! Lists of candidates of tiny profiles, exhaustively. All 2^24 blocks of a profile with three cells are held to a table of all its codewords. Blocks of other
//! profiles are compared with the second decoder; one of them stands for all that differ from it by a codeword, and mostly also for those that differ by a factor,
//! since neither changes which runs are listed, and both are random.

use compare::block::written;
use compare::candidates::held;
use compare::profile;
use compare::work::run;
use second::random::Random;
use second::{block, gf, Profile};

/// Of a lent buffer of six bytes what no list writes.
const UNTOUCHED: u8 = 170;

fn number([first, second, third]: [u8; 3]) -> usize {
    u32::from_be_bytes([0, first, second, third]) as usize
}

/// For each block of three cells the run that is due with L=1, if there is one: 0 and 0 for each codeword, and for each value of each cell of each codeword that
/// cell. No block is met twice.
fn due_runs(p: &Profile) -> Vec<Option<[u8; 2]>> {
    let mut due = vec![None; 1 << 24];
    let mut enter = |read, run| assert_eq!(due[number(read)].replace(run), None, "{read:?}");
    for message in 0..=255 {
        let mut codeword = [0; 3];
        block::write(p, &[message], &mut codeword).expect("a codeword");
        enter(codeword, [0, 0]);
        for (start, difference) in (0..3).flat_map(|start| (1..=255).map(move |difference| (start, difference))) {
            let mut read = codeword;
            read[start] ^= difference;
            enter(read, [start as u8, 1]);
        }
    }
    due
}

/// Every block of n=3, r=2 with L=1, literally. Neither linearity nor a search is used for what is due. b is neither 0 nor 1, so that one left out would show.
#[test]
fn all_blocks_of_three_cells() {
    let p = Profile::from([3, 2, 2, 1, 1]);
    let (due, library) = (due_runs(&p), profile(&p).expect("a profile"));
    let tally = run("candidates, all blocks of three cells", 256, |seed, _, tally| {
        for (second, third) in (0..=255).flat_map(|second| (0..=255).map(move |third| (second, third))) {
            let read = [(seed - 1) as u8, second, third];
            let (mut pairs, mut left) = ([UNTOUCHED; 6], [UNTOUCHED; 6]);
            let found = library.list_candidates(&read, &mut pairs);
            let listed = due[number(read)];
            if let Some(run) = listed {
                left[..2].copy_from_slice(&run);
                tally.count(if run[1] == 0 { "clean" } else { "accepted" });
            }
            assert_eq!((found, pairs), (Ok(listed.is_some().into()), left), "{read:?}");
        }
        tally.add("blocks", 65_536);
    });
    assert_eq!(tally.of("blocks"), 1 << 24);
    assert_eq!((tally.of("clean"), tally.of("accepted")), (256, 256 * 3 * 255));
}

/// A factor times these cells, in the first cells of a block, plus a codeword. Which runs are listed depends on neither the factor nor the codeword.
fn related(random: &mut Random, p: &Profile, cells: &[u8]) -> Vec<u8> {
    let (mut block, factor) = (written(random, p), random.nonzero());
    for (sum, &cell) in block.iter_mut().zip(cells) {
        *sum ^= gf::product(factor, cell);
    }
    block
}

/// The same profile with each L that its r allows.
fn with_each_limit(p: &Profile) -> impl Iterator<Item = Profile> {
    let p = *p;
    (0..p.r).map(move |limit| Profile { limit, ..p })
}

/// Check cells number `index` among those whose first cell that is not zero is 1; number 0 is all zeros.
fn check_cells(r: usize, index: u64) -> Vec<u8> {
    let mut cells = vec![0; r];
    let Some(mut index) = index.checked_sub(1) else {
        return cells;
    };
    for first in (0..r).rev() {
        let others = 256u64.pow((r - 1 - first) as u32);
        if index < others {
            cells[first] = 1;
            for cell in cells[first + 1..].iter_mut() {
                *cell = (index % 256) as u8;
                index /= 256;
            }
            break;
        }
        index -= others;
    }
    cells
}

/// How many there are.
fn check_words(r: usize) -> u64 {
    1 + (256u64.pow(r as u32) - 1) / 255
}

/// Every block of r=2 up to a codeword and a factor.
#[test]
fn every_block_of_two_check_cells() {
    let tally = run("candidates, every block, r=2", check_words(2), |seed, random, tally| {
        for (n, b) in (3..=8).flat_map(|n| [0, 1, 77, 253, 254].map(|b| (n, b))) {
            for p in with_each_limit(&Profile::from([n, 2, b, 1, 1])) {
                let read = related(random, &p, &check_cells(2, seed - 1));
                held(random, &p, &read, tally);
            }
        }
    });
    assert_eq!(tally.of("blocks"), 258 * 60);
    // with L=1 a wrong cell at each of the n places
    assert_eq!(tally.of("clean"), 60);
    assert_eq!(tally.of("accepted"), 5 * (3..=8).sum::<u64>());
}

/// Every block of n=3 or 4, r=2, up to a codeword: the two check cells take all values above a random codeword.
#[test]
fn every_difference_from_a_codeword() {
    let profiles = [[3, 2, 0, 1, 1], [4, 2, 254, 1, 1]].map(Profile::from);
    let tally = run("candidates, every difference", 256, |seed, random, tally| {
        for (p, second) in profiles.iter().flat_map(|p| (0..=255).map(move |second| (p, second))) {
            let mut read = written(random, p);
            read[0] ^= (seed - 1) as u8;
            read[1] ^= second;
            for p in with_each_limit(p) {
                held(random, &p, &read, tally);
            }
        }
    });
    assert_eq!((tally.of("blocks"), tally.of("clean")), (2 * 2 * 65_536, 2 * 2));
    // with L=1 255 values in each of the n cells
    assert_eq!(tally.of("accepted"), 255 * (3 + 4));
}

/// Every block of r=3 up to a codeword and a factor, of three profiles.
#[test]
fn every_block_of_three_check_cells() {
    let profiles = [[4, 3, 0, 2, 1], [5, 3, 254, 2, 1], [9, 3, 77, 2, 1]].map(Profile::from);
    let tally = run("candidates, every block, r=3", check_words(3), |seed, random, tally| {
        for p in &profiles {
            let read = related(random, p, &check_cells(3, seed - 1));
            for p in with_each_limit(p) {
                held(random, &p, &read, tally);
            }
        }
    });
    assert_eq!((tally.of("blocks"), tally.of("clean")), (3 * 3 * 65_794, 3 * 3));
    // with L=1 and with L=2 a wrong cell at each of the n places; with L=2 of n−1 pairs of neighbours 255 ratios each, of which some belong to two pairs
    let cells = 4 + 5 + 9;
    let pairs = 255 * (3 + 4 + 8);
    let several = tally.of("several");
    assert_eq!(tally.of("accepted") + 2 * several, 2 * cells + pairs);
    assert!(several == tally.of("tied") && several > 0, "{several}");
}

/// Every word of five cells with a run of at most three that are not zero, the first of them 1; and the word of zeros.
fn near_zero() -> Vec<[u8; 5]> {
    let mut words = vec![[0; 5]];
    let values = |cell: usize| if cell < 5 { 0..=255 } else { 0..=0 };
    for start in 0..5 {
        for (second, third) in values(start + 1).flat_map(|second| values(start + 2).map(move |third| (second, third)))
        {
            let mut word = [0; 5];
            for (cell, value) in word[start..].iter_mut().zip([1, second, third]) {
                *cell = value;
            }
            words.push(word);
        }
    }
    words
}

/// Every block of n=5, r=4 within a run of at most three cells of a codeword, up to that codeword and a factor, with L=2 and 3. Two codewords differ in all five
/// cells, so a second one is listed where its run and the first one's have together all cells: cells 0 to 1 and 2 to 4, or 3 to 4 and 0 to 2, in which the longer
/// run comes last, or 0 to 2 and 2 to 4.
#[test]
fn every_block_near_a_codeword() {
    let words = near_zero();
    let whole = Profile::from([5, 4, 130, 3, 1]);
    let tally = run(
        "candidates, near a codeword",
        words.len() as u64,
        |seed, random, tally| {
            let read = related(random, &whole, &words[seed as usize - 1]);
            for limit in [2, 3] {
                held(random, &Profile { limit, ..whole }, &read, tally);
            }
        },
    );
    let near = 1 + 3 * 65_536 + 256 + 1;
    assert_eq!((tally.of("blocks"), tally.of("clean")), (2 * near, 2));
    // with L=3: each of the two orders, from either codeword; and where cell 2 is in both runs, it has 254 values other than those of the two codewords
    assert_eq!((tally.of("several, not tied"), tally.of("tied")), (2 * 2, 2 * 254));
    assert_eq!(tally.of("a lower start behind a higher one"), 2);
    // with L=2 a cell, or two, or the two of a second codeword; with L=3 all but the codeword and the tied ones
    let accepted = (5 + 4 * 255 + 2) + (near - 1 - 2 * 254);
    assert_eq!((tally.of("accepted"), tally.of("thin")), (accepted, 0));
}

/// Profiles of three to five cells with every r and every L, and every block each cell of which is as in one of three codewords, or another value.
#[test]
fn every_mixture_of_codewords() {
    let tally = run("candidates, mixtures", 3 * 4, |seed, random, tally| {
        let (n, b) = ([3, 4, 5][seed as usize % 3], [0, 1, 130, 254][seed as usize / 3 % 4]);
        for r in 2..n {
            let whole = Profile::from([n, r, b, r - 1, 1]);
            let mut words = [(); 3].map(|()| written(random, &whole)).to_vec();
            words.push(random.bytes(n));
            for choice in 0..4usize.pow(n as u32) {
                let read: Vec<u8> = (0..n).map(|i| words[choice >> (2 * i) & 3][i]).collect();
                for p in with_each_limit(&whole) {
                    held(random, &p, &read, tally);
                }
            }
        }
    });
    // the three codewords, with each L
    tally.assert_at_least(&[
        ("clean", 192),
        ("accepted", 3_000),
        ("torn", 10_000),
        ("tied", 50),
        ("several, not tied", 30),
    ]);
}
