//! The list of candidates is held to a table made by hand, to the list of all codewords, to the fill of every run, and to lists chosen beforehand; none of these
//! goes through its search over all runs. The mender does, and what it answers is read off the list.

use super::*;
use crate::block::{look, shortest, write};
use crate::codewords::all_codewords;
use crate::fill::fill;
use crate::generator::generator;
use crate::random::Random;
use crate::refusal::{refuse, AMBIGUOUS, BUFFER_LENGTH, NO_CODEWORD, PROFILE_RANGE, SPARSE};
use crate::{cases, chosen_lists};

const UNTOUCHED: u8 = 170;

/// What the entry answers, and what it leaves in a buffer of this length.
fn outcome(profile: &Profile, read: &[u8], length: usize) -> (Result<usize, Refusal>, Vec<u8>) {
    let mut pairs = vec![UNTOUCHED; length];
    let result = candidates(profile, read, &mut pairs);
    (result, pairs)
}

/// A buffer of this length with these runs.
fn buffer(runs: &[Run], length: usize) -> Vec<u8> {
    let mut pairs: Vec<u8> = runs
        .iter()
        .flat_map(|run| [run.start, run.length].map(|x| u8::try_from(x).unwrap()))
        .collect();
    pairs.resize(length, UNTOUCHED);
    pairs
}

/// The runs of the list, which the buffer has too.
fn listed_runs(profile: &Profile, read: &[u8]) -> Vec<Run> {
    let listed = candidate_codewords(profile, read).unwrap();
    let runs: Vec<Run> = listed.into_iter().map(|(run, _)| run).collect();
    let due = (Ok(runs.len()), buffer(&runs, 2 * profile.n));
    assert_eq!(outcome(profile, read, 2 * profile.n), due);
    runs
}

#[test]
fn worked_blocks() {
    for case in cases::candidates() {
        let due = match &case.expected {
            Ok(expected) => {
                let runs: Vec<Run> = expected.iter().map(|&(start, length)| Run { start, length }).collect();
                assert_eq!(listed_runs(&case.profile, &case.read), runs);
                (Ok(runs.len()), buffer(&runs, case.pairs_length))
            }
            Err(number) => (refuse(*number, 0), vec![UNTOUCHED; case.pairs_length]),
        };
        let found = outcome(&case.profile, &case.read, case.pairs_length);
        assert_eq!(found, due, "{:?} {:?}", case.profile, case.read);
    }
}

/// Every codeword that differs within a run of fewer than r cells, with that run, by length and then by start.
fn by_listing(r: usize, read: &[u8], codewords: &[Vec<u8>]) -> Vec<(Run, Vec<u8>)> {
    let mut all: Vec<(Run, Vec<u8>)> = codewords
        .iter()
        .map(|codeword| (Run::between(read, codeword), codeword))
        .filter(|(run, _)| run.length < r)
        .map(|(run, codeword)| (run, codeword.clone()))
        .collect();
    all.sort_by_key(|(run, _)| (run.length, run.start));
    all
}

/// Every word each of whose cells has one of the values given for it.
fn words(values: &[Vec<u8>]) -> Vec<Vec<u8>> {
    values.iter().fold(vec![vec![]], |words, values| {
        let longer = |word: &Vec<u8>| values.iter().map(|&x| [&word[..], &[x]].concat()).collect::<Vec<_>>();
        words.iter().flat_map(longer).collect()
    })
}

/// Every block of which each cell is as in one of up to four codewords or has another value, with every L.
#[test]
fn agrees_with_listing_all_codewords() {
    let mut random = Random::new(80);
    let mut counts = [0; 4];
    for (n, r, b, choices) in [
        (3, 2, 0, 5),
        (4, 3, 0, 5),
        (4, 3, 77, 5),
        (5, 4, 254, 5),
        (6, 5, 1, 4),
        (4, 2, 9, 3),
        (5, 3, 30, 2),
    ] {
        let whole = Profile::from([n, r, b, r - 1, 1]);
        let codewords = all_codewords(&whole);
        let chosen: Vec<&Vec<u8>> = (0..4)
            .map(|_| &codewords[random.between(0, codewords.len() - 1)])
            .collect();
        let values = |i: usize| chosen.iter().map(|word| word[i]).take(choices - 1).chain([9]).collect();
        for read in words(&(0..n).map(values).collect::<Vec<_>>()) {
            let mut due = by_listing(r, &read, &codewords);
            for limit in (0..r).rev() {
                due.retain(|(run, _)| run.length <= limit);
                let profile = Profile { limit, ..whole };
                let found = candidate_codewords(&profile, &read).unwrap();
                assert_eq!(found, due, "{profile:?} {read:?}");
                counts[due.len()] += 1;
            }
        }
    }
    // a list of three needs r+3 cells and more
    let [none, one, two, three] = counts;
    assert!(none > 5_000 && one > 1_000 && two > 100, "{counts:?}");
    assert_eq!(three, 0);
}

/// A random profile of up to this size.
fn any_profile(n: usize, r: usize, random: &mut Random) -> Profile {
    let r = random.between(2, r);
    let n = random.between(r + 1, n);
    let limit = [r - 1, random.between(0, r - 1)][random.between(0, 1)];
    Profile::from([n, r, random.between(0, 254), limit, 1])
}

/// A random codeword, with up to so many cells changed, or the first cells of another codeword of r+1 neighbours added.
fn any_block(profile: &Profile, most: usize, random: &mut Random) -> Vec<u8> {
    let Profile { n, r, b, .. } = *profile;
    let mut cells = vec![0; n];
    write(profile, &random.bytes(profile.k()), &mut cells).unwrap();
    if random.byte() < 64 {
        let start = random.between(0, n - r - 1);
        let count = [r.div_ceil(2), random.between(1, r)][random.between(0, 1)];
        for (cell, coefficient) in cells[start..].iter_mut().zip(generator(b, r)).take(count) {
            *cell ^= coefficient;
        }
    } else {
        let count = random.between(0, most.min(n));
        random.change(&mut cells, count);
    }
    cells
}

/// Each run of at most L cells is filled, and what is filled is listed once.
#[test]
fn agrees_with_filling_each_run() {
    let mut random = Random::new(81);
    let mut several = 0;
    for _ in 0..600 {
        let profile = any_profile(14, 6, &mut random);
        let read = any_block(&profile, 4, &mut random);
        let mut due: Vec<(Run, Vec<u8>)> = Vec::new();
        for (length, start) in (0..=profile.limit).flat_map(|f| (0..=profile.n - f).map(move |s| (f, s))) {
            let mut codeword = vec![UNTOUCHED; profile.n];
            let filled = fill(&profile, &read, Run { start, length }, &mut codeword);
            if filled.is_ok() && due.iter().all(|(_, other)| *other != codeword) {
                due.push((Run { start, length }, codeword));
            }
        }
        assert_eq!(
            candidate_codewords(&profile, &read).unwrap(),
            due,
            "{profile:?} {read:?}"
        );
        several += usize::from(due.len() > 1);
    }
    assert!(several > 40, "{several}");
}

/// Blocks that were made for a list: with each L tried, the runs of up to L cells. They are filled to different codewords.
fn held_to_a_list(profile: &Profile, runs: &[Run], random: &mut Random) {
    let read = chosen_lists::block(profile, runs, random).unwrap();
    for limit in [profile.r - 1, random.between(0, profile.r - 1), 0] {
        let profile = Profile { limit, ..*profile };
        let due: Vec<Run> = runs.iter().copied().filter(|run| run.length <= limit).collect();
        assert_eq!(listed_runs(&profile, &read), due, "{profile:?} {read:?}");
        for (run, codeword) in candidate_codewords(&profile, &read).unwrap() {
            let mut filled = vec![UNTOUCHED; profile.n];
            assert_eq!(fill(&profile, &read, run, &mut filled), Ok(()));
            assert_eq!(filled, codeword);
        }
    }
}

#[test]
fn lists_chosen_before() {
    let mut random = Random::new(82);
    let mut lengths = Vec::new();
    for _ in 0..300 {
        let profile = any_profile(60, 12, &mut random);
        let shortest = [1, profile.r / 2, profile.r - 1][random.between(0, 2)];
        let runs = chosen_lists::random_list(&profile, shortest, 20, &mut random);
        held_to_a_list(&profile, &runs, &mut random);
        lengths.push(runs.len());
    }
    assert!(lengths.contains(&11));
    assert!(lengths.iter().filter(|&&length| length > 2).count() > 100);
}

/// The longest lists, r−1 runs where the block has room for them, and the largest blocks.
#[test]
fn longest_lists() {
    let mut random = Random::new(83);
    for (n, r, b, due) in [
        (3, 2, 0, 1),
        (4, 3, 0, 2),
        (5, 4, 1, 2),
        (7, 4, 1, 3),
        (65, 64, 17, 2),
        (60, 21, 58, 20),
        (255, 2, 254, 1),
        (255, 3, 254, 2),
        (255, 16, 9, 15),
        (255, 64, 0, 63),
    ] {
        let profile = Profile::from([n, r, b, r - 1, 1]);
        let runs = chosen_lists::longest_list(&profile);
        assert_eq!(runs.len(), due);
        held_to_a_list(&profile, &runs, &mut random);
        let runs = chosen_lists::random_list(&profile, 1.max(r / 2), 40, &mut random);
        held_to_a_list(&profile, &runs, &mut random);
    }
}

/// More runs than r−1 allow, two that meet, and two that meet around 255 cells belong to no list. The list of no run is that of a torn block.
#[test]
fn lists_that_no_block_has() {
    let runs = |pairs: &[(usize, usize)]| -> Vec<Run> {
        let run = |&(start, length): &(usize, usize)| Run { start, length };
        pairs.iter().map(run).collect()
    };
    let mut random = Random::new(84);
    let profile = Profile::from([255, 6, 3, 5, 1]);
    for pairs in [
        &[(0, 3), (100, 3)][..],
        &[(10, 5), (11, 5)],
        &[(10, 4), (9, 5)],
        &[(0, 4), (253, 2)],
    ] {
        assert_eq!(
            chosen_lists::block(&profile, &runs(pairs), &mut random),
            None,
            "{pairs:?}"
        );
    }
    held_to_a_list(&profile, &[], &mut random);
    held_to_a_list(&profile, &runs(&[(0, 4), (251, 4)]), &mut random);
}

/// Torn exactly where nothing is listed, tied exactly where the first length occurs twice, and otherwise the first run is the one that the mender finds; it is
/// refused exactly if it is longer than half of r and at most half of it is changed. The mender and the list rest on one search over all runs, so this tests
/// how the list tells codewords apart and sorts them, and the rule, but not the search.
#[test]
fn what_the_mender_answers() {
    let mut random = Random::new(85);
    let mut counts = [0; 17];
    for _ in 0..3_000 {
        let profile = any_profile(14, 8, &mut random);
        let read = any_block(&profile, 3, &mut random);
        let listed = candidate_codewords(&profile, &read).unwrap();
        let found = match &listed[..] {
            [] => refuse(NO_CODEWORD, 0),
            [(first, _), (second, _), ..] if first.length == second.length => refuse(AMBIGUOUS, 0),
            [first, ..] => Ok(first.clone()),
        };
        assert_eq!(found, shortest(&profile, &read), "{profile:?} {read:?}");
        let due = found.and_then(|(run, codeword)| {
            let changed = read.iter().zip(&codeword).filter(|(x, y)| x != y).count();
            let thin = 2 * run.length > profile.r && 2 * changed <= run.length;
            if thin {
                refuse(SPARSE, 0)
            } else {
                Ok(run)
            }
        });
        let looked = look(&profile, &read);
        assert_eq!(looked, due, "{profile:?} {read:?}");
        counts[looked.map_or_else(|refusal| usize::from(refusal.number), |_| 0)] += 1;
    }
    let [accepted, uncorrectable, ambiguous, sparse] = [0, 3, 4, 16].map(|number| counts[number]);
    assert!(
        accepted > 500 && uncorrectable > 500 && ambiguous > 100 && sparse > 20,
        "{counts:?}"
    );
}

/// Profile, then lengths; a refusal leaves the buffer.
#[test]
fn the_order_of_refusals() {
    let codeword = [8, 14, 7, 1];
    for profile in cases::profiles_out_of_range() {
        for length in [0, 4, 8, 9] {
            let found = outcome(&profile, &codeword, length);
            assert_eq!(found, (refuse(PROFILE_RANGE, 0), vec![UNTOUCHED; length]));
        }
        assert_eq!(candidate_codewords(&profile, &codeword), refuse(PROFILE_RANGE, 0));
    }
    let profile = Profile::from([4, 3, 0, 2, 1]);
    for (first, second) in cases::WRONG_PAIRS {
        let found = outcome(&profile, &vec![0; first], second);
        assert_eq!(found, (refuse(BUFFER_LENGTH, 0), vec![UNTOUCHED; second]));
    }
    assert_eq!(candidate_codewords(&profile, &[0; 5]), refuse(BUFFER_LENGTH, 0));
}
