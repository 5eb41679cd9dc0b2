//! Spot mode by the words of Note 1: against all codewords, against all sets of up to h cells, and against a table made by hand.

use super::*;
use crate::block::write;
use crate::cases;
use crate::codewords::all_codewords;
use crate::generator::generator;
use crate::random::Random;
use crate::refusal::{BUFFER_LENGTH, PROFILE_RANGE};

const UNTOUCHED: u8 = 170;

/// What spot mode answers, and what it leaves in the second buffer.
type Outcome = (Result<Changes, Refusal>, Vec<u8>);

fn outcome(profile: &Profile, read: &[u8]) -> Outcome {
    let mut corrected = vec![UNTOUCHED; profile.n];
    let result = correct(profile, read, &mut corrected);
    (result, corrected)
}

/// What it should be, given the codeword that the block should go to.
fn due(profile: &Profile, read: &[u8], nearest: Option<&[u8]>) -> Outcome {
    match nearest {
        Some(codeword) => (Ok(changes(read, codeword)), codeword.to_vec()),
        None => (refuse(NO_CODEWORD_NEAR, 0), vec![UNTOUCHED; profile.n]),
    }
}

fn distance(x: &[u8], y: &[u8]) -> usize {
    x.iter().zip(y).filter(|(a, b)| a != b).count()
}

/// Codewords within h cells: by listing all. There is never more than one.
fn by_listing<'a>(profile: &Profile, read: &[u8], codewords: &'a [Vec<u8>]) -> Option<&'a [u8]> {
    let mut near = codewords
        .iter()
        .filter(|codeword| distance(read, codeword) <= profile.h());
    let first = near.next().map(Vec::as_slice);
    assert_eq!(near.next(), None, "no tie");
    first
}

#[test]
fn agrees_with_listing_all_codewords() {
    let mut random = Random::new(61);
    let mut counts = [0; 12];
    for round in 0..160 {
        // two message cells, 65,536 codewords, in every eighth round
        let k = if round % 8 == 0 { 2 } else { 1 };
        let r = random.between(2, 9);
        let b = random.between(0, 254);
        let profile = Profile::from([r + k, r, b, random.between(0, r - 1), 1]);
        let codewords = all_codewords(&profile);
        assert_eq!(codewords.len(), 256usize.pow(k as u32));
        for _ in 0..20 {
            let mut read = codewords[random.between(0, codewords.len() - 1)].clone();
            let count = random.between(0, (profile.h() + 2).min(r + k));
            random.change(&mut read, count);
            let found = outcome(&profile, &read);
            assert_eq!(found, due(&profile, &read, by_listing(&profile, &read, &codewords)));
            counts[found.0.map_or_else(|refusal| usize::from(refusal.number), |_| 0)] += 1;
        }
    }
    assert!(counts[0] > 1000 && counts[11] > 500, "{counts:?}");
}

/// Every set of this many cells from `first` on, one after another.
fn sets(first: usize, n: usize, count: usize) -> Vec<Vec<usize>> {
    if count == 0 {
        return vec![vec![]];
    }
    let with = |cell: usize| {
        let rest = sets(cell + 1, n, count - 1).into_iter();
        rest.map(move |set| [&[cell], &set[..]].concat())
    };
    (first..n).flat_map(with).collect()
}

/// The codeword for the first set of cells, fewest first, whose system against the syndromes has a solution.
fn by_sets(profile: &Profile, read: &[u8]) -> Option<Vec<u8>> {
    let target = syndromes(profile, read);
    let reached = |set: Vec<usize>| {
        let columns: Vec<Vec<u8>> = set.iter().map(|&cell| profile.column(cell)).collect();
        match solve(&columns, &target) {
            Solutions::One(errors) => Some(without(read, &set, &errors)),
            _ => None,
        }
    };
    let all = (0..=profile.h()).flat_map(|count| sets(0, profile.n, count));
    all.filter_map(reached).next()
}

#[test]
fn agrees_with_trying_all_sets_of_cells() {
    let mut random = Random::new(62);
    let mut refused = 0;
    for _ in 0..300 {
        let r = random.between(2, 7);
        let n = random.between(r + 1, 14);
        let profile = Profile::from([n, r, random.between(0, 254), random.between(0, r - 1), 1]);
        let mut read = vec![0; n];
        write(&profile, &random.bytes(n - r), &mut read).unwrap();
        let count = random.between(0, (profile.h() + 2).min(n));
        random.change(&mut read, count);
        let found = outcome(&profile, &read);
        assert_eq!(found, due(&profile, &read, by_sets(&profile, &read).as_deref()));
        refused += usize::from(found.0.is_err());
    }
    assert!((60..200).contains(&refused), "{refused}");
}

#[test]
fn the_number_of_sets_is_right() {
    assert_eq!(sets(0, 4, 2), [[0, 1], [0, 2], [0, 3], [1, 2], [1, 3], [2, 3]]);
    assert_eq!(sets(0, 12, 3).len(), 220);
}

#[test]
fn worked_blocks() {
    for case in cases::spot_corrections() {
        let due = match case.expected {
            Ok((codeword, count, lowest)) => (Ok(Changes { count, lowest }), codeword.to_vec()),
            Err(number) => (refuse(number, 0), vec![UNTOUCHED; 4]),
        };
        assert_eq!(outcome(&case.profile, &case.read), due);
    }
}

/// Up to h cells anywhere come back, whatever L is; for odd r, h+1 cells never do.
#[test]
fn up_to_h_cells_come_back() {
    let mut random = Random::new(63);
    for (n, r, b) in [
        (255, 64, 254),
        (255, 63, 0),
        (255, 32, 1),
        (255, 3, 9),
        (255, 2, 254),
        (100, 33, 120),
        (65, 64, 1),
        (4, 3, 0),
        (3, 2, 17),
        (40, 7, 200),
    ] {
        for limit in [0, r - 1] {
            let profile = Profile::from([n, r, b, limit, 1]);
            let mut codeword = vec![0; n];
            write(&profile, &random.bytes(n - r), &mut codeword).unwrap();
            for count in [0, 1, profile.h() / 2, profile.h()] {
                let mut read = codeword.clone();
                random.change(&mut read, count);
                assert_eq!(outcome(&profile, &read), due(&profile, &read, Some(&codeword)));
            }
            if r % 2 == 1 {
                let mut read = codeword.clone();
                random.change(&mut read, profile.h() + 1);
                assert_eq!(outcome(&profile, &read), due(&profile, &read, None));
            }
        }
    }
}

/// Cells of a codeword with as few cells as any, r+1 neighbours: h of them lead back to zero, for even r h+1 of them to the codeword.
#[test]
fn between_two_codewords() {
    let mut random = Random::new(64);
    for (n, r, b) in [
        (255, 64, 3),
        (255, 33, 254),
        (60, 21, 1),
        (40, 6, 0),
        (5, 4, 100),
        (4, 3, 7),
        (3, 2, 1),
    ] {
        let profile = Profile::from([n, r, b, 0, 1]);
        let start = random.between(0, n - r - 1);
        let mut far = vec![0; n];
        far[start..=start + r].copy_from_slice(&generator(b, r));
        let part = |count: usize| -> Vec<u8> {
            let kept = |i: usize| if i < start + count { far[i] } else { 0 };
            (0..n).map(kept).collect()
        };
        let h = profile.h();
        assert_eq!(outcome(&profile, &part(h)), due(&profile, &part(h), Some(&vec![0; n])));
        let nearest = (r % 2 == 0).then_some(&far[..]);
        assert_eq!(outcome(&profile, &part(h + 1)), due(&profile, &part(h + 1), nearest));
    }
}

/// A codeword of a longer block without its last cells, of which some are not zero: no codeword of the shorter one is within h cells
/// where these and h cells more are fewer than the distance.
#[test]
fn errors_past_the_last_cell_are_refused() {
    let mut random = Random::new(65);
    for (n, r, b, absent) in [(40, 8, 5, 3), (254, 6, 0, 1), (100, 30, 99, 15), (20, 5, 77, 2)] {
        let longer = Profile::from([n + absent, r, b, 0, 1]);
        let mut cells = vec![0; n + absent];
        let mut message = random.bytes(n + absent - r);
        let last = message.len() - 1;
        message[last] = random.nonzero();
        write(&longer, &message, &mut cells).unwrap();
        let profile = Profile::from([n, r, b, 0, 1]);
        assert_eq!(outcome(&profile, &cells[..n]), due(&profile, &cells[..n], None));
    }
}

#[test]
fn refusals_1_and_2_come_first() {
    for profile in cases::profiles_out_of_range() {
        let mut cells = [UNTOUCHED; 9];
        for length in [0, 4, 9] {
            assert_eq!(
                correct(&profile, &[0; 4], &mut cells[..length]),
                refuse(PROFILE_RANGE, 0)
            );
        }
        assert_eq!(cells, [UNTOUCHED; 9]);
    }
    let profile = Profile::from([4, 3, 0, 2, 1]);
    let mut cells = [UNTOUCHED; 9];
    for (first, second) in [(3, 4), (5, 4), (0, 4), (4, 3), (4, 5), (4, 0)] {
        let result = correct(&profile, &vec![9; first], &mut cells[..second]);
        assert_eq!(result, refuse(BUFFER_LENGTH, 0));
    }
    assert_eq!(cells, [UNTOUCHED; 9]);
}
