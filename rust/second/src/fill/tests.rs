//! The fill by the words of Note 3: against a table made by hand, against all codewords, and beside the mender.

use super::*;
use crate::block::{correct, look, shortest, write};
use crate::cases;
use crate::codewords::all_codewords;
use crate::generator::generator;
use crate::random::Random;
use crate::refusal::{AMBIGUOUS, BUFFER_LENGTH, PROFILE_RANGE, SPARSE};

const UNTOUCHED: u8 = 170;

/// What the fill answers, and what it leaves in the second buffer.
type Outcome = (Result<(), Refusal>, Vec<u8>);

fn outcome(profile: &Profile, read: &[u8], start: usize, length: usize) -> Outcome {
    let mut filled = vec![UNTOUCHED; profile.n];
    let result = fill(profile, read, Run { start, length }, &mut filled);
    (result, filled)
}

fn accepted(codeword: &[u8]) -> Outcome {
    (Ok(()), codeword.to_vec())
}

fn refused(profile: &Profile, number: u8) -> Outcome {
    (refuse(number, 0), vec![UNTOUCHED; profile.n])
}

/// A random codeword.
fn written(profile: &Profile, random: &mut Random) -> Vec<u8> {
    let mut cells = vec![0; profile.n];
    write(profile, &random.bytes(profile.k()), &mut cells).unwrap();
    cells
}

#[test]
fn worked_blocks() {
    for case in cases::fills() {
        let due = match case.expected {
            Ok(codeword) => accepted(&codeword),
            Err(number) => refused(&case.profile, number),
        };
        let Run { start, length } = case.run;
        assert_eq!(outcome(&case.profile, &case.read, start, length), due, "{:?}", case.run);
    }
}

/// What is due by listing: the codewords that agree with the block outside the run. There is never more than one.
fn by_listing(profile: &Profile, read: &[u8], run: Run, codewords: &[Vec<u8>]) -> Outcome {
    let outside = |i: &usize| *i < run.start || *i >= run.start + run.length;
    let agrees = |codeword: &&Vec<u8>| (0..profile.n).filter(outside).all(|i| read[i] == codeword[i]);
    let mut reached = codewords.iter().filter(agrees);
    let first = reached.next();
    assert_eq!(reached.next(), None, "one codeword at most");
    first.map_or(refused(profile, NO_CODEWORD), |codeword| accepted(codeword))
}

/// Every run of every block, spans that are none among them.
#[test]
fn agrees_with_listing_all_codewords() {
    let mut random = Random::new(71);
    let mut counts = [0; 13];
    for round in 0..120 {
        // two message cells, 65,536 codewords, in every fortieth round
        let k = if round % 40 == 0 { 2 } else { 1 };
        let r = random.between(2, 6);
        let n = r + k;
        let limit = random.between(0, r - 1);
        let profile = Profile::from([n, r, random.between(0, 254), limit, 1]);
        let codewords = all_codewords(&profile);
        let mut read = codewords[random.between(0, codewords.len() - 1)].clone();
        let count = random.between(0, r);
        random.change(&mut read, count);
        for (start, length) in (0..n + 2).flat_map(|s| (0..n + 2).map(move |f| (s, f))) {
            let due = if start + length > n || length > r - 1 {
                refused(&profile, RUN_OUT_OF_RANGE)
            } else {
                by_listing(&profile, &read, Run { start, length }, &codewords)
            };
            assert_eq!(outcome(&profile, &read, start, length), due);
            counts[due.0.map_or_else(|refusal| usize::from(refusal.number), |()| 0)] += 1;
        }
    }
    assert!(counts[0] > 300 && counts[3] > 300 && counts[12] > 1000, "{counts:?}");
}

/// Whatever stands in a run of up to r−1 cells, filling that run gives the codeword, whatever L is, and so does every run around it.
#[test]
fn what_stands_in_the_run_has_no_effect() {
    let mut random = Random::new(72);
    for (n, r, b) in [
        (255, 64, 254),
        (255, 63, 0),
        (255, 2, 1),
        (100, 33, 120),
        (65, 64, 17),
        (4, 3, 0),
        (3, 2, 254),
    ] {
        for limit in [0, r / 2, r - 1] {
            let profile = Profile::from([n, r, b, limit, 1]);
            let codeword = written(&profile, &mut random);
            let length = random.between(1, r - 1);
            for start in [0, n - length, random.between(0, n - length)] {
                let mut read = codeword.clone();
                read[start..start + length].copy_from_slice(&random.bytes(length));
                assert_eq!(outcome(&profile, &read, start, length), accepted(&codeword));
                let around = (start + length).saturating_sub(r - 1);
                assert_eq!(outcome(&profile, &read, around, r - 1), accepted(&codeword));
            }
        }
    }
}

/// One cell that is wrong and lies outside the run: no codeword is within it, for that would be two within r cells.
#[test]
fn one_wrong_cell_outside_is_refused() {
    let mut random = Random::new(73);
    for (n, r, b) in [(255, 64, 3), (40, 7, 200), (5, 4, 100), (3, 2, 0)] {
        let profile = Profile::from([n, r, b, r - 1, 1]);
        let codeword = written(&profile, &mut random);
        for length in 0..r {
            let start = random.between(0, n - length);
            let outside: Vec<usize> = (0..n).filter(|i| *i < start || *i >= start + length).collect();
            let mut read = codeword.clone();
            read[outside[random.between(0, outside.len() - 1)]] ^= random.nonzero();
            assert_eq!(outcome(&profile, &read, start, length), refused(&profile, NO_CODEWORD));
        }
    }
}

/// A block half way between two codewords that differ in r+1 cells, r odd: the run named decides which one it goes to.
#[test]
fn a_tied_block_goes_where_it_is_sent() {
    let mut random = Random::new(74);
    for (n, r, b) in [(255, 63, 3), (60, 15, 254), (9, 3, 1), (4, 3, 9)] {
        let half = r / 2 + 1;
        let profile = Profile::from([n, r, b, half, 1]);
        let codeword = written(&profile, &mut random);
        let start = random.between(0, n - r - 1);
        let mut other = codeword.clone();
        for (cell, difference) in other[start..].iter_mut().zip(generator(b, r)) {
            *cell ^= difference;
        }
        let mut read = codeword.clone();
        read[start..start + half].copy_from_slice(&other[start..start + half]);
        assert_eq!(look(&profile, &read), refuse(AMBIGUOUS, 0));
        assert_eq!(outcome(&profile, &read, start, half), accepted(&codeword));
        assert_eq!(outcome(&profile, &read, start + half, half), accepted(&other));
    }
}

/// The sum of start and length is that of whole numbers: no start and no length is small again when it is added.
#[test]
fn a_sum_never_wraps() {
    let large = [usize::MAX, usize::MAX - 1, usize::MAX / 2 + 1, 1 << 32];
    for (n, r) in [(255, 64), (4, 3), (3, 2)] {
        let profile = Profile::from([n, r, 0, 0, 1]);
        let read = vec![0; n];
        let small = [0, 1, r - 1, r, n, n + 1];
        let numbers = || small.into_iter().chain(large);
        for (start, length) in numbers().flat_map(|s| numbers().map(move |f| (s, f))) {
            let huge = large.contains(&start) || large.contains(&length);
            let due = if huge || start + length > n || length >= r {
                refused(&profile, RUN_OUT_OF_RANGE)
            } else {
                accepted(&read)
            };
            assert_eq!(outcome(&profile, &read, start, length), due, "{start} {length}");
        }
    }
}

/// A block that no short run reaches, with numbers, lengths and spans wrong together: 1, then 2, then 12, then 3.
#[test]
fn the_order_of_refusals() {
    let torn = [9, 14, 7, 0];
    let bad_span = Run { start: 3, length: 2 };
    let mut cells = [UNTOUCHED; 9];
    for profile in cases::profiles_out_of_range() {
        for length in [0, 4, 9] {
            let result = fill(&profile, &torn, bad_span, &mut cells[..length]);
            assert_eq!(result, refuse(PROFILE_RANGE, 0));
        }
    }
    let profile = Profile::from([4, 3, 0, 2, 1]);
    for (first, second) in [(3, 4), (5, 4), (0, 4), (4, 3), (4, 5), (4, 0)] {
        for run in [bad_span, Run { start: 0, length: 1 }] {
            let result = fill(&profile, &vec![9; first], run, &mut cells[..second]);
            assert_eq!(result, refuse(BUFFER_LENGTH, 0));
        }
    }
    assert_eq!(
        fill(&profile, &torn, bad_span, &mut cells[..4]),
        refuse(RUN_OUT_OF_RANGE, 0)
    );
    let run = Run { start: 2, length: 2 };
    assert_eq!(fill(&profile, &torn, run, &mut cells[..4]), refuse(NO_CODEWORD, 0));
    assert_eq!(cells, [UNTOUCHED; 9]);
}

/// Where the look accepts, its fill leaves what the mender leaves, and answers are the same. A run that both call thin is filled all the same.
#[test]
fn a_look_and_its_fill_are_the_mender() {
    let mut random = Random::new(75);
    let mut counts = [0; 17];
    for _ in 0..1_500 {
        let r = random.between(2, 8);
        let n = random.between(r + 1, 12);
        let limit = random.between(0, r - 1);
        let profile = Profile::from([n, r, random.between(0, 254), limit, 1]);
        let mut read = written(&profile, &mut random);
        let count = random.between(0, 3.min(n));
        random.change(&mut read, count);
        let mut corrected = vec![UNTOUCHED; n];
        let result = correct(&profile, &read, &mut corrected);
        assert_eq!(look(&profile, &read), result);
        if let Ok(Run { start, length }) = result {
            assert_eq!(outcome(&profile, &read, start, length), accepted(&corrected));
        } else if result == refuse(SPARSE, 0) {
            let (Run { start, length }, codeword) = shortest(&profile, &read).unwrap();
            assert_eq!(outcome(&profile, &read, start, length), accepted(&codeword));
        }
        counts[result.map_or_else(|refusal| usize::from(refusal.number), |_| 0)] += 1;
    }
    assert!(counts[0] > 200 && counts[3] > 200 && counts[16] > 10, "{counts:?}");
}
