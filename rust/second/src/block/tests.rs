//! Document 01's examples on blocks, document 02's rule on long but thin repairs, and the correction against an independent listing of all codewords.

use super::*;
use crate::fill::fill;
use crate::random::Random;
use crate::{cases, spots};

const UNTOUCHED: u8 = 170;

fn refused<T>(number: u8) -> Result<T, Refusal> {
    refuse(number, 0)
}

/// What the corrector answers, with a second buffer of the block's length, and what it leaves there. The look answers the same.
fn corrected(profile: &Profile, read: &[u8]) -> (Result<Run, Refusal>, Vec<u8>) {
    let mut cells = vec![UNTOUCHED; read.len()];
    let result = correct(profile, read, &mut cells);
    assert_eq!(look(profile, read), result);
    (result, cells)
}

#[test]
fn document_01_bench_sheet_of_corrections() {
    for case in cases::corrections() {
        let due = match case.expected {
            Ok((codeword, start, length)) => (Ok(Run { start, length }), codeword),
            Err(number) => (refused(number), [UNTOUCHED; 4]),
        };
        assert_eq!(corrected(&case.profile, &case.read), (due.0, due.1.to_vec()));
    }
}

#[test]
fn document_01_written_blocks() {
    for (profile, message, expected) in cases::written_blocks() {
        let mut cells = vec![UNTOUCHED; expected.len()];
        assert_eq!(write(&profile, &message, &mut cells), Ok(()));
        assert_eq!(cells, expected);
        assert_eq!(is_codeword(&profile, &cells), Ok(true));
    }
}

/// Every profile number just outside its range, on every entry, with buffers of wrong length too.
#[test]
fn profile_range_comes_first() {
    let huge = [
        [usize::MAX, 3, 0, 0, 1],
        [4, usize::MAX, 0, 0, 1],
        [4, 3, usize::MAX, 0, 1],
        [4, 3, 0, usize::MAX, 1],
    ];
    let huge = huge.map(Profile::from);
    for profile in cases::profiles_out_of_range().into_iter().chain(huge) {
        let mut cells = [UNTOUCHED; 9];
        for length in [0, 4, 9] {
            assert_eq!(is_codeword(&profile, &cells[..length]), refused(PROFILE_RANGE));
            assert_eq!(look(&profile, &cells[..length]), refused(PROFILE_RANGE));
            assert_eq!(write(&profile, &[1], &mut cells[..length]), refused(PROFILE_RANGE));
            assert_eq!(correct(&profile, &[0; 4], &mut cells[..length]), refused(PROFILE_RANGE));
        }
        assert_eq!(cells, [UNTOUCHED; 9]);
    }
}

#[test]
fn extreme_profiles_are_accepted() {
    for numbers in [
        [3, 2, 0, 0, 1],
        [255, 64, 254, 63, 16],
        [65, 64, 0, 63, 1],
        [255, 2, 254, 1, 16],
    ] {
        assert_eq!(Profile::from(numbers).check(), Ok(()));
    }
}

#[test]
fn lengths_come_second() {
    let profile = Profile::from([4, 3, 0, 2, 1]);
    let mut cells = [UNTOUCHED; 9];
    for (first, second) in [(3, 4), (5, 4), (0, 4), (4, 3), (4, 5), (4, 0)] {
        assert_eq!(
            correct(&profile, &vec![9; first], &mut cells[..second]),
            refused(BUFFER_LENGTH)
        );
    }
    for (first, second) in [(0, 4), (2, 4), (1, 3), (1, 5)] {
        assert_eq!(
            write(&profile, &vec![1; first], &mut cells[..second]),
            refused(BUFFER_LENGTH)
        );
    }
    for length in [0, 3, 5] {
        assert_eq!(is_codeword(&profile, &vec![0; length]), refused(BUFFER_LENGTH));
        assert_eq!(look(&profile, &vec![0; length]), refused(BUFFER_LENGTH));
    }
    assert_eq!(cells, [UNTOUCHED; 9]);
}

/// The verdict by listing all codewords of a block with one message byte: the shortest run that covers
/// all cells in which the two differ.
fn by_listing(profile: &Profile, read: &[u8]) -> Result<(Run, Vec<u8>), Refusal> {
    let mut reached: Vec<(Run, Vec<u8>)> = Vec::new();
    for message in 0..=255u8 {
        let mut codeword = vec![0; profile.n];
        write(profile, &[message], &mut codeword).unwrap();
        reached.push((Run::between(read, &codeword), codeword));
    }
    let least = reached.iter().map(|(run, _)| run.length).min().unwrap();
    reached.retain(|(run, _)| run.length == least);
    match &reached[..] {
        _ if least > profile.limit => refused(NO_CODEWORD),
        [(_, codeword)] if is_sparse(profile.r, least, read, codeword) => refused(SPARSE),
        [_] => Ok(reached.remove(0)),
        _ => refused(AMBIGUOUS),
    }
}

/// Note 7 by distance: longer than half of r, and of the run's cells no more are wrong than right. Outside the run none is wrong.
fn is_sparse(r: usize, length: usize, read: &[u8], codeword: &[u8]) -> bool {
    let wrong = (0..read.len()).filter(|&i| read[i] != codeword[i]).count();
    length > r - length && wrong <= length - wrong
}

#[test]
fn agrees_with_listing_all_codewords() {
    let mut random = Random::new(21);
    let mut counts = [0; 17];
    for round in 0..1_200 {
        let r = random.between(2, 9);
        let b = random.between(0, 254);
        let limit = random.between(0, r - 1);
        let profile = Profile::from([r + 1, r, b, limit, 1]);
        let mut read = vec![0; r + 1];
        write(&profile, &[random.byte()], &mut read).unwrap();
        if round % 4 == 0 {
            // Half of the zero codeword, so that two codewords are equally near.
            read[r.div_ceil(2)..].fill(0);
            read[r / 2] = random.byte();
        }
        for _ in 0..round % 4 {
            read[random.between(0, r)] = random.byte();
        }
        let (result, cells) = corrected(&profile, &read);
        let expected = by_listing(&profile, &read);
        assert_eq!(result, expected.clone().map(|(run, _)| run));
        assert_eq!(cells, expected.map_or(vec![UNTOUCHED; r + 1], |(_, codeword)| codeword));
        counts[result.map_or_else(|refusal| usize::from(refusal.number), |_| 0)] += 1;
    }
    let [accepted, torn, tied, sparse] = [0, 3, 4, 16].map(|number| counts[number]);
    assert!(accepted > 100 && torn > 100 && tied > 10 && sparse > 20, "{counts:?}");
}

/// The same search, with each run's system solved afresh.
#[test]
fn agrees_with_solving_each_run_afresh() {
    let mut random = Random::new(22);
    for _ in 0..60 {
        let n = random.between(6, 24);
        let r = random.between(2, 5);
        let profile = Profile::from([n, r, random.between(0, 254), r - 1, 1]);
        let mut read = vec![0; n];
        write(&profile, &random.bytes(n - r), &mut read).unwrap();
        let width = random.between(0, r);
        let start = random.between(0, n - width);
        read[start..start + width].copy_from_slice(&random.bytes(width));
        let target = syndromes(&profile, &read);
        let columns: Vec<Vec<u8>> = (0..n).map(|cell| profile.column(cell)).collect();
        let starts = |length: usize| {
            let solved = |s: &usize| solve(&columns[*s..*s + length], &target) != Solutions::None;
            (0..=n - length).filter(solved).collect::<Vec<usize>>()
        };
        let least = (0..r).find(|&length| !starts(length).is_empty());
        match correct(&profile, &read, &mut vec![0; n]) {
            Ok(run) => {
                assert_eq!(Some(run.length), least);
                assert_eq!(run.start, starts(run.length)[0]);
            }
            Err(refusal) if refusal.number == NO_CODEWORD => assert_eq!(least, None),
            Err(refusal) => assert_eq!(refusal.number == AMBIGUOUS, starts(least.unwrap()).len() > 1),
        }
    }
}

#[test]
fn runs_up_to_h_come_back() {
    let mut random = Random::new(23);
    for (n, r, b) in [
        (255, 64, 254),
        (255, 16, 0),
        (100, 33, 120),
        (65, 64, 1),
        (3, 2, 17),
        (40, 7, 200),
    ] {
        let profile = Profile::from([n, r, b, r - 1, 1]);
        let mut codeword = vec![0; n];
        write(&profile, &random.bytes(n - r), &mut codeword).unwrap();
        let length = random.between(1, r / 2);
        for start in [0, n - length, random.between(0, n - length)] {
            let mut read = codeword.clone();
            read[start] ^= random.nonzero();
            read[start + length - 1] = codeword[start + length - 1] ^ random.nonzero();
            assert_eq!(
                corrected(&profile, &read),
                (Ok(Run { start, length }), codeword.clone())
            );
        }
    }
}

/// From the first to the last difference, at the edges of the word too; equal words, and words of no cells, have none.
#[test]
fn a_run_between_two_words() {
    let word = [1, 2, 3, 4];
    for (other, start, length) in [
        ([1, 2, 3, 4], 0, 0),
        ([9, 2, 3, 4], 0, 1),
        ([1, 2, 3, 9], 3, 1),
        ([1, 9, 9, 4], 1, 2),
        ([9, 2, 3, 9], 0, 4),
        ([1, 9, 3, 9], 1, 3),
    ] {
        assert_eq!(Run::between(&word, &other), Run { start, length });
    }
    assert_eq!(Run::between(&[], &[]), Run { start: 0, length: 0 });
}

/// A cyclic block of 255 cells with its first and last cell wrong: no run, as a run never wraps.
#[test]
fn a_run_never_wraps() {
    let profile = Profile::from([255, 8, 3, 2, 1]);
    let mut read = vec![0; 255];
    (read[0], read[254]) = (5, 6);
    assert_eq!(correct(&profile, &read, &mut [0; 255]), refused(NO_CODEWORD));
}

/// The table of repairs found by hand. The run that document 01 finds is there though it is thin; its fill and spot mode know no rule.
#[test]
fn document_02_repairs() {
    for case in cases::repairs() {
        let (profile, zeros) = (case.profile, vec![0; case.profile.n]);
        let due = match case.expected {
            Ok((start, length)) => (Ok(Run { start, length }), zeros.clone()),
            Err(number) => (refused(number), vec![UNTOUCHED; profile.n]),
        };
        assert_eq!(corrected(&profile, &case.read), due, "{profile:?} {:?}", case.read);
        if case.expected != Err(SPARSE) {
            assert_eq!(shortest(&profile, &case.read).map(|(run, _)| run), due.0);
            continue;
        }
        let changes = spots::changes(&case.read, &zeros);
        let (run, codeword) = shortest(&profile, &case.read).unwrap();
        assert_eq!(
            (run.start, run.changed(&case.read, &zeros)),
            (changes.lowest, changes.count)
        );
        let mut cells = vec![UNTOUCHED; profile.n];
        assert_eq!(fill(&profile, &case.read, run, &mut cells), Ok(()));
        assert_eq!((&codeword, &cells), (&zeros, &zeros));
        cells.fill(UNTOUCHED);
        assert_eq!(spots::correct(&profile, &case.read, &mut cells), Ok(changes));
        assert_eq!(cells, zeros);
    }
}

/// Whether of a run with these cells changed, the first and the last among them, no more than half is changed, and it is longer than half of r.
fn long_and_thin(r: usize, changed: &[bool]) -> bool {
    let right = changed.iter().filter(|&&is| !is).count();
    changed.len() > r / 2 && right >= changed.len() - right
}

/// Every way to choose which cells of a run of this length are changed, its first and its last being so.
fn choices(length: usize) -> Vec<Vec<bool>> {
    let inner = length.saturating_sub(2);
    let changed = |bits: usize, i: usize| i == 0 || i + 1 == length || bits >> (i - 1) & 1 == 1;
    (0..1 << inner)
        .map(|bits| (0..length).map(|i| changed(bits, i)).collect())
        .collect()
}

/// Every run of fewer than r cells and every choice of its changed cells, in small blocks. Where length and number of changed cells are at most r together, no
/// other codeword is within so short a run, two of them differing in more than r cells; so the answer is certain.
#[test]
fn exactly_long_and_thin_runs_are_refused() {
    let mut random = Random::new(24);
    let (mut sparse, mut dense, mut others) = (0, 0, 0);
    for (n, r, b) in [(9, 5, 0), (8, 6, 254), (12, 7, 77), (11, 8, 1), (12, 9, 200)] {
        let profile = Profile::from([n, r, b, r - 1, 1]);
        let mut codeword = vec![0; n];
        write(&profile, &random.bytes(n - r), &mut codeword).unwrap();
        for (start, changed) in (1..r)
            .flat_map(choices)
            .flat_map(|c| (0..=n - c.len()).map(move |s| (s, c.clone())))
        {
            let mut read = codeword.clone();
            for (cell, _) in read[start..].iter_mut().zip(&changed).filter(|(_, &is)| is) {
                *cell ^= random.nonzero();
            }
            let length = changed.len();
            let run = Run { start, length };
            let answer = corrected(&profile, &read);
            if shortest(&profile, &read) != Ok((run, codeword.clone())) {
                assert!(length + run.changed(&read, &codeword) > r);
                others += 1;
            } else if long_and_thin(r, &changed) {
                assert_eq!(answer, (refused(SPARSE), vec![UNTOUCHED; n]));
                sparse += 1;
            } else {
                assert_eq!(answer, (Ok(run), codeword.clone()));
                dense += 1;
            }
        }
    }
    assert!(
        sparse > 300 && dense > 1_000 && others < 50,
        "{sparse} {dense} {others}"
    );
}
