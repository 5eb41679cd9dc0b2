//! Sheets: D blocks, interleaved cell by cell, and the payload that their messages make.
//! Sheet cell p is cell p/D of block p mod D; payload byte q is message byte q mod k of block q/k.

use crate::block::{self, check_lengths, Profile};
use crate::mode::Mode;
use crate::refusal::Refusal;

/// The cells of one block of a sheet.
fn block_of(profile: &Profile, sheet: &[u8], block: usize) -> Vec<u8> {
    let cells = (0..sheet.len()).filter(|p| p % profile.depth == block);
    cells.map(|p| sheet[p]).collect()
}

/// The sheet writer.
pub fn write(profile: &Profile, payload: &[u8], sheet: &mut [u8]) -> Result<(), Refusal> {
    profile.check()?;
    let Profile { n, depth, .. } = *profile;
    check_lengths(&[(payload.len(), depth * profile.k()), (sheet.len(), depth * n)])?;
    let mut blocks = vec![vec![0; n]; depth];
    for (block, cells) in blocks.iter_mut().enumerate() {
        let first = block * profile.k();
        block::write(profile, &payload[first..first + profile.k()], cells)?;
    }
    for (p, cell) in sheet.iter_mut().enumerate() {
        *cell = blocks[p % depth][p / depth];
    }
    Ok(())
}

/// The sheet reader of document 01.
pub fn read(profile: &Profile, sheet: &[u8], scratch: &mut [u8], payload: &mut [u8]) -> Result<usize, Refusal> {
    read_in(Mode::Burst, profile, sheet, scratch, payload)
}

/// The sheet reader in this mode, with a scratch of n bytes (document 02, Note 6); the result is the number of blocks changed.
pub fn read_in(
    mode: Mode,
    profile: &Profile,
    sheet: &[u8],
    scratch: &mut [u8],
    payload: &mut [u8],
) -> Result<usize, Refusal> {
    profile.check()?;
    let Profile { n, depth, .. } = *profile;
    check_lengths(&[
        (sheet.len(), depth * n),
        (scratch.len(), n),
        (payload.len(), depth * profile.k()),
    ])?;
    let result = correct_blocks(mode, profile, sheet, scratch);
    scratch.fill(0);
    let (messages, changed) = result?;
    payload.copy_from_slice(&messages);
    Ok(changed)
}

/// Corrects the blocks in turn, each into the scratch: all messages, and the number of blocks changed. Ends at the lowest refused.
fn correct_blocks(
    mode: Mode,
    profile: &Profile,
    sheet: &[u8],
    scratch: &mut [u8],
) -> Result<(Vec<u8>, usize), Refusal> {
    let (mut messages, mut changed) = (Vec::new(), 0);
    for number in 0..profile.depth {
        let cells = block_of(profile, sheet, number);
        let in_block = |refusal: Refusal| Refusal {
            place: number,
            ..refusal
        };
        mode.correct(profile, &cells, scratch).map_err(in_block)?;
        messages.extend(&scratch[profile.r..]);
        changed += usize::from(cells != scratch);
    }
    Ok((messages, changed))
}

#[cfg(test)]
mod tests {
    use super::*;
    use crate::cases;
    use crate::random::Random;
    use crate::refusal::{refuse, AMBIGUOUS, BUFFER_LENGTH, NO_CODEWORD, NO_CODEWORD_NEAR, PROFILE_RANGE};

    #[test]
    fn document_01_written_sheet() {
        let profile = Profile::from([4, 3, 0, 0, 2]);
        let mut sheet = [170; 8];
        assert_eq!(write(&profile, &[1, 0], &mut sheet), Ok(()));
        assert_eq!(sheet, [8, 0, 14, 0, 7, 0, 1, 0]);
    }

    /// A random profile, its payload and its written sheet.
    fn random_sheet(random: &mut Random) -> (Profile, Vec<u8>, Vec<u8>) {
        let r = random.between(2, 12);
        let n = random.between(r + 1, r + 20);
        let b = random.between(0, 254);
        let limit = random.between(r / 2, r - 1);
        let depth = random.between(1, 16);
        let profile = Profile { n, r, b, limit, depth };
        let payload = random.bytes(depth * (n - r));
        let mut sheet = vec![170; depth * n];
        write(&profile, &payload, &mut sheet).unwrap();
        (profile, payload, sheet)
    }

    #[test]
    fn written_sheets_come_back_within_the_promise() {
        let mut random = Random::new(31);
        for _ in 0..120 {
            let (profile, payload, written) = random_sheet(&mut random);
            let length = random.between(0, profile.depth * profile.h());
            let start = random.between(0, written.len() - length);
            let mut sheet = written.clone();
            sheet[start..start + length].copy_from_slice(&random.bytes(length));
            let changed = (0..profile.depth)
                .filter(|&t| block_of(&profile, &sheet, t) != block_of(&profile, &written, t))
                .count();
            let mut scratch = random.bytes(profile.n);
            let mut found = random.bytes(payload.len());
            assert_eq!(read(&profile, &sheet, &mut scratch, &mut found), Ok(changed));
            assert_eq!(found, payload);
            assert!(scratch.iter().all(|&x| x == 0));
        }
    }

    /// Up to h cells of each block changed, wherever they lie and whatever L is.
    #[test]
    fn written_sheets_come_back_in_spot_mode() {
        let mut random = Random::new(32);
        for _ in 0..120 {
            let (mut profile, payload, written) = random_sheet(&mut random);
            profile.limit = random.between(0, profile.r - 1);
            let mut sheet = written.clone();
            for t in 0..profile.depth {
                for _ in 0..random.between(0, profile.h()) {
                    sheet[random.between(0, profile.n - 1) * profile.depth + t] = random.byte();
                }
            }
            let changed = (0..profile.depth)
                .filter(|&t| block_of(&profile, &sheet, t) != block_of(&profile, &written, t))
                .count();
            let mut scratch = random.bytes(profile.n);
            let mut found = random.bytes(payload.len());
            let result = read_in(Mode::Spots, &profile, &sheet, &mut scratch, &mut found);
            assert_eq!((result, &found), (Ok(changed), &payload));
            assert!(scratch.iter().all(|&x| x == 0));
        }
    }

    /// Blocks 8 14 7 1 (clean), 9 14 7 1 (changed), 8 14 0 0 (tied with 2), 9 14 7 0 (torn with 2) of document 01; both of the latter are spotted in
    /// spot mode.
    #[test]
    fn the_lowest_refused_block_is_named() {
        let [clean, changed] = [[8, 14, 7, 1], [9, 14, 7, 1]];
        let [ambiguous, unreachable] = [[8, 14, 0, 0], [9, 14, 7, 0]];
        let table = [
            ([clean, ambiguous, unreachable], AMBIGUOUS, 1),
            ([unreachable, clean, ambiguous], NO_CODEWORD, 0),
            ([clean, clean, unreachable], NO_CODEWORD, 2),
            ([changed, changed, unreachable], NO_CODEWORD, 2),
            ([changed, changed, ambiguous], AMBIGUOUS, 2),
            ([ambiguous, unreachable, unreachable], AMBIGUOUS, 0),
        ];
        for (blocks, number, place) in table {
            let profile = Profile::from([4, 3, 0, 2, 3]);
            let sheet: Vec<u8> = (0..12).map(|p| blocks[p % 3][p / 3]).collect();
            for (mode, number) in [(Mode::Burst, number), (Mode::Spots, NO_CODEWORD_NEAR)] {
                let (mut scratch, mut payload) = ([170; 4], [170; 3]);
                let result = read_in(mode, &profile, &sheet, &mut scratch, &mut payload);
                assert_eq!(result, refuse(number, place));
                assert_eq!((scratch, payload), ([0; 4], [170; 3]));
            }
        }
    }

    /// Document 02, Note 7, by hand: in scratch mode the lowest refused block is named, be it thin, torn or tied. Spot mode knows no such rule: it refuses
    /// a block of more than three changed cells, and a thin one has at most three.
    #[test]
    fn sparse_blocks_are_refused_in_their_turn() {
        for case in cases::repair_sheets() {
            let Profile { n, r, depth, .. } = case.profile;
            let wrong = |block: usize| {
                block_of(&case.profile, &case.cells, block)
                    .iter()
                    .filter(|&&x| x != 0)
                    .count()
            };
            let spotted = (0..depth).find(|&block| wrong(block) > r / 2);
            let spots = match spotted {
                Some(block) => refuse(NO_CODEWORD_NEAR, block),
                None => Ok((0..depth).filter(|&block| wrong(block) > 0).count()),
            };
            let burst = case.expected.or_else(|(number, block)| refuse(number, block));
            for (mode, due) in [(Mode::Burst, burst), (Mode::Spots, spots)] {
                let (mut scratch, mut payload) = (vec![170; n], vec![170; depth * (n - r)]);
                let result = read_in(mode, &case.profile, &case.cells, &mut scratch, &mut payload);
                let left = if due.is_ok() { 0 } else { 170 };
                assert_eq!(result, due);
                assert_eq!((scratch, payload), (vec![0; n], vec![left; depth * (n - r)]));
            }
        }
    }

    #[test]
    fn refusals_1_and_2_leave_every_buffer() {
        for profile in cases::profiles_out_of_range() {
            let (mut sheet, mut scratch, mut payload) = ([170; 4], [170; 4], [170; 1]);
            assert_eq!(write(&profile, &[1, 2], &mut sheet), refuse(PROFILE_RANGE, 0));
            for mode in Mode::ALL {
                let result = read_in(mode, &profile, &sheet, &mut scratch, &mut payload);
                assert_eq!(result, refuse(PROFILE_RANGE, 0));
            }
            assert_eq!((sheet, scratch, payload), ([170; 4], [170; 4], [170; 1]));
        }
        let profile = Profile::from([4, 3, 0, 2, 2]);
        for [a, b, c] in cases::WRONG_LENGTHS {
            let (mut sheet, mut scratch, mut payload) = (vec![170; a], vec![170; b], vec![170; c]);
            for mode in Mode::ALL {
                let result = read_in(mode, &profile, &sheet, &mut scratch, &mut payload);
                assert_eq!(result, refuse(BUFFER_LENGTH, 0));
            }
            if (a, c) != (8, 2) {
                assert_eq!(write(&profile, &payload, &mut sheet), refuse(BUFFER_LENGTH, 0));
            }
            assert!([sheet, scratch, payload].concat().iter().all(|&x| x == 170));
        }
    }

    #[test]
    fn the_scratch_has_n_bytes() {
        let lengths = |(depth, lengths): (usize, &'static [usize])| lengths.iter().map(move |&length| (depth, length));
        for (depth, length) in cases::SCRATCHES.into_iter().flat_map(lengths) {
            let profile = Profile::from([4, 3, 0, 2, depth]);
            let sheet = [9, 14, 7, 1].map(|cell| vec![cell; depth]).concat();
            let due = if length == 4 {
                (Ok(depth), vec![0; length], vec![1; depth])
            } else {
                (refuse(BUFFER_LENGTH, 0), vec![170; length], vec![170; depth])
            };
            for mode in Mode::ALL {
                let (mut scratch, mut payload) = (vec![170; length], vec![170; depth]);
                let result = read_in(mode, &profile, &sheet, &mut scratch, &mut payload);
                assert_eq!((result, scratch, payload), due);
            }
        }
    }
}
