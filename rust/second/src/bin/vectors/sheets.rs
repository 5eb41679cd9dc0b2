//! Vectors for sheets, written and read, and for the lister.

use crate::vector::{answer, profile_fields, Field, Vector};
use crate::{blocks, repairs};
use second::random::Random;
use second::{cases, lister, plot, sheet, Mode, Profile};

/// n, r, b, L and D of the random sheets.
pub const PROFILES: [[usize; 5]; 10] = [
    [3, 2, 0, 1, 8],
    [4, 3, 0, 2, 2],
    [20, 8, 7, 7, 5],
    [12, 5, 200, 2, 16],
    [30, 10, 100, 5, 3],
    [16, 4, 31, 2, 16],
    [65, 64, 1, 32, 2],
    [90, 21, 17, 20, 4],
    [255, 64, 254, 63, 1],
    [255, 16, 0, 8, 16],
];

fn write_vector(profile: &Profile, payload: &[u8], mut cells: Vec<u8>) -> Vector {
    let mut fields = vec![Field::Byte(0)];
    fields.extend(profile_fields(profile));
    fields.extend([Field::Bytes(payload.into()), Field::Bytes(cells.clone())]);
    let numbers = match sheet::write(profile, payload, &mut cells) {
        Ok(()) => [0, 0],
        Err(refusal) => [refusal.number.into(), refusal.place],
    };
    Vector {
        fields,
        answer: answer(&numbers, &[&cells]),
    }
}

fn read_vector(profile: &Profile, cells: &[u8], scratch: Vec<u8>, payload: Vec<u8>) -> Vector {
    read_vector_in(Mode::Burst, profile, cells, scratch, payload)
}

pub fn read_vector_in(
    mode: Mode,
    profile: &Profile,
    cells: &[u8],
    mut scratch: Vec<u8>,
    mut payload: Vec<u8>,
) -> Vector {
    let mut fields = vec![Field::Byte(1)];
    fields.extend(profile_fields(profile));
    fields.extend([cells, &scratch, &payload].map(|buffer| Field::Bytes(buffer.into())));
    let numbers = match sheet::read_in(mode, profile, cells, &mut scratch, &mut payload) {
        Ok(changed) => [0, changed],
        Err(refusal) => [refusal.number.into(), refusal.place],
    };
    Vector {
        fields,
        answer: answer(&numbers, &[&scratch, &payload]),
    }
}

/// Replaces the cells of a run of the sheet.
pub fn damage(cells: &[u8], length: usize, random: &mut Random) -> Vec<u8> {
    let mut damaged = cells.to_vec();
    let start = random.between(0, cells.len() - length);
    damaged[start..start + length].copy_from_slice(&random.bytes(length));
    damaged
}

/// Replaces all cells of the blocks from this one on by noise.
pub fn damage_blocks(profile: &Profile, cells: &[u8], from: usize, random: &mut Random) -> Vec<u8> {
    let noise = random.bytes(cells.len());
    let choose = |p: usize| if p % profile.depth < from { cells[p] } else { noise[p] };
    (0..cells.len()).map(choose).collect()
}

/// Written, then read clean or damaged within the promise, beyond it, and with its last blocks lost.
fn random_sheets(profile: &Profile, random: &mut Random) -> Vec<Vector> {
    let (cells, bytes) = (profile.depth * profile.n, profile.depth * profile.k());
    let payload = random.bytes(bytes);
    let mut written = vec![0; cells];
    sheet::write(profile, &payload, &mut written).expect("a good profile");
    let promise = profile.depth * profile.h();
    let within = random.between(promise / 2, promise);
    let beyond = random.between(promise + 1, profile.depth * profile.r);
    let from = random.between(profile.depth / 2, profile.depth - 1);
    let mut sheets = vec![damage(&written, within, random), damage(&written, beyond, random)];
    sheets.push(damage_blocks(profile, &written, from, random));
    if profile.n < 30 {
        sheets.push(written);
    }
    let mut vectors = vec![write_vector(profile, &payload, random.bytes(cells))];
    for damaged in sheets {
        let (scratch, payload) = (scratch(profile, random), random.bytes(bytes));
        vectors.push(read_vector(profile, &damaged, scratch, payload));
    }
    vectors
}

/// A scratch of n bytes. D × n are drawn, as many as it had before document 02's Note 6, so that all else in the vectors is as it was.
pub fn scratch(profile: &Profile, random: &mut Random) -> Vec<u8> {
    let mut bytes = random.bytes(profile.depth * profile.n);
    bytes.truncate(profile.n);
    bytes
}

/// The sheet of these blocks.
fn interleaved<Block: AsRef<[u8]>>(blocks: &[Block]) -> Vec<u8> {
    let depth = blocks.len();
    let cells = blocks.iter().map(|block| block.as_ref().len()).sum();
    (0..cells).map(|p| blocks[p % depth].as_ref()[p / depth]).collect()
}

/// Sheets of document 01's blocks 8 14 7 1 (clean), 9 14 7 1 (one cell changed), 8 14 0 0 (tied) and 9 14 7 0 (torn), L being 2; no codeword is within
/// h of the latter two.
pub fn lowest_refused(mode: Mode) -> Vec<Vector> {
    let [clean, changed] = [[8, 14, 7, 1], [9, 14, 7, 1]];
    let [ambiguous, unreachable] = [[8, 14, 0, 0], [9, 14, 7, 0]];
    let rows = [
        [clean, ambiguous, unreachable],
        [unreachable, clean, ambiguous],
        [clean, clean, unreachable],
        [ambiguous, unreachable, unreachable],
        [clean; 3],
        [changed, changed, unreachable],
        [changed, changed, ambiguous],
        [changed, clean, unreachable],
        [changed, clean, changed],
    ];
    let vector = |blocks: [[u8; 4]; 3]| {
        let profile = Profile::from([4, 3, 0, 2, 3]);
        read_vector_in(mode, &profile, &interleaved(&blocks), vec![170; 4], vec![170; 3])
    };
    rows.map(vector).into()
}

/// Sheets of blocks 9 14 7 1, each with one cell to change, with scratches of n bytes, of D × n, and of other lengths.
pub fn scratch_lengths(mode: Mode) -> Vec<Vector> {
    let vectors = |(depth, lengths): (usize, &[usize])| {
        let profile = Profile::from([4, 3, 0, 2, depth]);
        let cells = interleaved(&vec![[9, 14, 7, 1]; depth]);
        let vector = |&length: &usize| read_vector_in(mode, &profile, &cells, vec![170; length], vec![170; depth]);
        lengths.iter().map(vector).collect::<Vec<_>>()
    };
    cases::SCRATCHES.into_iter().flat_map(vectors).collect()
}

/// Changes a block of a sheet, in a way that is brought back in all sheets here: h cells, or a run that starts later and is shorter than that of the block before. The
/// run of block 0 is its first L cells.
fn change(mode: Mode, profile: &Profile, number: usize, cells: &mut [u8], random: &mut Random) {
    match mode {
        Mode::Burst => {
            let length = profile.limit - number;
            let start = number * (profile.n - length) / (profile.depth - 1);
            blocks::damage(cells, start, length, random);
        }
        Mode::Spots => random.change(cells, profile.h()),
    }
}

/// The random blocks of a sheet, those chosen by their number changed.
fn changed(mode: Mode, profile: &Profile, chosen: impl Fn(usize) -> bool, random: &mut Random) -> Vec<Vec<u8>> {
    let block = |number| {
        let mut cells = blocks::codeword(profile, random);
        if chosen(number) {
            change(mode, profile, number, &mut cells, random);
        }
        cells
    };
    (0..profile.depth).map(block).collect()
}

/// The sheet of these blocks read with a scratch of this length.
pub fn read_blocks(mode: Mode, profile: &Profile, blocks: &[Vec<u8>], scratch: usize, random: &mut Random) -> Vector {
    let (scratch, payload) = (random.bytes(scratch), random.bytes(profile.depth * profile.k()));
    read_vector_in(mode, profile, &interleaved(blocks), scratch, payload)
}

/// Sheets of sixteen blocks: all are changed; all, and the last is noise; all but the first, the first alone, and every second; all, with a scratch
/// of D × n bytes.
pub fn sixteen_blocks(mode: Mode, seed: u64) -> Vec<Vector> {
    let mut random = Random::new(seed);
    let (small, large) = (
        Profile::from([48, 34, 9, 16, 16]),
        Profile::from([255, 24, 254, 22, 16]),
    );
    let mut vectors = Vec::new();
    for profile in [small, large] {
        let mut blocks = changed(mode, &profile, |_| true, &mut random);
        vectors.push(read_blocks(mode, &profile, &blocks, profile.n, &mut random));
        blocks[15] = random.bytes(profile.n);
        vectors.push(read_blocks(mode, &profile, &blocks, profile.n, &mut random));
    }
    for chosen in [|t| t != 0, |t| t == 0, |t| t % 2 == 1] {
        let blocks = changed(mode, &small, chosen, &mut random);
        vectors.push(read_blocks(mode, &small, &blocks, small.n, &mut random));
    }
    let blocks = changed(mode, &small, |_| true, &mut random);
    vectors.push(read_blocks(mode, &small, &blocks, 16 * small.n, &mut random));
    vectors
}

/// Refusals 1 and 2 of the reader.
pub fn refused_reads(mode: Mode) -> (Vec<Vector>, Vec<Vector>) {
    let vector = |profile: &Profile, [a, b, c]: [usize; 3]| {
        read_vector_in(mode, profile, &vec![9; a], vec![170; b], vec![170; c])
    };
    let bad = cases::profiles_out_of_range().into_iter();
    let good = Profile::from([4, 3, 0, 2, 2]);
    (
        bad.map(|profile| vector(&profile, [4, 4, 1])).collect(),
        cases::WRONG_LENGTHS.map(|lengths| vector(&good, lengths)).into(),
    )
}

/// Refusals 1 and 2, 1 before 2.
fn refused() -> Vec<Vector> {
    let (bad_profiles, wrong_lengths) = refused_reads(Mode::Burst);
    let mut vectors = Vec::new();
    for (bad, read) in cases::profiles_out_of_range().into_iter().zip(bad_profiles) {
        vectors.extend([write_vector(&bad, &[1], vec![170; 4]), read]);
    }
    vectors.extend(wrong_lengths);
    let good = Profile::from([4, 3, 0, 2, 2]);
    for (a, b) in [(1, 8), (3, 8), (2, 7), (2, 9), (0, 0)] {
        vectors.push(write_vector(&good, &vec![9; a], vec![170; b]));
    }
    vectors
}

pub fn sheets() -> Vec<Vector> {
    let mut random = Random::new(201);
    let mut vectors = vec![write_vector(&Profile::from([4, 3, 0, 0, 2]), &[1, 0], vec![170; 8])];
    for numbers in PROFILES {
        vectors.extend(random_sheets(&Profile::from(numbers), &mut random));
    }
    vectors.extend(lowest_refused(Mode::Burst));
    vectors.extend(refused());
    vectors.extend(scratch_lengths(Mode::Burst));
    vectors.extend(sixteen_blocks(Mode::Burst, 203));
    vectors.extend(repairs::sheets(Mode::Burst, 204));
    vectors
}

/// The lister's inputs: those with texts found by hand, then written sheets of plots, damaged within the promise.
pub fn list_inputs() -> Vec<Vec<u8>> {
    let mut random = Random::new(202);
    let mut inputs: Vec<Vec<u8>> = cases::lists().into_iter().map(|(input, _)| input).collect();
    for numbers in PROFILES {
        let profile = Profile::from(numbers);
        let mut payload = vec![0; profile.depth * profile.k()];
        for number in [1, 256, 65535] {
            // A plot that finds no space is left out.
            let count = random.between(0, 40) as u8;
            let lines: Vec<u8> = (1..=count).flat_map(|i| [i * 2, 200, random.nonzero()]).collect();
            let _ = plot::add(&mut payload, number, &lines);
        }
        let mut cells = vec![0; profile.depth * profile.n];
        sheet::write(&profile, &payload, &mut cells).expect("a good profile");
        let damaged = damage(&cells, profile.depth * profile.h(), &mut random);
        inputs.push([&numbers.map(|x| x as u8)[..], &damaged].concat());
    }
    inputs
}

pub fn lists() -> Vec<Vector> {
    let vector = |input: Vec<u8>| {
        let text = lister::list(&input);
        Vector {
            answer: answer(&[text.len()], &[&text]),
            fields: vec![Field::Bytes(input)],
        }
    };
    list_inputs().into_iter().map(vector).collect()
}
