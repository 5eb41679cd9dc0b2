//! What the program should find on a sheet, by the second decoder, and sheets for it. The sheets are drawn from fixed seeds, so each run of the tests has the
//! same.

use second::generator::generator;
use second::gf::product;
use second::random::Random;
use second::{block, sheet, Profile, Run};

/// The run of a block and the cells in which its codeword differs.
pub type Found = (Run, Vec<usize>);

/// A block that can be mended or is clean, one that is thin, or the number of another refusal.
pub enum Expected {
    Accepted(Found),
    Sparse(Found),
    Refused(u8),
}

impl Expected {
    /// The program's word for a refusal, with its number.
    pub fn refusal(&self) -> Option<&'static str> {
        match self {
            Expected::Accepted(_) => None,
            Expected::Sparse(_) => Some("thin (16)"),
            Expected::Refused(3) => Some("torn (3)"),
            Expected::Refused(_) => Some("tied (4)"),
        }
    }

    /// What a reader would change, if it does not refuse the block.
    pub fn accepted(&self) -> Option<&Found> {
        match self {
            Expected::Accepted(found) => Some(found),
            _ => None,
        }
    }
}

/// The profile and the cells of an input.
pub fn parts(input: &[u8]) -> (Profile, &[u8]) {
    let (&numbers, cells) = input.split_first_chunk().expect("five bytes");
    (Profile::from(numbers.map(usize::from)), cells)
}

/// What is expected of each block.
pub fn blocks(input: &[u8]) -> Vec<Expected> {
    let (profile, _) = parts(input);
    let expected = |read: Vec<u8>| {
        let found = block::shortest(&profile, &read).map(|(run, codeword)| {
            let changed = (0..profile.n).filter(|&i| codeword[i] != read[i]);
            (run, changed.collect())
        });
        match (block::look(&profile, &read), found) {
            (Ok(_), Ok(found)) => Expected::Accepted(found),
            (Err(_), Ok(found)) => Expected::Sparse(found),
            (_, Err(refusal)) => Expected::Refused(refusal.number),
        }
    };
    read(input).into_iter().map(expected).collect()
}

/// The cells of each block.
pub fn read(input: &[u8]) -> Vec<Vec<u8>> {
    let (profile, cells) = parts(input);
    let block = |number| (0..profile.n).map(|i| cells[i * profile.depth + number]).collect();
    (0..profile.depth).map(block).collect()
}

/// An input of the longest sheet with a scratch of D × h cells: 16 blocks of 255 cells, of which 64 are check cells.
pub fn longest() -> Vec<u8> {
    let mut input = written([255, 64, 1, 32, 16], &mut Random::new(3));
    for cell in &mut input[1_005..1_005 + 16 * 32] {
        *cell ^= 0xA5;
    }
    input
}

/// The input of a sheet as written, with a payload at random.
fn written(numbers: [u8; 5], random: &mut Random) -> Vec<u8> {
    let profile = Profile::from(numbers.map(usize::from));
    with_payload(numbers, &random.bytes(profile.depth * profile.k()))
}

/// The input of a sheet as written, with this payload.
pub fn with_payload(numbers: [u8; 5], payload: &[u8]) -> Vec<u8> {
    let profile = Profile::from(numbers.map(usize::from));
    let mut cells = vec![0; profile.depth * profile.n];
    sheet::write(&profile, payload, &mut cells).expect("the profile is in range");
    [&numbers[..], &cells].concat()
}

/// Inputs of small sheets with any cells, with a block half way between two codewords, with some cells wrong anywhere, with thin runs, or with a scratch.
pub fn drawn(count: usize) -> Vec<Vec<u8>> {
    let mut random = Random::new(7);
    let draw = |_| {
        let n = random.between(3, 24);
        let r = random.between(2, (n - 1).min(9));
        let [b, limit, depth] = [(0, 254), (0, r - 1), (1, 16)].map(|(least, most)| random.between(least, most));
        let mut input = written([n, r, b, limit, depth].map(|x| x as u8), &mut random);
        match random.between(0, 5) {
            0 => input[5..].copy_from_slice(&random.bytes(depth * n)),
            1 if r % 2 == 1 => between_two(&mut input, random.between(0, depth - 1)),
            2 => random.change(&mut input[5..], depth.min(3)),
            3 if r >= 5 => sparse_runs(&mut input, &mut random),
            _ => scratch(&mut input[5..], depth * (r / 2), &mut random),
        }
        input
    };
    (0..count).map(draw).collect()
}

/// Half of a codeword of r + 1 neighbouring cells, which is the generator, added to a block.
fn between_two(input: &mut [u8], block: usize) {
    input[3] = input[1] - 1;
    let half = input[1].div_ceil(2);
    part_of_codeword(input, block, 0, half.into(), 1);
}

/// The first cells of a codeword of r + 1 neighbouring cells, a multiple of the generator from this cell on, added to a block: its other cells lead to another
/// codeword.
pub fn part_of_codeword(input: &mut [u8], block: usize, start: usize, cells: usize, factor: u8) {
    let (profile, _) = parts(input);
    for (i, &value) in generator(profile.b, profile.r)[..cells].iter().enumerate() {
        input[5 + (start + i) * profile.depth + block] ^= product(factor, value);
    }
}

/// Every second block gets a run longer than half of r, of which about half is changed.
fn sparse_runs(input: &mut [u8], random: &mut Random) {
    let (profile, _) = parts(input);
    input[3] = input[1] - 1;
    for block in (0..profile.depth).step_by(2) {
        let length = random.between(profile.r / 2 + 1, profile.r - 1);
        let start = random.between(0, profile.n - length);
        let changed = length / 2 + random.between(0, 1);
        let mut difference = vec![0; length];
        random.change_run(&mut difference, changed.max(2));
        for (i, value) in difference.into_iter().enumerate() {
            input[5 + (start + i) * profile.depth + block] ^= value;
        }
    }
}

/// Any bytes in a run of at most so many cells.
fn scratch(cells: &mut [u8], most: usize, random: &mut Random) {
    let length = random.between(0, most);
    let start = random.between(0, cells.len() - length);
    for cell in &mut cells[start..start + length] {
        *cell = random.byte();
    }
}
