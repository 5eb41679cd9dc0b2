//! Random profiles, damage, lines, payloads and stand tables.

use second::generator::generator;
use second::random::Random;
use second::stand::State;
use second::{plot, Profile, Run};

/// The largest n and r of a profile to draw: brute force takes long on large ones.
#[derive(Clone, Copy)]
pub struct Size {
    pub n: usize,
    pub r: usize,
}

pub const SMALL: Size = Size { n: 12, r: 7 };
pub const MEDIUM: Size = Size { n: 60, r: 16 };
pub const LARGE: Size = Size { n: 255, r: 64 };

/// A profile in range. One in eight has the most cells or check cells that the size allows.
pub fn profile(random: &mut Random, size: Size) -> Profile {
    let r = match random.between(0, 7) {
        0 => size.r,
        _ => random.between(2, size.r),
    };
    let n = match random.between(0, 7) {
        0 => size.n,
        1 => (r + 1).max(3),
        _ => random.between((r + 1).max(3), size.n),
    };
    let b = match random.between(0, 7) {
        0 => 0,
        1 => 254,
        _ => random.between(0, 254),
    };
    let limit = match random.between(0, 3) {
        0 => r - 1,
        _ => random.between(0, r - 1),
    };
    let depth = random.between(1, 16);
    Profile { n, r, b, limit, depth }
}

/// A profile with an r of 5 and more and an L above half of r: with these a repair may be thin.
pub fn profile_of_long_runs(random: &mut Random, size: Size) -> Profile {
    let mut p = profile(random, size);
    p.r = p.r.max(5);
    p.n = p.n.max(p.r + 1);
    p.limit = random.between(p.r / 2 + 1, p.r - 1);
    p
}

/// A run longer than half of r, and no longer than L.
pub fn long_run(random: &mut Random, p: &Profile) -> Run {
    let length = random.between(p.r / 2 + 1, p.limit);
    let start = [0, p.n - length, random.between(0, p.n - length)][random.between(0, 2)];
    Run { start, length }
}

/// The cells with so many of a run changed, of which the first and the last are two.
pub fn with_run(random: &mut Random, written: &[u8], run: Run, changed: usize) -> Vec<u8> {
    let mut cells = written.to_vec();
    random.change_run(&mut cells[run.start..run.start + run.length], changed);
    cells
}

/// The cells with at most half of a long run changed, its first and its last among them: as near to half as that goes, or any number from two on.
pub fn with_sparse_run(random: &mut Random, p: &Profile, written: &[u8]) -> Vec<u8> {
    let run = long_run(random, p);
    let half = (run.length / 2).max(2);
    let changed = [half, random.between(2, half)][random.between(0, 1)];
    with_run(random, written, run, changed)
}

/// A profile with one number out of its range.
pub fn profile_out_of_range(random: &mut Random) -> Profile {
    let mut p = profile(random, MEDIUM);
    let far = [256, 257, 511, 65_536, usize::MAX - 1, usize::MAX][random.between(0, 5)];
    match random.between(0, 9) {
        0 => p.n = random.between(0, p.r),
        1 => p.n = far,
        2 => p.r = random.between(0, 1),
        3 => p.r = random.between(p.n, 300),
        4 => p.r = far,
        5 => p.b = [255, far][random.between(0, 1)],
        6 => p.limit = p.r,
        7 => p.limit = far,
        8 => p.depth = 0,
        _ => p.depth = [17, far][random.between(0, 1)],
    }
    p
}

/// A length that is not the due one.
pub fn wrong_length(random: &mut Random, due: usize) -> usize {
    match random.between(0, 3) {
        0 => due + 1,
        1 => due - 1,
        2 if due != 0 => 0,
        _ => due + random.between(1, 40),
    }
}

/// A length of the scratch that is not the due one: D × n, which the reader took before document 02's Note 6, or any other.
pub fn wrong_scratch(random: &mut Random, p: &Profile) -> usize {
    match random.between(0, 1) {
        0 if p.depth > 1 => p.depth * p.n,
        _ => wrong_length(random, p.n),
    }
}

/// Adds a nonzero byte to each cell of a run with this start and length.
pub fn scratch(random: &mut Random, cells: &mut [u8], start: usize, length: usize) {
    for cell in &mut cells[start..start + length] {
        *cell ^= random.nonzero();
    }
}

/// A run of at most `most` cells, some of them left as they were.
pub fn run(random: &mut Random, cells: &mut [u8], most: usize) {
    let length = random.between(0, most.min(cells.len()));
    let start = random.between(0, cells.len() - length);
    for cell in &mut cells[start..start + length] {
        *cell = random.byte();
    }
}

/// How the cells of a written block are changed.
pub const DAMAGES: [&str; 6] = ["clean", "one run", "two runs", "spots", "half a codeword", "noise"];

/// The written cells changed in the way named.
pub fn damaged(random: &mut Random, p: &Profile, written: &[u8], damage: &str) -> Vec<u8> {
    let mut cells = written.to_vec();
    match damage {
        "clean" => {}
        "one run" => run(random, &mut cells, p.limit + 1),
        "two runs" => {
            run(random, &mut cells, p.limit.max(1));
            run(random, &mut cells, p.limit.max(1));
        }
        "spots" => {
            for _ in 0..random.between(1, p.r) {
                let cell = random.between(0, p.n - 1);
                scratch(random, &mut cells, cell, 1);
            }
        }
        "half a codeword" => add_half_codeword(random, p, &mut cells),
        _ => cells = random.bytes(p.n),
    }
    cells
}

/// The first cells of a codeword of r+1 neighbours: as near to one codeword as to another if they are half of them.
fn add_half_codeword(random: &mut Random, p: &Profile, cells: &mut [u8]) {
    let start = random.between(0, p.n - p.r - 1);
    let count = p.r.div_ceil(2);
    for (cell, coefficient) in cells[start..].iter_mut().zip(generator(p.b, p.r)).take(count) {
        *cell ^= coefficient;
    }
}

/// A start and a length at an edge of what is a run of fewer than r cells, or any such run.
pub fn span(random: &mut Random, p: &Profile) -> Run {
    let lengths = [0, 1, p.limit, p.limit + 1, p.r - 1, p.r, p.n];
    let length = match random.between(0, 2) {
        0 => lengths[random.between(0, 6)],
        _ => random.between(0, p.r - 1),
    };
    let last = p.n - length;
    let starts = [0, last, last + 1, p.n - 1, p.n, p.n + 1];
    let start = match random.between(0, 2) {
        0 => starts[random.between(0, 5)],
        _ => random.between(0, last),
    };
    Run { start, length }
}

/// A start and a length of which one or both are far past the block; some sums are small modulo 2^64, some numbers modulo 2^32.
pub fn far_span(random: &mut Random, p: &Profile) -> Run {
    let Run { start, length } = span(random, p);
    let near = random.between(0, p.n + 1);
    let far = [usize::MAX, usize::MAX - near, (1 << 63) + near, (1 << 32) + near][random.between(0, 3)];
    match random.between(0, 3) {
        0 => Run { start: far, length },
        1 => Run { start, length: far },
        2 => Run {
            start: far,
            length: far,
        },
        // the sum is 2^64
        _ => Run {
            start: usize::MAX - length,
            length: length + 1,
        },
    }
}

/// Lines that rise and are in range, at most `most` of them.
pub fn lines(random: &mut Random, most: usize) -> Vec<u8> {
    let count = random.between(0, most);
    let mut pairs: Vec<(u8, u8)> = (0..count)
        .map(|_| (random.between(1, 99) as u8, random.between(1, 200) as u8))
        .collect();
    pairs.sort_unstable();
    pairs.dedup();
    let count_of = |random: &mut Random| random.nonzero();
    pairs
        .into_iter()
        .flat_map(|(species, class)| [species, class, count_of(random)])
        .collect()
}

/// One of the lines made bad: its species, class or count out of range, or a pair that is not above the line before, where there is one. The first and
/// the last line come up more often than the others.
pub fn spoil(random: &mut Random, lines: &mut [u8]) {
    let Some(last) = (lines.len() / 3).checked_sub(1) else {
        return;
    };
    let index = [0, last, random.between(0, last)][random.between(0, 2)];
    let (before, line) = lines.split_at_mut(3 * index);
    match (random.between(0, 3), before) {
        (0, _) => line[0] = [0, random.between(100, 255) as u8][random.between(0, 1)],
        (1, _) => line[1] = [0, random.between(201, 255) as u8][random.between(0, 1)],
        (2, _) => line[2] = 0,
        (_, [.., species, class, _]) => {
            line[0] = *species;
            line[1] = class.saturating_sub(random.between(0, 1) as u8);
        }
        _ => {}
    }
}

/// Lines of which some four in ten have a fault: a byte changed, a length that is not in threes or too long, or bad values, in one line or two.
pub fn any_lines(random: &mut Random) -> Vec<u8> {
    let mut bytes = lines(random, 6);
    match random.between(0, 10) {
        0 if !bytes.is_empty() => {
            let place = random.between(0, bytes.len() - 1);
            bytes[place] = random.byte();
        }
        1 => bytes.push(random.byte()),
        2 => {
            let length = random.between(118, 126);
            bytes = random.bytes(length);
        }
        3 => bytes = lines(random, 40),
        4 => {
            bytes = lines(random, 40);
            spoil(random, &mut bytes);
        }
        5 => {
            spoil(random, &mut bytes);
            spoil(random, &mut bytes);
        }
        _ => {}
    }
    bytes
}

/// Records of rising plot numbers, then zeros.
pub fn good_payload(random: &mut Random) -> Vec<u8> {
    let mut payload = Vec::new();
    let mut number = 0;
    for _ in 0..random.between(0, 5) {
        number += random.between(1, 400);
        let most = [3, 3, 3, 40][random.between(0, 3)];
        payload.extend(plot::record(number as u16, &lines(random, most)));
    }
    let most = [12, 60, 200][random.between(0, 2)];
    payload.resize(payload.len() + random.between(0, most), 0);
    payload
}

/// Bad values in one of the records of a good payload, in one line or two.
fn spoil_record(random: &mut Random, payload: &mut [u8]) {
    let records = plot::records(payload).unwrap_or_default();
    if records.is_empty() {
        return;
    }
    let record = records[random.between(0, records.len() - 1)].clone();
    let lines = &mut payload[record.start + plot::HEADER..record.end];
    for _ in 0..random.between(1, 2) {
        spoil(random, lines);
    }
}

/// A payload that is good, changed in one byte, its length or the values of a record, or random.
pub fn payload(random: &mut Random) -> Vec<u8> {
    let mut payload = good_payload(random);
    match random.between(0, 10) {
        0..=2 if !payload.is_empty() => {
            let place = random.between(0, payload.len() - 1);
            payload[place] = [random.byte(), 0, 0x50, 1][random.between(0, 3)];
        }
        3 => payload.truncate(payload.len() - random.between(0, payload.len().min(9))),
        4 => {
            let start = random.between(0, payload.len());
            payload.splice(start..start, [0x50, 0x4C, 7, 0, 0]);
        }
        5 => {
            let length = random.between(0, 20);
            payload = random.bytes(length);
        }
        6 => {
            let length = random.between(4044, 4052);
            payload.resize(length, 0);
        }
        7 => spoil_record(random, &mut payload),
        _ => {}
    }
    payload
}

/// A species list of so many different numbers in range. It is accepted if these are at most 16.
pub fn species(random: &mut Random, count: usize) -> Vec<u8> {
    let numbers = random.distinct(99, count).into_iter();
    numbers.map(|number| number as u8 + 1).collect()
}

/// A species list that is refused: with a number out of range or a repeat, or too long.
pub fn bad_species(random: &mut Random) -> Vec<u8> {
    let count = random.between(1, 15);
    let mut list = species(random, count);
    let place = random.between(0, count);
    match random.between(0, 4) {
        0 => list.insert(place, 0),
        1 => list.insert(place, random.between(100, 255) as u8),
        2 => list.insert(place, list[random.between(0, count - 1)]),
        3 => list = species(random, 17),
        _ => {
            let length = random.between(17, 600);
            list = random.bytes(length);
        }
    }
    list
}

/// The most that a cell or a counter of a state may be.
pub const MOST: u32 = 400_000_000;

/// A state that is accepted: cells of any size or mostly zero, and fewer than 1,000 payloads.
pub fn state(random: &mut Random) -> State {
    let mut state = State {
        payloads: random.between(0, 999) as u32,
        records: [0, random.between(0, 9), random.between(0, 400_000_000)][random.between(0, 2)] as u32,
        ..State::EMPTY
    };
    let most = [0, 40, 400_000_000][random.between(0, 2)];
    for cell in state.cells.as_flattened_mut() {
        *cell = [0, random.between(0, most), most][random.between(0, 2)] as u32;
    }
    state
}

/// Puts a number above the limit into a cell or a counter.
pub fn overfill(random: &mut Random, state: &mut State) {
    let above = [MOST + 1, u32::MAX, random.between(400_000_001, 4_294_967_295) as u32][random.between(0, 2)];
    match random.between(0, 3) {
        0 => state.payloads = above,
        1 => state.records = above,
        _ => state.cells.as_flattened_mut()[random.between(0, 339)] = above,
    }
}
