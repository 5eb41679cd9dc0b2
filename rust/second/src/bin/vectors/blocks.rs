//! Vectors for one block: correction, writing, the codeword test, and generators.

use crate::repairs;
use crate::vector::{answer, profile_fields, Field, Vector};
use second::generator::generator;
use second::random::Random;
use second::{block, cases, gf, Profile};

/// What a lent buffer holds at entry.
pub const UNTOUCHED: u8 = 170;

/// A read block with its profile and the length of the second buffer.
pub type Input = (Profile, Vec<u8>, usize);

/// n, r and b.
pub type Size = (usize, usize, usize);

/// The sizes of the random vectors.
const SIZES: [Size; 12] = [
    (3, 2, 0),
    (3, 2, 254),
    (5, 4, 1),
    (7, 3, 2),
    (15, 6, 100),
    (40, 7, 253),
    (65, 64, 17),
    (100, 33, 200),
    (255, 2, 1),
    (255, 16, 120),
    (255, 64, 0),
    (255, 64, 254),
];

pub fn profile((n, r, b): Size, limit: usize, depth: usize) -> Profile {
    Profile { n, r, b, limit, depth }
}

pub fn codeword(profile: &Profile, random: &mut Random) -> Vec<u8> {
    let mut cells = vec![0; profile.n];
    block::write(profile, &random.bytes(profile.k()), &mut cells).expect("a good profile");
    cells
}

/// Changes cells within the run, its first and its last for certain.
pub fn damage(cells: &mut [u8], start: usize, length: usize, random: &mut Random) {
    for (i, cell) in cells[start..start + length].iter_mut().enumerate() {
        let end = i == 0 || i + 1 == length;
        *cell ^= if end { random.nonzero() } else { random.byte() };
    }
}

/// Document 01's rows, profiles out of range, and wrong lengths.
fn example_inputs() -> Vec<Input> {
    let rows = cases::corrections().into_iter();
    let mut inputs: Vec<Input> = rows.map(|case| (case.profile, case.read.into(), 4)).collect();
    inputs.extend(refused_inputs());
    inputs
}

/// Profiles out of range, and wrong lengths.
pub fn refused_inputs() -> Vec<Input> {
    let four = |profile| (profile, vec![8, 14, 7, 1], 4);
    let mut inputs: Vec<Input> = cases::profiles_out_of_range().into_iter().map(four).collect();
    inputs.push((profile((4, 3, 0), 3, 1), vec![1; 3], 5));
    for (first, second) in [(3, 4), (5, 4), (0, 4), (4, 3), (4, 5), (4, 0)] {
        inputs.push((profile((4, 3, 0), 2, 1), vec![8; first], second));
    }
    inputs
}

/// For one size: clean, runs at the first and the last cells, longer than promised, longer than L, noise.
pub fn damaged_inputs(size: Size, random: &mut Random) -> Vec<Input> {
    let (n, r, _) = size;
    let (h, depth) = (r / 2, random.between(1, 16));
    let long = random.between(h, r - 1);
    let runs = [
        (0, 0, 0),
        (r - 1, 0, random.between(1, h)),
        (h, n - h, h),
        (r - 1, n - long, long),
        (r - 1, random.between(0, n - r), r - 1),
        (h - 1, random.between(0, n - h), h),
    ];
    let mut inputs = Vec::new();
    for (limit, start, length) in runs {
        let profile = profile(size, limit, depth);
        let mut cells = codeword(&profile, random);
        damage(&mut cells, start, length, random);
        inputs.push((profile, cells, n));
    }
    inputs.push((profile(size, r - 1, depth), random.bytes(n), n));
    inputs
}

/// Errors next to one another only across the wrap, in the absent cells, or partly in them: no run.
pub fn wrapped_inputs(random: &mut Random) -> Vec<Input> {
    let mut inputs = Vec::new();
    for (size, limit, width) in [((255, 8, 3), 2, 1), ((255, 20, 0), 19, 4), ((255, 64, 130), 32, 16)] {
        let profile = profile(size, limit, 1);
        let mut cells = codeword(&profile, random);
        damage(&mut cells, 0, width, random);
        damage(&mut cells, 255 - width, width, random);
        inputs.push((profile, cells, 255));
    }
    for (size, limit, absent, present) in [((40, 8, 5), 4, 3, 0), ((254, 6, 0), 2, 1, 1), ((100, 30, 99), 14, 7, 7)] {
        let (n, r, b) = size;
        let mut cells = codeword(&profile((n + absent, r, b), 0, 1), random);
        cells.truncate(n);
        damage(&mut cells, n - present, present, random);
        inputs.push((profile(size, limit, 1), cells, n));
    }
    inputs
}

/// Sizes at which blocks between two codewords are tried: small and large, r odd and even.
pub const NEIGHBOUR_SIZES: [Size; 6] = [
    (4, 3, 9),
    (9, 4, 0),
    (30, 8, 77),
    (60, 15, 254),
    (255, 63, 40),
    (255, 64, 128),
];

/// A codeword of r+1 neighbouring cells that are not zero: the first of them, and the cells.
pub fn neighbour((n, r, b): Size, random: &mut Random) -> (usize, Vec<u8>) {
    let (start, factor) = (random.between(0, n - r - 1), random.nonzero());
    let cells = generator(b, r).into_iter().map(|x| gf::product(factor, x)).collect();
    (start, cells)
}

/// A block as near to one as to another of two codewords that differ in r+1 neighbouring cells, and the first of these cells: the h+1 from it on
/// lead to one codeword, the last h+1 of the r+1 to the other.
pub fn between_two(profile: &Profile, random: &mut Random) -> (Vec<u8>, usize) {
    let (r, h) = (profile.r, profile.h());
    let mut cells = codeword(profile, random);
    let (start, difference) = neighbour((profile.n, r, profile.b), random);
    for i in 0..=h {
        cells[start + i] ^= difference[i];
    }
    if r % 2 == 0 {
        // The middle cell agrees with neither codeword.
        cells[start + h] ^= if difference[h] == 1 { 2 } else { 1 };
    }
    (cells, start)
}

/// Such blocks, with L at that length (document 01: tied) and one below it.
fn ambiguous_inputs(random: &mut Random) -> Vec<Input> {
    let mut inputs = Vec::new();
    for size in NEIGHBOUR_SIZES {
        let (n, r, _) = size;
        for limit in [r / 2, r / 2 + 1] {
            let profile = profile(size, limit, 1);
            inputs.push((profile, between_two(&profile, random).0, n));
        }
    }
    inputs
}

fn inputs(sizes: &[Size]) -> Vec<Input> {
    let mut random = Random::new(101);
    let mut inputs = example_inputs();
    for &size in sizes {
        inputs.extend(damaged_inputs(size, &mut random));
    }
    inputs.extend(wrapped_inputs(&mut random));
    inputs.extend(ambiguous_inputs(&mut random));
    inputs.extend(repairs::repairs().map(Input::from));
    inputs
}

pub fn corrections() -> Vec<Vector> {
    inputs(&SIZES).into_iter().map(correction).collect()
}

fn correction((profile, read, length): Input) -> Vector {
    let mut second = vec![UNTOUCHED; length];
    let numbers = match block::correct(&profile, &read, &mut second) {
        Ok(run) => [0, run.start, run.length],
        Err(refusal) => [refusal.number.into(), refusal.place, 0],
    };
    let mut fields = profile_fields(&profile);
    fields.extend([Field::Bytes(read), Field::Word(length)]);
    Vector {
        fields,
        answer: answer(&numbers, &[&second]),
    }
}

/// The codeword test on the same blocks.
pub fn checks() -> Vec<Vector> {
    inputs(&SIZES).into_iter().map(check).collect()
}

fn check((profile, read, _): Input) -> Vector {
    let numbers = match block::is_codeword(&profile, &read) {
        Ok(clean) => [0, usize::from(clean)],
        Err(refusal) => [refusal.number.into(), 0],
    };
    let mut fields = profile_fields(&profile);
    fields.push(Field::Bytes(read));
    Vector {
        fields,
        answer: numbers.into(),
    }
}

pub fn writes() -> Vec<Vector> {
    messages(&SIZES).into_iter().map(write).collect()
}

/// Document 01's messages, random ones, profiles out of range, and wrong lengths.
fn messages(sizes: &[Size]) -> Vec<Input> {
    let mut random = Random::new(102);
    let mut inputs: Vec<Input> = Vec::new();
    for (profile, message, cells) in cases::written_blocks() {
        inputs.push((profile, message, cells.len()));
    }
    for &size in sizes {
        let profile = profile(size, 0, random.between(1, 16));
        inputs.push((profile, random.bytes(profile.k()), profile.n));
        let mut unit = vec![0; profile.k()];
        unit[random.between(0, profile.k() - 1)] = random.nonzero();
        inputs.push((profile, unit, profile.n));
    }
    inputs.extend(
        cases::profiles_out_of_range()
            .into_iter()
            .map(|profile| (profile, vec![1], 4)),
    );
    for (first, second) in [(0, 4), (2, 4), (1, 3), (1, 5), (1, 0)] {
        inputs.push((profile((4, 3, 0), 2, 1), vec![8; first], second));
    }
    inputs
}

fn write((profile, message, length): Input) -> Vector {
    let mut cells = vec![UNTOUCHED; length];
    let result = block::write(&profile, &message, &mut cells);
    let number = result.map_or_else(|refusal| refusal.number.into(), |()| 0);
    let mut fields = profile_fields(&profile);
    fields.extend([Field::Bytes(message), Field::Word(length)]);
    Vector {
        fields,
        answer: answer(&[number], &[&cells]),
    }
}

/// All three operations in one stream, at every second size. The checks are of the examples and of the largest size.
pub fn operations() -> Vec<Vector> {
    let sizes: Vec<Size> = SIZES.into_iter().skip(1).step_by(2).collect();
    let mut checked = example_inputs();
    checked.extend(damaged_inputs(sizes[sizes.len() - 1], &mut Random::new(103)));
    let corrections = inputs(&sizes).into_iter().map(|input| (0, correction(input)));
    let writes = messages(&sizes).into_iter().map(|input| (1, write(input)));
    let checks = checked.into_iter().map(|input| (2, check(input)));
    corrections.chain(writes).chain(checks).map(marked).collect()
}

/// A vector after the byte of its operation.
fn marked((operation, mut vector): (u8, Vector)) -> Vector {
    vector.fields.insert(0, Field::Byte(operation));
    vector
}

pub fn generators() -> Vec<Vector> {
    let pairs = [
        (0, 3),
        (0, 2),
        (1, 2),
        (254, 2),
        (253, 4),
        (7, 5),
        (100, 10),
        (200, 16),
        (120, 33),
        (1, 63),
        (0, 64),
        (254, 64),
        (127, 64),
    ];
    let vector = |(b, r)| Vector {
        fields: vec![Field::Word(b), Field::Word(r)],
        answer: answer(&[], &[&generator(b, r)]),
    };
    pairs.map(vector).into()
}
