//! Vectors for spot mode: blocks, and sheets read in it.

use crate::blocks::{codeword, damage, neighbour, profile, refused_inputs, Input, Size, NEIGHBOUR_SIZES, UNTOUCHED};
use crate::repairs;
use crate::sheets::{self, read_vector_in, PROFILES};
use crate::vector::{answer, profile_fields, Field, Vector};
use second::random::Random;
use second::{cases, sheet, spots, Changes, Mode, Profile};

/// The sizes of the random blocks.
const SIZES: [Size; 17] = [
    (3, 2, 0),
    (3, 2, 254),
    (4, 3, 1),
    (9, 2, 131),
    (11, 3, 254),
    (5, 4, 0),
    (15, 6, 1),
    (40, 7, 253),
    (60, 21, 58),
    (65, 64, 17),
    (100, 33, 200),
    (255, 2, 1),
    (255, 3, 254),
    (255, 16, 97),
    (255, 32, 1),
    (255, 63, 0),
    (255, 64, 254),
];

/// How a block is changed: so many cells anywhere, a run with this start and length, or all cells.
enum Damage {
    Cells(usize),
    Run(usize, usize),
    Noise,
}

/// For one size: clean, one to h spots anywhere, at the first and at the last cells, more than h, bursts, noise. L is 0, r−1 or any.
fn damaged_inputs((n, r, b): Size, random: &mut Random) -> Vec<Input> {
    let h = r / 2;
    let any = random.between(0, r - 1);
    let damages = [
        (0, Damage::Cells(0)),
        (any, Damage::Cells(1)),
        (r - 1, Damage::Cells(h.div_ceil(2))),
        (0, Damage::Cells(h)),
        (r - 1, Damage::Cells(h)),
        (r - 1, Damage::Cells(h + 1)),
        (0, Damage::Cells((h + 2).min(n))),
        (0, Damage::Run(0, h)),
        (h, Damage::Run(n - h, h)),
        (r - 1, Damage::Run(n - h - 1, h + 1)),
        (any, Damage::Noise),
    ];
    let mut input = |(limit, damage): (usize, Damage)| {
        let profile = profile((n, r, b), limit, random.between(1, 16));
        let mut cells = codeword(&profile, random);
        match damage {
            Damage::Cells(count) => random.change(&mut cells, count),
            Damage::Run(start, length) => self::damage(&mut cells, start, length, random),
            Damage::Noise => cells = random.bytes(n),
        }
        (profile, cells, n)
    };
    damages.into_iter().map(&mut input).collect()
}

/// Cells of a codeword of r+1 neighbours added to a block: h of them, and h+1, with which it is nearer to another codeword if r is even, and
/// h+1 cells away from two if it is odd.
fn between_inputs(random: &mut Random) -> Vec<Input> {
    let mut inputs = Vec::new();
    for size in NEIGHBOUR_SIZES {
        let (n, r, _) = size;
        for count in [r / 2, r / 2 + 1] {
            let profile = profile(size, random.between(0, r - 1), 1);
            let mut cells = codeword(&profile, random);
            let (start, difference) = neighbour(size, random);
            for (cell, other) in cells[start..].iter_mut().zip(difference).take(count) {
                *cell ^= other;
            }
            inputs.push((profile, cells, n));
        }
    }
    inputs
}

/// Errors in cells that the block has not, and so many in cells that it has: none is within h.
fn absent_inputs(random: &mut Random) -> Vec<Input> {
    let mut inputs = Vec::new();
    for (size, absent, present) in [
        ((40, 8, 5), 1, 0),
        ((40, 8, 5), 1, 3),
        ((254, 6, 0), 1, 1),
        ((253, 7, 254), 2, 1),
        ((100, 30, 99), 7, 7),
        ((20, 3, 200), 1, 0),
        ((200, 64, 1), 32, 0),
    ] {
        let (n, r, b) = size;
        let mut cells = codeword(&profile((n + absent, r, b), 0, 1), random);
        cells.truncate(n);
        random.change(&mut cells, present);
        inputs.push((profile(size, r - 1, 1), cells, n));
    }
    inputs
}

fn inputs() -> Vec<Input> {
    let mut random = Random::new(401);
    let rows = cases::spot_corrections().into_iter();
    let mut inputs: Vec<Input> = rows.map(|case| (case.profile, case.read.into(), 4)).collect();
    inputs.extend(refused_inputs());
    for size in SIZES {
        inputs.extend(damaged_inputs(size, &mut random));
    }
    inputs.extend(between_inputs(&mut random));
    inputs.extend(absent_inputs(&mut random));
    inputs
}

fn correction((profile, read, length): Input) -> Vector {
    let mut second = vec![UNTOUCHED; length];
    let numbers = match spots::correct(&profile, &read, &mut second) {
        Ok(Changes { count, lowest }) => [0, count, lowest],
        Err(refusal) => [refusal.number.into(), 0, 0],
    };
    let mut fields = vec![Field::Byte(0)];
    fields.extend(profile_fields(&profile));
    fields.extend([Field::Bytes(read), Field::Word(length)]);
    Vector {
        fields,
        answer: answer(&numbers, &[&second]),
    }
}

/// So many cells of these blocks of a sheet changed.
fn with_changes(profile: &Profile, cells: &[u8], blocks: &[usize], count: usize, random: &mut Random) -> Vec<u8> {
    let mut damaged = cells.to_vec();
    for block in blocks {
        for cell in random.distinct(profile.n, count) {
            damaged[cell * profile.depth + block] ^= random.nonzero();
        }
    }
    damaged
}

/// Written, then read with h cells of every block changed, with fewer in some, with h+1 in the last and in several, in a run, with its last blocks
/// lost, and clean.
fn random_sheets(profile: &Profile, random: &mut Random) -> Vec<Vector> {
    let (cells, bytes, h) = (profile.depth * profile.n, profile.depth * profile.k(), profile.h());
    let mut written = vec![0; cells];
    sheet::write(profile, &random.bytes(bytes), &mut written).expect("a good profile");
    let all: Vec<usize> = (0..profile.depth).collect();
    let (last, from) = (profile.depth - 1, random.between(profile.depth / 2, profile.depth - 1));
    let mut sheets = vec![
        with_changes(profile, &written, &all, h, random),
        with_changes(profile, &written, &[last], h + 1, random),
    ];
    if profile.n < 100 {
        let some: Vec<usize> = all.iter().copied().filter(|_| random.byte() < 128).collect();
        sheets.extend([
            with_changes(profile, &written, &some, random.between(1, h), random),
            with_changes(profile, &written, &all[last / 2..], h + 1, random),
            sheets::damage(&written, profile.depth * h, random),
            sheets::damage_blocks(profile, &written, from, random),
        ]);
    }
    if profile.n < 30 {
        sheets.push(written);
    }
    let mut vector = |damaged: Vec<u8>| {
        let (scratch, payload) = (sheets::scratch(profile, random), random.bytes(bytes));
        read_vector_in(Mode::Spots, profile, &damaged, scratch, payload)
    };
    sheets.into_iter().map(&mut vector).collect()
}

fn sheets_read() -> Vec<Vector> {
    let mut random = Random::new(402);
    let mut vectors = Vec::new();
    for (round, [n, r, b, _, depth]) in PROFILES.into_iter().enumerate() {
        let limit = [0, r - 1, random.between(0, r - 1)][round % 3];
        let profile = Profile::from([n, r, b, limit, depth]);
        vectors.extend(random_sheets(&profile, &mut random));
    }
    // document 01's sheet for the lister: whole, its first cells erased, and erased with L = 0
    for (input, _) in cases::lists().into_iter().take(3) {
        let profile = Profile::from([0, 1, 2, 3, 4].map(|i| input[i].into()));
        vectors.push(read_vector_in(
            Mode::Spots,
            &profile,
            &input[5..],
            vec![170; 3],
            vec![170; 8],
        ));
    }
    vectors.extend(sheets::lowest_refused(Mode::Spots));
    let (bad_profiles, wrong_lengths) = sheets::refused_reads(Mode::Spots);
    vectors.extend(bad_profiles);
    vectors.extend(wrong_lengths);
    vectors.extend(sheets::scratch_lengths(Mode::Spots));
    vectors.extend(sheets::sixteen_blocks(Mode::Spots, 403));
    vectors
}

/// Blocks with byte 0, and sheets with byte 1; then the same with thin runs, which are nothing special here.
pub fn spots() -> Vec<Vector> {
    let plain = inputs().into_iter().map(correction).chain(sheets_read());
    let sparse = repairs::sparse().map(|repair| correction(repair.into()));
    plain.chain(sparse).chain(repairs::sheets(Mode::Spots, 404)).collect()
}
