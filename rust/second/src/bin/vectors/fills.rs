//! Vectors for the look, and for the fill of a run that is named.

use crate::blocks::{between_two, codeword, damage, profile, refused_inputs, Size, NEIGHBOUR_SIZES, UNTOUCHED};
use crate::repairs;
use crate::vector::{answer, profile_fields, Field, Vector};
use second::fill::fill;
use second::random::Random;
use second::{block, cases, Profile, Run};

/// The sizes of the random blocks.
const SIZES: [Size; 5] = [(3, 2, 254), (7, 3, 2), (40, 7, 253), (100, 33, 200), (255, 64, 254)];

/// A start and a length, which need not be a run of the block.
type Span = (usize, usize);

fn look_vector(profile: &Profile, read: &[u8]) -> Vector {
    let numbers = match block::look(profile, read) {
        Ok(run) => [0, run.start, run.length],
        Err(refusal) => [refusal.number.into(), 0, 0],
    };
    let mut fields = vec![Field::Byte(0)];
    fields.extend(profile_fields(profile));
    fields.push(Field::Bytes(read.into()));
    Vector {
        fields,
        answer: numbers.into(),
    }
}

fn fill_vector(profile: &Profile, read: &[u8], (start, length): Span, second: usize) -> Vector {
    let mut filled = vec![UNTOUCHED; second];
    let result = fill(profile, read, Run { start, length }, &mut filled);
    let number = result.map_or_else(|refusal| refusal.number.into(), |()| 0);
    let mut fields = vec![Field::Byte(1)];
    fields.extend(profile_fields(profile));
    fields.push(Field::Bytes(read.into()));
    fields.extend([Field::Long(start), Field::Long(length), Field::Word(second)]);
    Vector {
        fields,
        answer: answer(&[number], &[&filled]),
    }
}

/// A look at the block, and a fill of each span.
fn look_and_fills(profile: &Profile, read: &[u8], spans: &[Span]) -> Vec<Vector> {
    let fills = spans.iter().map(|&span| fill_vector(profile, read, span, profile.n));
    [look_vector(profile, read)].into_iter().chain(fills).collect()
}

/// Document 01's rows looked at, and the table of runs to fill.
fn examples() -> Vec<Vector> {
    let looks = cases::corrections()
        .into_iter()
        .map(|case| look_vector(&case.profile, &case.read));
    let fills = cases::fills().into_iter().map(|case| {
        let span = (case.run.start, case.run.length);
        fill_vector(&case.profile, &case.read, span, 4)
    });
    looks.chain(fills).collect()
}

/// Profiles out of range, and wrong lengths, with a span that is none. A look has no second buffer.
fn refused() -> Vec<Vector> {
    let inputs = refused_inputs();
    let looks = inputs.iter().filter(|(_, _, second)| *second == 4);
    let fills = inputs
        .iter()
        .map(|(profile, read, second)| fill_vector(profile, read, (3, 2), *second));
    looks
        .map(|(profile, read, _)| look_vector(profile, read))
        .chain(fills)
        .collect()
}

/// Starts and lengths at every edge, past 2^32, and with sums past 2^64, on a block whose last L+1 cells are wrong.
fn edges(random: &mut Random) -> Vec<Vector> {
    let (n, r, limit) = (15, 6, 2);
    let profile = profile((n, r, 100), limit, 1);
    let mut read = codeword(&profile, random);
    damage(&mut read, n - limit - 1, limit + 1, random);
    let lengths = [0, 1, limit, limit + 1, r - 1, r, n];
    let starts = [0, n - 1, n, n + 1];
    let mut spans: Vec<Span> = starts.into_iter().flat_map(|s| lengths.map(|f| (s, f))).collect();
    spans.extend([limit + 1, r - 1, r].map(|f| (n - f, f)));
    spans.extend([limit + 1, r - 1].map(|f| (n - f + 1, f)));
    let (word, most) = (1 << 32, usize::MAX);
    spans.extend([(word, 0), (word, 1), (0, word)]);
    spans.extend([(most, 0), (most, 1), (most - 1, 2), (most, r - 1)]);
    spans.extend([(0, most), (1, most), (n, most - n + 1), (most, most)]);
    look_and_fills(&profile, &read, &spans)
}

/// For one size: clean; a run longer than L, filled by itself and by one around it, refused by one beside it and by one too short; within L; and noise.
fn damaged(size: Size, random: &mut Random) -> Vec<Vector> {
    let (n, r, _) = size;
    let h = r / 2;
    let [strict, wide] = [h - 1, r - 1].map(|limit| profile(size, limit, random.between(1, 16)));
    let any = random.between(0, n - r);
    let clean = codeword(&strict, random);
    let mut vectors = look_and_fills(&strict, &clean, &[(0, 0), (n, 0), (any, r - 1)]);

    let length = random.between(h, r - 1);
    let start = random.between(1, n - length);
    let mut read = codeword(&strict, random);
    damage(&mut read, start, length, random);
    let around = start.min(n + 1 - r);
    let spans = [
        (start, length),
        (around, r - 1),
        (start - 1, length),
        (start, length - 1),
    ];
    vectors.extend(look_and_fills(&strict, &read, &spans));

    let length = random.between(1, h);
    let start = random.between(0, n - length);
    let mut read = codeword(&wide, random);
    damage(&mut read, start, length, random);
    vectors.extend(look_and_fills(&wide, &read, &[(start, length)]));
    vectors.extend(look_and_fills(&wide, &random.bytes(n), &[(any, r - 1)]));
    vectors
}

/// Tied blocks, filled by each of the two runs, and refused by one between them.
fn tied(size: Size, random: &mut Random) -> Vec<Vector> {
    let half = size.1 / 2 + 1;
    let profile = profile(size, half, 1);
    let (read, start) = between_two(&profile, random);
    let last = start + size.1 + 1 - half;
    look_and_fills(&profile, &read, &[(start, half), (last, half), (start + 1, half - 1)])
}

/// Looks at repairs long and short, dense and thin; a thin run is then filled, and so is the other of two that are equally short.
fn repairs() -> Vec<Vector> {
    let looks = repairs::repairs().map(|repair| look_vector(&repair.profile, &repair.read));
    let fills = repairs::sparse().flat_map(|repair| {
        let fill = |run: Run| fill_vector(&repair.profile, &repair.read, (run.start, run.length), repair.profile.n);
        repair.equally_short().into_iter().map(fill).collect::<Vec<_>>()
    });
    looks.chain(fills).collect()
}

/// Looks with byte 0, and fills with byte 1.
pub fn fills() -> Vec<Vector> {
    let mut random = Random::new(501);
    let mut vectors = examples();
    vectors.extend(refused());
    vectors.extend(edges(&mut random));
    for size in SIZES {
        vectors.extend(damaged(size, &mut random));
    }
    for size in NEIGHBOUR_SIZES {
        vectors.extend(tied(size, &mut random));
    }
    vectors.extend(repairs());
    vectors
}
