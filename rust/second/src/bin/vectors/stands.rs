//! Vectors for stand tables: a state handed in, payloads added to it, its total and its trees per plot.

use crate::vector::{Field, Vector};
use second::plot::record;
use second::random::Random;
use second::stand::{Stand, State};
use second::{cases, Refusal};

/// A payload, and how often it is added in turn.
type Additions = (Vec<u8>, usize);

/// Row, column and count of the cells that are not zero.
fn cells(state: &State) -> impl Iterator<Item = (usize, usize, u32)> + '_ {
    let rows = state.cells.iter().enumerate();
    let all = rows.flat_map(|(row, counts)| {
        counts
            .iter()
            .enumerate()
            .map(move |(column, &count)| (row, column, count))
    });
    all.filter(|(_, _, count)| *count > 0)
}

fn fields(species: &[u8], state: &State, payloads: &[Additions]) -> Vec<Field> {
    let mut fields = vec![Field::Byte(0), Field::Bytes(species.into())];
    fields.extend([state.payloads, state.records].map(Field::Count));
    fields.push(Field::Word(cells(state).count()));
    for (row, column, count) in cells(state) {
        fields.extend([Field::Byte(row as u8), Field::Byte(column as u8), Field::Count(count)]);
    }
    fields.push(Field::Word(payloads.len()));
    for (payload, times) in payloads {
        fields.extend([Field::Bytes(payload.clone()), Field::Word(*times)]);
    }
    fields
}

/// Number, place, figure and line.
fn numbers(result: Result<(), Refusal>) -> [usize; 4] {
    result.map_or_else(
        |refusal| {
            [
                refusal.number.into(),
                refusal.place,
                refusal.figure.into(),
                refusal.line,
            ]
        },
        |()| [0; 4],
    )
}

/// Adds a payload so often, and gives the last answer. The state is handed in anew each time.
fn added(species: &[u8], state: &mut State, (payload, times): &Additions) -> [usize; 4] {
    let mut last = Ok(());
    for _ in 0..*times {
        let mut stand = Stand::handed_in(species, state.clone());
        last = stand.add(payload);
        *state = stand.state();
    }
    numbers(last)
}

fn vector(species: &[u8], handed_in: &State, payloads: &[Additions]) -> Vector {
    let mut answer = vec![numbers(Stand::begin(species).map(|_| ()))[0]];
    let mut state = handed_in.clone();
    for additions in payloads {
        answer.extend(added(species, &mut state, additions));
    }
    answer.extend([state.payloads, state.records].map(|counter| counter as usize));
    let stand = Stand::handed_in(species, state.clone());
    answer.extend(match stand.total() {
        Ok(total) => [0, total as usize],
        Err(refusal) => [refusal.number.into(), 0],
    });
    answer.extend(match stand.trees_per_plot() {
        Ok(found) => [0, found.quotient as usize, found.remainder as usize],
        Err(refusal) => [refusal.number.into(), 0, 0],
    });
    answer.extend(cells(&state).flat_map(|(row, column, count)| [row, column, count as usize]));
    Vector {
        fields: fields(species, handed_in, payloads),
        answer,
    }
}

/// The table made by hand.
fn examples() -> Vec<Vector> {
    let row = |case: cases::Tract| {
        let payloads: Vec<Additions> = case.payloads.into_iter().map(|(payload, _)| (payload, 1)).collect();
        vector(&case.species, &case.state, &payloads)
    };
    cases::tracts().into_iter().map(row).collect()
}

/// A thousand payloads and one more, with refused ones between, of one line and of as many lines as fit.
fn thousands() -> Vec<Vector> {
    let small = record(7, &[3, 32, 2, 9, 171, 255]);
    let lines: Vec<u8> = (1..=40).flat_map(|i| [2 * i, 5 * i, 255]).collect();
    let large: Vec<u8> = (1..=32).flat_map(|plot| record(plot, &lines)).collect();
    let species: Vec<u8> = (1..=16).map(|i| 5 * i).collect();
    vec![
        vector(
            &[9],
            &State::EMPTY,
            &[
                (small.clone(), 999),
                (vec![1], 1),
                (small, 1),
                (vec![], 1),
                (vec![1], 1),
            ],
        ),
        vector(&species, &State::EMPTY, &[(large, 1_000), (vec![0], 2)]),
    ]
}

/// Some records of a few species, and now and then a byte changed.
fn payload(random: &mut Random) -> Vec<u8> {
    let mut payload = Vec::new();
    for number in 1..=random.between(0, 3) {
        let mut species = 0;
        let mut lines = Vec::new();
        for _ in 0..random.between(0, 5) {
            species += random.between(1, 9) as u8;
            lines.extend([species, random.between(1, 200) as u8, random.nonzero()]);
        }
        payload.extend(record(number as u16, &lines));
    }
    payload.resize(payload.len() + random.between(0, 3), 0);
    if !payload.is_empty() && random.between(0, 3) == 0 {
        let place = random.between(0, payload.len() - 1);
        payload[place] = random.byte();
    }
    payload
}

/// A list of up to 16 species, cells of any size up to the limit, and payloads added some times.
fn drawn(random: &mut Random) -> Vector {
    let count = random.between(0, 16);
    let species: Vec<u8> = random
        .distinct(45, count)
        .into_iter()
        .map(|number| number as u8 + 1)
        .collect();
    let mut state = State {
        payloads: random.between(0, 990) as u32,
        records: random.between(0, 5) as u32,
        ..State::EMPTY
    };
    for _ in 0..random.between(0, 4) {
        let (row, column) = (random.between(0, 16), random.between(0, 19));
        state.cells[row][column] = random.between(0, 400_000_000) as u32;
    }
    let payloads: Vec<Additions> = (0..random.between(1, 3))
        .map(|_| (payload(random), random.between(1, 4)))
        .collect();
    vector(&species, &state, &payloads)
}

pub fn stands() -> Vec<Vector> {
    let mut random = Random::new(601);
    let mut vectors = examples();
    vectors.extend(thousands());
    vectors.extend((0..40).map(|_| drawn(&mut random)));
    vectors
}
