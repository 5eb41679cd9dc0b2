//! Vectors for payloads: checking, asking with its companion, adding.

use crate::vector::{answer, Field, Vector};
use second::random::Random;
use second::{cases, plot, Refusal};

/// Number, value or place, figure and line of an answer.
fn numbers(result: Result<usize, Refusal>) -> [usize; 4] {
    match result {
        Ok(value) => [0, value, 0, 0],
        Err(refusal) => [
            refusal.number.into(),
            refusal.place,
            refusal.figure.into(),
            refusal.line,
        ],
    }
}

fn check(payload: Vec<u8>) -> Vector {
    let end = plot::records(&payload).map(|found| found.last().map_or(0, |record| record.end));
    Vector {
        fields: vec![Field::Byte(0), Field::Bytes(payload)],
        answer: numbers(end).into(),
    }
}

fn ask(payload: Vec<u8>, number: u16) -> Vector {
    let part = plot::ask(&payload, number);
    let first = plot::companion(&payload, number).map(|record| record.start);
    let [verdict, place, figure, line] = numbers(first);
    Vector {
        answer: answer(&[verdict, place, part.len(), figure, line], &[part]),
        fields: vec![Field::Byte(1), Field::Bytes(payload), Field::Word(number.into())],
    }
}

fn add(before: Vec<u8>, number: u16, lines: Vec<u8>) -> Vector {
    let mut payload = before.clone();
    let numbers = numbers(plot::add(&mut payload, number, &lines));
    let fields = vec![
        Field::Byte(2),
        Field::Bytes(before),
        Field::Word(number.into()),
        Field::Bytes(lines),
    ];
    Vector {
        fields,
        answer: answer(&numbers, &[&payload]),
    }
}

/// Lines that mostly rise and are mostly in range.
fn random_lines(random: &mut Random) -> Vec<u8> {
    let count = random.between(0, 4);
    let mut species = 0;
    let mut lines = Vec::new();
    for _ in 0..count {
        species += random.between(1, 26) as u8;
        lines.extend([species, random.between(1, 201) as u8, random.nonzero()]);
    }
    lines
}

/// Some records with rising plot numbers, then zeros, then, two times in three, one byte changed.
fn random_payload(random: &mut Random) -> Vec<u8> {
    let mut payload = Vec::new();
    for i in 0..random.between(0, 3) {
        let number = i * 200 + random.between(1, 199);
        payload.extend(plot::record(number as u16, &random_lines(random)));
    }
    payload.resize(payload.len() + random.between(0, 9), 0);
    if !payload.is_empty() && random.between(0, 2) > 0 {
        let place = random.between(0, payload.len() - 1);
        payload[place] = random.between(0, 99) as u8;
    }
    payload
}

/// One payload checked, asked for one of its plots if it has one, and added to.
fn random_vectors(random: &mut Random) -> [Vector; 3] {
    let payload = random_payload(random);
    let held = plot::records(&payload).ok().and_then(|found| found.last().cloned());
    let asked = held.map_or(5, |record| plot::plot_number(&payload, record.start));
    [
        check(payload.clone()),
        ask(payload.clone(), asked),
        add(payload, random.between(200, 800) as u16, random_lines(random)),
    ]
}

pub fn plots() -> Vec<Vector> {
    let mut vectors: Vec<Vector> = Vec::new();
    vectors.extend(cases::payloads().into_iter().map(|(payload, _)| check(payload)));
    vectors.extend(
        cases::asks()
            .into_iter()
            .map(|(payload, number, _)| ask(payload, number)),
    );
    vectors.extend(
        cases::adds()
            .into_iter()
            .map(|(payload, number, lines, _)| add(payload, number, lines)),
    );
    let mut random = Random::new(301);
    vectors.extend((0..30).flat_map(|_| random_vectors(&mut random)));
    vectors
}
