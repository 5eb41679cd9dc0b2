//! Vectors for the list of candidates of a block: the table found by hand, wrong lengths, blocks damaged as the corrector's are, and blocks made for a list that
//! is chosen beforehand. The last have the long lists, which random damage hardly ever gives.

use crate::blocks::{between_two, damaged_inputs, profile, wrapped_inputs, Input, Size, NEIGHBOUR_SIZES, UNTOUCHED};
use crate::repairs;
use crate::vector::{answer, profile_fields, Field, Vector};
use second::random::Random;
use second::{cases, chosen_lists, Profile, Run};

/// The sizes of the random blocks.
const SIZES: [Size; 8] = [
    (3, 2, 0),
    (3, 2, 254),
    (5, 4, 1),
    (7, 3, 2),
    (40, 7, 253),
    (65, 64, 17),
    (255, 2, 1),
    (255, 64, 254),
];

/// The sizes of the blocks that are made for a list.
const LIST_SIZES: [Size; 7] = [
    (4, 3, 9),
    (9, 4, 0),
    (60, 21, 58),
    (255, 3, 254),
    (255, 16, 9),
    (255, 63, 40),
    (255, 64, 128),
];

/// The last number of an input is the length of the buffer for the list.
fn vector((profile, read, length): Input) -> Vector {
    let mut pairs = vec![UNTOUCHED; length];
    let numbers = match second::candidates::candidates(&profile, &read, &mut pairs) {
        Ok(count) => [0, count],
        Err(refusal) => [refusal.number.into(), 0],
    };
    let mut fields = vec![Field::Byte(0)];
    fields.extend(profile_fields(&profile));
    fields.extend([Field::Bytes(read), Field::Word(length)]);
    Vector {
        fields,
        answer: answer(&numbers, &[&pairs]),
    }
}

/// A block with a buffer of the due length.
fn whole(profile: Profile, read: Vec<u8>) -> Input {
    (profile, read, 2 * profile.n)
}

/// The table, profiles out of range, and wrong lengths of the largest blocks.
fn examples() -> Vec<Input> {
    let rows = cases::candidates().into_iter();
    let mut inputs: Vec<Input> = rows.map(|case| (case.profile, case.read, case.pairs_length)).collect();
    let four = |profile| (profile, vec![8, 14, 7, 1], 8);
    inputs.extend(cases::profiles_out_of_range().into_iter().map(four));
    let largest = profile((255, 64, 0), 63, 16);
    for (first, second) in [(255, 509), (255, 511), (255, 255), (254, 510), (256, 510), (256, 512)] {
        inputs.push((largest, vec![0; first], second));
    }
    inputs
}

/// Blocks between two codewords: with L below the run of either, at it (document 01: tied), and at r−1.
fn between(random: &mut Random) -> Vec<Input> {
    let mut inputs = Vec::new();
    for size in NEIGHBOUR_SIZES {
        let r = size.1;
        for limit in [r / 2, r / 2 + 1, r - 1] {
            let profile = profile(size, limit.min(r - 1), 1);
            inputs.push(whole(profile, between_two(&profile, random).0));
        }
    }
    inputs
}

/// A block with this list, L being r−1.
fn made(profile: Profile, runs: &[Run], random: &mut Random) -> Input {
    let read = chosen_lists::block(&profile, runs, random).expect("a block with this list");
    whole(profile, read)
}

/// For one size: the longest list, with an L at which it is whole and one at which nothing is left of it; runs at the first and at the last cells; random
/// lists, whole and cut.
fn made_inputs(size: Size, random: &mut Random) -> Vec<Input> {
    let (n, r, _) = size;
    let [all, fewer, some] = [r - 1, r - 2, r / 2 + r / 4].map(|limit| profile(size, limit, 1));
    let length = r - (r - 1) / 2;
    let ends = [0, n - length].map(|start| Run { start, length });
    let longest = chosen_lists::longest_list(&all);
    let lists = [(); 2].map(|()| chosen_lists::random_list(&all, r / 2, 30, random));
    vec![
        made(all, &longest, random),
        made(fewer, &longest, random),
        made(all, &ends, random),
        made(all, &lists[0], random),
        made(some, &lists[1], random),
    ]
}

fn inputs() -> Vec<Input> {
    let mut random = Random::new(701);
    let mut inputs = examples();
    let mut blocks = wrapped_inputs(&mut random);
    for size in SIZES {
        blocks.extend(damaged_inputs(size, &mut random));
    }
    blocks.extend(repairs::sparse().step_by(2).map(Input::from));
    inputs.extend(blocks.into_iter().map(|(profile, read, _)| whole(profile, read)));
    inputs.extend(between(&mut random));
    for size in LIST_SIZES {
        inputs.extend(made_inputs(size, &mut random));
    }
    inputs
}

/// Each with byte 0.
pub fn candidates() -> Vec<Vector> {
    inputs().into_iter().map(vector).collect()
}

#[cfg(test)]
mod tests {
    use super::*;
    use second::block::look;
    use second::candidates::candidate_codewords;
    use std::collections::BTreeMap;

    /// What a block and its list are examples of.
    fn kinds(profile: &Profile, read: &[u8]) -> Vec<&'static str> {
        let listed = candidate_codewords(profile, read).unwrap();
        let runs: Vec<Run> = listed.into_iter().map(|(run, _)| run).collect();
        let answered = match look(profile, read) {
            Ok(Run { length: 0, .. }) => "clean",
            Ok(_) => "mended",
            Err(refusal) => match refusal.number {
                3 => "torn",
                4 => "tied",
                _ => "thin",
            },
        };
        let starts_fall = runs.windows(2).any(|pair| pair[0].start > pair[1].start);
        let at_last_cell = runs
            .iter()
            .any(|run| run.length > 0 && run.start + run.length == profile.n);
        let conditions = [
            (answered == "mended" && runs.len() > 1, "mended with another"),
            (runs.len() > 2, "more than two"),
            (runs.len() > 1 && runs.len() == profile.r - 1, "as many as can be"),
            (runs.len() == 63, "63 runs"),
            (starts_fall, "a lower start behind a higher one"),
            (at_last_cell, "at the last cell"),
            (runs.iter().any(|run| run.length == 63), "63 cells"),
            (profile.limit == 0 && runs.is_empty(), "torn without L"),
            (profile.n == 3, "three cells"),
            (profile.n == 255 && profile.r == 64 && profile.limit == 63, "largest"),
        ];
        let named = conditions.into_iter().filter(|(holds, _)| *holds).map(|(_, name)| name);
        [answered].into_iter().chain(named).collect()
    }

    #[test]
    fn every_kind_occurs() {
        let mut counts = BTreeMap::new();
        for (profile, read, length) in inputs() {
            if profile.check().is_err() || read.len() != profile.n || length != 2 * profile.n {
                continue;
            }
            for kind in kinds(&profile, &read) {
                *counts.entry(kind).or_insert(0) += 1;
            }
        }
        for (kind, least) in [
            ("clean", 15),
            ("mended", 40),
            ("torn", 40),
            ("tied", 25),
            ("thin", 10),
            ("mended with another", 10),
            ("more than two", 8),
            ("as many as can be", 6),
            ("63 runs", 1),
            ("a lower start behind a higher one", 5),
            ("at the last cell", 15),
            ("63 cells", 2),
            ("torn without L", 5),
            ("three cells", 15),
            ("largest", 5),
        ] {
            let count = counts.get(kind).copied().unwrap_or(0);
            assert!(count >= least, "{kind}: {count}; {counts:?}");
        }
    }

    /// Of four cells and of the largest block: the buffer one byte short, one byte long and of n bytes; the read block one byte short and one long.
    #[test]
    fn every_wrong_length_occurs() {
        let refused: Vec<(usize, usize, usize)> = examples()
            .into_iter()
            .map(|input| (input.0.n, input.1.len(), input.2, vector(input)))
            .filter(|(.., vector)| vector.answer[0] == 2)
            .map(|(n, first, second, _)| (n, first, second))
            .collect();
        for n in [4, 255] {
            for (first, second) in [(n, 2 * n - 1), (n, 2 * n + 1), (n, n), (n - 1, 2 * n), (n + 1, 2 * n)] {
                assert!(refused.contains(&(n, first, second)), "{n} {first} {second}");
            }
        }
    }
}
