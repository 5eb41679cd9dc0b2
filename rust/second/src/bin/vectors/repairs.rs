//! Vectors for document 02's rule on long but thin repairs. The look, the corrector and the sheet's reader in scratch mode have it; the fill and spot mode,
//! to which the same blocks are given, have not.

use crate::blocks::{codeword, neighbour, profile, Input, Size};
use crate::sheets::{read_blocks, read_vector_in};
use crate::vector::Vector;
use second::fill::fill;
use second::random::Random;
use second::refusal::{AMBIGUOUS, SPARSE};
use second::{block, cases, Mode, Profile, Run};
use std::sync::OnceLock;

/// The sizes of the random blocks: r small and large, odd and even.
const SIZES: [Size; 7] = [
    (12, 5, 254),
    (15, 6, 100),
    (20, 7, 3),
    (40, 9, 253),
    (60, 20, 58),
    (255, 33, 200),
    (255, 64, 254),
];

/// A read block, and the run around what was changed in it.
pub struct Repair {
    pub profile: Profile,
    pub read: Vec<u8>,
    pub run: Run,
}

impl Repair {
    /// Refused as thin, or as tied, in which case one of the two runs is thin.
    fn is_refused(&self) -> bool {
        let answer = block::look(&self.profile, &self.read);
        answer.is_err_and(|refusal| [SPARSE, AMBIGUOUS].contains(&refusal.number))
    }

    /// All runs of that length that reach a codeword: that run, and of a tied block another one.
    pub fn equally_short(&self) -> Vec<Run> {
        let length = self.run.length;
        let runs = (0..=self.profile.n - length).map(|start| Run { start, length });
        let reaches = |run: &Run| fill(&self.profile, &self.read, *run, &mut self.read.clone()).is_ok();
        runs.filter(reaches).collect()
    }
}

/// The table found by hand, in which every block has a changed cell. A block that is torn or tied gets the run around all its changed cells.
fn examples() -> Vec<Repair> {
    let repair = |case: cases::Repair| {
        let run = Run::between(&case.read, &vec![0; case.read.len()]);
        assert!(run.length > 0, "a changed cell");
        Repair {
            profile: case.profile,
            read: case.read,
            run,
        }
    };
    cases::repairs().into_iter().map(repair).collect()
}

/// A random block with so many cells of a run changed. It is drawn again where another run is as short.
fn damaged(profile: &Profile, run: Run, changed: usize, random: &mut Random) -> Vec<u8> {
    let longest = Profile {
        limit: profile.r - 1,
        ..*profile
    };
    loop {
        let written = codeword(profile, random);
        let mut read = written.clone();
        random.change_run(&mut read[run.start..run.start + run.length], changed);
        if block::shortest(&longest, &read) == Ok((run, written)) {
            return read;
        }
    }
}

/// For one size: runs of h cells, which are exempt, of h+1, of r−1 and between, with half of their cells changed or fewer, and with one more; the run at the
/// first cells, at the last and elsewhere; L at the run's length, at r−1, and below the length.
fn random_repairs(size: Size, random: &mut Random) -> Vec<Repair> {
    let (n, r, _) = size;
    let (h, most) = (r / 2, r - 1);
    let half = |length: usize| (length / 2).max(2);
    let between = random.between(h + 1, most);
    let rows = [
        (most, h, half(h)),
        (h + 1, h + 1, half(h + 1)),
        (most, h + 1, (half(h + 1) + 1).min(h + 1)),
        (most, between, 2),
        (most, most, half(most)),
        (most, most, half(most) + 1),
        (most - 1, most, half(most)),
    ];
    let mut repair = |(row, (limit, length, changed)): (usize, (usize, usize, usize))| {
        let profile = profile(size, limit, random.between(1, 16));
        let start = [0, n - length, random.between(0, n - length)][row % 3];
        let run = Run { start, length };
        let read = damaged(&profile, run, changed, random);
        Repair { profile, read, run }
    };
    rows.into_iter().enumerate().map(&mut repair).collect()
}

/// A block as near to one codeword as to another that differs in r+1 neighbouring cells, by runs of r−1 of them. Of the run to the one three cells are
/// changed: the first two, which are as in the other, and the last.
fn tied(size: Size, random: &mut Random) -> Repair {
    let profile = profile(size, size.1 - 1, 1);
    let mut read = codeword(&profile, random);
    let (start, difference) = neighbour(size, random);
    let length = profile.r - 1;
    for i in [0, 1, length - 1] {
        read[start + i] ^= difference[i];
    }
    let run = Run { start, length };
    Repair { profile, read, run }
}

/// All blocks, made once: the table, the random ones, and with r of 7 and more tied ones.
pub fn repairs() -> impl Iterator<Item = &'static Repair> {
    static REPAIRS: OnceLock<Vec<Repair>> = OnceLock::new();
    let all = || {
        let mut random = Random::new(601);
        let mut repairs = examples();
        for size in SIZES {
            repairs.extend(random_repairs(size, &mut random));
        }
        for size in SIZES.into_iter().filter(|&(_, r, _)| r >= 7) {
            repairs.push(tied(size, &mut random));
        }
        repairs
    };
    REPAIRS.get_or_init(all).iter()
}

/// Those that the rule refuses, or would if another run were not as short.
pub fn sparse() -> impl Iterator<Item = &'static Repair> {
    repairs().filter(|repair| repair.is_refused())
}

impl From<&Repair> for Input {
    /// The block, with a second buffer of its length.
    fn from(repair: &Repair) -> Input {
        (repair.profile, repair.read.clone(), repair.profile.n)
    }
}

/// Sheets of sixteen blocks, each with a run of r−1 cells or fewer at a place of its own: all are thin; all but the last have more than half of theirs
/// changed, and the last is thin; none is.
fn sixteen_blocks(mode: Mode, random: &mut Random) -> Vec<Vector> {
    let profile = Profile::from([48, 34, 9, 33, 16]);
    let dense: [fn(usize) -> bool; 3] = [|_| false, |block| block < 15, |_| true];
    let mut vectors = Vec::new();
    for is_dense in dense {
        let mut damaged = |number| {
            let length = profile.limit - number;
            let start = number * (profile.n - length) / (profile.depth - 1);
            let changed = length / 2 + usize::from(is_dense(number));
            damaged(&profile, Run { start, length }, changed, random)
        };
        let blocks: Vec<Vec<u8>> = (0..profile.depth).map(&mut damaged).collect();
        vectors.push(read_blocks(mode, &profile, &blocks, profile.n, random));
    }
    vectors
}

/// The sheets found by hand, and sheets of sixteen blocks.
pub fn sheets(mode: Mode, seed: u64) -> Vec<Vector> {
    let example = |sheet: cases::RepairSheet| {
        let bytes = sheet.profile.depth * sheet.profile.k();
        read_vector_in(
            mode,
            &sheet.profile,
            &sheet.cells,
            vec![170; sheet.profile.n],
            vec![170; bytes],
        )
    };
    let mut vectors: Vec<Vector> = cases::repair_sheets().into_iter().map(example).collect();
    vectors.extend(sixteen_blocks(mode, &mut Random::new(seed)));
    vectors
}

#[cfg(test)]
mod tests {
    use super::*;
    use std::collections::BTreeSet;

    /// With odd r and with even r: of h cells half or fewer changed, which is exempt; of h+1 and of r−1 cells half changed, and one more. A half is
    /// rounded down, and is exact for some.
    #[test]
    fn every_edge_occurs() {
        let mut found = BTreeSet::new();
        let mut lengths = BTreeSet::new();
        for Repair { profile, read, .. } in repairs() {
            let Ok((run, written)) = block::shortest(profile, read) else {
                continue;
            };
            let (r, half) = (profile.r, run.length / 2);
            let changed = run.changed(read, &written);
            let number = block::look(profile, read).map_or_else(|refusal| refusal.number, |_| 0);
            if changed == half || changed == half + 1 {
                let length = [(r / 2, "h"), (r / 2 + 1, "h+1"), (r - 1, "r−1")];
                let named = length.iter().filter(|(length, _)| *length == run.length);
                found.extend(named.map(|(_, name)| (r % 2, *name, changed - half, number)));
                lengths.insert((run.length % 2, changed - half, number));
            }
        }
        for parity in [0, 1] {
            for (length, more, number) in [
                ("h", 0, 0),
                ("h+1", 0, 16),
                ("h+1", 1, 0),
                ("r−1", 0, 16),
                ("r−1", 1, 0),
            ] {
                assert!(
                    found.contains(&(parity, length, more, number)),
                    "{parity} {length} {more}"
                );
            }
            assert!(lengths.contains(&(parity, 0, 16)) && lengths.contains(&(parity, 1, 0)));
        }
    }

    /// Of the length of a thin run there is one run that reaches a codeword, of a tied block two and more. There are some of each, and no torn ones.
    #[test]
    fn sparse_runs_and_tied_ones() {
        let (mut sparse_runs, mut tied_runs) = (0, 0);
        for repair in sparse() {
            let refusal = block::look(&repair.profile, &repair.read).expect_err("it is refused");
            match (refusal.number, repair.equally_short().len()) {
                (SPARSE, 1) => sparse_runs += 1,
                (AMBIGUOUS, 2..) => tied_runs += 1,
                other => panic!("{other:?}"),
            }
        }
        assert!(sparse_runs > 25 && tied_runs > 5, "{sparse_runs} {tied_runs}");
    }

    /// Of sixteen blocks: block 0 is thin, the last one alone is, none is. In spot mode each sheet comes back.
    #[test]
    fn sheets_of_sixteen_blocks() {
        let answers = |mode| {
            let vectors = sixteen_blocks(mode, &mut Random::new(1)).into_iter();
            vectors
                .map(|vector| (vector.answer[0], vector.answer[1]))
                .collect::<Vec<_>>()
        };
        assert_eq!(answers(Mode::Burst), [(16, 0), (16, 15), (0, 16)]);
        assert_eq!(answers(Mode::Spots), [(0, 16); 3]);
    }
}
