//! The payload under a candidate, and the plots and tally lines that read differently in two payloads. Only one block at a time has another codeword than
//! its first, so two payloads that are compared differ in the bytes of that block alone. The library checks a payload, and only an accepted one has plots.

use std::collections::{BTreeMap, BTreeSet};

use tishwabe::{check_payload, Error, Profile};

use crate::candidates::Candidate;

/// The tree counts of a plot by species and class.
type Tally = BTreeMap<(u8, u8), u8>;

/// The plots of an accepted payload by their numbers.
#[derive(Debug, PartialEq)]
pub struct Plots(BTreeMap<u16, Tally>);

/// A plot, or a tally line of a plot by species and class, that reads differently in another payload.
#[derive(Debug, PartialEq)]
pub struct Difference {
    pub plot: u16,
    pub line: Option<(u8, u8)>,
    pub change: Change,
}

/// How it reads differently, in trees: those in the other payload and here, or in the one of the two that has it.
#[derive(Debug, PartialEq)]
pub enum Change {
    Instead { other: u32, here: u32 },
    Added(u32),
    Missing(u32),
}

/// The messages of the first candidates of all blocks, or the numbers of the blocks that have no candidate.
pub fn first_messages<'a>(profile: &Profile, lists: &'a [Vec<Candidate>]) -> Result<Vec<&'a [u8]>, Vec<usize>> {
    let without: Vec<usize> = (0..lists.len()).filter(|&block| lists[block].is_empty()).collect();
    if !without.is_empty() {
        return Err(without);
    }
    let firsts = lists.iter().filter_map(|list| list.first());
    Ok(firsts.map(|first| first.message(profile)).collect())
}

/// The payload with this message for this block and the first one for each other block; other combinations are not tried. Payload byte q is message byte
/// q mod k of block q/k, so the messages follow one another.
pub fn payload(firsts: &[&[u8]], block: usize, message: &[u8]) -> Vec<u8> {
    let mut messages = firsts.to_vec();
    messages[block] = message;
    messages.concat()
}

impl Plots {
    /// The plots of a payload, or why it is refused.
    pub fn of(payload: &[u8]) -> Result<Plots, Error> {
        let mut left = &payload[..check_payload(payload)?];
        let mut plots = BTreeMap::new();
        // What is left are whole records: mark, plot number, number of lines, and the lines.
        while let Some((&[_, _, low, high, lines], rest)) = left.split_first_chunk() {
            let (lines, after) = rest.split_at(3 * usize::from(lines));
            let tally = lines.chunks_exact(3).map(|line| ((line[0], line[1]), line[2]));
            plots.insert(u16::from_le_bytes([low, high]), tally.collect());
            left = after;
        }
        Ok(Plots(plots))
    }

    pub fn count(&self) -> usize {
        self.0.len()
    }

    pub fn trees(&self) -> u32 {
        self.0.values().map(trees).sum()
    }

    /// What reads differently in the other, by plot, species and class.
    pub fn differences(&self, other: &Plots) -> Vec<Difference> {
        let mut found = Vec::new();
        for plot in keys(&self.0, &other.0) {
            match (self.0.get(&plot), other.0.get(&plot)) {
                (Some(here), Some(there)) => found.extend(lines(plot, here, there)),
                (here, there) => found.extend(difference(plot, None, here.map(trees), there.map(trees))),
            }
        }
        found
    }
}

fn trees(tally: &Tally) -> u32 {
    tally.values().map(|&count| u32::from(count)).sum()
}

/// The tally lines of a plot that read differently.
fn lines(plot: u16, here: &Tally, there: &Tally) -> Vec<Difference> {
    let count = |tally: &Tally, line| tally.get(&line).copied().map(u32::from);
    let lines = keys(here, there).into_iter();
    lines
        .filter_map(|line| difference(plot, Some(line), count(here, line), count(there, line)))
        .collect()
}

/// The difference between the trees here and those in the other payload, each none where there is no such plot or line.
fn difference(plot: u16, line: Option<(u8, u8)>, here: Option<u32>, there: Option<u32>) -> Option<Difference> {
    let change = match (here, there) {
        (Some(here), Some(other)) if here != other => Change::Instead { other, here },
        (Some(here), None) => Change::Missing(here),
        (None, Some(other)) => Change::Added(other),
        _ => return None,
    };
    Some(Difference { plot, line, change })
}

/// The keys of two maps.
fn keys<K: Copy + Ord, V>(one: &BTreeMap<K, V>, other: &BTreeMap<K, V>) -> BTreeSet<K> {
    one.keys().chain(other.keys()).copied().collect()
}

#[cfg(test)]
mod tests {
    use super::*;
    use tishwabe::{add, Run};

    /// A payload of 60 bytes with these plots.
    fn written(plots: &[(u16, &[u8])]) -> Vec<u8> {
        let mut payload = vec![0; 60];
        for &(plot, lines) in plots {
            add(&mut payload, plot, lines).expect("a plot in range");
        }
        payload
    }

    fn plots(plots: &[(u16, &[u8])]) -> Plots {
        Plots::of(&written(plots)).expect("accepted")
    }

    #[test]
    fn counts() {
        let found = plots(&[(7, &[3, 32, 2, 3, 33, 255]), (258, &[]), (259, &[99, 200, 1])]);
        assert_eq!((found.count(), found.trees()), (3, 258));
        assert_eq!(found.0.keys().copied().collect::<Vec<u16>>(), [7, 258, 259]);
        assert_eq!(found.0[&7], BTreeMap::from([((3, 32), 2), ((3, 33), 255)]));
        assert_eq!(plots(&[]), Plots(BTreeMap::new()));
        assert_eq!(Plots::of(&[0x50, 0x4C, 7]), Err(Error::CutShort { place: 0 }));
    }

    /// A payload without a zero byte at its end.
    #[test]
    fn full_payload() {
        let record = &written(&[(7, &[3, 32, 2])])[..8];
        assert_eq!(Plots::of(record), Ok(plots(&[(7, &[3, 32, 2])])));
    }

    #[test]
    fn differences() {
        let reference = plots(&[(7, &[3, 32, 2, 3, 33, 9, 4, 1, 1]), (8, &[1, 1, 1]), (10, &[])]);
        let other = plots(&[(7, &[3, 32, 5, 3, 34, 9, 4, 1, 1]), (9, &[1, 1, 1, 2, 2, 2]), (10, &[])]);
        let found = reference.differences(&other);
        let due = [
            (7, Some((3, 32)), Change::Instead { other: 5, here: 2 }),
            (7, Some((3, 33)), Change::Missing(9)),
            (7, Some((3, 34)), Change::Added(9)),
            (8, None, Change::Missing(1)),
            (9, None, Change::Added(3)),
        ];
        assert_eq!(found, due.map(|(plot, line, change)| Difference { plot, line, change }));
        assert_eq!(reference.differences(&reference), []);
    }

    /// Three blocks of two message bytes.
    #[test]
    fn payloads() {
        let profile = Profile::new(4, 2, 0, 1, 3).expect("in range");
        let candidate = |codeword: [u8; 4]| Candidate {
            run: Run { start: 0, length: 0 },
            codeword: codeword.to_vec(),
            changed: vec![],
        };
        let first = [[0, 0, 1, 2], [0, 0, 3, 4], [0, 0, 5, 6]].map(candidate);
        let mut lists = first.map(|first| vec![first, candidate([9, 9, 7, 8])]).to_vec();
        let firsts = first_messages(&profile, &lists).expect("each block has a candidate");
        assert_eq!(payload(&firsts, 1, lists[1][0].message(&profile)), [1, 2, 3, 4, 5, 6]);
        let other = lists[1][1].message(&profile);
        assert_eq!(payload(&firsts, 1, other), [1, 2, 7, 8, 5, 6]);
        assert_eq!(payload(&firsts, 2, other), [1, 2, 3, 4, 7, 8]);
        lists[2].clear();
        assert_eq!(first_messages(&profile, &lists), Err(vec![2]));
        lists[0].clear();
        assert_eq!(first_messages(&profile, &lists), Err(vec![0, 2]));
    }
}
