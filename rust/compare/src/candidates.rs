//! The list of candidates of a block, by the library and by the second decoder. The list is also held to its order, each of its runs to the fill, and the whole
//! to the look; what kind of list it was is counted.

use crate::block::{candidates, correct_spots, fill, look};
use crate::work::{called, Tally};
use second::random::Random;
use second::{chosen_lists, Profile, Run};

/// The most runs that the list of a block that is no codeword can have: at every second start, and at most r−1.
fn most(p: &Profile) -> usize {
    chosen_lists::longest_list(p).len()
}

/// What the look answers can be read off the list: the number.
fn held_to_the_look(random: &mut Random, p: &Profile, read: &[u8], listed: &[(Run, Vec<u8>)]) -> usize {
    let answer = look(p, read);
    match listed {
        [] => assert_eq!(answer, (3, 0, 0, 0), "{p:?} {read:?}"),
        [(first, _), (second, _), ..] if first.length == second.length => {
            assert_eq!(answer, (4, 0, 0, 0), "{p:?} {read:?}");
        }
        [(first, codeword), ..] if answer.0 == 16 => {
            let (spots, near) = correct_spots(random, p, read, p.n);
            assert_eq!((spots.0, &near), (0, codeword), "{p:?} {read:?}");
            assert_eq!(Run::between(read, &near), *first, "{p:?} {read:?}");
        }
        [(first, _), ..] => assert_eq!(answer, (0, 0, first.start, first.length), "{p:?} {read:?}"),
    }
    answer.0
}

fn count_kinds(p: &Profile, number: usize, runs: &[Run], tally: &mut Tally) {
    let clean = runs.first().is_some_and(|run| run.length == 0);
    assert!(!clean || runs.len() == 1);
    tally.count("blocks");
    tally.count(if clean { "clean" } else { called(number) });
    if runs.len() > 1 {
        tally.count("several");
        if number != 4 {
            tally.count("several, not tied");
        }
    }
    if runs.len() > 2 {
        tally.count("more than two");
    }
    if runs.len() > 1 && runs.len() == most(p) {
        tally.count("as many as can be");
    }
    if runs.windows(2).any(|pair| pair[0].start > pair[1].start) {
        tally.count("a lower start behind a higher one");
    }
    if runs.iter().any(|run| run.length > 0 && run.start + run.length == p.n) {
        tally.count("at the last cell");
    }
}

/// Lists with both, and holds the list to its order, to the fill of each run and to the look: the runs. A run of fewer than r cells reaches at most one codeword, so
/// what fills a run is the codeword that it is listed for, and the run has to be tight around what is changed.
pub fn held(random: &mut Random, p: &Profile, read: &[u8], tally: &mut Tally) -> Vec<Run> {
    let ((number, _, count, _), pairs) = candidates(random, p, read, 2 * p.n);
    assert_eq!(number, 0, "{p:?} {read:?}");
    let run = |pair: &[u8]| Run {
        start: pair[0].into(),
        length: pair[1].into(),
    };
    let runs: Vec<Run> = pairs.chunks_exact(2).take(count).map(run).collect();
    let key = |run: &Run| (run.length, run.start);
    assert!(
        runs.windows(2).all(|pair| key(&pair[0]) < key(&pair[1])),
        "{p:?} {read:?}"
    );
    assert!(runs.len() <= most(p), "{p:?} {read:?}");
    let mut listed = Vec::new();
    for &run in &runs {
        assert!(run.length <= p.limit, "{p:?} {read:?}");
        let (answer, codeword) = fill(random, p, read, run, p.n);
        assert_eq!(answer, (0, 0, 0, 0), "{p:?} {read:?} {run:?}");
        assert_eq!(Run::between(read, &codeword), run, "{p:?} {read:?}");
        listed.push((run, codeword));
    }
    let number = held_to_the_look(random, p, read, &listed);
    count_kinds(p, number, &runs, tally);
    runs
}
