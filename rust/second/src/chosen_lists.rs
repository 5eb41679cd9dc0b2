//! Blocks whose list of candidates is chosen beforehand: the runs give the syndromes, and the syndromes give a block. Tests and test vectors use them; no entry
//! does.

use crate::block::{write, Profile, Run};
use crate::gf::{power, product};
use crate::linear::{solve, Solutions};
use crate::random::Random;

/// The starts of all runs of r−1 cells around these runs, modulo 255: r−f neighbours for a run of f cells. None if they are not fewer than r, or if those of two
/// runs meet.
fn starts(profile: &Profile, runs: &[Run]) -> Option<Vec<usize>> {
    let mut all = Vec::new();
    for run in runs {
        let around = profile.r - run.length;
        let own: Vec<usize> = (0..around).map(|i| (255 + run.start - i) % 255).collect();
        let meets = |s: &usize| own.iter().any(|t| [0, 1, 254].contains(&((255 + s - t) % 255)));
        if all.iter().any(meets) {
            return None;
        }
        all.extend(own);
    }
    (all.len() < profile.r).then_some(all)
}

/// The syndromes of a block that is no codeword, and of which just the runs of r−1 cells from these starts on reach one, counted around 255 cells.
///
/// Let C(y) have as coefficient i syndrome i over the product of α^(b+i)+α^(b+j) for the other j below r. Errors in the r−1 cells from cell s on are a
/// polynomial of degree below r−1 with the value S_i·α^(−s(b+i)) at α^(b+i); r such values belong to one exactly if their highest divided difference is zero,
/// and that is α^(−sb)·C(α^(−s)). So the run of r−1 cells from s on reaches a codeword exactly if α^(−s) is a root of C, which has at most r−1 roots. Each
/// listed run has a root of its own, and so a block that is no codeword has at most r−1 listed runs.
fn syndromes(profile: &Profile, starts: &[usize]) -> Vec<u8> {
    let mut polynomial = vec![0; profile.r];
    polynomial[0] = 1;
    for start in starts {
        let root = power(255 - start);
        for i in (0..profile.r).rev() {
            let lower = if i == 0 { 0 } else { polynomial[i - 1] };
            polynomial[i] = lower ^ product(root, polynomial[i]);
        }
    }
    let point = |i: usize| power(profile.b + i);
    let others = |i: usize| (0..profile.r).filter(move |&j| j != i);
    let syndrome = |i: usize| others(i).fold(polynomial[i], |value, j| product(value, point(i) ^ point(j)));
    (0..profile.r).map(syndrome).collect()
}

/// A block that is no codeword and whose list, L being r−1, has these runs and no others, with zeros in all message cells.
fn in_check_cells(profile: &Profile, runs: &[Run]) -> Option<Vec<u8>> {
    let target = syndromes(profile, &starts(profile, runs)?);
    let columns: Vec<Vec<u8>> = (0..profile.r).map(|cell| profile.column(cell)).collect();
    let Solutions::One(mut cells) = solve(&columns, &target) else {
        panic!("any r syndromes are those of one word in the check cells");
    };
    cells.resize(profile.n, 0);
    Some(cells)
}

/// A block that is no codeword and whose list, L being r−1, has these runs and no others; none if there is none. Each run is within the block and has 1 to r−1
/// cells. A random codeword is part of it, which changes no list.
pub fn block(profile: &Profile, runs: &[Run], random: &mut Random) -> Option<Vec<u8>> {
    let mut cells = in_check_cells(profile, runs)?;
    let mut codeword = vec![0; profile.n];
    write(profile, &random.bytes(profile.k()), &mut codeword).expect("a good profile");
    for (cell, other) in cells.iter_mut().zip(codeword) {
        *cell ^= other;
    }
    Some(cells)
}

/// As many runs as a list can have, r−1 of r−1 cells if the block is long enough: every second start.
pub fn longest_list(profile: &Profile) -> Vec<Run> {
    let length = profile.r - 1;
    let starts = (0..=profile.n - length).step_by(2).take(length);
    starts.map(|start| Run { start, length }).collect()
}

/// Of so many random runs of at least `shortest` cells those that fit into one list, in its order.
pub fn random_list(profile: &Profile, shortest: usize, count: usize, random: &mut Random) -> Vec<Run> {
    let mut runs = Vec::new();
    for _ in 0..count {
        let length = random.between(shortest, profile.r - 1);
        let start = random.between(0, profile.n - length);
        runs.push(Run { start, length });
        if starts(profile, &runs).is_none() {
            runs.pop();
        }
    }
    runs.sort_by_key(|run| (run.length, run.start));
    runs
}
