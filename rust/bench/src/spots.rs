//! How the time of spot mode grows with the number of wrong cells, for every coder that corrects cells anywhere.

use std::hint::black_box;

use bench::blocks::{blocks, Block};
use bench::coder::Coder;
use bench::{coders, Shape};

use crate::timing::{median, nanoseconds};

/// A coder, its blocks for each number of wrong cells, in its order of cells, and the samples for each.
struct Bench {
    coder: Box<dyn Coder>,
    blocks: Vec<Vec<Block>>,
    samples: Vec<Vec<f64>>,
}

/// The median nanoseconds for each of these numbers of wrong cells, by coder.
pub fn measure(shape: Shape, wrong: &[usize], count: usize, rounds: usize) -> Vec<(usize, Vec<(&'static str, f64)>)> {
    let mut out = vec![0; shape.n];
    let all: Vec<Vec<Block>> = wrong.iter().map(|&w| blocks(shape, w, count)).collect();
    let mut benches: Vec<Bench> = coders(shape)
        .into_iter()
        .filter_map(|mut coder| {
            coder.correct_spots(&vec![0; shape.n], &mut out)?;
            let mut given = |blocks: &Vec<Block>| blocks.iter().map(|block| block.given_to(&mut *coder)).collect();
            Some(Bench {
                blocks: all.iter().map(&mut given).collect(),
                samples: vec![vec![]; wrong.len()],
                coder,
            })
        })
        .collect();
    for _ in 0..rounds {
        for Bench { coder, blocks, samples } in &mut benches {
            for (blocks, samples) in blocks.iter().zip(samples) {
                samples.push(nanoseconds(blocks, |block| {
                    assert_eq!(
                        coder.correct_spots(black_box(&block.spots), black_box(&mut out)),
                        Some(true)
                    )
                }));
            }
        }
    }
    let times = |i: usize| {
        let time = |bench: &Bench| (bench.coder.name(), median(bench.samples[i].clone()));
        benches.iter().map(time).collect()
    };
    wrong.iter().enumerate().map(|(i, &w)| (w, times(i))).collect()
}
