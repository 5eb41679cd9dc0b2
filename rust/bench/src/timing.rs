//! Times of the coders on one shape, taken in turn: in each round every coder works the same number of times, so that what disturbs the
//! machine meets all alike. A time is the median over the rounds. Calls take many different blocks in turn, as an archive has them: a coder
//! may be faster on a block that comes again.

use std::hint::black_box;
use std::time::Instant;

use bench::blocks::{blocks, Block};
use bench::coder::Coder;
use bench::{coders, Shape};

/// Calls of one sample.
const CALLS: usize = 64;

/// Nanoseconds of a call; `None` for work that the coder does not do.
pub struct Times {
    pub name: &'static str,
    pub write: f64,
    pub check: f64,
    pub correct: Option<f64>,
    pub look: Option<f64>,
    pub fill: Option<f64>,
    /// A clean block in spot mode.
    pub spots_clean: Option<f64>,
    pub spots: Option<f64>,
}

/// A coder with its blocks, in its order of cells.
struct Bench {
    coder: Box<dyn Coder>,
    blocks: Vec<Block>,
    out: Vec<u8>,
    samples: [Vec<f64>; 7],
}

impl Bench {
    fn new(mut coder: Box<dyn Coder>, shape: Shape, blocks: &[Block]) -> Bench {
        Bench {
            blocks: blocks.iter().map(|block| block.given_to(&mut *coder)).collect(),
            coder,
            out: vec![0; shape.n],
            samples: [const { vec![] }; 7],
        }
    }

    fn round(&mut self) {
        self.round_in_scratch_mode();
        self.round_in_spot_mode();
    }

    /// Writing and checking too, which have no mode.
    fn round_in_scratch_mode(&mut self) {
        let Bench {
            coder,
            blocks,
            out,
            samples,
        } = self;
        samples[0].push(nanoseconds(blocks, |block| {
            coder.write(black_box(&block.message), black_box(out))
        }));
        samples[1].push(nanoseconds(blocks, |block| {
            assert!(coder.check(black_box(&block.clean)))
        }));
        samples[2].push(nanoseconds(blocks, |block| {
            assert_ne!(coder.correct(black_box(&block.run), black_box(out)), Some(false))
        }));
        samples[3].push(nanoseconds(blocks, |block| {
            assert_ne!(coder.look(black_box(&block.run)), Some(false))
        }));
        samples[4].push(nanoseconds(blocks, |block| {
            let read = black_box(&block.run);
            assert_ne!(coder.fill(read, block.wrong.clone(), black_box(out)), Some(false))
        }));
    }

    fn round_in_spot_mode(&mut self) {
        let Bench {
            coder,
            blocks,
            out,
            samples,
        } = self;
        samples[5].push(nanoseconds(blocks, |block| {
            assert_ne!(
                coder.correct_spots(black_box(&block.clean), black_box(out)),
                Some(false)
            )
        }));
        samples[6].push(nanoseconds(blocks, |block| {
            assert_ne!(
                coder.correct_spots(black_box(&block.spots), black_box(out)),
                Some(false)
            )
        }));
    }

    fn times(mut self) -> Times {
        let Bench { coder, blocks, out, .. } = &mut self;
        let block = &blocks[0];
        let corrects = coder.correct(&block.run, out).is_some();
        let looks = coder.look(&block.run).is_some();
        let fills = coder.fill(&block.run, block.wrong.clone(), out).is_some();
        let has_spots = coder.correct_spots(&block.spots, out).is_some();
        let [write, check, correct, look, fill, spots_clean, spots] = self.samples.map(median);
        Times {
            name: self.coder.name(),
            write,
            check,
            correct: corrects.then_some(correct),
            look: looks.then_some(look),
            fill: fills.then_some(fill),
            spots_clean: has_spots.then_some(spots_clean),
            spots: has_spots.then_some(spots),
        }
    }
}

/// Nanoseconds of a call, over `CALLS` calls that take the inputs in turn.
pub fn nanoseconds<T>(inputs: &[T], call: impl FnMut(&T)) -> f64 {
    nanoseconds_over(CALLS, inputs, call)
}

/// The same over one call for each input.
pub fn each_once<T>(inputs: &[T], call: impl FnMut(&T)) -> f64 {
    nanoseconds_over(inputs.len(), inputs, call)
}

fn nanoseconds_over<T>(calls: usize, inputs: &[T], mut call: impl FnMut(&T)) -> f64 {
    let begin = Instant::now();
    for input in inputs.iter().cycle().take(calls) {
        call(input);
    }
    begin.elapsed().as_nanos() as f64 / calls as f64
}

pub fn median(samples: Vec<f64>) -> f64 {
    quantile(samples, 0.5)
}

/// The sample that has this part of the others below it.
pub fn quantile(mut samples: Vec<f64>, part: f64) -> f64 {
    samples.sort_by(f64::total_cmp);
    samples[(samples.len() as f64 * part) as usize]
}

/// The times of every linked coder over so many different blocks.
pub fn measure(shape: Shape, count: usize, rounds: usize) -> Vec<Times> {
    let blocks = blocks(shape, shape.half(), count);
    let mut benches: Vec<Bench> = coders(shape)
        .into_iter()
        .map(|coder| Bench::new(coder, shape, &blocks))
        .collect();
    for _ in 0..rounds {
        for bench in &mut benches {
            bench.round();
        }
    }
    benches.into_iter().map(Bench::times).collect()
}
