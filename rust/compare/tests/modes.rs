//! Mould read in both modes: h single cells changed at random places that span more than L cells. Spot mode brings back every block; scratch mode refuses
//! it or takes it to a codeword that was not written, the latter often where L is r−1. Such a codeword differs in nearly all cells of its run, so the rule on
//! thin repairs does not help. Where the spots lie within L cells but over more than r/2, it refuses the right codeword, and spot mode brings that back too.

use compare::block::{correct_in, written};
use compare::work::{called, run, Tally};
use second::random::Random;
use second::{Mode, Profile};

const BLOCKS: u64 = 4_000;

/// The block with h cells changed, from first to last more than L cells.
fn moulded(random: &mut Random, p: &Profile, block: &[u8]) -> Vec<u8> {
    loop {
        let mut read = block.to_vec();
        random.change(&mut read, p.h());
        let mut wrong = (0..p.n).filter(|&i| read[i] != block[i]);
        let first = wrong.next().expect("a changed cell");
        if wrong.next_back().unwrap_or(first) - first >= p.limit {
            return read;
        }
    }
}

/// What scratch mode makes of the blocks: a wrong codeword, or a refusal. One block in `step` is given to the second decoder too.
fn scratch_mode(n: usize, r: usize, limit: usize, step: u64) -> Tally {
    let p = Profile::from([n, r, 1, limit, 1]);
    let library = compare::profile(&p).expect("a profile in range");
    let title = format!("mould, n = {n}, r = {r}, L = {limit}, {} spots", p.h());
    run(&title, BLOCKS, |seed, random, tally| {
        let (mut block, mut out) = (vec![0; n], vec![0; n]);
        library
            .write_block(&random.bytes(p.k()), &mut block)
            .expect("k bytes and n cells");
        let read = moulded(random, &p, &block);
        let changes = library.correct_spots(&read, &mut out).expect("h spots are put right");
        assert_eq!((changes.count, &out), (p.h(), &block), "{p:?} {read:?}");
        tally.count(match library.correct_block(&read, &mut out) {
            Ok(_) => {
                assert_ne!(out, block, "{p:?} {read:?}");
                "wrong codeword"
            }
            Err(error) => called(error.number().into()),
        });
        if seed % step == 0 {
            for mode in Mode::ALL {
                correct_in(mode, random, &p, &read, n);
            }
        }
    })
}

/// L = r−1, the largest, at n = 255: more than one block in three goes to a wrong codeword.
#[test]
fn longest_runs() {
    for (r, step) in [(32, 100), (16, 20)] {
        let tally = scratch_mode(255, r, r - 1, step);
        let [wrong, torn, tied] = ["wrong codeword", "torn", "tied"].map(|kind| tally.of(kind));
        assert_eq!(wrong + torn + tied, BLOCKS);
        assert!(3 * wrong > BLOCKS && 3 * torn > BLOCKS && 6 * tied > BLOCKS, "r = {r}");
    }
}

/// L = r−2: fewer than one in a hundred do, but some.
#[test]
fn runs_one_cell_shorter() {
    let tally = scratch_mode(255, 32, 30, 100);
    let wrong = tally.of("wrong codeword");
    assert!((1..BLOCKS / 100).contains(&wrong));
    assert_eq!(wrong + tally.of("torn"), BLOCKS);
}

/// L near h: none does, each block is torn.
#[test]
fn runs_near_half_of_r() {
    let tally = scratch_mode(60, 21, 12, 1);
    assert_eq!(tally.of("torn"), BLOCKS);
}

/// Four spots within L = r−1 cells. Where they span no more than half of r, scratch mode takes the block to the written codeword; where they span more, it
/// refuses it as thin, or as tied.
#[test]
fn few_spots_close_together() {
    let p = Profile::from([255, 32, 1, 31, 1]);
    let tally = run(
        "mould, n = 255, r = 32, L = 31, 4 spots in 31 cells",
        BLOCKS,
        |seed, random, tally| {
            let block = written(random, &p);
            let start = random.between(0, p.n - p.limit);
            let mut read = block.clone();
            random.change(&mut read[start..start + p.limit], 4);
            let wrong: Vec<usize> = (0..p.n).filter(|&i| read[i] != block[i]).collect();
            let long = 2 * (wrong[3] + 1 - wrong[0]) > p.r;
            let library = compare::profile(&p).expect("a profile in range");
            let mut out = vec![0; p.n];
            let changes = library
                .correct_spots(&read, &mut out)
                .expect("four spots are put right");
            assert_eq!((changes.count, &out), (4, &block), "{read:?}");
            let told = match library.correct_block(&read, &mut out) {
                Ok(_) if out == block => "as written",
                Ok(_) => "wrong codeword",
                Err(error) => called(error.number().into()),
            };
            assert_eq!(told == "as written", !long, "{read:?}");
            tally.count(told);
            if seed % 200 == 0 {
                correct_in(Mode::Burst, random, &p, &read, p.n);
            }
        },
    );
    let [sparse, tied, written] = ["thin", "tied", "as written"].map(|kind| tally.of(kind));
    assert!(sparse > 8 * tied && 10 * written > BLOCKS, "{sparse} {tied} {written}");
}
