//! Document 02's rule on long but thin repairs, on sheets and in the lister's text: among the blocks that are refused, thin, torn or tied, the lowest decides.
//! Spot mode knows no such rule.

use compare::block::{correct_spots, look};
use compare::draw::{self, Size};
use compare::listing::list;
use compare::numbers;
use compare::sheet::{each_block, lengths, read, read_in, write};
use compare::work::{called, run, Tally};
use compare::Answer;
use second::random::Random;
use second::{cases, Mode, Profile};

const SIZE: Size = Size { n: 30, r: 12 };

/// The blocks of a sheet.
fn blocks(p: &Profile, cells: &[u8]) -> Vec<Vec<u8>> {
    let block = |d: usize| cells.iter().skip(d).step_by(p.depth).copied().collect();
    (0..p.depth).map(block).collect()
}

/// What the reader should answer for blocks of which each has this answer by itself: number and place of the lowest that is refused, or how many are changed.
fn of_blocks(answers: &[Answer], is_changed: impl Fn(&Answer) -> bool) -> Answer {
    match answers.iter().position(|answer| answer.0 != 0) {
        Some(lowest) => (answers[lowest].0, lowest, 0, 0),
        None => (0, 0, answers.iter().filter(|answer| is_changed(answer)).count(), 0),
    }
}

/// Reads a sheet with both, in scratch mode, by the lister and in spot mode: the answers of its blocks' looks decide, or those of their correction in spot
/// mode. The looks' answers come back.
fn held(random: &mut Random, p: &Profile, cells: &[u8], tally: &mut Tally) -> Vec<Answer> {
    let looks: Vec<Answer> = blocks(p, cells).iter().map(|block| look(p, block)).collect();
    let due = of_blocks(&looks, |answer| answer.3 > 0);
    let (answer, _) = read(random, p, cells, lengths(p));
    assert_eq!(answer, due, "{p:?} {cells:?}");
    let input = [&numbers(p).map(|number| number as u8)[..], cells].concat();
    let text = list(random, &input);
    assert!(
        answer.0 == 0 || text == format!("refused,{},{}\n", answer.0, answer.1),
        "{text}"
    );
    let spots: Vec<Answer> = blocks(p, cells)
        .iter()
        .map(|block| correct_spots(random, p, block, p.n).0)
        .collect();
    let (spotted, _) = read_in(Mode::Spots, random, p, cells, lengths(p));
    assert_eq!(spotted, of_blocks(&spots, |answer| answer.2 > 0), "{p:?} {cells:?}");
    tally.count(called(answer.0));
    looks
}

/// A block in one of the ways that a look may find it.
fn any_block(random: &mut Random, p: &Profile, block: Vec<u8>) -> Vec<u8> {
    match random.between(0, 15) {
        0..=6 => block,
        7..=9 => draw::damaged(random, p, &block, "one run"),
        10..=12 => draw::with_sparse_run(random, p, &block),
        13 | 14 => draw::damaged(random, p, &block, "half a codeword"),
        _ => draw::damaged(random, p, &block, "noise"),
    }
}

/// Each block changed in its own way or left: in each order of two that are refused, the lower one is named.
#[test]
fn the_lowest_refused_block_is_named() {
    let tally = run("thin, sheets", 2_000, |_, random, tally| {
        let p = draw::profile_of_long_runs(random, SIZE);
        let payload = vec![0; p.depth * p.k()];
        let cells = each_block(random, &p, &payload, |random, block| any_block(random, &p, block));
        let looks = held(random, &p, &cells, tally);
        let refused: Vec<&str> = looks
            .iter()
            .map(|answer| answer.0)
            .filter(|&number| number != 0)
            .map(called)
            .collect();
        if let [lowest, next, ..] = refused[..] {
            tally.count(format!("{lowest} below {next}"));
        }
        if let [.., 16] = looks.iter().map(|answer| answer.0).collect::<Vec<_>>()[..] {
            tally.count(if refused.len() == 1 {
                "the last alone"
            } else {
                "the last too"
            });
        }
    });
    for (lower, upper) in [
        ("thin", "torn"),
        ("torn", "thin"),
        ("thin", "tied"),
        ("tied", "thin"),
        ("thin", "thin"),
    ] {
        let kind = format!("{lower} below {upper}");
        assert!(tally.of(&kind) > 20, "{kind}");
    }
    for kind in ["accepted", "thin", "torn", "tied", "the last alone"] {
        assert!(tally.of(kind) > 20, "{kind}");
    }
}

/// Any payload, of whose blocks some are clean, some have a run of up to h cells and some a thin one: 16 at the lowest of these. Spot mode gives the payload
/// back, since of a thin run at most h cells are changed.
#[test]
fn sparse_sheets_come_back_in_spot_mode() {
    let tally = run("thin, in spot mode", 1_500, |_, random, tally| {
        let p = draw::profile_of_long_runs(random, SIZE);
        let payload = random.bytes(p.depth * p.k());
        let cells = each_block(random, &p, &payload, |random, mut block| match random.between(0, 5) {
            0..=3 => block,
            4 => {
                draw::run(random, &mut block, p.h());
                block
            }
            _ => draw::with_sparse_run(random, &p, &block),
        });
        let (answer, _) = read(random, &p, &cells, lengths(&p));
        tally.count(called(answer.0));
        let (spotted, found) = read_in(Mode::Spots, random, &p, &cells, lengths(&p));
        assert_eq!((spotted.0, &found), (0, &payload), "{p:?} {cells:?}");
    });
    assert!(tally.of("thin") > 500 && tally.of("accepted") > 50);
}

/// The part of a block that a scratch covers: from its first changed cell to its last, and how many of them are changed.
fn part(block: &[u8], written: &[u8]) -> (usize, usize) {
    let wrong: Vec<usize> = (0..block.len()).filter(|&i| block[i] != written[i]).collect();
    match wrong[..] {
        [] => (0, 0),
        [first, ..] => (wrong[wrong.len() - 1] + 1 - first, wrong.len()),
    }
}

/// A scratch of up to D × h cells, of which most are as they were: no block's part is longer than half of r, so none is thin, though of some no more than
/// half is changed, and all comes back.
#[test]
fn short_scratches_are_exempt() {
    let tally = run("thin, short scratches", 800, |_, random, tally| {
        let mut p = draw::profile(random, Size { n: 60, r: 24 });
        p.limit = random.between(p.h(), p.r - 1);
        let payload = random.bytes(p.depth * p.k());
        let written = write(random, &p, &payload, p.depth * p.n).1;
        let mut cells = written.clone();
        let length = random.between(p.depth, p.depth * p.h());
        let start = random.between(0, cells.len() - length);
        let changed = length.min(3 * p.depth);
        random.change(&mut cells[start..start + length], changed);
        let pairs = blocks(&p, &cells).into_iter().zip(blocks(&p, &written));
        let half_right = pairs
            .map(|(block, written)| part(&block, &written))
            .filter(|(length, changed)| {
                assert!(2 * length <= p.r, "{p:?} {cells:?}");
                *length > 0 && 2 * changed <= *length
            });
        tally.count(if half_right.count() > 0 {
            "half is right"
        } else {
            "more is wrong"
        });
        let (answer, found) = read(random, &p, &cells, lengths(&p));
        assert_eq!((answer.0, &found), (0, &payload), "{p:?} {cells:?}");
    });
    assert!(tally.of("half is right") > 100 && tally.of("more is wrong") > 100);
}

/// The sheets of the second decoder, found by hand.
#[test]
fn table() {
    let mut random = Random::new(1);
    for sheet in cases::repair_sheets() {
        let looks = held(&mut random, &sheet.profile, &sheet.cells, &mut Tally::default());
        let due = match sheet.expected {
            Ok(changed) => (0, 0, changed, 0),
            Err((number, block)) => (number.into(), block, 0, 0),
        };
        assert_eq!(of_blocks(&looks, |answer| answer.3 > 0), due);
    }
}
