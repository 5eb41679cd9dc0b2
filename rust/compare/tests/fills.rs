//! Blocks looked at, and filled within a run that is named, by the library and by the second decoder.

use compare::block::{check, correct_in, fill, look, written};
use compare::draw::{self, Size, DAMAGES, LARGE, MEDIUM, SMALL};
use compare::work::{called, run, Tally};
use second::generator::generator;
use second::random::Random;
use second::{cases, Mode, Profile, Run};

/// A profile of any of these sizes.
fn any_profile(random: &mut Random, sizes: &[Size]) -> Profile {
    let size = sizes[random.between(0, sizes.len() - 1)];
    draw::profile(random, size)
}

/// The look answers what the corrector does, and its fill leaves what the corrector leaves.
fn look_and_its_fill(random: &mut Random, p: &Profile, read: &[u8], tally: &mut Tally) {
    let (corrected, out) = correct_in(Mode::Burst, random, p, read, p.n);
    let looked = look(p, read);
    assert_eq!(looked, corrected, "{p:?} {read:?}");
    tally.count(format!("look {}", called(looked.0)));
    if let (0, _, start, length) = looked {
        let filled = fill(random, p, read, Run { start, length }, p.n);
        assert_eq!(filled, ((0, 0, 0, 0), out), "{p:?} {read:?}");
    }
}

/// Fills a run with both; what is accepted is a codeword that agrees with the block outside the run, whatever L is.
fn fill_any(random: &mut Random, p: &Profile, read: &[u8], span: Run, tally: &mut Tally) -> (usize, Vec<u8>) {
    let (answer, out) = fill(random, p, read, span, p.n);
    tally.count(format!("fill {}", called(answer.0)));
    if answer.0 == 0 {
        assert_eq!(check(p, &out), (0, 0, 1, 0), "{p:?} {read:?} {span:?}");
        let end = span.start + span.length;
        assert_eq!((&out[..span.start], &out[end..]), (&read[..span.start], &read[end..]));
    }
    let limit = random.between(0, p.r - 1);
    let (other, other_out) = fill(random, &Profile { limit, ..*p }, read, span, p.n);
    assert_eq!(other, answer, "{p:?} {read:?} {span:?} {limit}");
    assert!(answer.0 != 0 || other_out == out);
    (answer.0, out)
}

fn compare_blocks(title: &str, seeds: u64, size: Size) -> Tally {
    run(title, seeds, |_, random, tally| {
        for damage in DAMAGES {
            let p = draw::profile(random, size);
            let block = written(random, &p);
            let read = draw::damaged(random, &p, &block, damage);
            look_and_its_fill(random, &p, &read, tally);
            for _ in 0..8 {
                let span = draw::span(random, &p);
                fill_any(random, &p, &read, span, tally);
            }
            let span = draw::far_span(random, &p);
            assert_eq!(fill_any(random, &p, &read, span, tally).0, 12, "{span:?}");
        }
    })
}

fn all_came_up(tally: &Tally, least: u64) {
    for kind in [
        "look accepted",
        "look torn",
        "look tied",
        "fill accepted",
        "fill torn",
        "fill bad span",
    ] {
        assert!(tally.of(kind) >= least, "{kind}");
    }
}

#[test]
fn small_blocks() {
    all_came_up(&compare_blocks("fills, small blocks", 5_000, SMALL), 1_000);
}

#[test]
fn medium_blocks() {
    all_came_up(&compare_blocks("fills, medium blocks", 1_500, MEDIUM), 300);
}

#[test]
fn large_blocks() {
    all_came_up(&compare_blocks("fills, large blocks", 50, LARGE), 10);
}

/// Every start and every length, to past n, of small blocks: 12 exactly where start plus length exceeds n or length exceeds r−1.
#[test]
fn every_span() {
    let tally = run("fills, every span", 300, |_, random, tally| {
        let p = draw::profile(random, SMALL);
        let block = written(random, &p);
        let damage = DAMAGES[random.between(0, DAMAGES.len() - 1)];
        let read = draw::damaged(random, &p, &block, damage);
        for (start, length) in (0..p.n + 3).flat_map(|s| (0..p.n + 3).map(move |f| (s, f))) {
            let number = fill_any(random, &p, &read, Run { start, length }, tally).0;
            assert_eq!(number == 12, start + length > p.n || length > p.r - 1, "{p:?}");
        }
    });
    assert!(tally.of("fill accepted") > 1_000 && tally.of("fill torn") > 1_000);
}

/// Sums past 2^64 and past 2^32, of every size.
#[test]
fn far_spans() {
    let tally = run("fills, far spans", 20_000, |_, random, tally| {
        let p = any_profile(random, &[SMALL, MEDIUM, LARGE]);
        let read = random.bytes(p.n);
        let span = draw::far_span(random, &p);
        let (answer, _) = fill(random, &p, &read, span, p.n);
        assert_eq!(answer, (12, 0, 0, 0), "{p:?} {span:?}");
        tally.count(match span.start.checked_add(span.length) {
            Some(_) => "far",
            None => "past 2^64",
        });
    });
    assert!(tally.of("far") > 5_000 && tally.of("past 2^64") > 5_000);
}

/// A run of up to r−1 cells overwritten, longer than L or not: filled by itself and by the longest run around it. One cell more outside it is refused.
#[test]
fn runs_named() {
    let tally = run("fills, runs named", 4_000, |_, random, tally| {
        let p = any_profile(random, &[SMALL, MEDIUM, LARGE]);
        let codeword = written(random, &p);
        let length = random.between(0, p.r - 1);
        let start = random.between(0, p.n - length);
        let mut read = codeword.clone();
        read[start..start + length].copy_from_slice(&random.bytes(length));
        let around = Run {
            start: random.between((start + length).saturating_sub(p.r - 1), start.min(p.n + 1 - p.r)),
            length: p.r - 1,
        };
        for span in [Run { start, length }, around] {
            assert_eq!(fill_any(random, &p, &read, span, tally), (0, codeword.clone()));
        }
        tally.count(if length > p.limit { "longer than L" } else { "within L" });

        let outside: Vec<usize> = (0..p.n).filter(|i| !(start..start + length).contains(i)).collect();
        read[outside[random.between(0, outside.len() - 1)]] ^= random.nonzero();
        assert_eq!(fill_any(random, &p, &read, Run { start, length }, tally).0, 3);
    });
    assert!(tally.of("longer than L") > 1_000 && tally.of("within L") > 1_000);
}

/// Two codewords that differ in r+1 neighbours, r odd, and a block half way between them: the run named decides, whatever the look says.
#[test]
fn tied_blocks() {
    let tally = run("fills, tied blocks", 1_000, |_, random, tally| {
        let mut p = any_profile(random, &[SMALL, MEDIUM]);
        p.r -= (p.r + 1) % 2;
        p.r = p.r.max(3);
        p.n = p.n.max(p.r + 1);
        let half = p.r / 2 + 1;
        p.limit = random.between(half - 1, p.r - 1);
        let codeword = written(random, &p);
        let first = random.between(0, p.n - p.r - 1);
        let mut other = codeword.clone();
        for (cell, difference) in other[first..].iter_mut().zip(generator(p.b, p.r)) {
            *cell ^= difference;
        }
        let mut read = codeword.clone();
        read[first..first + half].copy_from_slice(&other[first..first + half]);
        look_and_its_fill(random, &p, &read, tally);
        for (start, due) in [(first, &codeword), (first + half, &other)] {
            let span = Run { start, length: half };
            assert_eq!(fill_any(random, &p, &read, span, tally), (0, due.clone()));
        }
    });
    assert!(tally.of("look tied") > 300 && tally.of("look torn") > 100);
}

/// A codeword is filled by every run to itself, by those of length 0 from the first to past the last cell too.
#[test]
fn clean_blocks() {
    run("fills, clean blocks", 2_000, |_, random, tally| {
        let p = draw::profile(random, LARGE);
        let codeword = written(random, &p);
        let length = random.between(0, p.r - 1);
        let any = random.between(0, p.n - length);
        for (start, length) in [(0, 0), (p.n, 0), (random.between(0, p.n), 0), (any, length)] {
            let filled = fill_any(random, &p, &codeword, Run { start, length }, tally);
            assert_eq!(filled, (0, codeword.clone()));
        }
        let past = p.n + 1;
        assert_eq!(
            fill_any(random, &p, &codeword, Run { start: past, length: 0 }, tally).0,
            12
        );
    });
}

/// The table of the second decoder, and document 01's rows looked at.
#[test]
fn tables() {
    let mut random = Random::new(1);
    for row in cases::fills() {
        let (answer, out) = fill(&mut random, &row.profile, &row.read, row.run, 4);
        match row.expected {
            Ok(codeword) => assert_eq!((answer, out), ((0, 0, 0, 0), codeword.into())),
            Err(number) => assert_eq!(answer, (number.into(), 0, 0, 0), "{:?}", row.run),
        }
    }
    for row in cases::corrections() {
        let due = match row.expected {
            Ok((_, start, length)) => (0, 0, start, length),
            Err(number) => (number.into(), 0, 0, 0),
        };
        assert_eq!(look(&row.profile, &row.read), due);
    }
}

/// Refusal 1 whatever buffers and span are, refusal 2 for each buffer that has not its length, whatever the span is. The look has one buffer.
#[test]
fn profiles_and_lengths_are_refused() {
    let bad = |random: &mut Random, p: &Profile, tally: &mut Tally| {
        let bytes = random.between(0, 300);
        let bytes = random.bytes(bytes);
        let length = random.between(0, 300);
        assert_eq!(look(p, &bytes).0, 1);
        for span in [(0, 0), (0, usize::MAX), (usize::MAX, 1), (300, 300)] {
            let (start, width) = span;
            let (answer, _) = fill(random, p, &bytes, Run { start, length: width }, length);
            assert_eq!(answer, (1, 0, 0, 0), "{p:?} {span:?}");
            tally.count(called(answer.0));
        }
    };
    run("fills, refused blocks", 2_000, |_, random, tally| {
        let p = draw::profile_out_of_range(random);
        bad(random, &p, tally);
        let p = draw::profile(random, LARGE);
        let wrong = [p.n, p.n].map(|due| draw::wrong_length(random, due));
        assert_eq!(look(&p, &random.bytes(wrong[0])).0, 2);
        for (first, second) in [(wrong[0], p.n), (p.n, wrong[1]), (wrong[0], wrong[1])] {
            let bytes = random.bytes(first);
            for span in [draw::span(random, &p), draw::far_span(random, &p)] {
                let (answer, _) = fill(random, &p, &bytes, span, second);
                assert_eq!(answer, (2, 0, 0, 0), "{p:?} {span:?}");
                tally.count(called(answer.0));
            }
        }
    });
    let mut random = Random::new(1);
    for p in cases::profiles_out_of_range() {
        bad(&mut random, &p, &mut Tally::default());
    }
}
