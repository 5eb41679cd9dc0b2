//! Sheets, written and read by the library and by the second decoder.

use compare::block;
use compare::draw::{self, Size};
use compare::sheet::{damaged, each_block, lengths, read, read_in, scratched, write};
use compare::work::{called, run, Tally};
use second::random::Random;
use second::{cases, Mode, Profile};

const SIZE: Size = Size { n: 30, r: 10 };

/// Reads with buffers of the due lengths, and says whether the payload came back.
fn read_back(random: &mut Random, p: &Profile, cells: &[u8], payload: &[u8], tally: &mut Tally) -> bool {
    let (answer, found) = read(random, p, cells, lengths(p));
    tally.count("sheets");
    tally.count(called(answer.0));
    answer.0 == 0 && found == payload
}

#[test]
fn within_the_promise() {
    let tally = run("within the promise", 1_500, |_, random, tally| {
        let mut p = draw::profile(random, SIZE);
        p.limit = random.between(p.h(), p.r - 1);
        let payload = random.bytes(p.depth * p.k());
        let cells = scratched(random, &p, &payload, 0, p.depth * p.h());
        assert!(read_back(random, &p, &cells, &payload, tally));
    });
    assert_eq!(tally.of("accepted"), tally.of("sheets"));
}

#[test]
fn beyond_the_promise() {
    let tally = run("beyond the promise", 2_000, |_, random, tally| {
        let p = draw::profile(random, SIZE);
        let payload = random.bytes(p.depth * p.k());
        let (least, most) = (p.depth * p.h() + 1, p.depth * p.n);
        let cells = scratched(random, &p, &payload, least, most.min(least + p.depth * 2));
        if read_back(random, &p, &cells, &payload, tally) {
            tally.count("payload back");
        }
    });
    assert!(tally.of("accepted") > 0 && tally.of("torn") > 100);
}

/// Some blocks of the sheet changed, each in its own way: the lowest that is refused is named.
#[test]
fn blocks_damaged_one_by_one() {
    let tally = run("blocks damaged", 1_500, |_, random, tally| {
        let p = draw::profile(random, draw::SMALL);
        let payload = random.bytes(p.depth * p.k());
        let cells = damaged(random, &p, &payload);
        read_back(random, &p, &cells, &payload, tally);
    });
    for kind in ["accepted", "torn", "tied"] {
        assert!(tally.of(kind) > 50, "{kind}");
    }
}

/// Each block has a run of its own, of up to h cells.
#[test]
fn blocks_scratched_one_by_one() {
    let tally = run("blocks scratched", 400, |_, random, tally| {
        let mut p = draw::profile(random, Size { n: 255, r: 20 });
        p.limit = random.between(p.h(), p.r - 1);
        let payload = random.bytes(p.depth * p.k());
        let cells = each_block(random, &p, &payload, |random, mut block| {
            draw::run(random, &mut block, p.h());
            block
        });
        assert!(read_back(random, &p, &cells, &payload, tally));
    });
    assert_eq!(tally.of("accepted"), tally.of("sheets"));
}

/// A scratch that both modes bring back, and a last block that is noise or between two codewords: no other block is refused.
#[test]
fn only_the_last_block_may_be_refused() {
    let tally = run("the last block", 1_000, |_, random, tally| {
        let mut p = draw::profile(random, SIZE);
        p.limit = random.between(p.h(), p.r - 1);
        let payload = random.bytes(p.depth * p.k());
        let mut cells = scratched(random, &p, &payload, 0, p.depth * p.h());
        let last = block::written(random, &p);
        let damage = ["half a codeword", "noise"][random.between(0, 1)];
        for (i, cell) in draw::damaged(random, &p, &last, damage).into_iter().enumerate() {
            cells[i * p.depth + p.depth - 1] = cell;
        }
        for mode in Mode::ALL {
            let (number, place, ..) = read_in(mode, random, &p, &cells, lengths(&p)).0;
            assert_eq!(place, if number == 0 { 0 } else { p.depth - 1 });
            tally.count(format!("{mode:?}: {}", called(number)));
        }
    });
    for kind in ["Burst: torn", "Burst: tied", "Spots: spotted"] {
        assert!(tally.of(kind) > 50, "{kind}");
    }
}

/// A scratch of D × n bytes, which the reader took before document 02's Note 6, on sheets that are accepted with n bytes.
#[test]
fn a_scratch_as_long_as_the_sheet_is_refused() {
    let tally = run("scratch of D × n bytes", 1_000, |_, random, tally| {
        let mut p = draw::profile(random, SIZE);
        p.limit = random.between(p.h(), p.r - 1);
        let payload = random.bytes(p.depth * p.k());
        let cells = scratched(random, &p, &payload, 0, p.depth * p.h());
        for mode in Mode::ALL {
            let (due, found) = read_in(mode, random, &p, &cells, lengths(&p));
            assert_eq!((due.0, &found), (0, &payload));
            let (answer, _) = read_in(mode, random, &p, &cells, (p.depth * p.n, p.depth * p.k()));
            assert_eq!(answer, if p.depth == 1 { due } else { (2, 0, 0, 0) });
            tally.count(called(answer.0));
        }
    });
    assert!(tally.of("accepted") > 0 && tally.of("wrong frame") > tally.of("accepted"));
}

#[test]
fn profiles_and_lengths_are_refused() {
    let bad = |random: &mut Random, p: &Profile| {
        let length = random.between(0, 60);
        let bytes = random.bytes(length);
        let lengths = (random.between(0, 60), random.between(0, 60));
        assert_eq!(write(random, p, &bytes, lengths.0).0, (1, 0, 0, 0));
        for mode in Mode::ALL {
            assert_eq!(read_in(mode, random, p, &bytes, lengths).0, (1, 0, 0, 0));
        }
    };
    run("refused sheets", 1_000, |_, random, tally| {
        let p = draw::profile_out_of_range(random);
        bad(random, &p);
        tally.count(called(1));
        let p = draw::profile(random, SIZE);
        let due = [p.depth * p.n, p.n, p.depth * p.k()];
        let wrong = [
            draw::wrong_length(random, due[0]),
            draw::wrong_scratch(random, &p),
            draw::wrong_length(random, due[2]),
        ];
        for mask in 1..8 {
            let length = |i: usize| if mask >> i & 1 == 1 { wrong[i] } else { due[i] };
            let cells = random.bytes(length(0));
            for mode in Mode::ALL {
                let answer = read_in(mode, random, &p, &cells, (length(1), length(2))).0;
                assert_eq!(answer, (2, 0, 0, 0));
            }
            if mask & 2 == 0 {
                let payload = random.bytes(length(2));
                assert_eq!(write(random, &p, &payload, length(0)).0, (2, 0, 0, 0));
            }
            tally.count(called(2));
        }
    });
    let mut random = Random::new(1);
    for p in cases::profiles_out_of_range() {
        bad(&mut random, &p);
    }
}
