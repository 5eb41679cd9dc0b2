//! Lists of candidates, by the library and by the second decoder: of random blocks of every size, of blocks made for a list, and of a table. Each list is also held
//! to the look, and each of its runs to the fill. Tiny profiles are gone through exhaustively in `tiny_profiles.rs`.

use compare::block::{candidates, written};
use compare::candidates::held;
use compare::draw::{self, Size, DAMAGES, LARGE, MEDIUM, SMALL};
use compare::work::{called, run, Tally};
use second::random::Random;
use second::{cases, chosen_lists, gf, Profile, Run};

fn compare_blocks(title: &str, seeds: u64, size: Size) -> Tally {
    run(title, seeds, |_, random, tally| {
        for damage in DAMAGES {
            let p = draw::profile(random, size);
            let block = written(random, &p);
            let read = draw::damaged(random, &p, &block, damage);
            held(random, &p, &read, tally);
        }
        let p = draw::profile_of_long_runs(random, size);
        let block = written(random, &p);
        let read = draw::with_sparse_run(random, &p, &block);
        held(random, &p, &read, tally);
    })
}

/// The kinds that random damage gives, each at least so often; lists of several runs are rarer.
fn kinds(least: u64, several: u64) -> Vec<(&'static str, u64)> {
    let answers = ["clean", "accepted", "torn", "thin", "at the last cell"].map(|kind| (kind, least));
    let lists = ["several", "tied", "several, not tied"].map(|kind| (kind, several));
    answers.into_iter().chain(lists).collect()
}

#[test]
fn small_blocks() {
    let tally = compare_blocks("candidates, small blocks", 3_000, SMALL);
    tally.assert_at_least(&kinds(1_000, 100));
}

#[test]
fn medium_blocks() {
    let tally = compare_blocks("candidates, medium blocks", 400, MEDIUM);
    tally.assert_at_least(&kinds(100, 20));
}

#[test]
fn large_blocks() {
    let tally = compare_blocks("candidates, large blocks", 8, LARGE);
    tally.assert_at_least(&kinds(1, 1));
}

/// A block made for a list, times a factor, which changes no list: with L=r−1 that list, and with another L those of its runs that have at most L cells.
fn made_for(random: &mut Random, p: &Profile, list: &[Run], tally: &mut Tally) {
    let factor = random.nonzero();
    let cells = chosen_lists::block(p, list, random).expect("a block with this list");
    let read: Vec<u8> = cells.into_iter().map(|cell| gf::product(factor, cell)).collect();
    for limit in [p.r - 1, random.between(0, p.r - 1)] {
        let p = Profile { limit, ..*p };
        let due: Vec<Run> = list.iter().copied().filter(|run| run.length <= limit).collect();
        assert_eq!(held(random, &p, &read, tally), due, "{p:?} {read:?}");
    }
}

/// Random lists, and the longest.
#[test]
fn lists_chosen_before() {
    let tally = run("candidates, chosen lists", 700, |_, random, tally| {
        let size = [SMALL, MEDIUM][random.between(0, 1)];
        let p = draw::profile(random, size);
        let shortest = [1, p.r / 2, p.r - 1][random.between(0, 2)];
        let list = chosen_lists::random_list(&p, shortest, 20, random);
        made_for(random, &p, &list, tally);
        made_for(random, &p, &chosen_lists::longest_list(&p), tally);
    });
    let often = [
        "accepted",
        "torn",
        "tied",
        "several, not tied",
        "more than two",
        "as many as can be",
    ];
    tally.assert_at_least(&often.map(|kind| (kind, 200)));
    tally.assert_at_least(&[("a lower start behind a higher one", 100), ("at the last cell", 200)]);
}

/// The same of the largest blocks.
#[test]
fn lists_of_large_blocks() {
    let sizes = [
        (255, 2, 254),
        (255, 3, 0),
        (255, 16, 9),
        (254, 33, 1),
        (65, 64, 77),
        (255, 64, 254),
    ];
    let tally = run("candidates, large lists", sizes.len() as u64, |seed, random, tally| {
        let (n, r, b) = sizes[seed as usize - 1];
        let p = Profile::from([n, r, b, r - 1, 1]);
        made_for(random, &p, &chosen_lists::longest_list(&p), tally);
        let list = chosen_lists::random_list(&p, r / 2, 40, random);
        made_for(random, &p, &list, tally);
    });
    tally.assert_at_least(&[("as many as can be", 5), ("more than two", 3), ("torn", 3)]);
}

/// The table of the second decoder, found by hand.
#[test]
fn table() {
    let mut random = Random::new(1);
    let mut tally = Tally::default();
    for row in cases::candidates() {
        let (answer, _) = candidates(&mut random, &row.profile, &row.read, row.pairs_length);
        match row.expected {
            Ok(due) => {
                let runs = held(&mut random, &row.profile, &row.read, &mut tally);
                let found: Vec<(usize, usize)> = runs.iter().map(|run| (run.start, run.length)).collect();
                assert_eq!((answer, found), ((0, 0, due.len(), 0), due), "{:?}", row.read);
            }
            Err(number) => assert_eq!(answer, (number.into(), 0, 0, 0), "{:?}", row.read),
        }
    }
    tally.assert_at_least(&[
        ("clean", 5),
        ("accepted", 10),
        ("torn", 10),
        ("tied", 4),
        ("thin", 1),
        ("several, not tied", 2),
    ]);
}

/// Refusal 1 whatever the buffers are, refusal 2 for each buffer that has not its length; the number of runs is then 0.
#[test]
fn profiles_and_lengths_are_refused() {
    let bad = |random: &mut Random, p: &Profile, tally: &mut Tally| {
        let (first, second) = (random.between(0, 300), random.between(0, 600));
        for (first, second) in [(first, second), (4, 8), (p.n.min(300), p.n.min(300) * 2)] {
            let read = random.bytes(first);
            let (answer, _) = candidates(random, p, &read, second);
            assert_eq!(answer, (1, 0, 0, 0), "{p:?}");
            tally.count(called(answer.0));
        }
    };
    let tally = run("candidates, refused blocks", 2_000, |_, random, tally| {
        let p = draw::profile_out_of_range(random);
        bad(random, &p, tally);
        let p = draw::profile(random, LARGE);
        let [first, second] = [p.n, 2 * p.n].map(|due| draw::wrong_length(random, due));
        let lengths = [
            (first, 2 * p.n),
            (first, 2 * first),
            (first, second),
            (p.n, second),
            (p.n, p.n),
        ];
        for (first, second) in lengths {
            let read = random.bytes(first);
            let (answer, _) = candidates(random, &p, &read, second);
            assert_eq!(answer, (2, 0, 0, 0), "{p:?} {first} {second}");
            tally.count(called(answer.0));
        }
    });
    tally.assert_at_least(&[("misprint", 6_000), ("wrong frame", 10_000)]);
    let mut random = Random::new(1);
    for p in cases::profiles_out_of_range() {
        bad(&mut random, &p, &mut Tally::default());
    }
}
