//! The texts of the plot lister, by the library and by the second decoder.

use compare::draw::{self, Size};
use compare::listing::list;
use compare::numbers;
use compare::sheet::{damaged, scratched};
use compare::work::{called, run, Tally};
use second::random::Random;
use second::{cases, plot, Profile};
use std::path::Path;

const SIZE: Size = Size { n: 30, r: 10 };

/// Lists an input and counts it: listed, or document 01's word for the refusal.
fn count(random: &mut Random, input: &[u8], tally: &mut Tally) {
    let text = list(random, input);
    let number = text
        .strip_prefix("refused,")
        .and_then(|rest| rest.split(',').next()?.parse().ok());
    tally.count(number.map_or("listed", called));
}

fn all_came_up(tally: &Tally, kinds: &[&str], least: u64) {
    for kind in kinds {
        assert!(tally.of(kind) >= least, "{kind}");
    }
}

/// The five numbers, then the sheet.
fn input_of(p: &Profile, cells: &[u8]) -> Vec<u8> {
    [&numbers(p).map(|x| x as u8)[..], cells].concat()
}

/// A sheet's payload of some plots, as far as they find space.
fn plots(random: &mut Random, length: usize) -> Vec<u8> {
    let mut payload = vec![0; length];
    let mut number = 0;
    for _ in 0..random.between(0, 4) {
        number += random.between(1, 9000);
        let lines = draw::lines(random, 8);
        let _ = plot::add(&mut payload, number as u16, &lines);
    }
    payload
}

/// The payload cut off, or with zeros after it.
fn sized(mut payload: Vec<u8>, length: usize) -> Vec<u8> {
    payload.resize(length, 0);
    payload
}

/// A sheet that is scratched, or damaged block by block, now and then with a byte changed, missing or added.
fn sheet_input(random: &mut Random) -> Vec<u8> {
    let p = draw::profile(random, SIZE);
    let length = p.depth * p.k();
    let payload = match random.between(0, 5) {
        0 => random.bytes(length),
        1 | 2 => sized(draw::payload(random), length),
        _ => plots(random, length),
    };
    let cells = match random.between(0, 2) {
        0 => damaged(random, &p, &payload),
        _ => scratched(random, &p, &payload, 0, p.depth * p.h()),
    };
    let mut input = input_of(&p, &cells);
    match random.between(0, 7) {
        0 => input.truncate(random.between(0, input.len())),
        1 => input.push(0),
        2 => {
            let place = random.between(0, 4);
            input[place] = random.byte();
        }
        _ => {}
    }
    input
}

#[test]
fn sheets() {
    let tally = run("listings", 8_000, |_, random, tally| {
        let input = sheet_input(random);
        count(random, &input, tally);
    });
    let sheet = ["listed", "misprint", "wrong frame", "torn", "tied"];
    let payload = ["bad mark", "cut short", "bad tally", "plot order"];
    all_came_up(&tally, &[&sheet[..], &payload].concat(), 5);
}

/// A small profile, then bytes that are mostly zero: as many as the sheet has cells, or any number of them.
fn short_input(random: &mut Random) -> Vec<u8> {
    let mut p = draw::profile(random, Size { n: 5, r: 4 });
    p.depth = random.between(1, 3);
    let count = [p.depth * p.n, random.between(0, 20)][random.between(0, 1)];
    let cells: Vec<u8> = (0..count)
        .map(|_| [0, 0, 0, random.byte()][random.between(0, 3)])
        .collect();
    input_of(&p, &cells)
}

#[test]
fn short_inputs() {
    let tally = run("short inputs", 1_000, |_, random, tally| {
        for _ in 0..20 {
            let length = random.between(0, 20);
            let bytes = random.bytes(length);
            count(random, &bytes, tally);
            let input = short_input(random);
            count(random, &input, tally);
        }
    });
    all_came_up(&tally, &["listed", "misprint", "wrong frame", "torn"], 50);
}

/// The table of the second decoder.
#[test]
fn table() {
    let mut random = Random::new(1);
    for (input, text) in cases::lists() {
        assert_eq!(list(&mut random, &input), text);
    }
}

/// The sheets of examples/cruise, with what examples/README.md says of them.
#[test]
fn example_sheets() {
    let folder = Path::new(env!("CARGO_MANIFEST_DIR")).join("../../examples/cruise");
    let mut random = Random::new(1);
    let mut listed = |name: &str| {
        let path = folder.join(name).with_extension("sheet");
        let input = std::fs::read(&path).unwrap_or_else(|error| panic!("{}: {error}", path.display()));
        list(&mut random, &input)
    };
    let [written, scratched] = ["written", "scratched"].map(&mut listed);
    let lines = written.strip_suffix("mended,0\n").expect("a clean sheet");
    assert!(lines.starts_with("plot,species,class,count\n101,"));
    assert_eq!(scratched, format!("{lines}mended,8\n"));
    let refused = ["torn", "tied", "thin", "mould"].map(listed);
    assert_eq!(
        refused,
        ["refused,3,3\n", "refused,4,5\n", "refused,16,6\n", "refused,3,0\n"]
    );
}

/// The longest payload with as many lines as it takes, each of 17 bytes, and every block changed: no text is longer.
#[test]
fn longest_text() {
    let p = Profile {
        n: 255,
        r: 2,
        b: 0,
        limit: 1,
        depth: 16,
    };
    let lines: Vec<u8> = (101..=140).flat_map(|class| [99, class, 255]).collect();
    let mut payload = vec![0; p.depth * p.k()];
    for number in 65_001..=65_032 {
        plot::add(&mut payload, number, &lines).expect("there is space");
    }
    plot::add(&mut payload, 65_033, &lines[..14 * 3]).expect("there is space");
    let mut random = Random::new(1);
    let cells = scratched(&mut random, &p, &payload, 16, 16);
    let text = list(&mut random, &input_of(&p, &cells));
    assert!(text.ends_with("\n65033,99,114,255\nmended,16\n"));
    assert_eq!(text.len(), 25 + (32 * 40 + 14) * 17 + 10);
}
