//! Payloads, checked, asked and added to by the library and by the second decoder.

use compare::draw;
use compare::plot::{add, ask, check, Answer};
use compare::work::{called, run, Tally};
use second::random::Random;
use second::refusal::{refuse, refuse_line};
use second::{cases, plot, Refusal};

/// First byte and length of a record, or the refusal.
fn told(result: Result<(usize, usize), Refusal>) -> Answer {
    result.map_or_else(Answer::refused, |(at, length)| Answer::accepted(at, length))
}

/// A plot number to ask for: one that is there, 0, or any.
fn asked(random: &mut Random, payload: &[u8]) -> u16 {
    let numbers: Vec<u16> = plot::records(payload)
        .unwrap_or_default()
        .iter()
        .map(|record| plot::plot_number(payload, record.start))
        .collect();
    match random.between(0, 3) {
        0 => 0,
        1 => random.between(0, 65_535) as u16,
        _ if numbers.is_empty() => 7,
        _ => numbers[random.between(0, numbers.len() - 1)],
    }
}

/// A plot number to add: mostly above the last one, or 0, or any.
fn next_number(random: &mut Random, payload: &[u8]) -> u16 {
    let records = plot::records(payload).unwrap_or_default();
    let last = records
        .last()
        .map_or(0, |record| plot::plot_number(payload, record.start));
    match random.between(0, 9) {
        0 => 0,
        1 => last,
        2 => random.between(0, 65_535) as u16,
        _ => last.saturating_add(random.between(1, 300) as u16),
    }
}

const FIGURES: [&str; 4] = ["species", "class", "count", "order"];
const POSITIONS: [&str; 3] = ["first", "middle", "last"];

/// Counts an answer; a bad tally by its figure and by where the line stands in a tally of so many lines.
fn count(tally: &mut Tally, entry: &str, answer: Answer, lines: usize) {
    tally.count(format!("{entry}: {}", called(answer.number)));
    if answer.number != 7 {
        return;
    }
    let Some(figure) = answer.figure.checked_sub(1) else {
        tally.count(format!("{entry}: outside a line"));
        return;
    };
    let position = match answer.line {
        0 => 0,
        line if line + 1 < lines => 1,
        _ => 2,
    };
    tally.count(format!("{entry}: {}, {}", FIGURES[figure], POSITIONS[position]));
    let record = if answer.place == 0 { "first" } else { "later" };
    tally.count(format!("{entry}: {}, {record} record", FIGURES[figure]));
}

fn one_payload(random: &mut Random, tally: &mut Tally) {
    let payload = draw::payload(random);
    let checked = check(&payload);
    let lines_at = |place: usize| payload.get(place + 4).map_or(0, |&count| count.into());
    count(tally, "check", checked, lines_at(checked.place));
    let plot = asked(random, &payload);
    let found = ask(&payload, plot);
    count(tally, "ask", found, lines_at(found.place));
    let (plot, lines) = (next_number(random, &payload), draw::any_lines(random));
    let (answer, after) = add(&payload, plot, &lines);
    if checked.number != 0 {
        assert_eq!(answer, checked);
        tally.count(format!("add: {}", called(answer.number)));
        return;
    }
    count(tally, "add", answer, lines.len() / 3);
    if answer.number == 0 {
        assert_eq!(ask(&after, plot), Answer::accepted(answer.at, 5 + lines.len()));
    }
}

/// Every figure came up often in the first line, in a middle one and in the last, and in the first record and in later ones; but the first line has
/// none before it.
fn figures_came_up(tally: &Tally, entry: &str) {
    for figure in FIGURES {
        for position in [&POSITIONS[..], &["first record", "later record"]].concat() {
            let kind = format!("{entry}: {figure}, {position}");
            let (times, never) = (tally.of(&kind), (figure, position) == ("order", "first"));
            assert!(if never { times == 0 } else { times > 50 }, "{kind}");
        }
    }
    assert!(tally.of(&format!("{entry}: outside a line")) > 50, "{entry}");
}

#[test]
fn random_payloads() {
    let tally = run("payloads", 400, |_, random, tally| {
        for _ in 0..100 {
            one_payload(random, tally);
        }
    });
    let payload = ["wrong frame", "bad mark", "cut short", "bad tally", "plot order"];
    for entry in ["check", "ask", "add"] {
        for kind in [&payload[..], &["accepted"]].concat() {
            assert!(tally.of(&format!("{entry}: {kind}")) > 20, "{entry}: {kind}");
        }
        figures_came_up(&tally, entry);
    }
    assert!(tally.of("ask: no such plot") > 20 && tally.of("add: full") > 20);
}

/// The tables of the second decoder, with their places, figures and lines.
#[test]
fn tables() {
    for (payload, expected) in cases::payloads() {
        let answer = check(&payload);
        assert_eq!(answer, told(expected.map(|()| (answer.at, 0))), "{payload:?}");
    }
    for (payload, plot, expected) in cases::asks() {
        assert_eq!(ask(&payload, plot), told(expected), "{payload:?} {plot}");
    }
    for (payload, plot, lines, expected) in cases::adds() {
        let expected = told(expected.map(|first| (first, 0)));
        assert_eq!(add(&payload, plot, &lines).0, expected, "{payload:?} {plot} {lines:?}");
    }
}

/// Each of forty lines made bad in each way, in the first record, in a later one, and lent.
#[test]
fn each_of_forty_lines() {
    let good: Vec<u8> = (1..=40).flat_map(|class| [7, class, 1]).collect();
    let first = plot::record(8, &good);
    for index in 0..40 {
        // the line before has class `index`, and the first line none before it
        let order = (4, 1, index as u8);
        for (figure, value, bad) in [(1, 0, 100), (2, 1, 201), (3, 2, 0), order] {
            if (figure, index) == (4, 0) {
                continue;
            }
            let mut lines = good.clone();
            lines[3 * index + value] = bad;
            let [alone, later] = [0, first.len()].map(|place| told(refuse_line(place, figure, index)));
            let second = plot::record(9, &lines);
            assert_eq!((check(&second), ask(&second, 9)), (alone, alone));
            let both = [&first[..], &second].concat();
            assert_eq!((check(&both), ask(&both, 8)), (later, later));
            assert_eq!(add(&[0; 125], 9, &lines).0, alone);
            assert_eq!(add(&first, 9, &lines).0, later);
        }
    }
}

/// Every payload of two bytes, every last byte of a mark, and every value of each byte of a record and of lent lines.
#[test]
fn every_value_of_a_byte() {
    for pair in 0..=0xFFFF_u16 {
        check(&pair.to_le_bytes());
    }
    let two = [
        plot::record(7, &[3, 32, 2, 3, 33, 1]),
        plot::record(258, &[99, 200, 255]),
        vec![0, 0],
    ]
    .concat();
    for place in 0..two.len() {
        for value in 0..=255 {
            let mut payload = two.clone();
            payload[place] = value;
            check(&payload);
            ask(&payload, 258);
            add(&payload, 300, &[]);
            add(&payload[..two.len() - 2], 300, &[1, 1, 1]);
        }
    }
    let lines = [3, 32, 2, 3, 33, 1, 99, 200, 255];
    for place in 0..lines.len() {
        for value in 0..=255 {
            let mut lines = lines;
            lines[place] = value;
            add(&two, 300, &lines);
        }
    }
}

/// Two records cut at every byte, or with zeros up to 4,048 bytes and past it, asked for plots that they hold and for absent ones.
#[test]
fn asks_at_every_cut_and_about_the_longest() {
    let two = [
        plot::record(7, &[3, 32, 2, 3, 33, 1]),
        plot::record(258, &[99, 200, 255]),
    ]
    .concat();
    for length in (0..=two.len()).chain(4047..=4050) {
        let mut payload = two.clone();
        payload.resize(length, 0);
        let absent = told(refuse(9, 0));
        let due = match length {
            0 => [absent; 4],
            1..=10 => [told(refuse(6, 0)); 4],
            11 => [Answer::accepted(0, 11), absent, absent, absent],
            12..=18 => [told(refuse(6, 11)); 4],
            19..=4048 => [Answer::accepted(0, 11), Answer::accepted(11, 8), absent, absent],
            _ => [told(refuse(2, 0)); 4],
        };
        assert_eq!([7, 258, 8, 0].map(|number| ask(&payload, number)), due, "{length}");
    }
}
