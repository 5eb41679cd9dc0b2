//! What the program should print, by the second decoder.

use std::collections::BTreeMap;

use program_runs::Ended;
use second::plot::{records, HEADER};
use second::stand::Stand;
use second::{sheet, Mode, Profile, Refusal};

use crate::layout::table;
use crate::sheets::File;

/// A sheet that was read.
struct Reading {
    payload: Vec<u8>,
    changed: usize,
    depth: usize,
}

fn read(mode: Mode, input: &[u8]) -> Result<Reading, Refusal> {
    let (&numbers, cells) = input.split_first_chunk().expect("five bytes");
    let profile = Profile::from(numbers.map(usize::from));
    let mut scratch = vec![0; profile.n];
    let mut payload = vec![0; profile.depth * profile.k()];
    let changed = sheet::read_in(mode, &profile, cells, &mut scratch, &mut payload)?;
    Ok(Reading {
        payload,
        changed,
        depth: profile.depth,
    })
}

/// The program's words for a refusal.
fn reason(refusal: Refusal) -> String {
    let (number, place, line) = (refusal.number, refusal.place, refusal.line);
    let word = match number {
        3 => "torn",
        4 => "tied",
        5 => "bad mark",
        6 => "cut short",
        7 => "bad tally",
        8 => "plot order",
        11 => "spotted: no codeword differs in at most h cells",
        14 => "tract full: a payload beyond 1,000, or a cell or counter above 400,000,000",
        16 => "thin: a run of more than r/2 cells, of which at most half would be changed",
        _ => panic!("{number}"),
    };
    let figure = match refusal.figure {
        0 => return format!("{word} (refusal {number}, place {place})"),
        1 => "species number out of range",
        2 => "diameter class out of range",
        3 => "tree count out of range",
        _ => "species and class not above the line before",
    };
    let fault = format!("plot record at byte {place}, line {line}: {figure}");
    format!("{word}: {fault} (refusal {number}, place {place}, lines counted from 0)")
}

fn counted(number: impl TryInto<u64>, word: &str) -> String {
    match number.try_into().ok().expect("a count") {
        1 => format!("1 {word}"),
        number => format!("{number} {word}s"),
    }
}

/// Species and count of each line of a payload, none if it is refused.
fn lines(payload: &[u8]) -> Vec<(u8, u64)> {
    let records = records(payload).unwrap_or_default().into_iter();
    let bytes: Vec<u8> = records
        .flat_map(|record| &payload[record.start + HEADER..record.end])
        .copied()
        .collect();
    bytes.chunks(3).map(|line| (line[0], line[2].into())).collect()
}

/// The species of the payloads, in rising order, of more than sixteen those with the most trees; and how many there are.
fn found<'a>(payloads: impl Iterator<Item = &'a Vec<u8>>) -> (Vec<u8>, usize) {
    let mut trees: BTreeMap<u8, u64> = BTreeMap::new();
    for (species, count) in payloads.flat_map(|payload| lines(payload)) {
        *trees.entry(species).or_default() += count;
    }
    let found = trees.len();
    // the fewest trees go first, and of equals the highest number
    while trees.len() > 16 {
        let fewest = trees.iter().rev().min_by_key(|(_, trees)| **trees);
        let fewest = *fewest.expect("a species").0;
        trees.remove(&fewest);
    }
    (trees.into_keys().collect(), found)
}

/// What is said of a sheet that is added.
fn added(stand: &mut Stand, reading: Reading) -> Result<String, Refusal> {
    stand.add(&reading.payload)?;
    let plots = counted(records(&reading.payload)?.len(), "plot");
    let trees = counted(
        lines(&reading.payload).iter().map(|(_, count)| count).sum::<u64>(),
        "tree",
    );
    let blocks = counted(reading.depth, "block");
    Ok(format!("{plots}, {trees}, {} of {blocks} mended", reading.changed))
}

/// All trees, all plots, and trees per plot.
fn summary(stand: &Stand) -> String {
    let trees = counted(stand.total().expect("few trees"), "tree");
    let plots = counted(stand.state().records, "plot");
    match stand.trees_per_plot() {
        Ok(found) => {
            let quotient = counted(found.quotient, "tree");
            format!("{trees} on {plots}: {quotient} per plot and {} over.", found.remainder)
        }
        Err(_) => format!("{trees} on {plots}, and so no trees per plot: no plots (refusal 15)."),
    }
}

/// How the program ends for these files in their order, each in its mode.
pub fn run(files: &[File], modes: &[Mode], species: Option<&[u8]>) -> Ended {
    assert_eq!(files.len(), modes.len());
    let readings: Vec<_> = files
        .iter()
        .zip(modes)
        .map(|((_, input), mode)| read(*mode, input))
        .collect();
    let payloads = readings.iter().flatten().map(|reading| &reading.payload);
    let (list, count) = species.map_or_else(|| found(payloads), |list| (list.to_vec(), 0));
    let mut stand = Stand::begin(&list).expect("a good list");
    let (mut out, mut missing) = (String::new(), 0);
    for ((name, _), reading) in files.iter().zip(readings) {
        let told = reading.and_then(|reading| added(&mut stand, reading));
        missing += usize::from(told.is_err());
        let told = told.unwrap_or_else(|refusal| format!("not in the table: {}", reason(refusal)));
        out += &format!("{name}: {told}\n");
    }
    out += "\nTrees by species and diameter class in centimetres";
    if count > 16 {
        out += &format!(", the 16 of {count} species with the most trees in rows of their own");
    }
    out += &format!(":\n\n{}\n{}", table(&stand.state(), &list), summary(&stand));
    let verb = if missing == 1 { "is" } else { "are" };
    let left_out = format!("{missing} of {} {verb} not in the table", counted(files.len(), "sheet"));
    let (status, end, err) = match missing {
        0 => (0, "\n".into(), String::new()),
        _ => (1, format!(" {left_out}.\n"), format!("tract-table: {left_out}\n")),
    };
    Ended {
        status,
        out: out + &end,
        err,
    }
}
