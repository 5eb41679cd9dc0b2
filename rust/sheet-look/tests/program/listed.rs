//! What the program should list with `--all`: the whole text after the table. Codewords, refusals and plots are those of the second decoder, and nothing of the
//! program or of the library is used, so that a fault of theirs is not repeated here.

use second::candidates::candidate_codewords;
use second::plot::{self, plot_number};
use second::{Profile, Refusal, Run};

use crate::expected::{self, Expected};

/// A plot's number and its lines.
type Plot = (u16, Vec<[u8; 3]>);

/// A sheet with, for each block, the verdict's word if it is not clean, whether it is refused, and its codewords.
struct Sheet {
    profile: Profile,
    words: Vec<Option<&'static str>>,
    refused: Vec<bool>,
    lists: Vec<Vec<(Run, Vec<u8>)>>,
    read: Vec<Vec<u8>>,
}

impl Sheet {
    fn new(input: &[u8]) -> Sheet {
        let (profile, _) = expected::parts(input);
        let (blocks, read) = (expected::blocks(input), expected::read(input));
        let word = |block: &Expected| match block.accepted() {
            Some((run, _)) if run.length == 0 => None,
            Some(_) => Some("mendable"),
            None => block.refusal(),
        };
        let list = |cells: &Vec<u8>| candidate_codewords(&profile, cells).expect("in range");
        Sheet {
            profile,
            words: blocks.iter().map(word).collect(),
            refused: blocks.iter().map(|block| block.accepted().is_none()).collect(),
            lists: read.iter().map(list).collect(),
            read,
        }
    }

    /// Whether a payload can be made.
    fn is_whole(&self) -> bool {
        self.lists.iter().all(|list| !list.is_empty())
    }

    /// Payload byte q is message byte q mod k of block q/k.
    fn payload(&self, block: usize, codeword: &[u8]) -> Vec<u8> {
        let Profile { r, depth, .. } = self.profile;
        let k = self.profile.k();
        let byte = |q: usize| match q / k == block {
            true => codeword[r + q % k],
            false => self.lists[q / k][0].1[r + q % k],
        };
        (0..depth * k).map(byte).collect()
    }
}

fn plots(payload: &[u8]) -> Result<Vec<Plot>, Refusal> {
    let records = plot::records(payload)?.into_iter();
    let lines = |start: usize, end: usize| payload[start + plot::HEADER..end].chunks(3);
    Ok(records
        .map(|at| {
            let lines = lines(at.start, at.end).map(|line| [line[0], line[1], line[2]]);
            (plot_number(payload, at.start), lines.collect())
        })
        .collect())
}

fn many(count: usize, word: &str) -> String {
    format!("{count} {word}{}", if count == 1 { "" } else { "s" })
}

fn trees(lines: &[[u8; 3]]) -> usize {
    lines.iter().map(|line| usize::from(line[2])).sum()
}

/// "block 3", "blocks 3 and 5", "blocks 3, 5 and 6".
fn names(blocks: &[usize]) -> String {
    let numbers: Vec<String> = blocks.iter().map(|block| block.to_string()).collect();
    match numbers.split_last() {
        Some((last, [])) => format!("block {last}"),
        Some((last, others)) => format!("blocks {} and {last}", others.join(", ")),
        None => String::new(),
    }
}

/// All that follows the table.
pub fn due(input: &[u8]) -> String {
    let sheet = Sheet::new(input);
    let limit = many(sheet.profile.limit, "cell");
    if sheet.words.iter().all(Option::is_none) {
        return format!("\nEvery block is clean, and no other codeword lies within a run of at most {limit}.\n");
    }
    let without: Vec<usize> = (0..sheet.lists.len()).filter(|&i| sheet.lists[i].is_empty()).collect();
    let payloads = match without.len() {
        0 => "Each payload is made of the codeword listed and, for every other block, its first codeword: as read, as mended, or, where that block is refused, only assumed; other combinations are not tried.".into(),
        _ => format!("No payload is shown, since no codeword is listed for {}.", names(&without)),
    };
    let mut text = format!("\nFor each block that is not clean, every codeword within a run of at most {limit}, with its message bytes in hexadecimal. Bytes in [] differ from those of the first codeword.\n{payloads}\n");
    for block in 0..sheet.lists.len() {
        text += &section(&sheet, block);
    }
    text
}

fn section(sheet: &Sheet, block: usize) -> String {
    let (Some(word), list) = (sheet.words[block], &sheet.lists[block]) else {
        return String::new();
    };
    let runs = if list.len() > 1 { "runs" } else { "a run" };
    let limit = many(sheet.profile.limit, "cell");
    let codewords = match list.len() {
        0 => "no codeword".into(),
        count => many(count, "codeword"),
    };
    let mut text = format!("\nblock {block}, {word}: {codewords} within {runs} of at most {limit}\n");
    text += &format!("  its message is {}\n", payload_bytes(sheet, block));
    if !list.is_empty() {
        text += &notes(sheet, block);
    }
    let entries = (0..list.len()).map(|index| entry(sheet, block, index));
    text + &entries.collect::<String>()
}

/// The bytes of the payload that are in a block.
fn payload_bytes(sheet: &Sheet, block: usize) -> String {
    let k = sheet.profile.k();
    let bytes: Vec<usize> = (0..sheet.profile.depth * k).filter(|q| q / k == block).collect();
    match bytes[..] {
        [one] => format!("payload byte {one}"),
        _ => format!("payload bytes {} to {}", bytes[0], bytes[bytes.len() - 1]),
    }
}

/// Whether no codeword is chosen, and which other blocks are refused.
fn notes(sheet: &Sheet, block: usize) -> String {
    let mut text = String::new();
    if sheet.refused[block] {
        let differences = ["", "; differences are from the first"][usize::from(sheet.lists[block].len() > 1)];
        text += &format!("  none is chosen{differences}\n");
    }
    let others: Vec<usize> = (0..sheet.lists.len())
        .filter(|&i| i != block && sheet.refused[i])
        .collect();
    if sheet.is_whole() && !others.is_empty() {
        let verb = [
            "are refused; these payloads have their first codewords",
            "is refused; these payloads have its first codeword",
        ];
        let verb = verb[usize::from(others.len() == 1)];
        text += &format!("  {} {verb}\n", names(&others));
    }
    text
}

fn entry(sheet: &Sheet, block: usize, index: usize) -> String {
    let (run, codeword) = &sheet.lists[block][index];
    let first = &sheet.lists[block][0].1[sheet.profile.r..];
    let message = &codeword[sheet.profile.r..];
    let changed = (0..sheet.profile.n)
        .filter(|&i| codeword[i] != sheet.read[block][i])
        .count();
    let differ = (0..message.len()).filter(|&i| message[i] != first[i]).count();
    let mut text = format!(
        "  {}. start {}, length {}, {} changed",
        index + 1,
        run.start,
        run.length,
        many(changed, "cell")
    );
    if index > 0 {
        let verb = if differ == 1 { "differs" } else { "differ" };
        text += &format!("; {differ} of {} {verb}", many(message.len(), "message byte"));
    } else if !sheet.refused[block] {
        text += "; chosen";
    }
    for (i, byte) in message.iter().enumerate() {
        if i % 20 == 0 {
            text = format!("{}\n{i:8}: ", text.trim_end());
        }
        let [open, close] = if *byte == first[i] { [' ', ' '] } else { ['[', ']'] };
        text += &format!("{open}{byte:02X}{close}");
    }
    text = text.trim_end().to_string() + "\n";
    if sheet.is_whole() {
        text += &plots_text(sheet, block, index);
    }
    text
}

/// What a candidate's payload reads, and how this differs from the first payload before it that is accepted.
fn plots_text(sheet: &Sheet, block: usize, index: usize) -> String {
    let payload = |index: usize| sheet.payload(block, &sheet.lists[block][index].1);
    let found = match plots(&payload(index)) {
        Ok(found) => found,
        Err(refusal) => return format!("     payload refused: {}\n", refusal_text(&refusal, &payload(index))),
    };
    let all = found.iter().map(|(_, lines)| trees(lines)).sum();
    let mut text = format!(
        "     payload accepted: {}, {}\n",
        many(found.len(), "plot"),
        many(all, "tree")
    );
    let Some((number, first)) = (0..index).find_map(|other| Some((other + 1, plots(&payload(other)).ok()?))) else {
        return text;
    };
    // Different codewords have different messages, and two payloads with the same plots are the same.
    assert_ne!(first, found);
    let name = match (number, sheet.refused[block]) {
        (1, false) => "the chosen one".into(),
        (1, true) => "the first".into(),
        _ => format!("codeword {number}"),
    };
    if number > 1 {
        text += &format!("     plots compared with those of {name}, since the payload of the first is refused\n");
    }
    for line in differences(&first, &found, &name) {
        text += &format!("     {line}\n");
    }
    text
}

fn refusal_text(refusal: &Refusal, payload: &[u8]) -> String {
    let words = ["bad mark", "cut short", "bad tally", "plot order"];
    let word = words[usize::from(refusal.number) - 5];
    let mut text = format!("{word} ({}) at payload byte {}", refusal.number, refusal.place);
    if refusal.number >= 7 {
        // Its header is there, and so its number.
        text += &format!(", plot {}", plot_number(payload, refusal.place));
    }
    let figures = [
        "species number out of range",
        "diameter class out of range",
        "tree count out of range",
        "species and class not above the line before",
    ];
    match refusal.figure {
        0 => text,
        figure => format!(
            "{text}, line {}: {} (lines counted from 0)",
            refusal.line,
            figures[usize::from(figure) - 1]
        ),
    }
}

fn differences(first: &[Plot], found: &[Plot], name: &str) -> Vec<String> {
    let mut numbers: Vec<u16> = first.iter().chain(found).map(|plot| plot.0).collect();
    numbers.sort();
    numbers.dedup();
    let mut texts = Vec::new();
    for number in numbers {
        let of = |plots: &[Plot]| plots.iter().find(|plot| plot.0 == number).map(|plot| plot.1.clone());
        let plot = format!("plot {number}");
        match (of(first), of(found)) {
            (Some(first), Some(found)) => texts.extend(
                line_differences(&first, &found, name)
                    .into_iter()
                    .map(|line| format!("{plot}: {line}")),
            ),
            (first, found) => texts.extend(
                change(first.map(|lines| trees(&lines)), found.map(|lines| trees(&lines)), name)
                    .map(|change| format!("{plot}: {change}")),
            ),
        }
    }
    texts
}

fn line_differences(first: &[[u8; 3]], found: &[[u8; 3]], name: &str) -> Vec<String> {
    let mut texts = Vec::new();
    for species in 1..=99 {
        for class in 1..=200 {
            let of = |lines: &[[u8; 3]]| {
                let line = lines.iter().find(|line| line[..2] == [species, class]);
                line.map(|line| usize::from(line[2]))
            };
            let change = change(of(first), of(found), name);
            texts.extend(change.map(|change| format!("species {species}, class {class}: {change}")));
        }
    }
    texts
}

fn change(first: Option<usize>, found: Option<usize>, name: &str) -> Option<String> {
    match (first, found) {
        (Some(first), Some(found)) => (first != found).then(|| format!("{} instead of {first}", many(found, "tree"))),
        (None, Some(found)) => Some(format!("{}, not in {name}", many(found, "tree"))),
        (Some(first), None) => Some(format!("missing, {} in {name}", many(first, "tree"))),
        (None, None) => None,
    }
}
