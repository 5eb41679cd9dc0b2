//! The text about candidates: a section for each block that is not clean, with the message bytes of each codeword and what its payload reads. The first
//! codeword is the one that mending takes, if it takes one, so the bytes of the others are compared with its bytes. A block without a codeword leaves the sheet
//! without a payload, and the text says which blocks these are.

use sheet_file::counted;
use tishwabe::Profile;

use crate::candidates::Candidate;
use crate::look::Look;
use crate::readings::Readings;
use crate::records::{first_messages, payload};

/// Message bytes in a line of the text.
const IN_A_LINE: usize = 20;

const PAYLOADS: &str = "Each payload is made of the codeword listed and, for every other block, its first codeword: as read, as mended, or, where that block is refused, only assumed; other combinations are not tried.";

/// What the sections tell of: a sheet's profile, and for each block its look and its candidates.
struct Sections<'a> {
    profile: &'a Profile,
    looks: &'a [Look],
    lists: &'a [Vec<Candidate>],
    /// The first message of each block, of which payloads are made, or the numbers of the blocks that have none.
    firsts: Result<Vec<&'a [u8]>, Vec<usize>>,
}

pub fn text(profile: &Profile, looks: &[Look], lists: &[Vec<Candidate>]) -> String {
    let sections = Sections {
        profile,
        looks,
        lists,
        firsts: first_messages(profile, lists),
    };
    let damaged = sections.blocks(|look| !look.is_clean());
    if damaged.is_empty() {
        let limit = sections.limit();
        return format!("Every block is clean, and no other codeword lies within a run of {limit}.\n");
    }
    let texts = damaged.into_iter().map(|block| sections.section(block));
    sections.head() + &texts.collect::<String>()
}

impl Sections<'_> {
    /// The numbers of the blocks whose looks meet this condition.
    fn blocks(&self, condition: impl Fn(&Look) -> bool) -> Vec<usize> {
        let looks = self.looks.iter().enumerate();
        looks
            .filter(|(_, look)| condition(look))
            .map(|(block, _)| block)
            .collect()
    }

    /// How long the runs are.
    fn limit(&self) -> String {
        format!("at most {}", counted(self.profile.limit(), "cell"))
    }

    /// What the marks mean, and what the payloads are made of.
    fn head(&self) -> String {
        let limit = self.limit();
        let codewords = format!("For each block that is not clean, every codeword within a run of {limit}, with its message bytes in hexadecimal.");
        let marks = "Bytes in [] differ from those of the first codeword.";
        let payloads = match &self.firsts {
            Ok(_) => PAYLOADS.into(),
            Err(without) => format!(
                "No payload is shown, since no codeword is listed for {}.",
                named(without)
            ),
        };
        format!("{codewords} {marks}\n{payloads}\n")
    }

    fn section(&self, block: usize) -> String {
        let (look, list, limit) = (&self.looks[block], &self.lists[block], self.limit());
        let codewords = match list.len() {
            0 => format!("no codeword within a run of {limit}"),
            1 => format!("1 codeword within a run of {limit}"),
            count => format!("{count} codewords within runs of {limit}"),
        };
        let mut text = format!("\nblock {block}, {}: {codewords}\n", look.word());
        text += &format!("  its message is {}\n", payload_bytes(self.profile.k(), block));
        if let Some(first) = list.first() {
            text += &self.notes(block);
            text += &self.entries(block, first);
        }
        text
    }

    /// That no codeword is chosen, and that other blocks are refused.
    fn notes(&self, block: usize) -> String {
        let mut text = String::new();
        if self.looks[block].verdict.is_err() {
            text += match self.lists[block].len() {
                1 => "  none is chosen\n",
                _ => "  none is chosen; differences are from the first\n",
            };
        }
        let mut refused = self.blocks(|look| look.verdict.is_err());
        refused.retain(|&other| other != block);
        if !refused.is_empty() && self.firsts.is_ok() {
            let have = match refused.len() {
                1 => "is refused; these payloads have its first codeword",
                _ => "are refused; these payloads have their first codewords",
            };
            text += &format!("  {} {have}\n", named(&refused));
        }
        text
    }

    /// The candidates of a block: of each its run, its message and what its payload reads.
    fn entries(&self, block: usize, first: &Candidate) -> String {
        let first = first.message(self.profile);
        let readings = self.readings(block);
        let mut text = String::new();
        for (index, candidate) in self.lists[block].iter().enumerate() {
            let message = candidate.message(self.profile);
            let difference = match index {
                0 if self.looks[block].verdict.is_ok() => "; chosen".into(),
                0 => String::new(),
                _ => format!("; {}", count(first, message)),
            };
            text += &format!("  {}. {}{difference}\n", index + 1, run(candidate));
            text += &marked(first, message);
            for line in readings.iter().flat_map(|readings| readings.lines(index)) {
                text += &format!("     {line}\n");
            }
        }
        text
    }

    /// What the payloads under a block's candidates read. None if payloads cannot be made.
    fn readings(&self, block: usize) -> Option<Readings> {
        let firsts = self.firsts.as_ref().ok()?;
        let list = self.lists[block].iter();
        let payloads = list.map(|candidate| payload(firsts, block, candidate.message(self.profile)));
        Some(Readings::of(payloads, self.looks[block].verdict.is_ok()))
    }
}

fn run(candidate: &Candidate) -> String {
    let (run, cells) = (candidate.run, counted(candidate.changed.len(), "cell"));
    format!("start {}, length {}, {cells} changed", run.start, run.length)
}

/// How many message bytes differ from those of the first codeword.
fn count(first: &[u8], message: &[u8]) -> String {
    let count = first.iter().zip(message).filter(|(a, b)| a != b).count();
    let verb = if count == 1 { "differs" } else { "differ" };
    format!("{count} of {} {verb}", counted(message.len(), "message byte"))
}

/// The message in hexadecimal, each line with the number of its first byte, those bytes marked that differ from those of the first codeword.
fn marked(first: &[u8], message: &[u8]) -> String {
    let bytes: Vec<String> = message
        .iter()
        .zip(first)
        .map(|(byte, due)| match byte == due {
            true => format!(" {byte:02X} "),
            false => format!("[{byte:02X}]"),
        })
        .collect();
    let lines = bytes.chunks(IN_A_LINE).enumerate();
    let line = |(index, line): (usize, &[String])| format!("{:8}: {}", index * IN_A_LINE, line.concat());
    lines.map(|part| line(part).trim_end().to_string() + "\n").collect()
}

/// The bytes of the payload that are a block's message of k bytes.
fn payload_bytes(k: usize, block: usize) -> String {
    let first = block * k;
    match k {
        1 => format!("payload byte {first}"),
        _ => format!("payload bytes {first} to {}", first + k - 1),
    }
}

/// These blocks by their numbers: block 3, blocks 3 and 5, blocks 3, 5 and 6.
fn named(blocks: &[usize]) -> String {
    let numbers: Vec<String> = blocks.iter().map(usize::to_string).collect();
    match &numbers[..] {
        [] => "no block".into(),
        [one] => format!("block {one}"),
        [firsts @ .., last] => format!("blocks {} and {last}", firsts.join(", ")),
    }
}

#[cfg(test)]
mod tests;
