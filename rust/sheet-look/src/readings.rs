//! What the payloads under the candidates of a block read, as text: the plots and trees, or why a payload is refused. The plots of a payload are compared with
//! those of the first candidate whose payload is accepted, since a refused payload has no plots to compare with.

use sheet_file::counted;
use tishwabe::Error;

use crate::records::{Change, Difference, Plots};

pub struct Readings {
    /// Of each candidate's payload its plots, or why it is refused.
    plots: Vec<Result<Plots, String>>,
    /// Whether the first candidate is the one that mending takes.
    is_chosen: bool,
}

impl Readings {
    pub fn of(payloads: impl Iterator<Item = Vec<u8>>, is_chosen: bool) -> Readings {
        let read = |payload: Vec<u8>| Plots::of(&payload).map_err(|error| refusal(error, &payload));
        Readings {
            plots: payloads.map(read).collect(),
            is_chosen,
        }
    }

    /// The lines about the payload under this candidate.
    pub fn lines(&self, index: usize) -> Vec<String> {
        let plots = match &self.plots[index] {
            Ok(plots) => plots,
            Err(refusal) => return vec![format!("payload refused: {refusal}")],
        };
        let (count, trees) = (counted(plots.count(), "plot"), counted(plots.trees(), "tree"));
        let accepted = format!("payload accepted: {count}, {trees}");
        match self.reference() {
            Some((first, reference)) if first < index => {
                [vec![accepted], self.differences(first, reference, plots)].concat()
            }
            _ => vec![accepted],
        }
    }

    /// The first candidate whose payload is accepted, and its plots.
    fn reference(&self) -> Option<(usize, &Plots)> {
        let mut accepted = self.plots.iter().enumerate();
        accepted.find_map(|(index, plots)| Some((index, plots.as_ref().ok()?)))
    }

    /// How the plots differ from these, which are of that candidate.
    fn differences(&self, first: usize, reference: &Plots, plots: &Plots) -> Vec<String> {
        let (mut lines, name) = match first {
            0 if self.is_chosen => (vec![], "the chosen one".into()),
            0 => (vec![], "the first".into()),
            _ => {
                let name = format!("codeword {}", first + 1);
                let reason = "since the payload of the first is refused";
                (vec![format!("plots compared with those of {name}, {reason}")], name)
            }
        };
        let differences = reference.differences(plots);
        lines.extend(differences.iter().map(|one| difference(one, &name)));
        lines
    }
}

/// A difference from the plots of the candidate with this name.
fn difference(difference: &Difference, name: &str) -> String {
    let trees = |count| counted(count, "tree");
    let line = difference.line.map_or(String::new(), |(species, class)| {
        format!(" species {species}, class {class}:")
    });
    let reads = match difference.change {
        Change::Instead { other, here } => format!("{} instead of {here}", trees(other)),
        Change::Added(other) => format!("{}, not in {name}", trees(other)),
        Change::Missing(here) => format!("missing, {} in {name}", trees(here)),
    };
    format!("plot {}:{line} {reads}", difference.plot)
}

/// The documents' word for a refusal of this payload, its number, the byte, the plot if the record's header is there, and what is wrong in which line.
fn refusal(error: Error, payload: &[u8]) -> String {
    let place = error.place();
    let mut text = format!("{} ({}) at payload byte {place}", error.called(), error.number());
    if let Error::BadTally { .. } | Error::PlotOrder { .. } = error {
        // The plot's number follows the two bytes of the mark.
        let plot = u16::from_le_bytes([payload[place + 2], payload[place + 3]]);
        text += &format!(", plot {plot}");
    }
    match error {
        Error::BadTally { line: Some(fault), .. } => format!("{text}, {fault} (lines counted from 0)"),
        _ => text,
    }
}

#[cfg(test)]
mod tests {
    use super::*;
    use tishwabe::{add, Figure, LineFault};

    fn payload(plots: &[(u16, &[u8])]) -> Vec<u8> {
        let mut payload = vec![0; 40];
        for &(plot, lines) in plots {
            add(&mut payload, plot, lines).expect("a plot in range");
        }
        payload
    }

    /// The lines about the last of these payloads.
    fn last(payloads: &[Vec<u8>], is_chosen: bool) -> Vec<String> {
        Readings::of(payloads.iter().cloned(), is_chosen).lines(payloads.len() - 1)
    }

    #[test]
    fn differences() {
        let first = payload(&[(7, &[3, 32, 2]), (8, &[])]);
        let other = payload(&[(7, &[3, 32, 1, 4, 1, 9]), (9, &[])]);
        let due = |name: &str| {
            [
                "payload accepted: 2 plots, 10 trees".into(),
                "plot 7: species 3, class 32: 1 tree instead of 2".into(),
                format!("plot 7: species 4, class 1: 9 trees, not in {name}"),
                format!("plot 8: missing, 0 trees in {name}"),
                format!("plot 9: 0 trees, not in {name}"),
            ]
        };
        let both = [first.clone(), other];
        assert_eq!(last(&both, true), due("the chosen one"));
        assert_eq!(last(&both, false), due("the first"));
        let due = [
            "payload accepted: 2 plots, 2 trees",
            "plot 7: species 3, class 32: missing, 2 trees in the first",
            "plot 7: species 3, class 33: 2 trees, not in the first",
        ];
        assert_eq!(last(&[first, payload(&[(7, &[3, 33, 2]), (8, &[])])], false), due);
    }

    /// Of four candidates the first and the third have a refused payload, so the fourth is compared with the second, whether the first is chosen or not.
    #[test]
    fn compared_with_a_later_one() {
        let refused = vec![1; 40];
        let payloads = [
            refused.clone(),
            payload(&[(7, &[3, 32, 2])]),
            refused,
            payload(&[(9, &[])]),
        ];
        for is_chosen in [false, true] {
            let lines = |count| last(&payloads[..count], is_chosen);
            for count in [1, 3] {
                assert_eq!(lines(count), ["payload refused: bad mark (5) at payload byte 0"]);
            }
            assert_eq!(lines(2), ["payload accepted: 1 plot, 2 trees"]);
            let due = [
                "payload accepted: 1 plot, 0 trees",
                "plots compared with those of codeword 2, since the payload of the first is refused",
                "plot 7: missing, 2 trees in codeword 2",
                "plot 9: 0 trees, not in codeword 2",
            ];
            assert_eq!(lines(4), due);
        }
    }

    /// Later payloads do not matter to the first that is accepted.
    #[test]
    fn first_that_is_accepted() {
        let payloads = [payload(&[(9, &[])]), payload(&[])];
        let readings = Readings::of(payloads.into_iter(), true);
        assert_eq!(readings.lines(0), ["payload accepted: 1 plot, 0 trees"]);
    }

    /// The plot is 513 = 1 + 2 × 256.
    #[test]
    fn refusals() {
        let place = 12;
        let payload = [&[9; 14][..], &[1, 2]].concat();
        let order = Error::PlotOrder { place };
        assert_eq!(refusal(order, &payload), "plot order (8) at payload byte 12, plot 513");
        let tally = Error::BadTally { place, line: None };
        assert_eq!(refusal(tally, &payload), "bad tally (7) at payload byte 12, plot 513");
        let mark = Error::BadMark { place };
        assert_eq!(refusal(mark, &payload), "bad mark (5) at payload byte 12");
        let short = Error::CutShort { place };
        assert_eq!(refusal(short, &payload), "cut short (6) at payload byte 12");
        let line = Some(LineFault {
            index: 3,
            figure: Figure::Count,
        });
        assert_eq!(
            refusal(Error::BadTally { place, line }, &payload),
            "bad tally (7) at payload byte 12, plot 513, line 3: tree count out of range (lines counted from 0)"
        );
    }
}
