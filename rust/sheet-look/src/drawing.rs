//! The drawing: a row for each block and a column for each of its cells, so that the sheet's cells, which take the blocks in turn, lie down the
//! columns, and a scratch along the film is a band of columns. What differs in colour differs in lightness, outline or hatching too.

use std::fs::{self, File};
use std::io::{self, Read};
use std::path::Path;

use tishwabe::{Error, Profile};

use crate::candidates::{agreed, disputed, Candidate};
use crate::look::Look;
use crate::table::{changes, counts, limits, summary};

const START: &str = "<svg";

/// The left and upper edges of the cells, the height of a row, and the space right of the cells.
const LEFT: usize = 84;
const TOP: usize = 116;
const ROW: usize = 20;
const RIGHT: usize = 84;
/// The distance of the legend's lines.
const LINE: usize = 24;
/// Enough for the head and the legend.
const LEAST_WIDTH: usize = 720;

const DARK: &str = "#222";
const RUN: &str = "fill=\"#f6bd60\" stroke=\"#222\"";
const SPARSE_RUN: &str = "fill=\"#fff\" stroke=\"#222\" stroke-dasharray=\"3 2\"";

/// Where the cells lie.
struct Frame {
    n: usize,
    depth: usize,
    /// The width of a cell.
    pitch: usize,
}

impl Frame {
    fn new(profile: &Profile) -> Frame {
        let n = profile.n();
        Frame {
            n,
            depth: profile.depth(),
            pitch: (960 / n).clamp(4, 12),
        }
    }

    fn x(&self, cell: usize) -> usize {
        LEFT + cell * self.pitch
    }

    fn y(&self, block: usize) -> usize {
        TOP + block * ROW
    }

    /// A rectangle over so many cells of a block, without the gap after them.
    fn cells(&self, block: usize, start: usize, length: usize) -> String {
        let (x, y, width) = (self.x(start), self.y(block), length * self.pitch - 1);
        format!("x=\"{x}\" y=\"{y}\" width=\"{width}\" height=\"{}\"", ROW - 1)
    }
}

/// Writes the drawing. A file that is no drawing is left as it is: it may be a sheet, and no sheet begins as a drawing does, with r = 115.
pub fn write(path: &Path, drawing: &str) -> Result<(), String> {
    match may_be_written(path) {
        Ok(true) => fs::write(path, drawing).map_err(|error| error.to_string()),
        Ok(false) => Err(format!(
            "the file is there and does not begin with {START}, so it is left as it is"
        )),
        Err(error) => Err(error.to_string()),
    }
}

/// Whether nothing would be lost but a drawing.
fn may_be_written(path: &Path) -> io::Result<bool> {
    if !fs::metadata(path).is_ok_and(|found| found.is_file() && found.len() > 0) {
        return Ok(true);
    }
    let mut start = Vec::new();
    File::open(path)?.take(START.len() as u64).read_to_end(&mut start)?;
    Ok(start == START.as_bytes())
}

/// The drawing, with the cells marked that fills would change; or, given the candidates of each block, those that all of them change alike and those in which
/// two of them differ, with a dark centre if mending would change them. The sheet's own limit is given where another one was looked with.
pub fn svg(profile: &Profile, own_limit: Option<usize>, looks: &[Look], lists: Option<&[Vec<Candidate>]>) -> String {
    let frame = Frame::new(profile);
    let width = LEAST_WIDTH.max(frame.x(frame.n) + RIGHT);
    let legend = legend(profile, frame.y(frame.depth) + 40, lists.is_some());
    let height = legend.top + legend.entries * LINE + 8;
    let parts = [
        format!("{START} xmlns=\"http://www.w3.org/2000/svg\" viewBox=\"0 0 {width} {height}\" width=\"{width}\" height=\"{height}\" role=\"img\" font-family=\"sans-serif\" font-size=\"12\">\n"),
        description(profile, own_limit, looks),
        patterns(&frame),
        format!("<rect width=\"{width}\" height=\"{height}\" fill=\"#fff\"/>\n"),
        head(profile, own_limit, looks),
        ticks(&frame),
        rows(&frame, looks),
        runs(&frame, looks, "runs", RUN, Look::is_mendable),
        runs(&frame, looks, "thin-runs", SPARSE_RUN, |look| look.verdict.is_err()),
        match lists {
            Some(lists) => candidate_marks(&frame, looks, lists),
            None => marks(&frame, "changed", looks.iter().map(|look| look.changed.clone()), &[CHANGED]),
        },
        legend.svg,
        "</svg>\n".into(),
    ];
    parts.concat()
}

/// What a reader has who does not see the drawing.
fn description(profile: &Profile, own_limit: Option<usize>, looks: &[Look]) -> String {
    let note = own_limit.map_or(String::new(), |own| limits(profile, own) + " ");
    let (counts, summary) = (counts(profile, looks), summary(profile, looks));
    format!("<title>{counts}</title>\n<desc>{note}{summary}</desc>\n")
}

/// A cell, which stands for every cell, and the hatchings of refused blocks: lines for torn, crossed lines for tied, dashes for thin.
fn patterns(frame: &Frame) -> String {
    let pattern = |id, [x, y, width, height]: [usize; 4], content: String| {
        format!("<pattern id=\"{id}\" patternUnits=\"userSpaceOnUse\" x=\"{x}\" y=\"{y}\" width=\"{width}\" height=\"{height}\">{content}</pattern>\n")
    };
    let cell = format!(
        "<rect width=\"{}\" height=\"{}\" fill=\"#ddd\"/>",
        frame.pitch - 1,
        ROW - 1
    );
    let lines = |path| format!("<path d=\"{path}\" stroke=\"{DARK}\"/>");
    let hatching = [0, 0, 8, 8];
    [
        pattern("cell", [LEFT, TOP, frame.pitch, ROW], cell),
        pattern("torn", hatching, lines("M-2 2L2-2M0 8L8 0M6 10L10 6")),
        pattern("tied", hatching, lines("M0 8L8 0M0 0L8 8")),
        pattern("thin", hatching, lines("M0 2h4M4 6h4")),
    ]
    .concat()
}

fn head(profile: &Profile, own_limit: Option<usize>, looks: &[Look]) -> String {
    let (n, r, b, depth) = (profile.n(), profile.r(), profile.b(), profile.depth());
    let (limit, note) = match own_limit {
        Some(own) => (own, format!("; looked at with L = {}", profile.limit())),
        None => (profile.limit(), String::new()),
    };
    format!(
        "<text x=\"16\" y=\"24\" font-size=\"15\" font-weight=\"bold\">{}</text>\n\
         <text x=\"16\" y=\"44\">{}</text>\n\
         <text x=\"16\" y=\"62\">The profile is n = {n}, r = {r}, b = {b}, L = {limit}, D = {depth}{note}.</text>\n\
         <text x=\"16\" y=\"80\">The film goes down each column in turn: sheet cell p is cell p/{depth} (rounded down) of block p mod {depth}.</text>\n",
        counts(profile, looks),
        changes(profile, looks)
    )
}

/// Every tenth cell with its number in the block, above, and below the number of the column's first cell in the sheet.
fn ticks(frame: &Frame) -> String {
    let bottom = frame.y(frame.depth);
    let mut lines = String::new();
    let mut numbers = String::new();
    for cell in (0..frame.n).step_by(10) {
        let x = frame.x(cell) + frame.pitch / 2;
        lines += &format!("M{x} {}v5M{x} {}v5", TOP - 6, bottom);
        numbers += &format!("<text x=\"{x}\" y=\"{}\">{cell}</text>\n", TOP - 9);
        numbers += &format!("<text x=\"{x}\" y=\"{}\">{}</text>\n", bottom + 16, cell * frame.depth);
    }
    let x = LEFT - 8;
    format!(
        "<path d=\"{lines}\" stroke=\"{DARK}\"/>\n<g font-size=\"10\" text-anchor=\"middle\">\n{numbers}</g>\n\
         <g text-anchor=\"end\">\n<text x=\"{x}\" y=\"{}\">cell</text>\n<text x=\"{x}\" y=\"{}\">sheet cell</text>\n</g>\n",
        TOP - 9,
        bottom + 16
    )
}

/// The cells, refused blocks hatched, and each block's number and verdict.
fn rows(frame: &Frame, looks: &[Look]) -> String {
    let (width, height) = (frame.n * frame.pitch, frame.depth * ROW);
    let mut svg =
        format!("<rect x=\"{LEFT}\" y=\"{TOP}\" width=\"{width}\" height=\"{height}\" fill=\"url(#cell)\"/>\n");
    for (block, look) in looks.iter().enumerate() {
        if let Err(error) = look.verdict {
            let hatching = match error {
                Error::Ambiguous { .. } => "tied",
                Error::Sparse { .. } => "thin",
                _ => "torn",
            };
            let cells = frame.cells(block, 0, frame.n);
            svg += &format!("<rect {cells} fill=\"url(#{hatching})\"/>\n");
        }
        let y = frame.y(block) + 14;
        svg += &format!(
            "<text x=\"{}\" y=\"{y}\" text-anchor=\"end\">block {block}</text>\n",
            LEFT - 8
        );
        svg += &format!(
            "<text x=\"{}\" y=\"{y}\">{}</text>\n",
            frame.x(frame.n) + 8,
            look.word()
        );
    }
    svg
}

/// The runs of the looks that meet this condition, each with a text for the pointer over it.
fn runs(frame: &Frame, looks: &[Look], id: &str, style: &str, condition: impl Fn(&Look) -> bool) -> String {
    let mut svg = format!("<g id=\"{id}\" {style}>\n");
    for (block, look) in looks.iter().enumerate().filter(|(_, look)| condition(look)) {
        if let Some(run) = look.run {
            let (first, last) = (run.start, run.start + run.length - 1);
            svg += &format!(
                "<rect {}><title>block {block}: run from cell {first} to {last}, {} to change</title></rect>\n",
                frame.cells(block, run.start, run.length),
                look.changed.len()
            );
        }
    }
    svg + "</g>\n"
}

/// A part of a mark: its path from the corner, in units of cells and rows, and what its fill is, if not dark.
type Part = (&'static str, &'static str);

/// A box half as high as a row, and three quarters as wide as a cell with its gap.
const CHANGED: Part = ("h.75v.5h-.75z", "");
/// A higher box, white inside.
const DISPUTED: [Part; 2] = [
    ("m0-.12h.75v.74h-.75z", ""),
    ("m.17-.05h.41v.6h-.41z", " fill=\"#fff\""),
];
/// The dark centre of that box.
const CENTRE: Part = ("m.17.13h.41v.24h-.41z", "");

/// The part of the marks in these cells of a block.
fn part(block: usize, cells: &[usize], (path, fill): Part) -> String {
    let paths = cells.iter().map(|cell| format!("M{cell} {block}{path}"));
    format!("<path{fill} d=\"{}\"/>\n", paths.collect::<String>())
}

/// A group for marks whose corners are the cell and the row, with cells of this width.
fn group(id: &str, left: usize, top: usize, pitch: usize, content: &str) -> String {
    // The mark is in the middle of the cell.
    let (x, y) = (left as f64 + (pitch as f64 * 0.25 - 1.0) / 2.0, top + ROW / 4);
    format!("<g{id} transform=\"translate({x} {y}) scale({pitch} {ROW})\" fill=\"{DARK}\" pointer-events=\"none\">\n{content}</g>\n")
}

/// Marks in these cells of each block.
fn marks(frame: &Frame, id: &str, cells: impl Iterator<Item = Vec<usize>>, mark: &[Part]) -> String {
    let mut paths = String::new();
    for (block, cells) in cells.enumerate().filter(|(_, cells)| !cells.is_empty()) {
        let parts = mark.iter().map(|&one| part(block, &cells, one));
        paths += &parts.collect::<String>();
    }
    group(&format!(" id=\"{id}\""), LEFT, TOP, frame.pitch, &paths)
}

/// Marks in the cells that all candidates change alike and in those in which two of them differ, and there the centres where mending would change the cell.
fn candidate_marks(frame: &Frame, looks: &[Look], lists: &[Vec<Candidate>]) -> String {
    let centres = looks.iter().zip(lists).map(|(look, list)| {
        let mut cells = disputed(list);
        cells.retain(|cell| look.mended().contains(cell));
        cells
    });
    [
        marks(frame, "changed", lists.iter().map(|list| agreed(list)), &[CHANGED]),
        marks(frame, "disputed", lists.iter().map(|list| disputed(list)), &DISPUTED),
        marks(frame, "disputed-mended", centres, &[CENTRE]),
    ]
    .concat()
}

const READ: &str = "fill=\"#ddd\"";

/// The legend: entries below one another, each with a few cells and a text.
struct Legend {
    top: usize,
    entries: usize,
    svg: String,
}

impl Legend {
    /// Adds an entry: cells filled in these ways one over another, a mark in them, and the text.
    fn add(&mut self, fills: &[&str], mark: &[Part], text: &str) {
        let wide = fills.iter().map(|fill| (16, 31, *fill));
        self.add_shapes(&wide.collect::<Vec<_>>(), mark, text);
    }

    /// Adds an entry with rectangles by their left edges, widths and fills.
    fn add_shapes(&mut self, shapes: &[(usize, usize, &str)], mark: &[Part], text: &str) {
        let y = self.top + self.entries * LINE;
        for (x, width, fill) in shapes {
            self.svg += &format!(
                "<rect x=\"{x}\" y=\"{y}\" width=\"{width}\" height=\"{}\" {fill}/>\n",
                ROW - 1
            );
        }
        if !mark.is_empty() {
            let parts = mark.iter().map(|&one| part(0, &[0], one));
            self.svg += &group("", 26, y, 12, &parts.collect::<String>());
        }
        self.svg += &format!("<text x=\"56\" y=\"{}\">{text}</text>\n", y + 14);
        self.entries += 1;
    }
}

fn legend(profile: &Profile, top: usize, all: bool) -> Legend {
    let mut legend = Legend {
        top,
        entries: 0,
        svg: String::new(),
    };
    let run = "the run that the look names";
    if all {
        legend.add(
            &[READ],
            &[],
            "read: every listed codeword has what was read, or none is listed",
        );
        legend.add(&[RUN], &[], run);
        let changed = "changed: all listed codewords have the same other value";
        legend.add(&[RUN], &[CHANGED], changed);
        legend.add(&[READ], &DISPUTED, "disputed: two listed codewords differ in this cell");
        let [outer, inner] = DISPUTED;
        legend.add(&[RUN], &[outer, inner, CENTRE], "disputed, and mending would change it");
    } else {
        legend.add(&[READ], &[], "cells as read");
        legend.add(&[RUN], &[], run);
        legend.add(&[RUN], &[CHANGED], "a cell of the run that a fill would change");
    }
    let limit = profile.limit();
    let uncorrectable = format!("a refused block, torn (3): no run of up to L = {limit} cells can be filled");
    legend.add(&[READ, "fill=\"url(#torn)\""], &[], &uncorrectable);
    let ambiguous = "a refused block, tied (4): two fills within equally short runs differ";
    legend.add(&[READ, "fill=\"url(#tied)\""], &[], ambiguous);
    let sparse = "a refused block, thin (16): a fill would change at most half of its run, longer than r/2";
    let shapes = [(16, 31, READ), (16, 31, "fill=\"url(#thin)\""), (24, 15, SPARSE_RUN)];
    legend.add_shapes(&shapes, &[], sparse);
    legend
}
