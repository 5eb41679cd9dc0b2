//! The figures as a drawing: a line for each profile and kind of damage, on the left the share of blocks that are repaired wrongly, on a logarithmic
//! axis, on the right the share that is repaired rightly. A grey ring is the share without the rule on thin repairs, a red dot the share with it.

use crate::simulation::{Row, Tally};
use crate::table::{grouped, title};

const STEP: f64 = 19.0;
const TOP: f64 = 82.0;
const LABELS: f64 = 230.0;
const WIDTH: f64 = 300.0;
const GAP: f64 = 44.0;
const GREY: &str = "#777";
const RED: &str = "#b03a2e";

/// Where a share lies between the left end and the right end of an axis, 0 to 1; the axis's marks; and its name.
struct Axis {
    left: f64,
    place: fn(f64) -> f64,
    marks: &'static [(f64, &'static str)],
    name: &'static str,
    shares: fn(&Tally) -> [u64; 2],
}

/// The least share on the logarithmic axis, one in a million, has a decade to its left for none.
fn logarithmic(share: f64) -> f64 {
    if share > 0.0 {
        (share.log10() + 7.0).max(0.5) / 7.0
    } else {
        0.0
    }
}

const AXES: [Axis; 2] = [
    Axis {
        left: LABELS,
        place: logarithmic,
        marks: &[
            (0.0, "none"),
            (1e-6, ""),
            (1e-5, "0.001%"),
            (1e-4, ""),
            (1e-3, "0.1%"),
            (1e-2, ""),
            (1e-1, "10%"),
            (1.0, "100%"),
        ],
        name: "blocks repaired wrongly (logarithmic)",
        shares: |tally| [tally.wrong_without(), tally.wrong],
    },
    Axis {
        left: LABELS + WIDTH + GAP,
        place: |share| share,
        marks: &[(0.0, "0%"), (0.25, "25%"), (0.5, "50%"), (0.75, "75%"), (1.0, "100%")],
        name: "blocks repaired rightly",
        shares: |tally| [tally.right_without(), tally.right],
    },
];

/// The whole drawing.
pub fn svg(rows: &[Row]) -> String {
    let (lines, bottom) = lines(rows);
    let (width, height) = (LABELS + 2.0 * WIDTH + GAP + 30.0, bottom + 48.0);
    let axes: String = AXES.iter().map(|axis| frame(axis, bottom)).collect();
    let blocks = grouped(rows.first().map_or(0, |row| row.tally.blocks()));
    format!(
        "<svg xmlns=\"http://www.w3.org/2000/svg\" viewBox=\"0 0 {width} {height}\" width=\"{width}\" height=\"{height}\" role=\"img\" font-family=\"sans-serif\" font-size=\"12\">\n\
         <title>Repairs of damage beyond the promise, with and without the rule on thin repairs</title>\n\
         <rect width=\"{width}\" height=\"{height}\" fill=\"#fff\"/>\n\
         <text x=\"12\" y=\"24\" font-size=\"15\" font-weight=\"bold\">Repairs of damage beyond the promise, {blocks} blocks a line</text>\n\
         {}{axes}{lines}</svg>\n",
        legend()
    )
}

/// What ring and dot mean.
fn legend() -> String {
    format!(
        "{}<text x=\"32\" y=\"50\">without the rule on thin repairs</text>\n{}<text x=\"252\" y=\"50\">with it</text>\n",
        ring(20.0, 46.0),
        dot(240.0, 46.0)
    )
}

/// The axis with its marks, down to the last line of the drawing.
fn frame(axis: &Axis, bottom: f64) -> String {
    let middle = axis.left + WIDTH / 2.0;
    let mut text = format!(
        "<text x=\"{middle}\" y=\"{}\" text-anchor=\"middle\">{}</text>\n",
        bottom + 38.0,
        axis.name
    );
    for (share, label) in axis.marks {
        let x = axis.left + (axis.place)(*share) * WIDTH;
        text += &format!("<path d=\"M{x:.1} {TOP}V{bottom}\" stroke=\"#ddd\"/>\n");
        text += &format!(
            "<text x=\"{x:.1}\" y=\"{}\" text-anchor=\"middle\" font-size=\"11\">{label}</text>\n",
            bottom + 17.0
        );
    }
    text + &format!("<path d=\"M{} {bottom}h{WIDTH}\" stroke=\"#222\"/>\n", axis.left)
}

/// The lines of the drawing, each profile under its title, and where they end.
fn lines(rows: &[Row]) -> (String, f64) {
    let (mut text, mut y) = (String::new(), TOP);
    for group in rows.chunk_by(|a, b| a.profile == b.profile) {
        text += &format!(
            "<text x=\"12\" y=\"{}\" font-weight=\"bold\">{}</text>\n",
            y + 4.0,
            title(&group[0].profile)
        );
        for row in group {
            y += STEP;
            text += &format!("<text x=\"20\" y=\"{}\">{}</text>\n", y + 4.0, row.damage.label());
            text += &AXES.iter().map(|axis| shares(axis, &row.tally, y)).collect::<String>();
        }
        y += 1.6 * STEP;
    }
    (text, y - 0.9 * STEP)
}

/// Ring and dot of one line, joined.
fn shares(axis: &Axis, tally: &Tally, y: f64) -> String {
    let share = |count: u64| count as f64 / tally.blocks().max(1) as f64;
    let [without, with] = (axis.shares)(tally).map(|count| axis.left + (axis.place)(share(count)) * WIDTH);
    format!(
        "<path d=\"M{with:.1} {y:.1}H{without:.1}\" stroke=\"{RED}\"/>\n{}{}",
        ring(without, y),
        dot(with, y)
    )
}

fn ring(x: f64, y: f64) -> String {
    format!("<circle cx=\"{x:.1}\" cy=\"{y:.1}\" r=\"5.5\" fill=\"none\" stroke=\"{GREY}\" stroke-width=\"2\"/>\n")
}

fn dot(x: f64, y: f64) -> String {
    format!("<circle cx=\"{x:.1}\" cy=\"{y:.1}\" r=\"3.2\" fill=\"{RED}\"/>\n")
}
