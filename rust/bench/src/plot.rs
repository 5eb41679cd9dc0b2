//! How the times of the proved library grow: three panels, of a block over n at r = 32 and over r at n = 255, and of a sheet over D.

use bench::Shape;

use crate::sheets;
use crate::timing::measure;

const WIDTH: f64 = 300.0;
const HEIGHT: f64 = 240.0;
const MARGIN: f64 = 48.0;

struct Panel {
    label: &'static str,
    /// The number on the axis, and the microseconds of writing, checking, correcting a run and correcting spots.
    points: Vec<(f64, [f64; 4])>,
}

fn block(n: usize, r: usize) -> [f64; 4] {
    let times = &measure(Shape { n, r, b: 1 }, 64, 51)[0];
    let [run, spots] = [times.correct, times.spots].map(|time| time.unwrap_or(0.0));
    [times.write, times.check, run, spots].map(|t| t / 1000.0)
}

fn sheet(depth: usize) -> [f64; 4] {
    sheets::measure(depth, 51).map(|t| t / 1000.0)
}

/// The whole drawing.
pub fn growth() -> String {
    let sizes = (1..=8).map(|k| k * 32 - usize::from(k == 8)).filter(|&n| n > 32);
    let panels = [
        Panel {
            label: "n (a block, r = 32)",
            points: sizes.map(|n| (n as f64, block(n, 32))).collect(),
        },
        Panel {
            label: "r (a block, n = 255)",
            points: (1..=8).map(|k| (8.0 * k as f64, block(255, 8 * k))).collect(),
        },
        Panel {
            label: "D (a sheet of blocks of n = 255, r = 32)",
            points: [1, 4, 8, 12, 16].map(|d| (d as f64, sheet(d))).to_vec(),
        },
    ];
    let mut svg = format!(
        "<svg xmlns=\"http://www.w3.org/2000/svg\" width=\"{}\" height=\"{}\" font-family=\"sans-serif\" font-size=\"11\">\n<rect width=\"100%\" height=\"100%\" fill=\"white\"/>\n",
        3.0 * (WIDTH + MARGIN) + MARGIN,
        HEIGHT + 2.0 * MARGIN
    );
    for (index, panel) in panels.iter().enumerate() {
        svg += &drawn(panel, MARGIN + index as f64 * (WIDTH + MARGIN));
    }
    svg + "</svg>\n"
}

/// One panel with its left edge at `left`.
fn drawn(panel: &Panel, left: f64) -> String {
    let most_x = panel.points.iter().map(|p| p.0).fold(0.0, f64::max);
    let most_y = panel.points.iter().flat_map(|p| p.1).fold(0.0, f64::max) * 1.05;
    let x = |v: f64| left + v / most_x * (WIDTH - 10.0);
    let y = |v: f64| MARGIN + HEIGHT * (1.0 - v / most_y);
    let (bottom, right) = (MARGIN + HEIGHT, left + WIDTH);
    let mut svg = format!(
        "<path d=\"M{left} {MARGIN} V{bottom} H{right}\" fill=\"none\" stroke=\"black\"/>\n<text x=\"{}\" y=\"{}\" text-anchor=\"middle\">{}</text>\n<text x=\"{left}\" y=\"{}\">µs</text>\n",
        left + WIDTH / 2.0, bottom + 34.0, panel.label, MARGIN - 22.0
    );
    for k in 0..=4 {
        let value = most_y * f64::from(k) / 4.0;
        svg += &format!(
            "<text x=\"{}\" y=\"{}\" text-anchor=\"end\">{value:.1}</text>\n",
            left - 3.0,
            y(value) + 4.0
        );
    }
    for (value, _) in &panel.points {
        svg += &format!(
            "<text x=\"{}\" y=\"{}\" text-anchor=\"middle\">{value}</text>\n",
            x(*value),
            bottom + 15.0
        );
    }
    svg + &curves(panel, left, x, y)
}

/// The curves of a panel, each with its name above the panel; `x` and `y` say where a number lies.
fn curves(panel: &Panel, left: f64, x: impl Fn(f64) -> f64, y: impl Fn(f64) -> f64) -> String {
    let mut svg = String::new();
    for (k, (name, colour)) in [
        ("writing", "#1b6ca8"),
        ("checking", "#2e8b57"),
        ("a run", "#b03a2e"),
        ("spots", "#8e5ea2"),
    ]
    .iter()
    .enumerate()
    {
        let line: Vec<String> = panel
            .points
            .iter()
            .map(|(v, t)| format!("{:.1},{:.1}", x(*v), y(t[k])))
            .collect();
        svg += &format!(
            "<polyline points=\"{}\" fill=\"none\" stroke=\"{colour}\" stroke-width=\"2\"/>\n",
            line.join(" ")
        );
        svg += &format!(
            "<text x=\"{}\" y=\"{}\" fill=\"{colour}\">{name}</text>\n",
            left + 40.0 + 65.0 * k as f64,
            MARGIN - 22.0
        );
    }
    svg
}
