//! docs/benchmarks.svg: the ratios of all rows, a panel for each size of the pool, on a logarithmic scale around 1.

use std::fmt::Write;

use crate::bench::report::{thousands, Measured};
use crate::bench::rows::SIZES;

/// All lengths are in points.
const ROW: f64 = 15.0;
const LABELS: f64 = 300.0;
const PANEL: f64 = 210.0;
const GAP: f64 = 34.0;
const TOP: f64 = 78.0;
const BOTTOM: f64 = 40.0;
/// How many doublings the scale has on each side of 1. A bar beyond that ends at the edge; its figure tells the ratio.
const DOUBLINGS: i32 = 4;

const FASTER: &str = "#2a7f62";
const SLOWER: &str = "#c8553d";

/// The lines of the plot: what the rows of all sizes have in common.
struct Line {
    label: String,
    state: &'static str,
}

/// The whole picture.
pub fn svg(measured: &[Measured]) -> String {
    let lines = lines(measured);
    let height = TOP + ROW * lines.len() as f64 + BOTTOM;
    let width = LABELS + (PANEL + GAP) * SIZES.len() as f64;
    let mut picture = Picture { text: String::new() };
    picture.begin(width, height);
    for (number, line) in lines.iter().enumerate() {
        picture.label(number, line, width);
    }
    for (panel, cells) in SIZES.into_iter().enumerate() {
        let left = LABELS + (PANEL + GAP) * panel as f64 + GAP / 2.0;
        picture.panel(left, height, cells);
        for (number, line) in lines.iter().enumerate() {
            let same = |one: &&Measured| {
                one.row.cells == cells && one.row.label() == line.label && one.row.state == line.state
            };
            if let Some(one) = measured.iter().find(same) {
                picture.bar(left, number, one.times.ratio());
            }
        }
    }
    picture.text.push_str("</svg>\n");
    picture.text
}

/// Each call and memory once, in the order in which the sizes have them.
fn lines(measured: &[Measured]) -> Vec<Line> {
    let mut lines: Vec<Line> = Vec::new();
    // the larger pools have rows that the smallest has no room for: take each at its place
    for cells in SIZES.into_iter().rev() {
        let mut place = 0;
        for one in measured.iter().filter(|one| one.row.cells == cells) {
            let (label, state) = (one.row.label(), one.row.state);
            match lines.iter().position(|line| line.label == label && line.state == state) {
                Some(found) => place = found + 1,
                None => {
                    lines.insert(place, Line { label, state });
                    place += 1;
                }
            }
        }
    }
    lines
}

struct Picture {
    text: String,
}

impl Picture {
    fn add(&mut self, element: std::fmt::Arguments) {
        writeln!(self.text, "{element}").expect("a string takes everything");
    }

    fn begin(&mut self, width: f64, height: f64) {
        self.add(format_args!(
            "<svg xmlns=\"http://www.w3.org/2000/svg\" viewBox=\"0 0 {width} {height}\" font-family=\"sans-serif\" font-size=\"11\">"
        ));
        self.add(format_args!("<rect width=\"{width}\" height=\"{height}\" fill=\"white\"/>"));
        let title = "Time of the proved library, as a multiple of the second program's (logarithmic)";
        self.add(format_args!("<text x=\"14\" y=\"24\" font-size=\"16\" fill=\"#222\">{title}</text>"));
        let legend = "left of 1: the library is faster; right of 1: slower; a bar that is too long for the scale ends at its edge";
        self.add(format_args!("<text x=\"14\" y=\"44\" fill=\"#555\">{legend}</text>"));
    }

    /// The middle of a line.
    fn middle(number: usize) -> f64 {
        TOP + ROW * (number as f64 + 0.5)
    }

    fn label(&mut self, number: usize, line: &Line, width: f64) {
        let y = Picture::middle(number);
        if number.is_multiple_of(2) {
            let top = y - ROW / 2.0;
            self.add(format_args!("<rect x=\"0\" y=\"{top}\" width=\"{width}\" height=\"{ROW}\" fill=\"#f4f4f4\"/>"));
        }
        let (at, state_at, base) = (LABELS - 60.0, LABELS - 10.0, y + 4.0);
        let Line { label, state } = line;
        self.add(format_args!("<text x=\"{at}\" y=\"{base}\" text-anchor=\"end\" fill=\"#222\">{label}</text>"));
        self.add(format_args!("<text x=\"{state_at}\" y=\"{base}\" text-anchor=\"end\" fill=\"#888\">{state}</text>"));
    }

    /// Where a ratio stands in a panel.
    fn at(left: f64, ratio: f64) -> f64 {
        let most = f64::from(DOUBLINGS);
        left + PANEL * (0.5 + ratio.log2().clamp(-most, most) / (2.0 * most))
    }

    fn panel(&mut self, left: f64, height: f64, cells: usize) {
        let (middle, bottom) = (left + PANEL / 2.0, height - BOTTOM);
        let cells = thousands(cells);
        self.add(format_args!(
            "<text x=\"{middle}\" y=\"64\" text-anchor=\"middle\" font-size=\"13\" fill=\"#222\">P = {cells}</text>"
        ));
        for doubling in -DOUBLINGS..=DOUBLINGS {
            let ratio = 2f64.powi(doubling);
            let x = Picture::at(left, ratio);
            let (color, strong) = if doubling == 0 { ("#222", 1.4) } else { ("#ccc", 0.6) };
            self.add(format_args!(
                "<line x1=\"{x:.1}\" x2=\"{x:.1}\" y1=\"{TOP}\" y2=\"{bottom}\" stroke=\"{color}\" stroke-width=\"{strong}\"/>"
            ));
            let label = if doubling < 0 { format!("1/{}", 1 << -doubling) } else { format!("{}", 1 << doubling) };
            let base = bottom + 16.0;
            self.add(format_args!(
                "<text x=\"{x:.1}\" y=\"{base}\" text-anchor=\"middle\" fill=\"#555\">{label}</text>"
            ));
        }
    }

    fn bar(&mut self, left: f64, number: usize, ratio: f64) {
        let (one, x) = (Picture::at(left, 1.0), Picture::at(left, ratio));
        let (begin, width) = (one.min(x), (one - x).abs().max(0.8));
        let (top, color) = (Picture::middle(number) - 4.0, if ratio > 1.0 { SLOWER } else { FASTER });
        self.add(format_args!(
            "<rect x=\"{begin:.1}\" y=\"{top}\" width=\"{width:.1}\" height=\"8\" fill=\"{color}\"/>"
        ));
        // the figure stands on the far side of 1, where no bar is
        let base = Picture::middle(number) + 3.5;
        let (at, anchor) = if ratio > 1.0 { (one - 5.0, "end") } else { (one + 5.0, "start") };
        self.add(format_args!(
            "<text x=\"{at:.1}\" y=\"{base}\" text-anchor=\"{anchor}\" font-size=\"9.5\" fill=\"{color}\">{ratio:.2}</text>"
        ));
    }
}
