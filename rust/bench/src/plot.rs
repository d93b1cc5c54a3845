//! The plot: how time grows with the nodes, and the ratio to Rust, for each width.

use crate::jobs::{self, Job};
use crate::Row;
use std::fmt::Write as _;

const WIDTH: f64 = 1280.0;
const PANEL: (f64, f64) = (380.0, 300.0);
const COLOURS: [&str; 9] = [
    "#555555", "#1f77b4", "#2a9d8f", "#8c6d31", "#d62728", "#9467bd", "#17a2c4", "#e08214",
    "#c51b7d",
];

/// A panel's place, its title, and what it shows of a row.
struct Panel {
    left: f64,
    top: f64,
    title: String,
    value: fn(&Row) -> f64,
    range: (f64, f64),
    ticks: &'static [f64],
}

/// The place of a value on a logarithmic scale from 0 to 1.
fn scale(value: f64, (low, high): (f64, f64)) -> f64 {
    (value.ln() - low.ln()) / (high.ln() - low.ln())
}

impl Panel {
    fn x(&self, nodes: f64) -> f64 {
        self.left + PANEL.0 * scale(nodes, (1_000.0, 60_000.0))
    }

    fn y(&self, value: f64) -> f64 {
        self.top + PANEL.1 * (1.0 - scale(value, self.range).clamp(0.0, 1.0))
    }

    /// The axes: a line and a number for each tick.
    fn axes(&self, svg: &mut String, sizes: &[usize]) {
        let (left, right, bottom) = (self.left, self.left + PANEL.0, self.top + PANEL.1);
        text(
            svg,
            left,
            self.top - 14.0,
            "start",
            15,
            &self.title,
            "#222222",
        );
        for &tick in self.ticks {
            let y = self.y(tick);
            line(svg, (left, y), (right, y), "#dddddd", 1.0);
            text(
                svg,
                left - 6.0,
                y + 4.0,
                "end",
                12,
                &format!("{tick}"),
                "#555555",
            );
        }
        for &size in sizes {
            let x = self.x(size as f64);
            line(svg, (x, bottom), (x, bottom + 4.0), "#888888", 1.0);
            text(
                svg,
                x,
                bottom + 18.0,
                "middle",
                12,
                &format!("{size}"),
                "#555555",
            );
        }
        text(
            svg,
            (left + right) / 2.0,
            bottom + 34.0,
            "middle",
            12,
            "nodes",
            "#555555",
        );
    }

    /// A line for each job, named at its right end.
    fn lines(&self, svg: &mut String, rows: &[&Row]) {
        let mut names: Vec<(f64, Job, &str)> = Vec::new();
        for (job, colour) in jobs::ALL.into_iter().zip(COLOURS) {
            let points: Vec<(f64, f64)> = rows
                .iter()
                .filter(|row| row.job == job)
                .map(|row| (self.x(row.nodes as f64), self.y((self.value)(row))))
                .collect();
            for pair in points.windows(2) {
                line(svg, pair[0], pair[1], colour, 2.0);
            }
            if let Some(last) = points.last() {
                names.push((last.1, job, colour));
            }
        }
        names.sort_by(|a, b| a.0.total_cmp(&b.0));
        let mut free = f64::MIN;
        for (y, job, colour) in names {
            let y = y.max(free);
            text(
                svg,
                self.left + PANEL.0 + 8.0,
                y + 4.0,
                "start",
                12,
                job.name(),
                colour,
            );
            free = y + 14.0;
        }
    }
}

fn line(svg: &mut String, (x1, y1): (f64, f64), (x2, y2): (f64, f64), colour: &str, width: f64) {
    writeln!(
        svg,
        r#"<line x1="{x1:.1}" y1="{y1:.1}" x2="{x2:.1}" y2="{y2:.1}" stroke="{colour}" stroke-width="{width}" stroke-linecap="round"/>"#
    )
    .expect("text takes all");
}

fn text(svg: &mut String, x: f64, y: f64, anchor: &str, size: u32, words: &str, colour: &str) {
    writeln!(
        svg,
        r#"<text x="{x:.1}" y="{y:.1}" text-anchor="{anchor}" font-size="{size}" fill="{colour}">{words}</text>"#
    )
    .expect("text takes all");
}

/// The picture of all rows.
pub fn svg(rows: &[Row]) -> String {
    let height = 2.0 * (PANEL.1 + 110.0);
    let mut svg = format!(
        "<svg xmlns=\"http://www.w3.org/2000/svg\" viewBox=\"0 0 {WIDTH} {height}\" font-family=\"sans-serif\">\n<rect width=\"{WIDTH}\" height=\"{height}\" fill=\"white\"/>\n"
    );
    for (place, width) in [32, 64].into_iter().enumerate() {
        let top = 50.0 + place as f64 * (PANEL.1 + 110.0);
        let here: Vec<&Row> = rows.iter().filter(|row| row.width == width).collect();
        let time = Panel {
            left: 60.0,
            top,
            title: format!("width {width}: our call, ns a node, its checks included"),
            value: |row| row.times.ours / row.nodes as f64,
            range: (4.0, 2_000.0),
            ticks: &[5.0, 10.0, 20.0, 50.0, 100.0, 200.0, 500.0, 1000.0],
        };
        let ratio = Panel {
            left: 700.0,
            top,
            title: format!("width {width}: Rust's time / ours, checks taken off"),
            value: |row| row.times.rust / row.times.ours_alone,
            range: (0.02, 2.0),
            ticks: &[0.05, 0.1, 0.25, 0.5, 1.0, 2.0],
        };
        for panel in [time, ratio] {
            panel.axes(&mut svg, &crate::SIZES);
            panel.lines(&mut svg, &here);
        }
    }
    svg + "</svg>\n"
}
