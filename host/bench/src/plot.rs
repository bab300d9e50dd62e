//! Time against size, one panel for each group.

use crate::row::Row;
use std::fmt::Write;

const PANEL: (f64, f64) = (360.0, 230.0);
/// Left, right, top, bottom.
const MARGIN: (f64, f64, f64, f64) = (52.0, 14.0, 34.0, 38.0);
const COLUMNS: usize = 2;
const SIDES: [(&str, &str); 3] = [("library", "#0b6e4f"), ("Rust pre-built", "#8a8a8a"), ("Rust building and validating", "#c8553d")];

pub fn svg(rows: &[Row]) -> String {
    let lines = rows.len().div_ceil(COLUMNS) as f64;
    let (width, height) = (PANEL.0 * COLUMNS as f64, PANEL.1 * lines + 28.0);
    let mut out = format!(
        "<svg xmlns=\"http://www.w3.org/2000/svg\" viewBox=\"0 0 {width} {height}\" font-family=\"sans-serif\" font-size=\"11\">\n"
    );
    let _ = writeln!(out, "<rect width=\"{width}\" height=\"{height}\" fill=\"white\"/>");
    for (i, (name, colour)) in SIDES.iter().enumerate() {
        let x = 20.0 + 150.0 * i as f64;
        let _ = writeln!(
            out,
            "<rect x=\"{x}\" y=\"10\" width=\"14\" height=\"4\" fill=\"{colour}\"/><text x=\"{}\" y=\"16\">{name}</text>",
            x + 20.0
        );
    }
    for (i, row) in rows.iter().enumerate() {
        let (x, y) = (PANEL.0 * (i % COLUMNS) as f64, 28.0 + PANEL.1 * (i / COLUMNS) as f64);
        let _ = writeln!(out, "<g transform=\"translate({x},{y})\">\n{}</g>", panel(row));
    }
    out + "</svg>\n"
}

fn panel(row: &Row) -> String {
    let most_bytes = row.points.iter().map(|point| point.bytes as f64).fold(1.0, f64::max);
    let most_time = row.points.iter().flat_map(|point| point.times).fold(1.0, f64::max) / 1e3;
    let (inner_width, inner_height) = (PANEL.0 - MARGIN.0 - MARGIN.1, PANEL.1 - MARGIN.2 - MARGIN.3);
    let x = |bytes: f64| MARGIN.0 + bytes / most_bytes * inner_width;
    let y = |time: f64| MARGIN.2 + (1.0 - time / most_time) * inner_height;
    let mut out = format!("<text x=\"{}\" y=\"20\" font-weight=\"bold\">{}</text>\n", MARGIN.0, row.group.name);
    for tick in ticks(most_time) {
        let _ = writeln!(
            out,
            "<line x1=\"{0}\" x2=\"{1}\" y1=\"{2:.1}\" y2=\"{2:.1}\" stroke=\"#ddd\"/>",
            MARGIN.0,
            PANEL.0 - MARGIN.1,
            y(tick)
        );
        let _ = writeln!(out, "<text x=\"{}\" y=\"{:.1}\" text-anchor=\"end\">{tick}</text>", MARGIN.0 - 5.0, y(tick) + 4.0);
    }
    for tick in ticks(most_bytes) {
        let _ = writeln!(out, "<text x=\"{:.1}\" y=\"{}\" text-anchor=\"middle\">{tick}</text>", x(tick), PANEL.1 - MARGIN.3 + 14.0);
    }
    let _ = writeln!(out, "<text x=\"{}\" y=\"{}\" text-anchor=\"end\">bytes</text>", PANEL.0 - MARGIN.1, PANEL.1 - 8.0);
    let _ = writeln!(out, "<text x=\"{}\" y=\"{}\" text-anchor=\"end\">µs</text>", MARGIN.0 - 5.0, 20.0);
    for (side, (_, colour)) in SIDES.iter().enumerate() {
        let line: Vec<String> =
            row.points.iter().map(|point| format!("{:.1},{:.1}", x(point.bytes as f64), y(point.times[side] / 1e3))).collect();
        let _ = writeln!(out, "<polyline points=\"{}\" fill=\"none\" stroke=\"{colour}\" stroke-width=\"1.6\"/>", line.join(" "));
        for mark in line {
            let (x, y) = mark.split_once(',').expect("written above");
            let _ = writeln!(out, "<circle cx=\"{x}\" cy=\"{y}\" r=\"2.2\" fill=\"{colour}\"/>");
        }
    }
    out
}

/// Round values from 0 to `most`, about four of them.
fn ticks(most: f64) -> Vec<f64> {
    let rough = most / 4.0;
    let power = 10f64.powf(rough.log10().floor());
    let step = [1.0, 2.0, 5.0, 10.0].map(|factor| factor * power).into_iter().find(|step| *step >= rough).unwrap_or(power);
    let digits = (1.0 / step).log10().ceil().max(0.0) as i32;
    let round = |value: f64| (value * 10f64.powi(digits)).round() / 10f64.powi(digits);
    (0..).map(|i| round(step * f64::from(i))).take_while(|tick| *tick <= most).collect()
}
