//! The plot, as SVG: on the left the time of a run by the states of both models, both axes in powers of ten; on the right
//! the ratio of each case.

use std::fmt::Write;

use crate::table::{Row, growth, time};

const WIDTH: f64 = 1_000.0;
const TOP: f64 = 50.0;
/// The left panel: from x to x, and its height.
const PANEL: [f64; 3] = [80.0, 440.0, 400.0];
/// The right panel: where bars begin, and how wide a tenfold ratio is.
const BARS: [f64; 2] = [720.0, 130.0];
const BAR: f64 = 13.0;
/// The colours of the Rust and of ours.
const COLOURS: [&str; 2] = ["#b35900", "#00569e"];

/// The powers of ten about these values.
fn decades(values: impl Iterator<Item = f64> + Clone) -> (f64, f64) {
    let low = values.clone().fold(f64::INFINITY, f64::min).log10().floor();
    let high = values.fold(0.0, f64::max).log10().ceil();
    (low, high.max(low + 1.0))
}

/// Where a value stands between two powers of ten, from 0 to 1.
fn share(value: f64, (low, high): (f64, f64)) -> f64 {
    (value.log10() - low) / (high - low)
}

fn text(out: &mut String, x: f64, y: f64, anchor: &str, words: &str) {
    let line = format!("<text x=\"{x:.1}\" y=\"{y:.1}\" text-anchor=\"{anchor}\">{words}</text>\n");
    out.push_str(&line);
}

fn stroke(out: &mut String, from: (f64, f64), to: (f64, f64), colour: &str) {
    let ((x, y), (u, v)) = (from, to);
    writeln!(
        out,
        "<line x1=\"{x:.1}\" y1=\"{y:.1}\" x2=\"{u:.1}\" y2=\"{v:.1}\" stroke=\"{colour}\"/>"
    )
    .expect("a string takes all");
}

/// A line through the points, with a dot at each; dashed or not.
fn curve(out: &mut String, points: &[(f64, f64)], colour: &str, dashed: bool) {
    let list: Vec<String> = points
        .iter()
        .map(|(x, y)| format!("{x:.1},{y:.1}"))
        .collect();
    let dashes = if dashed {
        " stroke-dasharray=\"6 4\""
    } else {
        ""
    };
    let list = list.join(" ");
    writeln!(
        out,
        "<polyline points=\"{list}\" fill=\"none\" stroke=\"{colour}\" stroke-width=\"2\"{dashes}/>"
    )
    .expect("a string takes all");
    for (x, y) in points {
        writeln!(
            out,
            "<circle cx=\"{x:.1}\" cy=\"{y:.1}\" r=\"3\" fill=\"{colour}\"/>"
        )
        .expect("a string takes all");
    }
}

/// The left panel: a curve for each degree and side.
fn curves(out: &mut String, rows: &[Row]) {
    let series = growth(rows);
    let all = series.values().flatten();
    if series.is_empty() {
        return;
    }
    let across = decades(all.clone().map(|(t, _)| *t as f64));
    let along = decades(all.flat_map(|(_, row)| [row.rust as f64, row.ours as f64]));
    let [left, right, height] = PANEL;
    let at = |t: f64, ns: f64| {
        let x = left + share(t, across) * (right - left);
        (x, TOP + height * (1.0 - share(ns, along)))
    };
    text(
        out,
        left,
        TOP - 14.0,
        "start",
        "time of epsdelta by T, the states of both models",
    );
    for power in across.0 as i32..=across.1 as i32 {
        let t = 10f64.powi(power);
        let (x, y) = at(t, 10f64.powf(along.0));
        stroke(out, (x, y), (x, TOP), "#cccccc");
        text(out, x, y + 18.0, "middle", &format!("{t}"));
    }
    for power in along.0 as i32..=along.1 as i32 {
        let ns = 10f64.powi(power);
        let (x, y) = at(10f64.powf(across.0), ns);
        stroke(out, (x, y), (right, y), "#cccccc");
        text(
            out,
            x - 8.0,
            y + 4.0,
            "end",
            &time(ns as u128).replace(".00", ""),
        );
    }
    for (k, (degree, list)) in series.iter().enumerate() {
        let sides: [(&str, fn(&Row) -> u128); 2] =
            [("Rust", |row| row.rust), ("ours", |row| row.ours)];
        for ((name, of), colour) in sides.into_iter().zip(COLOURS) {
            let points: Vec<(f64, f64)> = list
                .iter()
                .map(|(t, row)| at(*t as f64, of(row) as f64))
                .collect();
            curve(out, &points, colour, k > 0);
            let (x, y) = points[points.len() - 1];
            text(out, x + 8.0, y + 4.0, "start", &format!("{name}, {degree}"));
        }
    }
}

/// The right panel: a bar for each case, to the right of 1 where the library is faster.
fn bars(out: &mut String, rows: &[&Row]) {
    let [middle, decade] = BARS;
    text(out, middle, TOP - 14.0, "middle", "ratio, Rust : ours");
    let bottom = TOP + BAR * rows.len() as f64;
    for (ratio, name) in [(0.1, "0.1"), (1.0, "1"), (10.0, "10"), (100.0, "100")] {
        let x = middle + decade * f64::log10(ratio);
        stroke(out, (x, TOP), (x, bottom), "#cccccc");
        text(out, x, bottom + 14.0, "middle", name);
    }
    for (i, row) in rows.iter().enumerate() {
        let y = TOP + BAR * i as f64;
        let ratio = row.ratio().clamp(0.1, 150.0);
        let (from, to) = (
            middle.min(middle + decade * ratio.log10()),
            middle.max(middle + decade * ratio.log10()),
        );
        let (width, height, colour) = (to - from, BAR - 3.0, COLOURS[usize::from(ratio >= 1.0)]);
        writeln!(out, "<rect x=\"{from:.1}\" y=\"{:.1}\" width=\"{width:.1}\" height=\"{height}\" fill=\"{colour}\"/>", y + 1.0)
            .expect("a string takes all");
        text(out, middle - decade - 8.0, y + BAR - 3.0, "end", &row.name);
        text(
            out,
            to + 4.0,
            y + BAR - 3.0,
            "start",
            &format!("{:.2}", row.ratio()),
        );
    }
}

pub fn svg(rows: &[Row]) -> String {
    let cases: Vec<&Row> = rows
        .iter()
        .filter(|row| !row.name.starts_with("growth_"))
        .collect();
    let height = (TOP + BAR * cases.len() as f64).max(TOP + PANEL[2]) + 40.0;
    let mut out = format!(
        "<svg xmlns=\"http://www.w3.org/2000/svg\" viewBox=\"0 0 {WIDTH} {height}\" font-family=\"sans-serif\" font-size=\"10\">\n\
         <rect width=\"{WIDTH}\" height=\"{height}\" fill=\"white\"/>\n"
    );
    curves(&mut out, rows);
    bars(&mut out, &cases);
    out + "</svg>\n"
}
