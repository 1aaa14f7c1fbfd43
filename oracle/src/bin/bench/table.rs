//! The rows that were measured, their medians over the runs, and what is written of them: a page and a plot.

use std::collections::BTreeMap;
use std::fmt::Write;
use std::sync::Mutex;

use crate::plot;

/// Of each run the times of the Rust and of ours, by name, in the order of the first run.
#[derive(Default)]
struct Rows {
    names: Vec<String>,
    times: BTreeMap<String, Vec<(u128, u128)>>,
}

static ROWS: Mutex<Option<Rows>> = Mutex::new(None);

/// Keeps the times of a case.
pub fn record(name: &str, rust: u128, ours: u128) {
    let mut rows = ROWS.lock().expect("one thread");
    let rows = rows.get_or_insert_default();
    let times = rows.times.entry(name.into()).or_default();
    if times.is_empty() {
        rows.names.push(name.into());
    }
    times.push((rust, ours.max(1)));
}

/// A case: medians over the runs, and the lowest and the highest ratio of a run.
pub struct Row {
    pub name: String,
    pub rust: u128,
    pub ours: u128,
    pub low: f64,
    pub high: f64,
}

impl Row {
    pub fn ratio(&self) -> f64 {
        self.rust as f64 / self.ours as f64
    }
}

fn row(name: &str, times: &[(u128, u128)]) -> Row {
    let ratios = times.iter().map(|(rust, ours)| *rust as f64 / *ours as f64);
    Row {
        name: name.into(),
        rust: crate::median(times.iter().map(|t| t.0).collect()),
        ours: crate::median(times.iter().map(|t| t.1).collect()),
        low: ratios.clone().fold(f64::INFINITY, f64::min),
        high: ratios.fold(0.0, f64::max),
    }
}

pub fn rows() -> Vec<Row> {
    let rows = ROWS.lock().expect("one thread");
    let rows = rows.as_ref();
    let of = |rows: &Rows| {
        let each = rows.names.iter().map(|name| row(name, &rows.times[name]));
        each.collect()
    };
    rows.map_or(Vec::new(), of)
}

/// How the time of a run grows with the states of both models together: of each degree, states and row.
pub fn growth(rows: &[Row]) -> BTreeMap<usize, Vec<(usize, &Row)>> {
    let mut series: BTreeMap<usize, Vec<(usize, &Row)>> = BTreeMap::new();
    for row in rows {
        let mut words = row.name.split('_');
        if words.next() != Some("growth") {
            continue;
        }
        let mut number = || words.next().and_then(|word| word.parse().ok());
        if let (Some(degree), Some(states)) = (number(), number()) {
            series.entry(degree).or_default().push((states, row));
        }
    }
    series
}

/// The power of T by which the time grows: the slope of the line through the logarithms that fits best.
pub fn slope(points: &[(f64, f64)]) -> f64 {
    let logs = points.iter().map(|(x, y)| (x.ln(), y.ln()));
    let n = points.len() as f64;
    let sum = |f: fn((f64, f64)) -> f64| logs.clone().map(f).sum::<f64>();
    let (x, y) = (sum(|p| p.0), sum(|p| p.1));
    let (xx, xy) = (sum(|p| p.0 * p.0), sum(|p| p.0 * p.1));
    (n * xy - x * y) / (n * xx - x * x)
}

/// A time with three digits.
pub fn time(ns: u128) -> String {
    let (value, unit) = match ns {
        0..1_000 => return format!("{ns} ns"),
        1_000..1_000_000 => (ns as f64 / 1e3, "µs"),
        1_000_000..1_000_000_000 => (ns as f64 / 1e6, "ms"),
        _ => (ns as f64 / 1e9, "s"),
    };
    let digits = 2usize.saturating_sub(value.log10() as usize);
    format!("{value:.digits$} {unit}")
}

/// The first line of a file of the system with this name in it.
fn told(path: &str, name: &str) -> String {
    let text = std::fs::read_to_string(path).unwrap_or_default();
    let line = text.lines().find(|line| line.starts_with(name));
    let line = line.unwrap_or("unknown");
    line.rsplit(": ").next().unwrap_or(line).trim().to_string()
}

fn page(rows: &[Row], runs: usize, load: &str) -> String {
    let cpu = told("/proc/cpuinfo", "model name");
    let cores = std::thread::available_parallelism().map_or(0, usize::from);
    let mut page = format!(
        "# Benchmark

Written by `bench/run --runs {runs} --write`, with the plot below. Times of the Rust and of the static library on the same
inputs, in turn, in one program on one core: medians of {runs} runs, each a median of several samples. A ratio above 1 says that
the library is faster; behind it the lowest and the highest of the runs. `bench/run` says what each case is.

{cpu}, {cores} cores; load before the run: {load}.

![Time by states, and ratios](bench.svg)
"
    );
    for (degree, series) in growth(rows) {
        page.push_str(&growth_table(degree, &series));
    }
    page.push_str("\n## All cases\n\n| case | Rust | ours | ratio | lowest to highest |\n|---|---:|---:|---:|---|\n");
    for row in rows.iter().filter(|row| !row.name.starts_with("growth_")) {
        page.push_str(&line(&row.name, row));
    }
    page
}

fn line(name: &str, row: &Row) -> String {
    let (rust, ours) = (time(row.rust), time(row.ours));
    let (ratio, low, high) = (row.ratio(), row.low, row.high);
    format!("| {name} | {rust} | {ours} | {ratio:.2} | {low:.2} to {high:.2} |\n")
}

fn growth_table(degree: usize, series: &[(usize, &Row)]) -> String {
    let mut text = format!(
        "\n## Growth with T: `epsdelta`, {degree} targets a state\n\nT is the number of states of both models together.\n\n\
         | T | Rust | ours | ratio | lowest to highest |\n|---:|---:|---:|---:|---|\n"
    );
    for (states, row) in series {
        text.push_str(&line(&states.to_string(), row));
    }
    let of = |value: fn(&Row) -> u128| {
        let points = series.iter().map(|(t, row)| (*t as f64, value(row) as f64));
        slope(&points.collect::<Vec<_>>())
    };
    if series.len() > 1 {
        let (rust, ours) = (of(|row| row.rust), of(|row| row.ours));
        write!(
            text,
            "\nThe time grows about as T^{rust:.2} (Rust) and T^{ours:.2} (ours).\n"
        )
        .expect("a string takes all");
    }
    text
}

/// How busy the machine is.
pub fn load() -> String {
    let text = std::fs::read_to_string("/proc/loadavg").unwrap_or_default();
    text.split(' ').next().unwrap_or("unknown").to_string()
}

/// Writes docs/BENCH.md and docs/bench.svg of the folder that the program runs in.
pub fn write(runs: usize, load: &str) -> std::io::Result<()> {
    let rows = rows();
    std::fs::write("docs/BENCH.md", page(&rows, runs, load))?;
    std::fs::write("docs/bench.svg", plot::svg(&rows))
}
