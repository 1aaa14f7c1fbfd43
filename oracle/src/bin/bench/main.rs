//! Times the Rust and the static library on the same inputs, in turn; `bench [--runs N] [--write] [NAME..]` selects cases by
//! prefix, runs them N times, and writes docs/BENCH.md and docs/bench.svg of the medians.
//!
//! Prints `NAME rust_ns A ours_ns B ratio A/B`, medians over the samples. The Rust side is a new builder, each
//! transition added, `build` and the release of the model. Our side is `build` into stores that are allocated once and
//! not cleared between calls. The readers are left out. The flow is in `flow`, whole runs of `epsdelta` in `relation`, reports
//! of cards in `card`, `transport` in `transport`, `uniformise` and `normalise` in `chain`, distances in `distance`.

mod card;
mod chain;
mod distance;
mod flow;
mod plot;
mod relation;
mod table;
mod transport;

use std::hint::black_box;
use std::process::ExitCode;
use std::time::Instant;

use oracle::answers::built;
use oracle::args::BuildArgs;
use oracle::generate::Rng;
use oracle::generate::build::{Size, good};
use oracle::ours;

const SAMPLES: usize = 31;
/// A sample lasts at least this long.
const SAMPLE_NS: u128 = 2_000_000;

pub(crate) fn input(states: usize, given: usize, labels: usize) -> BuildArgs {
    let size = Size {
        states,
        given,
        labels,
        targets: 16,
    };
    let mut args = good(&mut Rng::new(1), size);
    let mut rng = Rng::new(2);
    args.weights.fill_with(|| rng.unit() + 0.1);
    args
}

/// The same transitions by source, label value and target.
fn sorted(args: &BuildArgs) -> BuildArgs {
    let mut order: Vec<usize> = (0..args.given).collect();
    order.sort_by_key(|&i| (args.sources[i], args.labels[i], args.targets[i]));
    let column = |from: &[u32]| order.iter().map(|&i| from[i]).collect();
    BuildArgs {
        sources: column(&args.sources),
        labels: column(&args.labels),
        targets: column(&args.targets),
        weights: order.iter().map(|&i| args.weights[i]).collect(),
        ..args.clone()
    }
}

/// The same transitions with 256 label values in turn, `step` apart.
fn in_turn(args: BuildArgs, step: u32) -> BuildArgs {
    let label = |i: usize| i as u32 % 256 * step;
    BuildArgs {
        labels: (0..args.given).map(label).collect(),
        ..args
    }
}

fn cases() -> Vec<(&'static str, BuildArgs)> {
    let random = input(400, 4_096, 4);
    vec![
        ("build_0", input(8, 0, 3)),
        ("build_20", input(8, 20, 3)),
        ("build_150", input(30, 150, 4)),
        ("build_400", input(60, 400, 4)),
        ("build_400_256_labels", in_turn(input(60, 400, 4), 77)),
        ("build_4096", random.clone()),
        ("build_4096_256_labels", input(400, 4_096, 256)),
        ("build_4096_stride_labels", in_turn(random.clone(), 1_024)),
        ("build_4096_sorted", sorted(&random)),
    ]
}

fn nanoseconds(turns: u128, run: &mut dyn FnMut()) -> u128 {
    let start = Instant::now();
    for _ in 0..turns {
        run();
    }
    start.elapsed().as_nanos() / turns
}

fn median(mut times: Vec<u128>) -> u128 {
    times.sort_unstable();
    times[times.len() / 2]
}

/// Both sides in turn, sample by sample.
fn in_turns(name: &str, rust: &mut dyn FnMut(), library: &mut dyn FnMut()) {
    let turns = 1 + SAMPLE_NS / nanoseconds(3, rust).max(1);
    let (mut a, mut b) = (Vec::new(), Vec::new());
    for _ in 0..SAMPLES {
        a.push(nanoseconds(turns, rust));
        b.push(nanoseconds(turns, library));
    }
    print(name, median(a), median(b));
}

fn measure(name: &str, args: &BuildArgs) {
    let mut lent = args.clone();
    let mut rust = || drop(black_box(built(black_box(args))));
    let (mut edges, mut labels) = (0, 0);
    let mut library = || {
        let refusal = ours::build(black_box(&mut lent), &mut edges, &mut labels);
        assert_eq!(black_box(refusal), 0);
    };
    in_turns(name, &mut rust, &mut library);
}

fn print(name: &str, rust: u128, ours: u128) {
    let ratio = rust as f64 / ours.max(1) as f64;
    println!("{name} rust_ns {rust} ours_ns {ours} ratio {ratio:.2}");
    table::record(name, rust, ours);
}

/// Each chosen case once.
fn run(chosen: &dyn Fn(&str) -> bool) {
    for (name, args) in cases().iter().filter(|case| chosen(case.0)) {
        measure(name, args);
    }
    for (name, test) in flow::cases().iter().filter(|case| chosen(case.0)) {
        flow::measure(name, test);
    }
    for (name, case) in relation::cases().iter().filter(|case| chosen(&case.0)) {
        relation::measure(name, case);
    }
    for (name, case) in relation::growth().iter().filter(|case| chosen(&case.0)) {
        relation::measure(name, case);
    }
    for (name, case) in card::cases().iter().filter(|case| chosen(case.0)) {
        card::measure(name, case);
    }
    for (name, case) in transport::cases().iter().filter(|case| chosen(case.0)) {
        transport::measure(name, case);
    }
    for (name, case) in chain::models().iter().filter(|case| chosen(case.0)) {
        chain::measure_uniformise(name, case);
    }
    for (name, case) in chain::pairs().iter().filter(|case| chosen(case.0)) {
        chain::measure_normalise(name, case);
    }
    for (name, case) in distance::pairs().iter().filter(|case| chosen(&case.0)) {
        distance::measure_distance(name, case);
    }
    let models = distance::model_pairs();
    for (name, case) in models.iter().filter(|case| chosen(case.0)) {
        distance::measure_bisim(name, case);
    }
}

/// How many runs, whether to write, and prefixes of names.
fn options() -> Option<(usize, bool, Vec<String>)> {
    let (mut runs, mut write, mut names) = (1, false, Vec::new());
    let mut words = std::env::args().skip(1);
    while let Some(word) = words.next() {
        match word.as_str() {
            "--runs" => runs = words.next()?.parse().ok().filter(|&runs| runs > 0)?,
            "--write" => write = true,
            _ if word.starts_with('-') => return None,
            _ => names.push(word),
        }
    }
    Some((runs, write, names))
}

fn main() -> ExitCode {
    let Some((runs, write, names)) = options() else {
        eprintln!("usage: bench [--runs N] [--write] [NAME..]");
        return ExitCode::from(2);
    };
    let load = table::load();
    let chosen = |name: &str| {
        names.is_empty() || names.iter().any(|prefix| name.starts_with(prefix.as_str()))
    };
    (0..runs).for_each(|_| run(&chosen));
    if !write {
        return ExitCode::SUCCESS;
    }
    match table::write(runs, &load) {
        Ok(()) => ExitCode::SUCCESS,
        Err(e) => {
            eprintln!("not written: {e}");
            ExitCode::from(2)
        }
    }
}
