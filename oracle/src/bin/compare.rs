//! Runs the Rust and the static library on the same inputs and compares answers and lent memory.
//!
//! `compare [--seed N] [--scale K] [--soak SECONDS] [--all] [PART..]`: K times as many random inputs. With `--soak` the parts
//! are run again and again with fresh seeds, on all cores. Of each entry the first differences are made smallest and
//! printed, with `--all` every one. Exit status 1 where something differs or a floor is not reached (of all parts, without
//! `--soak`), 2 on bad usage.

use std::collections::BTreeMap;
use std::panic::{AssertUnwindSafe, catch_unwind, resume_unwind};
use std::process::ExitCode;
use std::sync::Mutex;
use std::time::{Duration, Instant, SystemTime};

use oracle::args::{FlowArgs, Leaves, RunArgs};
use oracle::card::printed;
use oracle::generate::{
    Rng, bisim, build, card, distance, labels, model, network, normalise, rate, related, relation,
    remainders, transport,
};
use oracle::ours::Ours;
use oracle::pairs::{alike, first_difference, paired};
use oracle::rows::{PARTS, ROWS, floor, floors, printed_numbers};
use oracle::sample;
use oracle::shrink::least;
use oracle::text::{Case, Field, Value, write_case};

/// Differences printed of each entry, but with `--all`.
const SHOWN: u64 = 3;

#[derive(Default)]
struct Entry {
    compared: u64,
    differ: u64,
    /// Comparisons by refusal number, the oracle's where it has the answer; 0 for none.
    refused: BTreeMap<u32, u64>,
    /// Of `report`, texts by the number printed; 0 for a relation.
    printed: BTreeMap<u32, u64>,
}

fn count(counts: &BTreeMap<u32, u64>, number: u32) -> u64 {
    counts.get(&number).copied().unwrap_or(0)
}

/// The numbers with their counts.
fn listed(numbers: &[u32], counts: &BTreeMap<u32, u64>) -> String {
    if numbers.is_empty() {
        return "none".into();
    }
    let each = numbers
        .iter()
        .map(|&number| format!("{number} {}", count(counts, number)));
    each.collect::<Vec<_>>().join(", ")
}

fn add_counts(counts: &mut BTreeMap<u32, u64>, other: BTreeMap<u32, u64>) {
    for (number, n) in other {
        *counts.entry(number).or_default() += n;
    }
}

#[derive(Default)]
struct Tally {
    entries: BTreeMap<&'static str, Entry>,
    /// Every difference is printed.
    all: bool,
    /// The turn ends with the first input after this.
    end: Option<Instant>,
}

/// Whether the two sides differ in the answer of this entry.
fn differs<C: Ours>(case: &C, entry: &str) -> bool {
    let (oracle, ours) = (case.oracle(), case.ours());
    let pairs = paired(&oracle, &ours);
    let named = |side: &[Field]| side.first().is_some_and(|head| head.name == entry);
    let mut pairs = pairs.iter().filter(|(a, b)| named(a) || named(b));
    pairs.any(|(a, b)| !alike(a, b))
}

/// Prints a smallest case of the difference, and what the library answers.
fn show<C: Ours + Leaves>(case: &C, entry: &str) {
    let case = least(case, &mut |case| differs(case, entry));
    let (expected, got) = (case.oracle(), case.ours());
    let place = first_difference(&expected, &got);
    let ours = Case {
        kind: C::KIND,
        fields: case.shown(got),
    };
    print!(
        "differs, first in {place}:\n{}ours:\n{}",
        write_case(&case.case()),
        write_case(&ours)
    );
}

impl Tally {
    /// Counts an answer, which one of the sides may lack; true where it is to be shown.
    fn count(&mut self, expected: &[Field], got: &[Field]) -> bool {
        let side = if expected.is_empty() { got } else { expected };
        let head = &side[0];
        let Value::Answer(refusal, _) = head.value else {
            panic!("{} is no answer", head.name);
        };
        let entry = self.entries.entry(head.name).or_default();
        entry.compared += 1;
        *entry.refused.entry(refusal).or_default() += 1;
        if let Some(number) = printed(side) {
            *entry.printed.entry(number).or_default() += 1;
        }
        let differs = !alike(expected, got);
        entry.differ += u64::from(differs);
        differs && (self.all || entry.differ <= SHOWN)
    }

    fn check<C: Ours + Leaves>(&mut self, case: &C) {
        if self.end.is_some_and(|end| Instant::now() > end) {
            resume_unwind(Box::new(Over));
        }
        let (oracle, ours) = (case.oracle(), case.ours());
        for (expected, got) in paired(&oracle, &ours) {
            if self.count(expected, got) {
                let side = if expected.is_empty() { got } else { expected };
                show(case, side[0].name);
            }
        }
    }

    /// Comparisons and differences of all entries.
    fn sums(&self) -> (u64, u64) {
        let entries = self.entries.values();
        entries.fold((0, 0), |(compared, differ), e| {
            (compared + e.compared, differ + e.differ)
        })
    }

    /// With the counts of another one.
    fn add(&mut self, other: Tally) {
        for (name, from) in other.entries {
            let entry = self.entries.entry(name).or_default();
            entry.compared += from.compared;
            entry.differ += from.differ;
            add_counts(&mut entry.refused, from.refused);
            add_counts(&mut entry.printed, from.printed);
        }
    }

    /// Prints the entry's line; true where a floor is not reached, so far as there is one.
    fn report(&self, name: &str, row: &[u32], floors_hold: bool) -> bool {
        let none = Entry::default();
        let entry = self.entries.get(name).unwrap_or(&none);
        let refused = listed(row, &entry.refused);
        println!(
            "{name}: {} compared, {} differ (refused: {refused})",
            entry.compared, entry.differ
        );
        let (least, per_outcome) = floors(name);
        let low = |numbers: &[u32], counts: &BTreeMap<u32, u64>| {
            let mut numbers = numbers.iter().chain(&[0]);
            numbers.any(|&number| count(counts, number) < floor(name, number))
        };
        let mut short = entry.compared < least || low(row, &entry.refused);
        let numbers = printed_numbers(name);
        if !numbers.is_empty() {
            let relations = count(&entry.printed, 0);
            let printed = listed(numbers, &entry.printed);
            println!("{name}: {relations} relations printed (refusals printed: {printed})");
            short |= low(numbers, &entry.printed);
        }
        short &= floors_hold;
        if short {
            println!("{name}: floor of {least} compared, {per_outcome} per outcome, not reached");
        }
        short
    }
}

/// The fixed lists that are replayed without Rust.
fn samples(tally: &mut Tally) {
    sample::reals().iter().for_each(|a| tally.check(a));
    sample::interns().iter().for_each(|a| tally.check(a));
    sample::labels().iter().for_each(|a| tally.check(a));
    sample::builds().iter().for_each(|a| tally.check(a));
    sample::models().iter().for_each(|a| tally.check(a));
    sample::flow::nodes().iter().for_each(|a| tally.check(a));
    sample::flow::edges().iter().for_each(|a| tally.check(a));
    sample::flow::flows().iter().for_each(|a| flow(tally, a));
    sample::transport::transports()
        .iter()
        .for_each(|a| tally.check(a));
    sample::relation::relations()
        .iter()
        .for_each(|a| tally.check(a));
    sample::relation::askings()
        .iter()
        .for_each(|a| tally.check(a));
    sample::card::cards().iter().for_each(|a| tally.check(a));
    sample::chain::rates().iter().for_each(|a| tally.check(a));
    sample::chain::chains().iter().for_each(|a| tally.check(a));
    sample::chain::pairs().iter().for_each(|a| tally.check(a));
    sample::distance::distances()
        .iter()
        .for_each(|a| tally.check(a));
    sample::distance::bisims()
        .iter()
        .for_each(|a| tally.check(a));
}

fn reals_and_labels(tally: &mut Tally, rng: &mut Rng, scale: usize) {
    labels::short_reals(&mut |a| tally.check(&a));
    labels::short_interns(&mut |a| tally.check(&a));
    labels::short_labels(&mut |a| tally.check(&a));
    for i in 0..20_000 * scale {
        let longest = if i % 100 == 0 { 5_000 } else { 40 };
        tally.check(&labels::real(rng, longest));
        tally.check(&labels::intern(rng, 256));
        tally.check(&labels::label(rng, 256));
    }
}

fn builds(tally: &mut Tally, rng: &mut Rng, scale: usize) {
    build::short_values(&mut |a| tally.check(&a));
    build::short_sums(&mut |a| tally.check(&a));
    build::short_lengths(&mut |a| tally.check(&a));
    build::uneven(&mut |a| tally.check(&a));
    for i in 0..100_000 * scale {
        let size = build::small(rng);
        tally.check(&build::random(rng, size));
        if i % 2 == 0 {
            tally.check(&remainders::random(rng));
        }
        if i % 12 == 0 {
            tally.check(&build::at_limit(rng));
        }
        if i % 40 == 0 {
            tally.check(&build::large_random(rng));
        }
    }
}

fn models(tally: &mut Tally, rng: &mut Rng, scale: usize) {
    model::short(&mut |a| tally.check(&a));
    for i in 0..100_000 * scale {
        let size = build::small(rng);
        model::random(rng, size).iter().for_each(|a| tally.check(a));
        if i % 20 == 0 {
            tally.check(&model::star(rng));
            model::middle(rng).iter().for_each(|a| tally.check(a));
        }
        if i % 60 == 0 {
            model::large(rng).iter().for_each(|a| tally.check(a));
        }
    }
}

/// On the network, and over rows of its links in use where all of them are listed.
fn flow(tally: &mut Tally, a: &FlowArgs) {
    tally.check(a);
    a.rows().iter().for_each(|a| tally.check(a));
}

fn networks(tally: &mut Tally, rng: &mut Rng, scale: usize) {
    let nodes = network::node_counts();
    nodes.iter().for_each(|a| tally.check(a));
    network::edges(rng, scale, &mut |a| tally.check(&a));
    network::flows(rng, scale, &mut |a| flow(tally, &a));
}

fn transports(tally: &mut Tally, rng: &mut Rng, scale: usize) {
    transport::transports(rng, scale, &mut |a| tally.check(&a));
}

fn relations(tally: &mut Tally, rng: &mut Rng, scale: usize) {
    relation::relations(rng, scale, &mut |a| tally.check(&a));
    relation::runs(rng, scale, &mut |a| tally.check(&RunArgs(a)));
    related::askings(rng, scale, &mut |a| tally.check(&a));
}

fn cards(tally: &mut Tally, rng: &mut Rng, scale: usize) {
    card::cards(rng, scale, &mut |a| tally.check(&a));
}

fn chains(tally: &mut Tally, rng: &mut Rng, scale: usize) {
    rate::rates(rng, scale, &mut |a| tally.check(&a));
    rate::chains(rng, scale, &mut |a| tally.check(&a));
    normalise::pairs(rng, scale, &mut |a| tally.check(&a));
}

fn distances(tally: &mut Tally, rng: &mut Rng, scale: usize) {
    distance::distances(rng, scale, &mut |a| tally.check(&a));
    bisim::distances(rng, scale, &mut |a| tally.check(&a));
}

type Part = (&'static str, fn(&mut Tally, &mut Rng, usize));

/// The parts by name; those after the first take seeds.
const ALL: &[Part] = &[
    ("samples", |tally, _, _| samples(tally)),
    ("labels", reals_and_labels),
    ("builds", builds),
    ("models", models),
    ("networks", networks),
    ("relations", relations),
    ("cards", cards),
    ("transports", transports),
    ("chains", chains),
    ("distances", distances),
];

/// How many times the usual number of random inputs a turn of the soak has, so that the short inputs, which are the same in
/// every turn, are fewer.
const SOAK_SCALE: usize = 2;

/// Ends a turn of the soak when the time is over.
struct Over;

struct Options {
    seed: Option<u64>,
    scale: Option<usize>,
    soak: Option<u64>,
    all: bool,
    parts: Vec<&'static Part>,
}

fn options() -> Option<Options> {
    let mut options = Options {
        seed: None,
        scale: None,
        soak: None,
        all: false,
        parts: Vec::new(),
    };
    let mut words = std::env::args().skip(1);
    while let Some(word) = words.next() {
        match word.as_str() {
            "--seed" => options.seed = Some(words.next()?.parse().ok()?),
            "--scale" => options.scale = Some(words.next()?.parse().ok()?),
            "--soak" => options.soak = Some(words.next()?.parse().ok()?),
            "--all" => options.all = true,
            name => options.parts.push(ALL.iter().find(|part| part.0 == name)?),
        }
    }
    Some(options)
}

/// A seed that no run had before.
fn fresh() -> u64 {
    let time = SystemTime::now().duration_since(SystemTime::UNIX_EPOCH);
    Rng::new(time.map_or(0, |t| t.as_nanos() as u64)).bits() % 1_000_000_000
}

/// Runs turns until the time is over: each a part with a seed of its own.
fn soak_turns(
    parts: &[&Part],
    (scale, all): (usize, bool),
    end: Instant,
    next: &Mutex<(usize, u64)>,
    sum: &Mutex<Tally>,
) {
    while Instant::now() < end {
        let (part, seed) = {
            let mut next = next.lock().expect("no turn panics");
            let turn = *next;
            *next = match turn.0 + 1 < parts.len() {
                true => (turn.0 + 1, turn.1),
                false => (0, turn.1 + 1),
            };
            (parts[turn.0], turn.1)
        };
        let mut tally = Tally {
            all,
            end: Some(end),
            ..Tally::default()
        };
        let turn = || part.1(&mut tally, &mut Rng::new(seed), scale);
        if let Err(e) = catch_unwind(AssertUnwindSafe(turn))
            && !e.is::<Over>()
        {
            resume_unwind(e);
        }
        let (compared, differ) = tally.sums();
        let name = part.0;
        println!("--seed {seed} --scale {scale} {name}: {compared} compared, {differ} differ");
        sum.lock().expect("no turn panics").add(tally);
    }
}

/// The parts again and again for so many seconds, on all cores.
fn soak(options: &Options, seconds: u64) -> Tally {
    let parts: Vec<&Part> = match options.parts.is_empty() {
        true => ALL[1..].iter().collect(),
        false => options.parts.clone(),
    };
    let seed = options.seed.unwrap_or_else(fresh);
    let scale = options.scale.unwrap_or(SOAK_SCALE);
    let cores = std::thread::available_parallelism().map_or(1, usize::from);
    println!("soak of {seconds} s on {cores} cores, from seed {seed} on");
    let end = Instant::now() + Duration::from_secs(seconds);
    let (next, sum) = (Mutex::new((0, seed)), Mutex::new(Tally::default()));
    std::thread::scope(|scope| {
        for _ in 0..cores {
            scope.spawn(|| soak_turns(&parts, (scale, options.all), end, &next, &sum));
        }
    });
    sum.into_inner().expect("no turn panics")
}

/// Each part once, or those that are named.
fn once(options: &Options) -> Tally {
    let (seed, scale) = (options.seed.unwrap_or(1), options.scale.unwrap_or(1));
    println!("seed {seed}");
    let mut rng = Rng::new(seed);
    let mut tally = Tally {
        all: options.all,
        ..Tally::default()
    };
    let all: Vec<&Part> = ALL.iter().collect();
    let parts = match options.parts.is_empty() {
        true => &all,
        false => &options.parts,
    };
    for part in parts {
        part.1(&mut tally, &mut rng, scale);
    }
    tally
}

fn main() -> ExitCode {
    let Some(options) = options() else {
        let names: Vec<&str> = ALL.iter().map(|part| part.0).collect();
        let names = names.join(" ");
        eprintln!(
            "usage: compare [--seed N] [--scale K] [--soak SECONDS] [--all] [PART..]\nparts: {names}"
        );
        return ExitCode::from(2);
    };
    let tally = match options.soak {
        Some(seconds) => soak(&options, seconds),
        None => once(&options),
    };
    let whole = options.soak.is_none() && options.parts.is_empty();
    let met = |row: &&(&str, &[u32])| whole || tally.entries.contains_key(row.0);
    let entries = ROWS.iter().chain(PARTS).filter(met);
    let low = entries
        .filter(|row| tally.report(row.0, row.1, whole))
        .count();
    let (compared, differ) = tally.sums();
    println!("{compared} compared, {differ} differ");
    ExitCode::from(u8::from(low > 0 || differ > 0))
}
