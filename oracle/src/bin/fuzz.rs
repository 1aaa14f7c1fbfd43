//! A fuzzer over the card reader and over raw columns: inputs are changed at random, both sides run and compared, and those
//! that reach something new are kept and changed further.
//!
//! `fuzz [--seed N] [--seconds S] [TARGET..]`. New is a kind of answer ([`traits`]) and, with feature `counters` and
//! `-C instrument-coverage`, a place of the oracle's code (its card reader, its refusals and the Rust) that was not run
//! before, or not about as often: the compiler's own counters, read after each run. What differs is made smallest and
//! printed. The seed decides all but when the time is over. Exit status 1 where something differs, 2 on bad usage.

use std::collections::HashSet;
use std::panic::{AssertUnwindSafe, catch_unwind};
use std::process::ExitCode;
use std::time::{Duration, Instant};

use oracle::args::ModelArgs;
use oracle::fuzz::{Fuzzed, mutated, traits};
use oracle::generate::{
    Rng, bisim, build, card, distance, model, network, normalise, rate, relation, transport,
};
use oracle::ours::Ours;
use oracle::pairs::alike;
use oracle::shrink::least;
use oracle::text::{Case, Field, write_case};

/// Differences printed of each target.
const SHOWN: usize = 3;
/// Inputs that are kept at most.
const KEPT: usize = 20_000;

/// The compiler's counters: one for each place of the code of this program that it counts.
#[cfg(feature = "counters")]
mod counters {
    unsafe extern "C" {
        #[link_name = "__start___llvm_prf_cnts"]
        static mut START: u64;
        #[link_name = "__stop___llvm_prf_cnts"]
        static mut STOP: u64;
    }

    fn all() -> &'static mut [u64] {
        let (start, stop) = (&raw mut START, &raw mut STOP);
        // SAFETY: the linker sets both to the ends of the section that holds the counters, which are u64; this program has
        // one thread, and no run is under way while the slice is used
        unsafe { std::slice::from_raw_parts_mut(start, stop.offset_from(start) as usize) }
    }

    pub fn clear() {
        all().fill(0);
    }

    /// Each place that was run, with about how often: one number for both.
    pub fn read(mut f: impl FnMut(usize)) {
        let counts = all().iter().enumerate().filter(|(_, n)| **n != 0);
        counts.for_each(|(i, n)| f(8 * i + n.ilog2().min(7) as usize));
    }

    pub fn places() -> usize {
        all().len()
    }
}

#[cfg(not(feature = "counters"))]
mod counters {
    pub fn clear() {}

    pub fn read(_: impl FnMut(usize)) {}

    pub fn places() -> usize {
        0
    }
}

/// What was reached.
#[derive(Default)]
struct Reached {
    kinds: HashSet<u64>,
    counts: Vec<bool>,
}

impl Reached {
    /// Adds what this run reached; true where something of it is new.
    fn add(&mut self, fields: &[Field]) -> bool {
        self.counts.resize(8 * counters::places(), false);
        let mut new = false;
        counters::read(|place| new |= !std::mem::replace(&mut self.counts[place], true));
        for kind in traits(fields) {
            new |= self.kinds.insert(kind);
        }
        new
    }

    fn places(&self) -> usize {
        let places = self.counts.chunks(8);
        places.filter(|place| place.contains(&true)).count()
    }
}

/// The oracle's answers; none where it panics.
fn oracle<C: Ours>(case: &C) -> Vec<Field> {
    catch_unwind(AssertUnwindSafe(|| case.oracle())).unwrap_or_default()
}

fn differs<C: Ours>(case: &C) -> bool {
    !alike(&oracle(case), &case.ours())
}

fn show<C: Ours + Fuzzed>(case: &C) {
    let case = least(case, &mut |case| differs(case));
    let whole = |answers: Vec<Field>| {
        let mut fields = case.fields();
        fields.extend(case.shown(answers));
        write_case(&Case {
            kind: C::KIND,
            fields,
        })
    };
    print!(
        "differs:\n{}ours:\n{}",
        whole(oracle(&case)),
        whole(case.ours())
    );
}

/// Fuzzes one target until the time is over: the number of differences.
fn run<C: Ours + Fuzzed>(name: &str, seed: u64, time: Duration, fresh: fn(&mut Rng) -> C) -> usize {
    let (rng, end) = (&mut Rng::new(seed), Instant::now() + time);
    let mut reached = Reached::default();
    let mut kept: Vec<C> = Vec::new();
    let (mut inputs, mut differ) = (0usize, 0);
    while Instant::now() < end {
        let case = match kept.len() {
            0..16 => fresh(rng),
            _ if rng.once_in(50) => fresh(rng),
            length => {
                let late = length - 1 - rng.below(length.min(64));
                let at = if rng.once_in(2) {
                    late
                } else {
                    rng.below(length)
                };
                let other = rng.below(length);
                mutated(rng, &kept[at], &kept[other])
            }
        };
        inputs += 1;
        counters::clear();
        let expected = oracle(&case);
        let new = reached.add(&expected);
        if !alike(&expected, &case.ours()) {
            differ += 1;
            if differ <= SHOWN {
                show(&case);
            }
        } else if (new || kept.len() < 16) && kept.len() < KEPT {
            kept.push(case);
        }
    }
    println!(
        "{name}: {inputs} inputs, {} kept, {} kinds of answers, {} places of code, {differ} differ",
        kept.len(),
        reached.kinds.len(),
        reached.places()
    );
    differ
}

/// A model that was built, of few states or at a limit.
fn columns(rng: &mut Rng) -> ModelArgs {
    loop {
        let size = build::small(rng);
        let built = match rng.below(10) {
            0 => Some(model::star(rng)),
            1 => model::middle(rng),
            _ => model::random(rng, size),
        };
        if let Some(a) = built {
            return a.model;
        }
    }
}

type Target = (&'static str, fn(&str, u64, Duration) -> usize);

const TARGETS: &[Target] = &[
    ("card", |n, s, t| {
        run(n, s, t, |rng| {
            let card = card::random(rng, 4, 6);
            card::lent(rng, &card)
        })
    }),
    ("model", |n, s, t| {
        run(n, s, t, |rng| {
            let model = columns(rng);
            model::ask(rng, model)
        })
    }),
    ("relation", |n, s, t| run(n, s, t, relation::good)),
    ("uniformise", |n, s, t| run(n, s, t, rate::good)),
    ("normalise", |n, s, t| run(n, s, t, normalise::good_pair)),
    ("build", |n, s, t| {
        run(n, s, t, |rng| {
            let size = build::small(rng);
            build::random(rng, size)
        })
    }),
    ("flow", |n, s, t| run(n, s, t, network::good)),
    ("transport", |n, s, t| run(n, s, t, transport::small)),
    ("distance", |n, s, t| run(n, s, t, distance::good)),
    ("bisim_distance", |n, s, t| run(n, s, t, bisim::good)),
];

/// Seed, seconds of each target, and targets.
fn options() -> Option<(u64, u64, Vec<&'static Target>)> {
    let (mut seed, mut seconds, mut targets) = (1, 20, Vec::new());
    let mut words = std::env::args().skip(1);
    while let Some(word) = words.next() {
        match word.as_str() {
            "--seed" => seed = words.next()?.parse().ok()?,
            "--seconds" => seconds = words.next()?.parse().ok()?,
            name => targets.push(TARGETS.iter().find(|target| target.0 == name)?),
        }
    }
    if targets.is_empty() {
        targets = TARGETS.iter().collect();
    }
    Some((seed, seconds, targets))
}

fn main() -> ExitCode {
    let Some((seed, seconds, targets)) = options() else {
        let names: Vec<&str> = TARGETS.iter().map(|target| target.0).collect();
        let names = names.join(" ");
        eprintln!("usage: fuzz [--seed N] [--seconds S] [TARGET..]\ntargets: {names}");
        return ExitCode::from(2);
    };
    println!("seed {seed}, {} places of code counted", counters::places());
    let time = Duration::from_secs(seconds);
    let differ: usize = targets.iter().map(|t| t.1(t.0, seed, time)).sum();
    println!("{differ} differ");
    ExitCode::from(u8::from(differ > 0))
}
