//! `distance` of two chains of 60 states with 3 to 5 entries in each row: targets in a ring or any, several γ, the usual options or
//! hardly any rounds. `bisim_distance` of two models of 60 states with three targets each, at γ 0.9 and the usual options. Ours checks
//! the chains or models and works in memory that is lent once; the Rust checks γ and the observations, and makes its lists anew.

use std::hint::black_box;

use oracle::answers::{Oracle, from_columns, handed_in};
use oracle::args::{BisimArgs, DistanceArgs, Options};
use oracle::bisim_core::StateId;
use oracle::bisim_metric::kantorovich::{Chain, bisim_distance, distance};
use oracle::distance::Given;
use oracle::generate::Rng;
use oracle::generate::bisim::{self, side};
use oracle::generate::build::{Transition, from_transitions};
use oracle::generate::distance::{lent, usual};
use oracle::generate::metric::masses;
use oracle::ours::{self, Ours};
use oracle::pairs::alike;

use crate::in_turns;

const STATES: usize = 60;

/// So many targets of a state: those after it, in a ring.
fn targets(s: usize, entries: usize) -> Vec<usize> {
    let mut list: Vec<usize> = (0..entries).map(|k| (s + 7 * k) % STATES).collect();
    list.sort_unstable();
    list
}

/// A chain of 60 states with so many entries in each row.
fn chain(rng: &mut Rng, entries: usize) -> Chain {
    let row = |s: usize| targets(s, entries).into_iter().zip(masses(rng, entries));
    Chain {
        rows: (0..STATES).map(row).map(Iterator::collect).collect(),
        observation: (0..STATES).map(|s| s as f64 / STATES as f64).collect(),
        initial: 0,
    }
}

/// So many targets, any of the states.
fn any_targets(rng: &mut Rng, entries: usize) -> Vec<usize> {
    let mut list: Vec<usize> = (0..STATES).collect();
    while list.len() > entries {
        list.remove(rng.below(list.len()));
    }
    list
}

/// The same with any targets and observations.
fn any_chain(rng: &mut Rng, entries: usize) -> Chain {
    let row = |rng: &mut Rng| {
        let list = any_targets(rng, entries);
        list.into_iter().zip(masses(rng, entries)).collect()
    };
    Chain {
        rows: (0..STATES).map(|_| row(rng)).collect(),
        observation: (0..STATES).map(|_| rng.unit()).collect(),
        initial: 0,
    }
}

fn pair(entries: usize) -> DistanceArgs {
    let rng = &mut Rng::new(entries as u64);
    lent(&chain(rng, entries), &chain(rng, entries), usual(0.9))
}

fn any_pair(entries: usize, options: Options) -> DistanceArgs {
    let rng = &mut Rng::new(entries as u64);
    lent(&any_chain(rng, entries), &any_chain(rng, entries), options)
}

/// Of 3, 4 and 5 entries in each row: the ring, any targets at γ 0.3, 0.5 and 0.9, and at γ 0.5 with no round and with one.
pub fn pairs() -> Vec<(String, DistanceArgs)> {
    let mut list = Vec::new();
    for entries in 3..=5 {
        let name = format!("distance_60x{entries}");
        list.push((name.clone(), pair(entries)));
        for gamma in [0.3, 0.5, 0.9] {
            let any = any_pair(entries, usual(gamma));
            list.push((format!("{name}_any_{gamma}"), any));
        }
        for max_rounds in [0, 1] {
            let few = Options {
                max_rounds,
                ..usual(0.5)
            };
            let name = format!("{name}_rounds_{max_rounds}");
            list.push((name, any_pair(entries, few)));
        }
    }
    list
}

/// A model of 60 states with so many targets each, itself included.
fn models(entries: usize) -> BisimArgs {
    let rng = &mut Rng::new(entries as u64);
    let mut one = || {
        let mut list: Vec<Transition> = Vec::new();
        for s in 0..STATES {
            for t in targets(s, entries) {
                list.push((s as u32, 7, t as u32, rng.unit() + 0.1));
            }
        }
        let model = handed_in(&from_transitions(STATES, Some(0), &list)).expect("a good model");
        side(model, 0, (0..STATES).map(|s| s as f64).collect())
    };
    let (left, right) = (one(), one());
    bisim::lent(left, right, usual(0.9))
}

pub fn model_pairs() -> Vec<(&'static str, BisimArgs)> {
    vec![("bisim_distance_60x3", models(3))]
}

pub fn measure_distance(name: &str, a: &DistanceArgs) {
    assert!(alike(&a.oracle(), &a.ours()));
    let (left, right) = (a.left.chain(), a.right.chain());
    let (mut memory, mut given) = (a.rooms.lent(), Given::default());
    let mut rows = ours::distance::rows(&memory.records);
    let (gamma, options) = (a.options.gamma, a.options.rust());
    let mut rust = || {
        let reply = distance(black_box(&left), &right, gamma, options);
        assert!(black_box(reply).is_ok());
    };
    let mut library = || {
        let refusal = ours::distance::distance(black_box(a), &mut memory, &mut rows, &mut given);
        assert_eq!(black_box(refusal), 0);
    };
    in_turns(name, &mut rust, &mut library);
    told(&given);
}

pub fn measure_bisim(name: &str, a: &BisimArgs) {
    assert!(alike(&a.oracle(), &a.ours()));
    let [left, right] = [&a.left, &a.right].map(|side| from_columns(&side.model));
    let (mut memory, mut given) = (a.rooms.lent(), Given::default());
    let mut rows = ours::distance::rows(&memory.records);
    let mut chains = [&a.left, &a.right].map(ours::distance::chain_lists);
    let (gamma, options) = (a.options.gamma, a.options.rust());
    let mut rust = || {
        let reply = bisim_distance(
            (black_box(&left), StateId(a.left.state)),
            (&right, StateId(a.right.state)),
            a.left.observe(),
            a.right.observe(),
            gamma,
            options,
        );
        assert!(black_box(reply).is_ok());
    };
    let mut library = || {
        let refusal = ours::distance::bisim_distance(
            black_box(a),
            &mut chains,
            &mut memory,
            &mut rows,
            &mut given,
        );
        assert_eq!(black_box(refusal), 0);
    };
    in_turns(name, &mut rust, &mut library);
    told(&given);
}

/// The pairs that were looked at, and the rounds.
fn told(given: &Given) {
    println!("  pairs {} rounds {}", given.pairs_explored, given.rounds);
}
