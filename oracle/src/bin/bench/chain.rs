//! `uniformise` of models of 8 to 400 states at their common rate, and `normalise` of two chains of 60 and of 2,000 states.
//! Ours checks the model or the chains, and writes into lent lists; the Rust checks nothing, and makes a new chain.

use std::hint::black_box;

use oracle::answers::{Oracle, from_columns, handed_in};
use oracle::args::{NormaliseArgs, UniformiseArgs};
use oracle::bisim_core::StateId;
use oracle::bisim_metric::kantorovich::{common_rate, normalise, uniformise};
use oracle::generate::Rng;
use oracle::generate::metric::chain;
use oracle::generate::normalise::listed;
use oracle::generate::rate::lent;
use oracle::ours::{self, Ours};
use oracle::pairs::alike;

use crate::{in_turns, input};

/// A random model at its common rate, with the number of each state as its observation.
fn model(states: usize, transitions: usize) -> UniformiseArgs {
    let mut args = input(states, transitions, 4);
    args.initial = Some(0);
    let model = handed_in(&args).expect("a good model");
    let rust = from_columns(&model);
    let seen = (0..states).map(|s| s as f64).collect();
    lent(model, common_rate(&rust, &rust), seen)
}

pub fn models() -> Vec<(&'static str, UniformiseArgs)> {
    vec![
        ("uniformise_20", model(8, 20)),
        ("uniformise_400", model(60, 400)),
        ("uniformise_4096", model(400, 4_096)),
    ]
}

/// Two random chains with rows of up to 5 entries.
fn pair(states: usize) -> NormaliseArgs {
    let rng = &mut Rng::new(states as u64);
    NormaliseArgs {
        left: listed(&chain(rng, states, 5)),
        right: listed(&chain(rng, states, 5)),
    }
}

pub fn pairs() -> Vec<(&'static str, NormaliseArgs)> {
    vec![("normalise_60", pair(60)), ("normalise_2000", pair(2_000))]
}

pub fn measure_uniformise(name: &str, a: &UniformiseArgs) {
    assert!(alike(&a.oracle(), &a.ours()));
    let rust_model = from_columns(&a.model);
    let observe = |s: StateId| a.observations[s.index()];
    let (mut lists, mut entries) = (a.chain.clone(), 0);
    let mut rust = || {
        drop(black_box(uniformise(
            black_box(&rust_model),
            a.rate,
            observe,
        )))
    };
    let mut library = || {
        let refusal = ours::chain::uniformise(black_box(a), &mut lists, &mut entries);
        assert_eq!(black_box(refusal), 0);
    };
    in_turns(name, &mut rust, &mut library);
}

pub fn measure_normalise(name: &str, a: &NormaliseArgs) {
    assert!(alike(&a.oracle(), &a.ours()));
    let (mut left, mut right) = (a.left.chain(), a.right.chain());
    let (mut left_seen, mut right_seen) = (left.observation.clone(), right.observation.clone());
    let mut scale = 0.0;
    let mut rust = || {
        black_box(normalise(black_box(&mut left), &mut right));
    };
    let mut library = || {
        let refusal = ours::chain::normalise(
            black_box(&a.left),
            &mut left_seen,
            &a.right,
            &mut right_seen,
            &mut scale,
        );
        assert_eq!(black_box(refusal), 0);
    };
    in_turns(name, &mut rust, &mut library);
}
