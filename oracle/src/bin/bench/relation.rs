//! Whole runs of `epsdelta`: queues and rings, each with a slightly changed copy as right model. The Rust takes built
//! models; ours takes their columns, and `tanqesha_epsdelta` checks them. Both must give the same relation.
//!
//! After the times: `states T sweeps N strikes M standing P`, the last in hundredths of all pairs at the end.

use std::hint::black_box;
use std::time::Instant;

use oracle::answers::handed_in;
use oracle::args::{BuildArgs, ModelArgs, RelationArgs};
use oracle::bisim_metric::epsdelta::epsdelta;
use oracle::generate::Rng;
use oracle::generate::build::{Transition, from_transitions};
use oracle::ours;
use oracle::relation::{class, lay_out, models};

use crate::{SAMPLE_NS, SAMPLES, median, nanoseconds, print};

/// Where the Rust would take longer than this for all samples there are fewer, but at least one.
const CASE_NS: u128 = 4_000_000_000;

/// The states that a state jumps to: of a queue, one below and the next ones above; of a ring, some at equal distances.
fn next(ring: bool, states: usize, targets: usize, s: usize) -> Vec<usize> {
    if ring {
        let apart = ((states - 1) / targets).min(7);
        return (0..targets).map(|i| (s + 1 + apart * i) % states).collect();
    }
    let from = s.saturating_sub(1).min(states - 1 - targets);
    (from..=from + targets).filter(|&t| t != s).collect()
}

/// Each state's rates come to about 1. Most of it goes one state up from the last `reach` states before the last, one
/// down from the other states of a queue; those of a ring have equal parts.
fn transitions(ring: bool, states: usize, targets: usize, reach: usize) -> Vec<Transition> {
    let rng = &mut Rng::new(states as u64);
    let mut list = Vec::new();
    for s in 0..states {
        let next = next(ring, states, targets, s);
        let near = s + 1 + reach >= states && s + 1 < states;
        let most = if near { s + 1 } else { next[0] };
        for t in next {
            let rate = match (near || !ring, t == most) {
                (false, _) => 1.0 / targets as f64,
                (true, true) => 0.9,
                (true, false) => 0.1 / (targets - 1) as f64,
            };
            list.push((s as u32, 0, t as u32, rate * (1.0 + 0.01 * rng.unit())));
        }
    }
    list
}

/// Both models, with the same classes, and a relation of as many bytes as it takes.
fn args(
    left: &BuildArgs,
    right: &BuildArgs,
    classes: Vec<u32>,
    epsilon: f64,
    rho: f64,
) -> RelationArgs {
    let model = |a: &BuildArgs| -> ModelArgs { handed_in(a).expect("a good model") };
    let states = left.states + right.states;
    RelationArgs {
        left: model(left),
        right: model(right),
        left_classes: classes.clone(),
        right_classes: classes,
        epsilon,
        rho,
        relation: vec![0; (states * states).div_ceil(8)],
    }
}

/// A model and its copy. The last state has a class by itself, so that pairs are struck from there on, about one state
/// farther with each sweep; or there is a class for every two states.
fn case(ring: bool, states: usize, targets: usize, many: bool) -> RelationArgs {
    let list = transitions(ring, states, targets, 4);
    let left = from_transitions(states, Some(0), &list);
    let mut right = left.clone();
    let rng = &mut Rng::new(7);
    for weight in &mut right.weights {
        *weight *= 1.0 + 0.01 * rng.unit();
    }
    let class = |s: usize| match many {
        true => s as u32 / 2,
        false => u32::from(s + 1 == states),
    };
    args(&left, &right, (0..states).map(class).collect(), 0.4, 1.5)
}

/// The card of document 01: two states a side, one jump.
fn card() -> RelationArgs {
    let model = |rate: f64| from_transitions(2, Some(0), &[(0, 0, 1, rate)]);
    args(&model(2.0), &model(4.0), vec![0, 1], 0.0, 2.0)
}

pub fn cases() -> Vec<(String, RelationArgs)> {
    let mut list = vec![("relation_card".into(), card())];
    for (states, targets) in [
        (60, 31),
        (100, 3),
        (100, 12),
        (300, 3),
        (300, 12),
        (1_000, 3),
        (1_000, 4),
    ] {
        for (ring, kind) in [(false, "queue"), (true, "ring")] {
            let name = format!("relation_{states}_{targets}_{kind}");
            list.push((name, case(ring, states, targets, false)));
        }
    }
    for states in [100, 1_000] {
        let name = format!("relation_{states}_3_many_classes");
        list.push((name, case(false, states, 3, true)));
    }
    list
}

/// Queues of more and more states, by degree and the states of both models together.
pub fn growth() -> Vec<(String, RelationArgs)> {
    let sides: [(usize, &[usize]); 2] = [
        (3, &[10, 25, 50, 100, 200, 400, 700, 1_000]),
        (12, &[25, 50, 100, 200, 300]),
    ];
    let mut list = Vec::new();
    for (degree, sides) in sides {
        for &states in sides {
            let name = format!("growth_{degree}_{}", 2 * states);
            list.push((name, case(false, states, degree, false)));
        }
    }
    list
}

pub fn measure(name: &str, case: &RelationArgs) {
    let (left, right) = models(case);
    let (left_class, right_class) = (class(&case.left_classes), class(&case.right_classes));
    let run = || {
        let reply = epsdelta(
            &left,
            &right,
            left_class,
            right_class,
            case.epsilon,
            case.rho,
        );
        reply.expect("not refused")
    };
    let start = Instant::now();
    let expected = run();
    let once = start.elapsed().as_nanos();
    let mut relation = case.relation.clone();
    let mut rust = || drop(black_box(run()));
    let mut library = || assert_eq!(ours::relation::epsdelta(black_box(case), &mut relation), 0);
    let turns = 1 + SAMPLE_NS / once.max(1);
    let samples = SAMPLES.min(1.max((CASE_NS / once.max(1)) as usize));
    let (mut a, mut b) = (Vec::new(), Vec::new());
    for _ in 0..samples {
        a.push(nanoseconds(turns, &mut rust));
        b.push(nanoseconds(turns, &mut library));
    }
    let mut bytes = case.relation.clone();
    lay_out(&expected.related, &mut bytes);
    assert_eq!(relation, bytes, "{name}: another relation");
    print(name, median(a), median(b));
    let states = expected.related.len();
    let standing = 100 * expected.len() / (states * states);
    let (sweeps, strikes) = (expected.sweeps, expected.strikes);
    println!("{name} states {states} sweeps {sweeps} strikes {strikes} standing {standing}");
}
