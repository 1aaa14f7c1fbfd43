//! Built models handed in, good and damaged.

use super::build::{self, Size, lengthen_columns, shorten_store};
use super::{GREATEST_JOINED, LEAST_WEIGHT, Rng, all_digits, place, remainders};
use crate::answers::handed_in;
use crate::args::{BuildArgs, Columns, ModelArgs, ReadArgs};

/// Weights that a built model may not have.
pub const BAD: &[f64] = &[
    LEAST_WEIGHT.next_down(),
    GREATEST_JOINED.next_up(),
    5e-324,
    -1.0,
    f64::INFINITY,
    f64::NEG_INFINITY,
    f64::NAN,
];

/// Asks for a state, a label id and a label value, mostly of the model, sometimes past its end.
pub fn ask(rng: &mut Rng, model: ModelArgs) -> ReadArgs {
    let past = |rng: &mut Rng, n: usize| match rng.below(12) {
        0 => u32::MAX,
        1 => n as u32,
        _ => rng.below(n) as u32,
    };
    let values = &model.columns.label_values;
    let value = match values.is_empty() || rng.once_in(4) {
        true => rng.below(9) as u32,
        false => rng.pick(values),
    };
    ReadArgs {
        s: past(rng, model.states),
        id: past(rng, model.labels),
        value,
        model,
    }
}

/// What `build` makes of a good input of this size, or that broken up to three times.
pub fn random(rng: &mut Rng, size: Size) -> Option<ReadArgs> {
    let args = build::good(rng, size);
    from_build(rng, args)
}

/// What `build` makes of a large input, or that broken up to three times; none where `build` refuses.
pub fn large(rng: &mut Rng) -> Option<ReadArgs> {
    let args = match rng.below(4) {
        0 => build::one_triple(rng),
        1 => {
            let size = build::large(rng);
            build::good(rng, size)
        }
        _ => build::full(rng),
    };
    from_build(rng, args)
}

/// What `build` makes of 100 to 300 transitions, their labels of few remainders, or that broken up to three times.
pub fn middle(rng: &mut Rng) -> Option<ReadArgs> {
    let size = remainders::size(rng);
    let mut args = build::good(rng, size);
    remainders::relabel(rng, &mut args);
    from_build(rng, args)
}

fn from_build(rng: &mut Rng, mut args: BuildArgs) -> Option<ReadArgs> {
    lengthen_columns(rng, &mut args.stores);
    let mut model = handed_in(&args)?;
    for _ in 0..rng.pick(&[0, 0, 1, 1, 1, 3]) {
        damage(rng, &mut model);
    }
    Some(ask(rng, model))
}

/// A state with 30 to 33 targets other than itself, sometimes broken once as well.
pub fn star(rng: &mut Rng) -> ReadArgs {
    let targets = rng.pick(&[30, 31, 32, 33]);
    let mut model = star_model(rng, targets);
    if rng.once_in(2) {
        damage(rng, &mut model);
    }
    ask(rng, model)
}

/// A model of one state with edges to itself and to `targets` others, under two labels.
pub fn star_model(rng: &mut Rng, targets: usize) -> ModelArgs {
    let states = targets + 1;
    let hub = rng.below(states);
    let split = rng.below(states);
    let edges = states + 1;
    let mut offsets = vec![0; hub + 1];
    offsets.resize(states + 1, edges as u32);
    let edge_labels = (0..edges).map(|e| u32::from(e > split)).collect();
    let mut edge_targets: Vec<u32> = (0..=split as u32).collect();
    edge_targets.extend(split as u32..states as u32);
    ModelArgs {
        states,
        edges,
        labels: 2,
        initial: Some(hub as u32),
        columns: Columns {
            label_values: vec![7, 5],
            offsets,
            edge_labels,
            edge_targets,
            edge_weights: (0..edges).map(|_| rng.unit() + 0.5).collect(),
        },
    }
}

/// Breaks the model in one way (some of which may leave it good).
pub fn damage(rng: &mut Rng, m: &mut ModelArgs) {
    let columns = &mut m.columns;
    match rng.below(12) {
        0 => shorten_store(rng, columns),
        1 => damage_counts(rng, m),
        2 => m.initial = Some(rng.pick(&[m.states as u32, u32::MAX])),
        3 | 4 => damage_offsets(rng, &mut columns.offsets),
        5 if columns.label_values.len() > 1 => {
            let i = rng.below(columns.label_values.len() - 1);
            columns.label_values[i] = columns.label_values[i + 1];
        }
        6 | 7 => damage_order(rng, columns),
        8 if !columns.edge_targets.is_empty() => {
            let i = place(rng, columns.edge_targets.len());
            columns.edge_targets[i] = rng.pick(&[m.states as u32, u32::MAX]);
        }
        9 if !columns.edge_labels.is_empty() => {
            let i = place(rng, columns.edge_labels.len());
            columns.edge_labels[i] = rng.pick(&[m.labels as u32, u32::MAX]);
        }
        _ => damage_weight(rng, &mut columns.edge_weights),
    }
}

fn damage_counts(rng: &mut Rng, m: &mut ModelArgs) {
    let change = |rng: &mut Rng, n: usize, most: usize| {
        rng.pick(&[
            n.saturating_add(1),
            n.saturating_sub(1),
            most,
            most + 1,
            1 << 32,
            usize::MAX,
        ])
    };
    match rng.below(3) {
        0 => m.states = change(rng, m.states, 2_000),
        1 => m.edges = change(rng, m.edges, 4_096),
        _ => m.labels = change(rng, m.labels, 256),
    }
}

fn damage_offsets(rng: &mut Rng, offsets: &mut [u32]) {
    if offsets.is_empty() {
        return;
    }
    let i = rng.below(offsets.len());
    match rng.below(4) {
        0 => offsets[i] = offsets[i].wrapping_add(1),
        1 => offsets[i] = offsets[i].wrapping_sub(1),
        2 => offsets.swap(i, 0),
        _ => offsets[i] = u32::MAX,
    }
}

/// Swaps two edges, or makes two the same.
fn damage_order(rng: &mut Rng, c: &mut Columns) {
    let edges = c.edge_labels.len().min(c.edge_targets.len());
    if edges < 2 {
        return;
    }
    let i = rng.below(edges - 1);
    if rng.once_in(2) {
        c.edge_labels.swap(i, i + 1);
        c.edge_targets.swap(i, i + 1);
    } else {
        c.edge_labels[i + 1] = c.edge_labels[i];
        c.edge_targets[i + 1] = c.edge_targets[i];
    }
}

/// A zero weight, one that is refused, or one at a limit that is not.
fn damage_weight(rng: &mut Rng, weights: &mut [f64]) {
    if weights.is_empty() {
        return;
    }
    let i = rng.below(weights.len());
    weights[i] = match rng.below(4) {
        0 => rng.pick(&[0.0, -0.0]),
        1 => rng.pick(&[LEAST_WEIGHT, GREATEST_JOINED]),
        _ => rng.pick(BAD),
    };
}

/// All models of up to two states, edges and labels over few values.
pub fn short(f: &mut dyn FnMut(ReadArgs)) {
    for states in 0..=2usize {
        let mut bases = vec![3, 3, 2, 2, 2, 2, 3, 3, 2];
        bases.extend(vec![3; states + 1]);
        let mut turn = 0;
        all_digits(&bases, &mut |d| {
            turn += 1;
            f(ReadArgs {
                model: short_model(states, d),
                s: turn % 4 % 3,
                id: turn % 5 % 3,
                value: [7, 5, 3][turn as usize % 3],
            });
        });
    }
}

/// The model of these digits: edges, labels, initial, second label value, edges' labels, targets, first weight, offsets.
fn short_model(states: usize, d: &[usize]) -> ModelArgs {
    ModelArgs {
        states,
        edges: d[0],
        labels: d[1],
        initial: [None, Some(1)][d[2]],
        columns: Columns {
            label_values: vec![7, [5, 7][d[3]]],
            offsets: d[9..].iter().map(|&o| o as u32).collect(),
            edge_labels: vec![d[4] as u32, d[5] as u32],
            edge_targets: vec![d[6] as u32, d[7] as u32],
            edge_weights: vec![[1.0, -0.0][d[8]], 0.1],
        },
    }
}
