//! What the tests share: a model, damaged in every way, and what references hold before a call.

#![allow(dead_code)]

use tanqesha::sys::ModelView;
use tanqesha::{Columns, StateId};

/// What references to numbers hold before a call.
pub const BEFORE: u32 = 0xabcd;
/// What references to lengths hold.
pub const BEFORE_COUNT: usize = 0xabcd;
/// What references to floats hold.
pub const BEFORE_REAL: f64 = -7.5;

/// The model as the functions take it.
pub fn view(c: &Columns) -> ModelView<'_> {
    ModelView {
        states: c.states,
        edges: c.edges,
        labels: c.labels,
        present: c.initial.is_some().into(),
        start: c.initial.map_or(5, |s| s.0),
        label_values: &c.label_values,
        offsets: &c.offsets,
        edge_labels: &c.edge_labels,
        edge_targets: &c.edge_targets,
        edge_weights: &c.edge_weights,
    }
}

/// Three states, initial state 0: 0 to 1 with label 70 at rate 3.5, 0 to 2 with label 50 at 1, 2 to itself with 50 at 2;
/// label 90 has no edge.
pub fn sample() -> Columns {
    Columns {
        states: 3,
        edges: 3,
        labels: 3,
        initial: Some(StateId(0)),
        label_values: vec![70, 50, 90],
        offsets: vec![0, 2, 2, 3],
        edge_labels: vec![0, 1, 1],
        edge_targets: vec![1, 2, 2],
        edge_weights: vec![3.5, 1.0, 2.0],
    }
}

/// State 0 with these rates to states 1, 2 .., under one label; initial state 0.
pub fn fan(rates: &[f64]) -> Columns {
    let n = rates.len();
    let mut offsets = vec![n as u32; n + 2];
    offsets[0] = 0;
    Columns {
        states: n + 1,
        edges: n,
        labels: 1,
        initial: Some(StateId(0)),
        label_values: vec![7],
        offsets,
        edge_labels: vec![0; n],
        edge_targets: (1..=n as u32).collect(),
        edge_weights: rates.to_vec(),
    }
}

/// So many states and nothing else.
pub fn still(states: usize) -> Columns {
    Columns {
        states,
        initial: (states > 0).then_some(StateId(0)),
        offsets: vec![0; states + 1],
        ..Columns::default()
    }
}

/// Models that are refused, with the number of document 01's list.
pub fn refused() -> Vec<(u32, Columns)> {
    let damaged = |number, damage: fn(&mut Columns)| {
        let mut c = sample();
        damage(&mut c);
        (number, c)
    };
    vec![
        damaged(3, |c| c.states = 2_001),
        damaged(3, |c| c.edges = 4_097),
        damaged(3, |c| c.labels = 257),
        damaged(3, |c| c.states = usize::MAX),
        (3, still(2_001)),
        // each slice one too short, and all empty
        damaged(4, |c| c.label_values.truncate(c.label_values.len() - 1)),
        damaged(4, |c| c.offsets.truncate(c.offsets.len() - 1)),
        damaged(4, |c| c.edge_labels.truncate(c.edge_labels.len() - 1)),
        damaged(4, |c| c.edge_targets.truncate(c.edge_targets.len() - 1)),
        damaged(4, |c| c.edge_weights.truncate(c.edge_weights.len() - 1)),
        (4, Columns::default()),
        // numbers that are not below their counts
        damaged(4, |c| c.initial = Some(StateId(3))),
        damaged(4, |c| c.edge_targets[1] = 3),
        damaged(4, |c| c.edge_labels[2] = 3),
        // offsets
        damaged(4, |c| c.offsets[0] = 1),
        damaged(4, |c| c.offsets[3] = 2),
        damaged(4, |c| c.offsets[1] = 3),
        damaged(4, |c| c.offsets[1] = u32::MAX),
        // order, labels and weights
        damaged(4, |c| c.edge_labels.swap(0, 1)),
        damaged(4, |c| (c.edge_labels[1], c.edge_targets[1]) = (0, 1)),
        damaged(4, |c| c.label_values[2] = 70),
        damaged(4, |c| c.edge_weights[0] = 0.0),
        damaged(4, |c| c.edge_weights[0] = -0.0),
        damaged(5, |c| c.edge_weights[0] = f64::NAN),
        damaged(5, |c| c.edge_weights[0] = f64::INFINITY),
        damaged(5, |c| c.edge_weights[0] = -1.0),
        damaged(5, |c| c.edge_weights[2] = 2f64.powi(-41)),
        damaged(5, |c| c.edge_weights[2] = 2f64.powi(53)),
        (6, fan(&[1.0; 32])),
    ]
}

/// All but the last, where `cut` says so.
pub fn short<T>(slice: &[T], cut: bool) -> &[T] {
    &slice[..slice.len() - usize::from(cut)]
}

/// The same of a slice that is written.
pub fn short_mut<T>(slice: &mut [T], cut: bool) -> &mut [T] {
    let n = slice.len() - usize::from(cut);
    &mut slice[..n]
}
