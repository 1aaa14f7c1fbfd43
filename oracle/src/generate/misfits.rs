//! Ways to change the arguments of the relation: faults of each number, and changes that leave them good.

use super::build::lengthen_columns;
use super::metric::{EPSILONS, GOOD_EPSILONS, GOOD_RHOS, RHOS};
use super::model::{BAD, star_model};
use super::relation::{MOST, needed, pattern, without_edges};
use super::{GREATEST_JOINED, LEAST_WEIGHT, Rng, place, shorten};
use crate::args::{ModelArgs, RelationArgs};

/// A way to change the arguments.
pub type Change = fn(&mut Rng, &mut RelationArgs);

/// Changes after which intact arguments are refused: by `epsdelta`, `epsdelta_bisimilar` and `min_epsilon`.
pub const FAULTS: &[([u32; 3], &str, Change)] = &[
    ([3; 3], "states over 2,000", |rng, a| {
        side(rng, a).states = rng.pick(&[2_001, 1 << 32, usize::MAX])
    }),
    ([3; 3], "edges over 4,096", |rng, a| {
        side(rng, a).edges = rng.pick(&[4_097, 1 << 32, usize::MAX])
    }),
    ([3; 3], "labels over 256", |rng, a| {
        side(rng, a).labels = rng.pick(&[257, 1 << 32, usize::MAX])
    }),
    ([4; 3], "initial state", |rng, a| {
        let m = side(rng, a);
        m.initial = Some(rng.pick(&[m.states as u32, u32::MAX]))
    }),
    ([4; 3], "offsets short", |rng, a| {
        let m = side(rng, a);
        m.columns.offsets.truncate(m.states)
    }),
    ([4; 3], "first offset", |rng, a| {
        side(rng, a).columns.offsets[0] += 1
    }),
    ([4; 3], "last offset", |rng, a| {
        let m = side(rng, a);
        m.columns.offsets[m.states] = rng.pick(&[m.edges as u32 - 1, m.edges as u32 + 1])
    }),
    ([4; 3], "labels short", |rng, a| {
        let m = side(rng, a);
        m.columns.label_values.truncate(m.labels - 1)
    }),
    ([4; 3], "edge column short", |rng, a| {
        let m = side(rng, a);
        match rng.below(3) {
            0 => m.columns.edge_labels.truncate(m.edges - 1),
            1 => m.columns.edge_targets.truncate(m.edges - 1),
            _ => m.columns.edge_weights.truncate(m.edges - 1),
        }
    }),
    ([4; 3], "label id", |rng, a| {
        let m = side(rng, a);
        m.columns.edge_labels[place(rng, m.edges)] = rng.pick(&[m.labels as u32, u32::MAX])
    }),
    ([4; 3], "target", |rng, a| {
        let m = side(rng, a);
        m.columns.edge_targets[place(rng, m.edges)] = rng.pick(&[m.states as u32, u32::MAX])
    }),
    ([4; 3], "label value twice", |rng, a| {
        let m = side(rng, a);
        let values = &mut m.columns.label_values;
        values.insert(m.labels, values[0]);
        m.labels += 1
    }),
    ([4; 3], "edge twice", edge_twice),
    ([4; 3], "zero weight", |rng, a| {
        let weight = rng.pick(&[0.0, -0.0]);
        set_weight(rng, a, weight)
    }),
    ([5; 3], "weight", |rng, a| {
        let weight = rng.pick(BAD);
        set_weight(rng, a, weight)
    }),
    ([6; 3], "32 targets", |rng, a| {
        let targets = rng.pick(&[32, 33]);
        *side(rng, a) = star_model(rng, targets)
    }),
    ([7; 3], "left classes short", |rng, a| {
        a.left_classes.truncate(a.left.states);
        shorten(rng, &mut a.left_classes)
    }),
    ([7; 3], "right classes short", |rng, a| {
        a.right_classes.truncate(a.right.states);
        shorten(rng, &mut a.right_classes)
    }),
    ([7; 3], "relation short", |rng, a| {
        a.relation.truncate(needed(a.left.states + a.right.states));
        shorten(rng, &mut a.relation)
    }),
    ([0, 8, 8], "no initial state", |rng, a| {
        side(rng, a).initial = None
    }),
    ([9, 9, 0], "ε", |rng, a| {
        a.epsilon = rng.pick(&EPSILONS[GOOD_EPSILONS..])
    }),
    ([9; 3], "ρ", |rng, a| a.rho = rng.pick(&RHOS[GOOD_RHOS..])),
    ([10; 3], "over 2,000 states", |rng, a| {
        let states = MOST + 1 - a.right.states;
        a.left = without_edges(states + rng.below(3).min(MOST - states));
        a.left_classes = vec![0; a.left.states];
        a.relation = pattern(needed(a.left.states + a.right.states))
    }),
];

/// Changes that leave good arguments good.
pub const HARMLESS: &[(&str, Change)] = &[
    ("columns longer", |rng, a| {
        let m = side(rng, a);
        lengthen_columns(rng, &mut m.columns)
    }),
    ("classes longer", |rng, a| {
        a.left_classes.extend(vec![0; rng.below(3)]);
        a.right_classes.extend(vec![u32::MAX; rng.below(3)])
    }),
    ("relation longer", |rng, a| {
        let length = a.relation.len() + 1 + rng.below(4);
        a.relation = pattern(length)
    }),
    ("other bytes", |rng, a| {
        a.relation.iter_mut().for_each(|b| *b = rng.bits() as u8)
    }),
    ("weight at a limit", |rng, a| {
        let weight = rng.pick(&[LEAST_WEIGHT, GREATEST_JOINED]);
        set_weight(rng, a, weight)
    }),
];

fn side<'a>(rng: &mut Rng, a: &'a mut RelationArgs) -> &'a mut ModelArgs {
    if rng.once_in(2) {
        &mut a.left
    } else {
        &mut a.right
    }
}

fn set_weight(rng: &mut Rng, a: &mut RelationArgs, weight: f64) {
    let m = side(rng, a);
    if m.edges > 0 {
        m.columns.edge_weights[place(rng, m.edges)] = weight;
    }
}

/// Lists an edge once more, after itself.
fn edge_twice(rng: &mut Rng, a: &mut RelationArgs) {
    let m = side(rng, a);
    let (c, e) = (&mut m.columns, rng.below(m.edges));
    c.edge_labels.insert(e, c.edge_labels[e]);
    c.edge_targets.insert(e, c.edge_targets[e]);
    c.edge_weights.insert(e, c.edge_weights[e]);
    let used = &mut c.offsets[..=m.states];
    used.iter_mut()
        .filter(|o| **o as usize > e)
        .for_each(|o| *o += 1);
    m.edges += 1;
}

/// True where every change can be made: good models of at least one edge, with few states.
pub fn intact(a: &RelationArgs) -> bool {
    let good = |m: &ModelArgs| {
        let c = &m.columns;
        let columns = [
            c.edge_labels.len(),
            c.edge_targets.len(),
            c.edge_weights.len(),
        ];
        (1..=MOST).contains(&m.edges)
            && (1..MOST).contains(&m.states)
            && columns.into_iter().all(|length| length >= m.edges)
            && c.offsets.len() > m.states
            && m.labels > 0
            && c.label_values.len() >= m.labels
    };
    good(&a.left) && good(&a.right) && a.relation.len() < 10_000
}

#[cfg(test)]
mod tests {
    use super::super::relation::good_intact;
    use super::*;
    use crate::refusals::{epsdelta_bisimilar_refusal, epsdelta_refusal, min_epsilon_refusal};

    fn refusals(a: &RelationArgs) -> [u32; 3] {
        [
            epsdelta_refusal(a),
            epsdelta_bisimilar_refusal(a),
            min_epsilon_refusal(a),
        ]
    }

    #[test]
    fn every_fault_is_refused_and_nothing_harmless_is() {
        let rng = &mut Rng::new(5);
        for _ in 0..100 {
            let base = good_intact(rng);
            assert_eq!(refusals(&base), [0; 3], "{base:?}");
            for (expected, name, change) in FAULTS {
                let mut a = base.clone();
                change(rng, &mut a);
                assert_eq!(refusals(&a), *expected, "{name}");
            }
            for (name, change) in HARMLESS {
                let mut a = base.clone();
                change(rng, &mut a);
                assert_eq!(refusals(&a), [0; 3], "{name}: {a:?}");
            }
        }
    }
}
