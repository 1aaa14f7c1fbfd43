//! Inputs of `build`.

use super::{GREATEST_WEIGHT, LEAST_WEIGHT, Rng, all_digits, place, shorten};
use crate::args::{BuildArgs, Columns};

/// A transition: source, label, target, weight.
pub type Transition = (u32, u32, u32, f64);

/// How large a random input is, and how many labels and targets per source it draws from.
#[derive(Debug, Clone, Copy)]
pub struct Size {
    pub states: usize,
    pub given: usize,
    pub labels: usize,
    pub targets: usize,
}

/// Weights that no limit refuses, zeros included; their sums depend on the order.
const GOOD: &[f64] = &[
    0.0,
    -0.0,
    LEAST_WEIGHT,
    GREATEST_WEIGHT,
    0.1,
    0.2,
    0.3,
    1.0 / 3.0,
    1e9,
    1.0,
];

/// Weights that are refused, the nearest ones outside the limits among them.
pub const BAD: &[f64] = &[
    LEAST_WEIGHT.next_down(),
    GREATEST_WEIGHT.next_up(),
    5e-324,
    -5e-324,
    -1.0,
    -LEAST_WEIGHT,
    f64::MAX,
    f64::INFINITY,
    f64::NEG_INFINITY,
    f64::NAN,
];

/// The input with these transitions and stores just long enough.
pub fn from_transitions(states: usize, initial: Option<u32>, list: &[Transition]) -> BuildArgs {
    let given = list.len();
    BuildArgs {
        states,
        initial,
        given,
        sources: list.iter().map(|t| t.0).collect(),
        labels: list.iter().map(|t| t.1).collect(),
        targets: list.iter().map(|t| t.2).collect(),
        weights: list.iter().map(|t| t.3).collect(),
        stores: Columns::filled(given, states.saturating_add(1).min(2_002), given),
    }
}

fn weight(rng: &mut Rng) -> f64 {
    match rng.below(3) {
        0 => rng.pick(GOOD),
        1 => (1.0 + rng.unit()) * 2f64.powi(rng.below(80) as i32 - 40),
        _ => rng.unit() + 0.01,
    }
}

/// A good input: each source has at most `targets` targets, label values appear in no order.
pub fn good(rng: &mut Rng, size: Size) -> BuildArgs {
    let states = size.states;
    let given = if states == 0 { 0 } else { size.given };
    let (start, step) = (rng.bits() as u32, rng.bits() as u32 | 1);
    let mut transition = || {
        let source = rng.below(states);
        let target = (source * 7 + rng.below(size.targets)) % states;
        let label = (rng.below(size.labels) as u32)
            .wrapping_mul(step)
            .wrapping_add(start);
        (source as u32, label, target as u32, weight(rng))
    };
    let list: Vec<Transition> = (0..given).map(|_| transition()).collect();
    let initial = (states > 0 && !rng.once_in(4)).then(|| rng.below(states) as u32);
    from_transitions(states, initial, &list)
}

/// A small size, of which many triples are equal.
pub fn small(rng: &mut Rng) -> Size {
    Size {
        states: rng.below(5),
        given: rng.below(14),
        labels: 1 + rng.below(3),
        targets: 1 + rng.below(3),
    }
}

/// A size at or one off the limits of states, transitions and labels.
pub fn large(rng: &mut Rng) -> Size {
    Size {
        states: rng.pick(&[1, 2, 33, 200, 1_999, 2_000, 2_000, 2_001]),
        given: rng.pick(&[300, 1_000, 4_095, 4_096, 4_096, 4_097]),
        labels: rng.pick(&[1, 2, 8, 64, 255, 256]),
        targets: rng.pick(&[1, 4, 20, 31, 32]),
    }
}

/// One state with `targets` distinct targets other than itself, one of them by two labels, its own loop, doubles, and
/// zero weights to others.
pub fn star(rng: &mut Rng, targets: usize) -> BuildArgs {
    let states = targets + 3;
    let hub = rng.below(states);
    let step = |i: usize| ((hub + i) % states) as u32;
    let mut list: Vec<Transition> = vec![(hub as u32, 9, hub as u32, 1.5)];
    list.extend(
        (1..=targets).map(|i| (hub as u32, rng.below(3) as u32, step(i), rng.unit() + 0.5)),
    );
    list.push((hub as u32, 8, step(1), 0.25));
    list.push((hub as u32, 1, step(targets + 1), 0.0));
    list.push((hub as u32, 4, step(targets + 2), -0.0));
    for _ in 0..rng.below(3) {
        let again = rng.pick(&list);
        list.push(again);
    }
    shuffle(rng, &mut list);
    from_transitions(states, Some(0), &list)
}

/// Transitions with `labels` distinct labels, some of weight zero.
pub fn many_labels(rng: &mut Rng, labels: usize) -> BuildArgs {
    let transition = |i: usize, rng: &mut Rng| {
        let label = (i as u32).wrapping_mul(0x9e37_79b1);
        (
            rng.below(3) as u32,
            label,
            rng.below(3) as u32,
            rng.pick(&[0.0, 0.5, 0.1]),
        )
    };
    let mut list: Vec<Transition> = (0..labels).map(|i| transition(i, rng)).collect();
    for _ in 0..rng.below(8) {
        let again = rng.pick(&list);
        list.push(again);
    }
    shuffle(rng, &mut list);
    from_transitions(3, None, &list)
}

fn shuffle<T>(rng: &mut Rng, list: &mut [T]) {
    for i in (1..list.len()).rev() {
        list.swap(i, rng.below(i + 1));
    }
}

/// Breaks the input in one way, or lengthens columns past the count, which is no fault.
pub fn damage(rng: &mut Rng, a: &mut BuildArgs) {
    let there = a.sources.len().min(a.targets.len()).min(a.weights.len());
    match rng.below(10) {
        0 => shorten_input(rng, a),
        1 | 2 => shorten_store(rng, &mut a.stores),
        3 | 4 if there > 0 => {
            let number = rng.pick(&[a.states as u32, 1 << 20, u32::MAX]);
            let i = place(rng, there);
            if rng.once_in(2) {
                a.sources[i] = number
            } else {
                a.targets[i] = number
            }
        }
        5 => a.initial = Some(rng.pick(&[a.states as u32, u32::MAX])),
        6 | 7 if there > 0 => a.weights[place(rng, there)] = rng.pick(BAD),
        8 if rng.once_in(2) => a.states = rng.pick(&[0, 2_001, 1 << 32, usize::MAX]),
        8 => a.given = rng.pick(&[a.given.saturating_add(1), 4_097, 1 << 32, usize::MAX]),
        _ => lengthen(rng, a),
    }
}

fn shorten_input(rng: &mut Rng, a: &mut BuildArgs) {
    match rng.below(4) {
        0 => shorten(rng, &mut a.sources),
        1 => shorten(rng, &mut a.labels),
        2 => shorten(rng, &mut a.targets),
        _ => shorten(rng, &mut a.weights),
    }
}

/// Makes one column shorter.
pub fn shorten_store(rng: &mut Rng, c: &mut Columns) {
    match rng.below(5) {
        0 => shorten(rng, &mut c.label_values),
        1 => shorten(rng, &mut c.offsets),
        2 => shorten(rng, &mut c.edge_labels),
        3 => shorten(rng, &mut c.edge_targets),
        _ => shorten(rng, &mut c.edge_weights),
    }
}

/// Adds entries that nothing may read to the inputs, and room to the stores.
fn lengthen(rng: &mut Rng, a: &mut BuildArgs) {
    for _ in 0..=rng.below(3) {
        a.sources.push(u32::MAX);
        a.labels.push(rng.bits() as u32);
        a.targets.push(a.states as u32);
        a.weights.push(rng.pick(BAD));
    }
    lengthen_columns(rng, &mut a.stores);
}

/// Adds entries to some of the columns.
pub fn lengthen_columns(rng: &mut Rng, c: &mut Columns) {
    c.label_values.extend(vec![61; rng.below(3)]);
    c.offsets.extend(vec![62; rng.below(3)]);
    c.edge_labels.extend(vec![63; rng.below(3)]);
    c.edge_targets.extend(vec![64; rng.below(3)]);
    c.edge_weights.extend(vec![-0.0; rng.below(3)]);
}

/// A good input, or one that is broken up to three times.
pub fn random(rng: &mut Rng, size: Size) -> BuildArgs {
    let mut a = good(rng, size);
    maybe_damage(rng, &mut a);
    a
}

/// Leaves the input as it is two times in five, else breaks it up to three times.
pub fn maybe_damage(rng: &mut Rng, a: &mut BuildArgs) {
    for _ in 0..rng.pick(&[0, 0, 1, 1, 3]) {
        damage(rng, a);
    }
}

/// A random input at the limit of targets, or of labels.
pub fn at_limit(rng: &mut Rng) -> BuildArgs {
    let mut a = match rng.below(2) {
        0 => {
            let targets = rng.pick(&[30, 31, 32, 33]);
            star(rng, targets)
        }
        _ => {
            let labels = rng.pick(&[255, 256, 257, 258]);
            many_labels(rng, labels)
        }
    };
    maybe_damage(rng, &mut a);
    a
}

/// 4,095 to 4,097 transitions that all differ, in no order, so that none is joined.
pub fn full(rng: &mut Rng) -> BuildArgs {
    let given = rng.pick(&[4_095, 4_096, 4_096, 4_097]);
    let (labels, states) = rng.pick(&[(1, 2_000), (3, 60), (256, 16), (64, 2)]);
    let transition = |i: usize, rng: &mut Rng| {
        let (label, source) = (i % labels, i / labels % states);
        let target = (source + i / labels / states) % states;
        (
            source as u32,
            900 - label as u32,
            target as u32,
            rng.unit() + 0.5,
        )
    };
    let mut list: Vec<Transition> = (0..given).map(|i| transition(i, rng)).collect();
    shuffle(rng, &mut list);
    from_transitions(states, Some(1), &list)
}

/// Up to 4,096 transitions that are all joined; with the greatest weight the sum is at most 2^52.
pub fn one_triple(rng: &mut Rng) -> BuildArgs {
    let given = rng.pick(&[2, 3, 64, 4_095, 4_096]);
    let greatest = rng.once_in(2);
    let mut transition = || {
        let weight = if greatest {
            GREATEST_WEIGHT
        } else {
            weight(rng)
        };
        (1, 7, 0, weight)
    };
    let list: Vec<Transition> = (0..given).map(|_| transition()).collect();
    from_transitions(2, None, &list)
}

/// A large random input, one that is full, or one triple.
pub fn large_random(rng: &mut Rng) -> BuildArgs {
    let mut a = match rng.below(4) {
        0 => full(rng),
        1 => one_triple(rng),
        _ => {
            let size = large(rng);
            good(rng, size)
        }
    };
    maybe_damage(rng, &mut a);
    a
}

/// All inputs of up to two states and two transitions over few values, bad ones included.
pub fn short_values(f: &mut dyn FnMut(BuildArgs)) {
    const WEIGHTS: [f64; 3] = [0.0, 0.1, -1.0];
    const INITIAL: [Option<u32>; 3] = [None, Some(0), Some(2)];
    for given in 0..=2 {
        let mut bases = vec![3, 3];
        bases.extend([3, 2, 3, 3].repeat(given));
        all_digits(&bases, &mut |d| {
            let one = |t: &[usize]| (t[0] as u32, [7, 5][t[1]], t[2] as u32, WEIGHTS[t[3]]);
            let list: Vec<Transition> = d[2..].chunks(4).map(one).collect();
            f(from_transitions(d[0], INITIAL[d[1]], &list));
        });
    }
}

/// All lists of up to four transitions from state 0 over two labels, two targets and three weights.
pub fn short_sums(f: &mut dyn FnMut(BuildArgs)) {
    const WEIGHTS: [f64; 3] = [0.1, 0.2, 0.3];
    for given in 0..=4 {
        all_digits(&[2, 2, 3].repeat(given), &mut |d| {
            let one = |t: &[usize]| (0, [7, 5][t[0]], t[1] as u32, WEIGHTS[t[2]]);
            let list: Vec<Transition> = d.chunks(3).map(one).collect();
            f(from_transitions(2, Some(1), &list));
        });
    }
}

/// Two transitions of one state, of which each column has none, one or both, and the second has no fault, one or several.
pub fn uneven(f: &mut dyn FnMut(BuildArgs)) {
    all_digits(&[3, 3, 3, 3, 2, 2, 2], &mut |d| {
        let second = (d[4] as u32, 5, d[5] as u32, [0.25, -1.0][d[6]]);
        let mut a = from_transitions(1, None, &[(0, 7, 0, 0.5), second]);
        a.sources.truncate(d[0]);
        a.labels.truncate(d[1]);
        a.targets.truncate(d[2]);
        a.weights.truncate(d[3]);
        f(a);
    });
}

/// Two transitions with every column and store one short, just long enough, or one longer.
pub fn short_lengths(f: &mut dyn FnMut(BuildArgs)) {
    let base = from_transitions(2, None, &[(1, 7, 0, 0.5), (0, 5, 1, 0.25), (1, 7, 1, 2.0)]);
    all_digits(&[3; 9], &mut |d| {
        let mut a = base.clone();
        a.given = 2;
        a.sources.truncate(d[0] + 1);
        a.labels.truncate(d[1] + 1);
        a.targets.truncate(d[2] + 1);
        a.weights.truncate(d[3] + 1);
        let c = Columns::filled(3, 4, 3);
        a.stores = Columns {
            label_values: c.label_values[..=d[4]].to_vec(),
            offsets: c.offsets[..d[5] + 2].to_vec(),
            edge_labels: c.edge_labels[..=d[6]].to_vec(),
            edge_targets: c.edge_targets[..=d[7]].to_vec(),
            edge_weights: c.edge_weights[..=d[8]].to_vec(),
        };
        f(a);
    });
}
