//! Numbers, labels and models through `sys`.

mod common;

use common::{BEFORE, BEFORE_COUNT, fan, refused, sample, short, short_mut, still, view};
use tanqesha::Columns;
use tanqesha::sys::{self, ModelView};

#[test]
fn numbers() {
    for (x, valid, zero) in [
        (0.0, true, true),
        (-0.0, true, true),
        (2.5, true, false),
        (f64::MAX, true, false),
        (5e-324, true, false),
        (-5e-324, false, false),
        (f64::INFINITY, false, false),
        (f64::NEG_INFINITY, false, false),
        (f64::NAN, false, false),
    ] {
        assert_eq!((sys::is_valid(x), sys::is_zero(x)), (valid, zero), "{x}");
    }
    assert_eq!(sys::sum(&[]), 0.0);
    assert_eq!(sys::sum(&[1e16, 1.0, -1e16, 0.25]), 0.25);
    assert!(sys::sum(&[1.0, f64::NAN]).is_nan());
}

/// `intern` in a list: its number, id and total, and the list then.
fn intern(labels: &[u32], count: usize, value: u32) -> (u32, u32, usize, Vec<u32>) {
    let mut labels = labels.to_vec();
    let (mut id, mut total) = (BEFORE, BEFORE_COUNT);
    let number = sys::intern(&mut labels, count, value, &mut id, &mut total);
    (number, id, total, labels)
}

#[test]
fn labels_are_interned() {
    assert_eq!(
        intern(&[70, 50, 9, 9], 2, 50),
        (0, 1, 2, vec![70, 50, 9, 9])
    );
    assert_eq!(intern(&[70, 50, 9, 9], 2, 9), (0, 2, 3, vec![70, 50, 9, 9]));
    assert_eq!(intern(&[70, 50, 9, 9], 2, 8), (0, 2, 3, vec![70, 50, 8, 9]));
    assert_eq!(intern(&[0], 0, 6), (0, 0, 1, vec![6]));
    let refused = |labels: &[u32], count, value, number| {
        let before = (number, BEFORE, BEFORE_COUNT, labels.to_vec());
        assert_eq!(intern(labels, count, value), before);
    };
    refused(&[], 0, 6, 7);
    refused(&[70, 50], 2, 8, 7);
    refused(&[70, 50], 3, 8, 4);
    refused(&[70, 70, 0], 2, 8, 4);
    let full: Vec<u32> = (0..257).collect();
    assert_eq!(intern(&full, 256, 255), (0, 255, 256, full.clone()));
    refused(&full, 256, 256, 3);
    refused(&full, 257, 0, 3);
    refused(&full, usize::MAX, 0, 3);
}

#[test]
fn labels_are_looked_up() {
    let get = |labels: &[u32], count, value| {
        let (mut present, mut id) = (BEFORE, BEFORE);
        let number = sys::get(labels, count, value, &mut present, &mut id);
        (number, present, id)
    };
    let resolve = |labels: &[u32], count, id| {
        let mut value = BEFORE;
        (sys::resolve(labels, count, id, &mut value), value)
    };
    let labels = [70, 50, 90];
    assert_eq!(get(&labels, 3, 90), (0, 1, 2));
    assert_eq!(get(&labels, 2, 90), (0, 0, BEFORE));
    assert_eq!(get(&[], 0, 90), (0, 0, BEFORE));
    assert_eq!(get(&labels, 4, 90), (4, BEFORE, BEFORE));
    assert_eq!(get(&[70, 70], 2, 90), (4, BEFORE, BEFORE));
    assert_eq!(get(&labels, 257, 90), (3, BEFORE, BEFORE));
    assert_eq!(resolve(&labels, 3, 2), (0, 90));
    assert_eq!(resolve(&labels, 2, 2), (4, BEFORE));
    assert_eq!(resolve(&[], 0, 0), (4, BEFORE));
    assert_eq!(resolve(&labels, 4, 0), (4, BEFORE));
    assert_eq!(resolve(&[70, 70], 2, 0), (4, BEFORE));
    assert_eq!(resolve(&labels, 257, 0), (3, BEFORE));
}

/// What `build` is given: counts, initial state and transitions.
#[derive(Clone)]
struct Given {
    states: usize,
    initial: (u32, u32),
    given: usize,
    sources: Vec<u32>,
    labels: Vec<u32>,
    targets: Vec<u32>,
    weights: Vec<f64>,
}

/// Transitions of the sample: equal triples, and one of weight 0 whose label is new.
fn given() -> Given {
    Given {
        states: 3,
        initial: (1, 0),
        given: 5,
        sources: vec![0, 0, 0, 1, 2],
        labels: vec![70, 50, 70, 90, 50],
        targets: vec![1, 2, 1, 0, 2],
        weights: vec![3.0, 1.0, 0.5, -0.0, 2.0],
    }
}

/// Lent columns, filled: room for so many states and transitions.
fn room(states: usize, transitions: usize) -> Columns {
    let filled = |n: usize| (9_000..).take(n).collect::<Vec<u32>>();
    Columns {
        label_values: filled(transitions),
        offsets: filled(states + 1),
        edge_labels: filled(transitions),
        edge_targets: filled(transitions),
        edge_weights: vec![-1.5; transitions],
        ..Columns::default()
    }
}

/// `build` with slice `cut` one too short: its number, edges and labels.
fn build(g: &Given, c: &mut Columns, cut: usize) -> (u32, usize, usize) {
    let (mut edges, mut distinct) = (BEFORE_COUNT, BEFORE_COUNT);
    let number = sys::build(
        g.states,
        g.initial.0,
        g.initial.1,
        g.given,
        short(&g.sources, cut == 0),
        short(&g.labels, cut == 1),
        short(&g.targets, cut == 2),
        short(&g.weights, cut == 3),
        short_mut(&mut c.label_values, cut == 4),
        short_mut(&mut c.offsets, cut == 5),
        short_mut(&mut c.edge_labels, cut == 6),
        short_mut(&mut c.edge_targets, cut == 7),
        short_mut(&mut c.edge_weights, cut == 8),
        &mut edges,
        &mut distinct,
    );
    (number, edges, distinct)
}

const WHOLE: usize = usize::MAX;

#[test]
fn a_model_is_built() {
    let mut c = room(4, 6);
    assert_eq!(build(&given(), &mut c, WHOLE), (0, 3, 3));
    // the sample over the front, what stands behind kept
    assert_eq!(c.label_values, [70, 50, 90, 9_003, 9_004, 9_005]);
    assert_eq!(c.offsets, [0, 2, 2, 3, 9_004]);
    assert_eq!(c.edge_labels, [0, 1, 1, 9_003, 9_004, 9_005]);
    assert_eq!(c.edge_targets, [1, 2, 2, 9_003, 9_004, 9_005]);
    assert_eq!(c.edge_weights, [3.5, 1.0, 2.0, -1.5, -1.5, -1.5]);
    // no states and no transitions
    let empty = Given {
        states: 0,
        initial: (0, 9),
        given: 0,
        ..given()
    };
    let mut c = room(0, 0);
    assert_eq!(build(&empty, &mut c, WHOLE), (0, 0, 0));
    assert_eq!(c.offsets, [0]);
}

#[test]
fn build_refuses() {
    let refused = |number, change: fn(&mut Given), cut| {
        let mut g = given();
        change(&mut g);
        let before = room(3, 5);
        let mut c = before.clone();
        let after = build(&g, &mut c, cut);
        assert_eq!(after, (number, BEFORE_COUNT, BEFORE_COUNT));
        assert_eq!(c, before);
    };
    for cut in 0..9 {
        refused(7, |_| (), cut);
    }
    refused(7, |g| g.given = 6, WHOLE);
    refused(7, |g| (g.states, g.given) = (5, 0), WHOLE);
    refused(3, |g| g.states = 2_001, WHOLE);
    refused(3, |g| g.states = usize::MAX, WHOLE);
    refused(3, |g| g.given = 4_097, WHOLE);
    refused(4, |g| g.initial = (1, 3), WHOLE);
    refused(4, |g| g.initial = (2, u32::MAX), WHOLE);
    refused(4, |g| g.sources[4] = 3, WHOLE);
    refused(4, |g| g.targets[3] = 3, WHOLE);
    refused(5, |g| g.weights[1] = f64::NAN, WHOLE);
    refused(5, |g| g.weights[1] = -1.0, WHOLE);
    refused(5, |g| g.weights[1] = 2f64.powi(-41), WHOLE);
    refused(5, |g| g.weights[1] = 2f64.powi(41), WHOLE);
    // each column is looked at as far as it goes: weights are short, and the fifth source is not
    refused(4, |g| g.sources[4] = 3, 3);
}

#[test]
fn build_at_its_limits() {
    // 31 and 32 targets
    for (targets, number) in [(31, 0), (32, 6)] {
        let g = Given {
            states: 33,
            initial: (0, 0),
            given: targets,
            sources: vec![0; targets],
            labels: vec![7; targets],
            targets: (1..).take(targets).collect(),
            weights: vec![1.0; targets],
        };
        assert_eq!(build(&g, &mut room(33, targets), WHOLE).0, number);
    }
    // 256 and 257 labels, all of weight 0
    for (labels, number) in [(256, 0), (257, 3)] {
        let g = Given {
            states: 1,
            initial: (0, 0),
            given: labels,
            sources: vec![0; labels],
            labels: (0..).take(labels).collect(),
            targets: vec![0; labels],
            weights: vec![0.0; labels],
        };
        assert_eq!(build(&g, &mut room(1, labels), WHOLE).0, number);
    }
    // 2,000 states and 4,096 transitions, all the same
    let g = Given {
        states: 2_000,
        initial: (1, 1_999),
        given: 4_096,
        sources: vec![1_999; 4_096],
        labels: vec![u32::MAX; 4_096],
        targets: vec![0; 4_096],
        weights: vec![2f64.powi(40); 4_096],
    };
    let mut c = room(2_000, 4_096);
    assert_eq!(build(&g, &mut c, WHOLE), (0, 1, 1));
    assert_eq!(c.edge_weights[0], 2f64.powi(52));
    assert_eq!((c.offsets[1_999], c.offsets[2_000]), (0, 1));
}

/// Every reader of a model: its number, and what its references hold then.
fn readers(m: &ModelView<'_>, s: u32, id: u32, value: u32) -> [(u32, [usize; 2]); 7] {
    let count = |reader: fn(&ModelView<'_>, &mut usize) -> u32| {
        let mut count = BEFORE_COUNT;
        (reader(m, &mut count), [count, BEFORE_COUNT])
    };
    let number = |call: &dyn Fn(&mut u32, &mut u32) -> u32| {
        let (mut a, mut b) = (BEFORE, BEFORE);
        (call(&mut a, &mut b), [a as usize, b as usize])
    };
    let (mut from, mut to) = (BEFORE_COUNT, BEFORE_COUNT);
    let row = sys::successors(m, s, &mut from, &mut to);
    [
        count(sys::num_states),
        count(sys::num_transitions),
        count(sys::num_labels),
        number(&|found, state| sys::initial(m, found, state)),
        (row, [from, to]),
        number(&|value, _| sys::label(m, id, value)),
        number(&|found, id| sys::label_id(m, value, found, id)),
    ]
}

const KEPT: [usize; 2] = [BEFORE_COUNT; 2];

#[test]
fn a_model_is_read() {
    let model = sample();
    let m = view(&model);
    assert_eq!(sys::model_refusal(&m), 0);
    let k = BEFORE_COUNT;
    let expected = [
        (0, [3, k]),
        (0, [3, k]),
        (0, [3, k]),
        (0, [1, 0]),
        (0, [2, 3]),
        (0, [50, k]),
        (0, [1, 2]),
    ];
    assert_eq!(readers(&m, 2, 1, 90), expected);
    // longer columns, another mark of an initial state
    let mut long = model.clone();
    for column in [
        &mut long.label_values,
        &mut long.offsets,
        &mut long.edge_labels,
        &mut long.edge_targets,
    ] {
        column.push(70);
    }
    long.edge_weights.push(f64::NAN);
    let mut m = view(&long);
    m.present = 9;
    assert_eq!(readers(&m, 2, 1, 90), expected);
    // no initial state, and a value without an id
    m.present = 0;
    m.start = u32::MAX;
    let answers = readers(&m, 1, 0, 91);
    assert_eq!((answers[3], answers[6]), ((0, [0, k]), (0, [0, k])));
    assert_eq!(answers[4], (0, [2, 2]));
    // numbers that are not below their counts
    let answers = readers(&m, 3, 3, 90);
    assert_eq!((answers[4], answers[5]), ((4, KEPT), (4, KEPT)));
    // no states
    let nothing = still(0);
    let answers = readers(&view(&nothing), 0, 0, 0);
    assert_eq!((answers[0], answers[4]), ((0, [0, k]), (4, KEPT)));
    // 31 targets
    assert_eq!(sys::model_refusal(&view(&fan(&[1.0; 31]))), 0);
}

#[test]
fn readers_refuse() {
    for (number, model) in refused() {
        let m = view(&model);
        assert_eq!(sys::model_refusal(&m), number, "{model:?}");
        assert_eq!(readers(&m, 0, 0, 70), [(number, KEPT); 7], "{model:?}");
    }
}
