//! Relations through `sys`.

mod common;

use common::{BEFORE, BEFORE_REAL, fan, refused, sample, short, short_mut, still, view};
use tanqesha::Columns;
use tanqesha::sys::{self, ModelView};

/// What the entries are given.
#[derive(Clone)]
struct Given {
    left: Columns,
    right: Columns,
    left_classes: Vec<u32>,
    right_classes: Vec<u32>,
    epsilon: f64,
    rho: f64,
    bytes: usize,
}

/// Rates 2 and 4, as on the card of document 01.
fn doubled() -> Given {
    Given {
        left: fan(&[2.0]),
        right: fan(&[4.0]),
        left_classes: vec![0, 1],
        right_classes: vec![0, 1],
        epsilon: 0.0,
        rho: 2.0,
        bytes: 2,
    }
}

/// Rates 3, 1 against 2, 2 (M9), the relation's 36 bits in 5 bytes.
fn shared() -> Given {
    Given {
        left: fan(&[3.0, 1.0]),
        right: fan(&[2.0, 2.0]),
        left_classes: vec![0, 1, 2],
        right_classes: vec![0, 1, 2],
        epsilon: 0.25,
        rho: 1.0,
        bytes: 5,
    }
}

/// What each entry leaves: number, answer, ε and bytes.
#[derive(Debug, Clone, PartialEq)]
struct Left {
    number: u32,
    answer: u32,
    epsilon: f64,
    bytes: Vec<u8>,
}

/// The columns of a model, where a slice is one too short if `cut` is its place.
fn cut_view(c: &Columns, cut: usize) -> ModelView<'_> {
    let m = view(c);
    ModelView {
        label_values: short(m.label_values, cut == 0),
        offsets: short(m.offsets, cut == 1),
        edge_labels: short(m.edge_labels, cut == 2),
        edge_targets: short(m.edge_targets, cut == 3),
        edge_weights: short(m.edge_weights, cut == 4),
        ..m
    }
}

/// `epsdelta`, `epsdelta_bisimilar` and `min_epsilon`, slice `cut` one too short: five of each model, the classes, the bytes.
fn entries(g: &Given, cut: usize) -> [Left; 3] {
    let left = cut_view(&g.left, cut);
    let right = cut_view(&g.right, cut.wrapping_sub(5));
    let left_classes = short(&g.left_classes, cut == 10);
    let right_classes = short(&g.right_classes, cut == 11);
    let lent = vec![0x5e; g.bytes];
    [0, 1, 2].map(|entry| {
        let mut bytes = lent.clone();
        let store = short_mut(&mut bytes, cut == 12);
        let (mut answer, mut epsilon) = (BEFORE, BEFORE_REAL);
        let (e, r) = (g.epsilon, g.rho);
        let number = match entry {
            0 => sys::epsdelta(&left, &right, left_classes, right_classes, e, r, store),
            1 => sys::epsdelta_bisimilar(
                &left,
                &right,
                left_classes,
                right_classes,
                e,
                r,
                store,
                &mut answer,
            ),
            _ => sys::min_epsilon(
                &left,
                &right,
                left_classes,
                right_classes,
                r,
                store,
                &mut answer,
                &mut epsilon,
            ),
        };
        Left {
            number,
            answer,
            epsilon,
            bytes,
        }
    })
}

const WHOLE: usize = usize::MAX;

fn kept(number: u32, bytes: usize) -> Left {
    Left {
        number,
        answer: BEFORE,
        epsilon: BEFORE_REAL,
        bytes: vec![0x5e; bytes],
    }
}

#[test]
fn rates_within_a_factor() {
    // over 4 states: 0 with 2, 1 with 3, each with itself; then a byte that is kept
    let mut g = doubled();
    g.bytes = 3;
    let [relation, alike, least] = entries(&g, WHOLE);
    assert_eq!(relation.bytes, [0b1010_0101, 0b1010_0101, 0x5e]);
    assert_eq!((relation.number, alike.number, least.number), (0, 0, 0));
    assert_eq!((alike.answer, alike.bytes), (1, vec![0; 3]));
    assert_eq!(
        (least.answer, least.epsilon, least.bytes),
        (1, 0.0, vec![0; 3])
    );
    // M8 at 1.5: states 0 are apart at any ε
    g.rho = 1.5;
    let [relation, alike, least] = entries(&g, WHOLE);
    assert_eq!(relation.bytes, [0b1010_0001, 0b1010_0100, 0x5e]);
    assert_eq!(
        (alike.number, alike.answer, alike.bytes),
        (0, 0, vec![0; 3])
    );
    assert_eq!(
        (least.number, least.answer, least.epsilon),
        (0, 0, BEFORE_REAL)
    );
    // M2: ε = -0
    g.epsilon = -0.0;
    assert_eq!(entries(&g, WHOLE)[0], relation);
}

#[test]
fn shares_that_go_astray() {
    let mut g = shared();
    let [relation, alike, least] = entries(&g, WHOLE);
    // M9, M10: 0 with 3, 1 with 4, 2 with 5, each with itself; bits 36 to 39 are zero
    let pairs = [(0, 3), (1, 4), (2, 5)];
    let all = pairs
        .iter()
        .flat_map(|&(s, t)| [(s, s), (s, t), (t, s), (t, t)]);
    let mut expected = vec![0u8; 5];
    for (s, t) in all {
        let bit = s * 6 + t;
        expected[bit / 8] |= 1 << (bit % 8);
    }
    assert_eq!((relation.number, relation.bytes), (0, expected));
    assert_eq!((alike.answer, least.answer, least.epsilon), (1, 1, 0.25));
    g.epsilon = 0.2;
    assert_eq!(entries(&g, WHOLE)[1].answer, 0);
    // other classes of the initial states: none
    g.left_classes[0] = 9;
    let least = &entries(&g, WHOLE)[2];
    assert_eq!(
        (least.number, least.answer, least.epsilon, &least.bytes),
        (0, 0, BEFORE_REAL, &vec![0; 5])
    );
}

#[test]
fn no_states() {
    let g = Given {
        left: still(0),
        right: still(0),
        left_classes: vec![],
        right_classes: vec![],
        bytes: 0,
        ..doubled()
    };
    let [relation, alike, least] = entries(&g, WHOLE);
    assert_eq!((relation.number, alike, least), (0, kept(8, 0), kept(8, 0)));
}

/// That all three entries refuse with these numbers, and leave all as it was.
fn refuses(numbers: [u32; 3], g: &Given, cut: usize) {
    let left = entries(g, cut);
    for (number, left) in numbers.into_iter().zip(left) {
        if number != 0 {
            assert_eq!(left, kept(number, g.bytes), "slice {cut}");
        } else {
            assert_eq!(left.number, 0);
        }
    }
}

#[test]
fn relations_are_refused() {
    for cut in 0..10 {
        refuses([4; 3], &shared(), cut);
    }
    for cut in 10..13 {
        refuses([7; 3], &shared(), cut);
    }
    let refused_if = |numbers, change: fn(&mut Given)| {
        let mut g = shared();
        change(&mut g);
        refuses(numbers, &g, WHOLE);
    };
    refused_if([7; 3], |g| {
        (g.left_classes, g.right_classes, g.bytes) = (vec![], vec![], 0)
    });
    refused_if([0, 8, 8], |g| g.left.initial = None);
    refused_if([0, 8, 8], |g| g.right.initial = None);
    for epsilon in [-1.0, f64::NAN, f64::INFINITY] {
        let g = Given {
            epsilon,
            ..shared()
        };
        refuses([9, 9, 0], &g, WHOLE);
    }
    for rho in [0.999, f64::NAN, 1_048_577.0] {
        let g = Given { rho, ..shared() };
        refuses([9; 3], &g, WHOLE);
    }
    // 8 comes before 9, 7 before 8
    refused_if([9, 8, 8], |g| (g.left.initial, g.rho) = (None, 0.0));
    refused_if([7; 3], |g| (g.left.initial, g.bytes) = (None, 4));
}

#[test]
fn models_of_a_relation_are_refused() {
    for (number, model) in refused() {
        let mut g = doubled();
        g.left = model.clone();
        refuses([number; 3], &g, WHOLE);
        let mut g = doubled();
        g.right = model;
        refuses([number; 3], &g, WHOLE);
    }
    let sample = Given {
        left: sample(),
        right: sample(),
        left_classes: vec![0; 3],
        right_classes: vec![0; 3],
        ..shared()
    };
    refuses([0; 3], &sample, WHOLE);
}

#[test]
fn states_together() {
    // 2,000 pass in 500,000 bytes; 2,001 are 7 there, and 10 in 500,501
    let mut g = Given {
        left: still(1_000),
        right: still(1_000),
        left_classes: vec![3; 1_000],
        right_classes: vec![4; 1_001],
        bytes: 500_000,
        ..doubled()
    };
    refuses([0; 3], &g, WHOLE);
    refuses([7; 3], &g, 12);
    g.right = still(1_001);
    refuses([7; 3], &g, WHOLE);
    g.bytes = 500_501;
    refuses([10; 3], &g, WHOLE);
}

#[test]
fn bits_are_read() {
    let related = |left, right, bytes: &[u8], s, t| {
        let mut answer = BEFORE;
        (sys::related(left, right, bytes, s, t, &mut answer), answer)
    };
    // over 2 + 3 states the pair of s and t is bit s * 5 + 2 + t
    let mut bytes = [0u8; 4];
    bytes[1] = 1 << 1;
    assert_eq!(related(2, 3, &bytes, 1, 2), (0, 1));
    for (s, t) in [(0, 0), (0, 1), (0, 2), (1, 0), (1, 1)] {
        assert_eq!(related(2, 3, &bytes, s, t), (0, 0));
    }
    assert_eq!(related(2, 3, &[0xff; 4], 0, 0), (0, 1));
    assert_eq!(related(2, 3, &bytes[..3], 1, 2), (7, BEFORE));
    assert_eq!(related(2, 3, &[], 1, 2), (7, BEFORE));
    assert_eq!(related(2, 3, &bytes, 2, 0), (4, BEFORE));
    assert_eq!(related(2, 3, &bytes, 0, 3), (4, BEFORE));
    assert_eq!(related(0, 0, &[], 0, 0), (4, BEFORE));
    assert_eq!(related(2_001, 3, &bytes, 0, 0), (3, BEFORE));
    assert_eq!(related(2, usize::MAX, &bytes, 0, 0), (3, BEFORE));
    let large = vec![0xff; 500_501];
    assert_eq!(related(1_000, 1_000, &large[..500_000], 999, 999), (0, 1));
    assert_eq!(related(1_000, 1_001, &large[..500_500], 0, 0), (7, BEFORE));
    assert_eq!(related(1_000, 1_001, &large, 0, 0), (10, BEFORE));
}
