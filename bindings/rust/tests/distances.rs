//! Distances through `sys`, and by the safe layer.

mod common;

use common::{BEFORE_COUNT, BEFORE_REAL, fan, refused, sample, short, short_mut, view};
use tanqesha::sys::{self, ChainView, PairContribution};
use tanqesha::{Chain, Columns, MetricOptions, Model, Refusal, StateId, bisim_distance, distance};

const WHOLE: usize = usize::MAX;

/// Two states that stay or move by halves, and one that stays.
fn chain(observations: [f64; 2]) -> Chain {
    Chain {
        states: 2,
        entries: 3,
        initial: StateId(0),
        offsets: vec![0, 2, 3],
        targets: vec![0, 1, 1],
        probabilities: vec![0.5, 0.5, 1.0],
        observations: observations.to_vec(),
    }
}

const RECORD: PairContribution = PairContribution {
    left: 77,
    right: 78,
    gap: -1.5,
    occupancy: -2.5,
    contribution: -3.5,
};

/// The memory of a call, filled, and what it answers.
#[derive(Debug, Clone, PartialEq)]
struct Lent {
    lefts: Vec<u32>,
    rights: Vec<u32>,
    index: Vec<u64>,
    places: Vec<u32>,
    masses: Vec<f64>,
    records: Vec<PairContribution>,
    reals: [f64; 3],
    counts: [usize; 3],
}

fn lent(couplings: usize) -> Lent {
    Lent {
        lefts: vec![11; 4_097],
        rights: vec![12; 4_097],
        index: vec![13; 4_097],
        places: vec![14; couplings],
        masses: vec![-15.5; couplings],
        records: vec![RECORD; 65],
        reals: [BEFORE_REAL; 3],
        counts: [BEFORE_COUNT; 3],
    }
}

impl Lent {
    /// All zero in the scratch, the records from `from` on as they were.
    fn swept(&self, from: usize) -> bool {
        let scratch = [&self.lefts, &self.rights, &self.places];
        scratch.iter().all(|list| list.iter().all(|&x| x == 0))
            && self.index.iter().all(|&x| x == 0)
            && self.masses.iter().all(|&x| x == 0.0)
            && self.records[from..].iter().all(|r| *r == RECORD)
    }
}

/// γ, tolerance, rounds, contributions.
type Asked = (f64, f64, usize, usize);

const USUAL: Asked = (0.5, 1e-6, 200, 10);

/// A chain without its observations, list `cut` one too short.
fn lists(c: &Chain, cut: usize) -> ChainView<'_> {
    ChainView {
        states: c.states,
        entries: c.entries,
        initial: c.initial.0,
        offsets: short(&c.offsets, cut == 0),
        targets: short(&c.targets, cut == 1),
        probabilities: short(&c.probabilities, cut == 2),
    }
}

/// `distance`, slice `cut` too short.
fn run(left: &Chain, right: &Chain, asked: Asked, l: &mut Lent, cut: usize) -> u32 {
    let front = |least: usize, k: usize| if cut == k { least - 1 } else { least + 1 };
    let [value, error_bound, discount] = &mut l.reals;
    let [pairs, contributions, rounds] = &mut l.counts;
    sys::distance(
        &lists(left, cut),
        short(&left.observations, cut == 3),
        &lists(right, cut.wrapping_sub(4)),
        short(&right.observations, cut == 7),
        asked.0,
        asked.1,
        asked.2,
        asked.3,
        &mut l.lefts[..front(4_096, 8)],
        &mut l.rights[..front(4_096, 9)],
        &mut l.index[..front(4_096, 10)],
        short_mut(&mut l.places, cut == 12),
        short_mut(&mut l.masses, cut == 13),
        &mut l.records[..front(64, 11)],
        value,
        error_bound,
        discount,
        pairs,
        contributions,
        rounds,
    )
}

#[test]
fn the_figures() {
    let still = |seen| Chain {
        states: 1,
        entries: 1,
        initial: StateId(0),
        offsets: vec![0, 1],
        targets: vec![0],
        probabilities: vec![1.0],
        observations: vec![seen],
    };
    let mut l = lent(1);
    assert_eq!(run(&still(0.0), &still(1.0), USUAL, &mut l, WHOLE), 0);
    assert_eq!(l.reals, [1.0 - 2f64.powi(-25), 2f64.powi(-25), 0.5]);
    assert_eq!(l.counts, [1, 1, 1]);
    assert_eq!(l.records[0].occupancy, 1.0 - 2f64.powi(-39));
    assert!(l.swept(1));
    let mut l = lent(1);
    let none = (0.5, 1e-6, 0, 10);
    assert_eq!(run(&still(0.0), &still(1.0), none, &mut l, WHOLE), 0);
    assert_eq!((l.reals, l.counts), ([0.0, f64::INFINITY, 0.5], [1, 1, 0]));
    for gamma in [0.0, 1.0] {
        let mut l = lent(1);
        let asked = (gamma, 1e-6, 200, 10);
        assert_eq!(run(&still(0.0), &still(1.0), asked, &mut l, WHOLE), 11);
        assert_eq!(l, lent(1));
    }
}

#[test]
fn chains_apart() {
    let (left, right) = (chain([0.0, 1.0]), chain([0.0, 0.0]));
    let mut l = lent(10);
    assert_eq!(run(&left, &right, USUAL, &mut l, WHOLE), 0);
    assert!((l.reals[0] - 1.0 / 3.0).abs() < 1e-6 && l.reals[1] < 1e-6);
    assert!(l.swept(l.counts[1]) && l.counts[0] == 4);
    // the largest first
    let shares: Vec<f64> = l.records[..l.counts[1]]
        .iter()
        .map(|r| r.contribution)
        .collect();
    assert!(shares.is_sorted_by(|a, b| a >= b) && shares.iter().all(|&x| x > 0.0));
}

#[test]
fn chains_are_refused() {
    let (left, right) = (chain([0.0, 1.0]), chain([0.0, 0.0]));
    let kept = |number, left: &Chain, right: &Chain, asked, cut| {
        let mut l = lent(9);
        assert_eq!(run(left, right, asked, &mut l, cut), number, "{cut}");
        assert_eq!(l, lent(9));
    };
    for (cut, number) in [4, 4, 4, 7, 4, 4, 4, 7, 7, 7, 7, 7].into_iter().enumerate() {
        kept(number, &left, &right, USUAL, cut);
    }
    kept(12, &chain([0.0, 1.5]), &right, USUAL, WHOLE);
    kept(12, &left, &chain([-0.5, 0.0]), USUAL, WHOLE);
    let mut falling = right.clone();
    falling.targets.swap(0, 1);
    kept(13, &left, &falling, USUAL, WHOLE);
    kept(14, &left, &right, (0.5, 1e-6, 10_001, 10), WHOLE);
    kept(14, &left, &right, (0.5, 1e-6, 200, 65), WHOLE);
    kept(11, &left, &right, (f64::NAN, 1e-6, 200, 65), WHOLE);
    // 18 and 19 leave zeros in the scratch
    for cut in [12, 13] {
        let mut l = lent(9);
        assert_eq!(run(&left, &right, USUAL, &mut l, cut), 18);
        let (places, masses) = (l.places.pop(), l.masses.pop());
        assert_eq!(
            (places == Some(14), masses == Some(-15.5)),
            (cut == 12, cut == 13)
        );
        assert!(l.swept(0) && l.reals == [BEFORE_REAL; 3] && l.counts == [BEFORE_COUNT; 3]);
    }
    let mut l = lent(9);
    let slow = (1.0 - 1e-6, 1e-6, 0, 10);
    assert_eq!(run(&left, &right, slow, &mut l, WHOLE), 19);
    assert!(l.swept(0) && l.reals == [BEFORE_REAL; 3]);
}

/// Lists of a chain, filled.
fn chain_lists(states: usize, entries: usize) -> Chain {
    Chain {
        states: 0,
        entries: 0,
        initial: StateId(0),
        offsets: vec![21; states + 1],
        targets: vec![22; entries],
        probabilities: vec![-23.5; entries],
        observations: vec![-24.5; states],
    }
}

/// `bisim_distance` of state `s` and state 0 of a model left at rate 4; list `cut` of the chains one too short.
fn run_models(
    left: &Columns,
    s: u32,
    seen: &[f64],
    asked: Asked,
    (l, a, b): &mut (Lent, Chain, Chain),
    cut: usize,
) -> u32 {
    let right = fan(&[4.0]);
    let [value, error_bound, discount] = &mut l.reals;
    let [pairs, contributions, rounds] = &mut l.counts;
    sys::bisim_distance(
        &view(left),
        s,
        short(seen, cut == 0),
        short_mut(&mut a.offsets, cut == 1),
        short_mut(&mut a.targets, cut == 2),
        short_mut(&mut a.probabilities, cut == 3),
        short_mut(&mut a.observations, cut == 4),
        &view(&right),
        0,
        short(&[0.0, 2.0], cut == 5),
        short_mut(&mut b.offsets, cut == 6),
        short_mut(&mut b.targets, cut == 7),
        short_mut(&mut b.probabilities, cut == 8),
        short_mut(&mut b.observations, cut == 9),
        asked.0,
        asked.1,
        asked.2,
        asked.3,
        &mut l.lefts,
        &mut l.rights,
        &mut l.index,
        short_mut(&mut l.places, cut == 10),
        short_mut(&mut l.masses, cut == 11),
        &mut l.records,
        value,
        error_bound,
        discount,
        pairs,
        contributions,
        rounds,
    )
}

fn memory() -> (Lent, Chain, Chain) {
    (lent(5), chain_lists(2, 3), chain_lists(2, 3))
}

fn empty(c: &Chain) -> bool {
    let numbers = c.offsets.iter().chain(&c.targets).all(|&x| x == 0);
    let reals = c.probabilities.iter().chain(&c.observations);
    numbers && reals.into_iter().all(|&x| x == 0.0)
}

#[test]
fn models_apart() {
    let mut m = memory();
    let model = fan(&[2.0]);
    assert_eq!(run_models(&model, 0, &[0.0, 2.0], USUAL, &mut m, WHOLE), 0);
    assert!((m.0.reals[0] - 1.0 / 6.0).abs() < 1e-6);
    assert_eq!(&m.0.counts[..2], [3, 1]);
    assert!(m.0.swept(1) && empty(&m.1) && empty(&m.2));
    // from where nothing moves any more
    let mut m = memory();
    assert_eq!(run_models(&model, 1, &[0.0, 2.0], USUAL, &mut m, WHOLE), 0);
    assert!((m.0.reals[0] - 0.5).abs() < 1e-6 && m.0.counts[0] == 2);
}

#[test]
fn models_are_refused() {
    let model = fan(&[2.0]);
    let kept = |number, left: &Columns, s, seen: &[f64], asked, cut| {
        let mut m = memory();
        assert_eq!(run_models(left, s, seen, asked, &mut m, cut), number);
        assert_eq!(m, memory());
    };
    let seen = [0.0, 2.0];
    for cut in 0..10 {
        kept(7, &model, 0, &seen, USUAL, cut);
    }
    for (number, bad) in refused() {
        kept(number, &bad, 0, &seen, USUAL, WHOLE);
    }
    kept(4, &model, 2, &seen, USUAL, WHOLE);
    let mut without = model.clone();
    without.initial = None;
    kept(8, &without, 0, &[0.0, f64::NAN], (0.0, 0.0, 0, 65), WHOLE);
    kept(11, &model, 0, &[0.0, f64::NAN], (0.0, 0.0, 0, 65), WHOLE);
    kept(12, &model, 0, &[0.0, f64::NAN], (0.5, 0.0, 0, 65), WHOLE);
    kept(14, &model, 0, &seen, (0.5, 0.0, 0, 65), WHOLE);
    for cut in [10, 11] {
        let mut m = memory();
        assert_eq!(run_models(&model, 0, &seen, USUAL, &mut m, cut), 18);
        assert!(empty(&m.1) && empty(&m.2) && m.0.reals == [BEFORE_REAL; 3]);
    }
    let mut m = memory();
    let slow = (1.0 - 1e-6, 1e-6, 0, 10);
    assert_eq!(run_models(&model, 0, &seen, slow, &mut m, WHOLE), 19);
    assert!(m.0.swept(0) && empty(&m.1) && empty(&m.2));
}

#[test]
fn the_safe_layer() {
    let options = MetricOptions::default();
    let (left, right) = (chain([0.0, 1.0]), chain([0.0, 0.0]));
    let d = distance(&left, &right, 0.5, options).unwrap();
    assert!((d.value - 1.0 / 3.0).abs() < 1e-6 && d.pairs_explored == 4);
    assert_eq!(d.pairs[0].left, StateId(1));
    assert_eq!(
        distance(&left, &right, 1.0, options),
        Err(Refusal::DiscountOrRate)
    );
    let mut long = left.clone();
    long.observations.pop();
    assert_eq!(distance(&long, &right, 0.5, options), Err(Refusal::Store));
    let many = MetricOptions { top: 65, ..options };
    assert_eq!(
        distance(&left, &right, 0.5, many),
        Err(Refusal::TopOrRounds)
    );
    let none = MetricOptions {
        max_rounds: 0,
        ..options
    };
    assert_eq!(
        distance(&left, &right, 1.0 - 1e-6, none),
        Err(Refusal::Occupancy)
    );

    let model = Model::from_columns(sample()).unwrap();
    let at = |s| (&model, StateId(s), &[0.0, 1.0, 4.0][..]);
    assert_eq!(
        bisim_distance(at(0), at(0), 0.5, options).unwrap().value,
        0.0
    );
    let apart = bisim_distance(at(1), at(2), 0.5, options).unwrap();
    assert!((apart.value - 0.75).abs() < 1e-6);
    assert_eq!(
        bisim_distance(at(3), at(0), 0.5, options),
        Err(Refusal::OutOfRange)
    );
    assert_eq!(
        bisim_distance(at(0), at(0), 0.0, options),
        Err(Refusal::DiscountOrRate)
    );
}

/// Lines of point masses: 63 and 65 states in a ring, after `tail` others.
fn ring(states: usize, tail: usize) -> Chain {
    let next = |s: usize| if s + 1 < states { s + 1 } else { tail };
    Chain {
        states,
        entries: states,
        initial: StateId(0),
        offsets: (0..=states as u32).collect(),
        targets: (0..states).map(|s| next(s) as u32).collect(),
        probabilities: vec![1.0; states],
        observations: vec![0.5; states],
    }
}

#[test]
fn pairs_and_a_long_store() {
    let options = MetricOptions::default();
    let d = distance(&ring(64, 1), &ring(65, 0), 0.5, options).unwrap();
    assert_eq!((d.pairs_explored, d.value), (4_096, 0.0));
    let over = distance(&ring(65, 2), &ring(65, 0), 0.5, options);
    assert_eq!(over, Err(Refusal::Pairs));
    // 20 states a side with 20 entries each: more couplings than are stored at first
    let wide = Chain {
        states: 20,
        entries: 400,
        initial: StateId(0),
        offsets: (0..=20).map(|s| 20 * s).collect(),
        targets: (0..20).cycle().take(400).collect(),
        probabilities: vec![0.05; 400],
        observations: vec![0.25; 20],
    };
    let d = distance(&wide, &wide, 0.5, options).unwrap();
    assert_eq!((d.pairs_explored, d.value), (400, 0.0));
}
