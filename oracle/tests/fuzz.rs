//! What the fuzzer makes of good inputs: the oracle answers all of it, and most refusals are met.

use std::collections::BTreeSet;

use oracle::answers::Oracle;
use oracle::fuzz::{Fuzzed, mutated, traits};
use oracle::generate::{
    Rng, build, card, distance, model, network, normalise, rate, relation, transport,
};
use oracle::text::Value;

/// The refusal numbers of the first answer over so many inputs, those with new answers changed further.
fn met<C: Oracle + Fuzzed>(inputs: usize, mut fresh: impl FnMut(&mut Rng) -> C) -> BTreeSet<u32> {
    let rng = &mut Rng::new(1);
    let mut kept: Vec<C> = (0..8).map(|_| fresh(rng)).collect();
    let (mut kinds, mut numbers) = (BTreeSet::new(), BTreeSet::new());
    for _ in 0..inputs {
        let (at, other) = (rng.below(kept.len()), rng.below(kept.len()));
        let case = mutated(rng, &kept[at], &kept[other]);
        let fields = case.oracle();
        if let Value::Answer(refusal, _) = fields[0].value {
            numbers.insert(refusal);
        }
        let before = kinds.len();
        kinds.extend(traits(&fields));
        if kinds.len() > before {
            kept.push(case);
        }
    }
    numbers
}

#[test]
fn cards_and_columns_are_answered() {
    let sheet = |rng: &mut Rng| {
        let card = card::small(rng).bytes();
        card::lent(rng, &card)
    };
    assert!(met(2_000, sheet).is_superset(&BTreeSet::from([0, 7])));
    let model = |rng: &mut Rng| {
        let star = model::star_model(rng, 3);
        model::ask(rng, star)
    };
    assert!(met(5_000, model).is_superset(&BTreeSet::from([0, 3, 4, 5])));
    assert!(met(2_000, relation::good).is_superset(&BTreeSet::from([0, 3, 4, 7, 9])));
}

#[test]
fn all_kinds_are_answered() {
    let build = |rng: &mut Rng| {
        let size = build::small(rng);
        build::random(rng, size)
    };
    assert!(met(2_000, build).is_superset(&BTreeSet::from([0, 3, 7])));
    assert!(met(1_000, network::good).is_superset(&BTreeSet::from([0, 15])));
    assert!(met(1_000, transport::small).is_superset(&BTreeSet::from([0, 7, 15])));
    assert!(met(1_000, rate::good).is_superset(&BTreeSet::from([0, 4, 7])));
    assert!(met(1_000, normalise::good_pair).is_superset(&BTreeSet::from([0, 4, 7])));
    assert!(met(200, distance::good).is_superset(&BTreeSet::from([0, 7])));
}
