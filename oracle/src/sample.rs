//! The fixed list of cases that is replayed without Rust: figures of document 01, some of the short inputs, random ones.
//! The networks, its second part, are in `flow`, the relations, its third, in `relation`, the cards, its fourth, in
//! `card`, the transports, its fifth, in `transport`, the chains, its sixth, in `chain`, the distances of chains and of
//! models, its seventh and eighth, in `distance`.

pub mod card;
pub mod chain;
pub mod distance;
pub mod flow;
pub mod relation;
pub mod transport;

use crate::answers::{Oracle, handed_in};
use crate::args::{BuildArgs, Columns, InternArgs, LabelArgs, ModelArgs, ReadArgs, RealArgs};
use crate::generate::build::{BAD, Transition, from_transitions};
use crate::generate::{self, GREATEST_JOINED, GREATEST_WEIGHT, LEAST_WEIGHT, Rng, build, model};
use crate::text::{Case, Value, write_case};

/// Random cases of each kind, beside the chosen ones.
const RANDOM: usize = 95;

/// Every `step`th of the inputs that `all` makes.
fn every<A>(step: usize, all: impl Fn(&mut dyn FnMut(A))) -> Vec<A> {
    let (mut turn, mut kept) = (0, Vec::new());
    all(&mut |a| {
        if turn % step == 0 {
            kept.push(a);
        }
        turn += 1;
    });
    kept
}

/// Inputs of `is_valid`, `is_zero` and `sum`.
pub fn reals() -> Vec<RealArgs> {
    let rng = &mut Rng::new(1);
    let mut list: Vec<RealArgs> = generate::labels::EDGES
        .iter()
        .map(|&x| RealArgs { x, xs: vec![x, x] })
        .collect();
    for xs in [
        vec![0.1, 0.2, 0.3],
        vec![0.3, 0.2, 0.1],
        vec![1e16, 1.0, 1.0],
    ] {
        list.push(RealArgs {
            x: LEAST_WEIGHT,
            xs,
        });
    }
    list.extend(every(25, generate::labels::short_reals));
    list.extend((0..RANDOM).map(|_| generate::labels::real(rng, 6)));
    list
}

/// Label lists of 256 and 257 distinct values, asked for one that is there and one that is not.
fn long_labels() -> Vec<LabelArgs> {
    let mut list = Vec::new();
    for count in [256, 257] {
        let labels: Vec<u32> = (0..258).rev().collect();
        for value in [labels[count - 1], 1_000] {
            let (labels, id) = (labels.clone(), count as u32 - 1);
            list.push(LabelArgs {
                labels,
                count,
                value,
                id,
            });
        }
    }
    list
}

/// Inputs of `intern`.
pub fn interns() -> Vec<InternArgs> {
    let rng = &mut Rng::new(2);
    let long = long_labels().into_iter().map(|a| InternArgs {
        labels: a.labels,
        count: a.count,
        value: a.value,
    });
    let mut list: Vec<InternArgs> = long.collect();
    list.extend(every(8, generate::labels::short_interns));
    list.extend((0..RANDOM).map(|_| generate::labels::intern(rng, 3)));
    list.extend([257, 258, 300, 1 << 32].map(|count| InternArgs {
        labels: vec![7, 5],
        count,
        value: 7,
    }));
    list
}

/// Inputs of `get` and `resolve`.
pub fn labels() -> Vec<LabelArgs> {
    let rng = &mut Rng::new(3);
    let mut list = long_labels();
    list.extend(every(33, generate::labels::short_labels));
    list.extend((0..RANDOM).map(|_| generate::labels::label(rng, 3)));
    list.extend([257, 258, 300, 1 << 32].map(|count| LabelArgs {
        labels: vec![7, 5],
        count,
        value: 7,
        id: 1,
    }));
    list
}

/// Transitions with this many distinct labels, in falling order of value; the first has weight 0.
fn distinct_labels(count: u32) -> BuildArgs {
    let transition = |i: u32| (0, count - i, 0, if i == 0 { 0.0 } else { 0.5 });
    let list: Vec<Transition> = (0..count).map(transition).collect();
    from_transitions(1, Some(0), &list)
}

/// With no room at all, which a smaller number is answered before.
fn without_stores(args: BuildArgs) -> BuildArgs {
    let stores = Columns::filled(0, 0, 0);
    BuildArgs { stores, ..args }
}

/// One transition of this weight between two states.
fn one_weight(weight: f64) -> BuildArgs {
    from_transitions(2, None, &[(1, 7, 0, weight)])
}

/// The figures of document 01 for `build` and its neighbours.
fn build_figures(rng: &mut Rng) -> Vec<BuildArgs> {
    let mut list: Vec<BuildArgs> = [31, 32].map(|targets| build::star(rng, targets)).into();
    list.extend([32, 32, 32, 32, 33].map(|targets| without_stores(build::star(rng, targets))));
    list.push(distinct_labels(256));
    list.push(without_stores(distinct_labels(257)));
    let few: [Transition; 3] = [(1_999, 7, 0, 0.1), (0, 5, 1_999, 0.2), (0, 5, 1_999, 0.3)];
    list.push(from_transitions(2_000, Some(1_999), &few));
    for (states, given) in [
        (2_001, 3),
        (2_001, 2),
        (3, 4_097),
        (1 << 32, 3),
        (3, 1 << 32),
    ] {
        let mut a = from_transitions(3, None, &few);
        (a.states, a.given) = (states, given);
        list.push(a);
    }
    list.extend([0.0, -0.0, LEAST_WEIGHT, GREATEST_WEIGHT].map(one_weight));
    list.extend(BAD.iter().map(|&w| one_weight(w)));
    list
}

/// Columns that are shorter than the count given: a fault that another column has is still met before 7.
fn short_columns(rng: &mut Rng) -> [BuildArgs; 3] {
    let mut source = from_transitions(1, None, &[(0, 1, 0, 1.0), (9, 1, 0, 1.0)]);
    source.weights.pop();
    let mut labels = without_stores(distinct_labels(257));
    labels.sources.clear();
    labels.targets.clear();
    labels.weights.clear();
    let mut targets = without_stores(build::star(rng, 32));
    targets.labels.clear();
    [source, labels, targets]
}

/// Inputs of `build`.
pub fn builds() -> Vec<BuildArgs> {
    let rng = &mut Rng::new(4);
    let mut list = build_figures(rng);
    list.extend(every(799, build::short_values));
    list.extend(every(799, build::short_sums));
    list.extend(every(997, build::short_lengths));
    for _ in 0..RANDOM {
        let mut size = build::small(rng);
        size.given = size.given.min(4);
        list.push(build::random(rng, size));
    }
    list.extend(short_columns(rng));
    list
}

/// Asks for a state and a label id that are there, and for the label value 5.
fn ask_inside(model: ModelArgs) -> ReadArgs {
    ReadArgs {
        model,
        s: 1,
        id: 0,
        value: 5,
    }
}

/// A model of no edges.
fn without_edges(states: usize, labels: usize, offsets: Vec<u32>) -> ModelArgs {
    ModelArgs {
        states,
        edges: 0,
        labels,
        initial: None,
        columns: Columns {
            label_values: (0..labels as u32).rev().collect(),
            offsets,
            ..Columns::filled(0, 0, 0)
        },
    }
}

/// A model whose only fault is that its offsets fall, and end as they should.
fn falling_offsets() -> ModelArgs {
    let list = [(0, 7, 1, 0.5), (0, 7, 2, 0.5), (2, 5, 0, 0.5)];
    let mut m = handed_in(&from_transitions(3, None, &list)).expect("a good model");
    m.columns.offsets = vec![0, 2, 1, 3];
    m
}

/// The figures of document 01 for a built model and its neighbours.
fn model_figures(rng: &mut Rng) -> Vec<ReadArgs> {
    let stars = [31, 31, 32, 32, 32, 32, 33].map(|targets| model::star_model(rng, targets));
    let mut list: Vec<ReadArgs> = stars.map(ask_inside).into();
    let base = from_transitions(
        2,
        Some(1),
        &[(1, 7, 0, 0.5), (0, 5, 1, 0.25), (1, 7, 1, 2.0)],
    );
    let base = handed_in(&base).expect("a good model");
    let counts = [
        (2_001, 3, 2),
        (2, 4_097, 2),
        (2, 3, 257),
        (2_001, 4_097, 257),
        (1 << 32, 3, 2),
    ];
    for (states, edges, labels) in counts {
        let mut m = base.clone();
        (m.states, m.edges, m.labels) = (states, edges, labels);
        list.push(ask_inside(m));
    }
    list.push(ask_inside(without_edges(2_000, 2, vec![0; 2_001])));
    list.push(ask_inside(without_edges(2, 256, vec![0; 3])));
    list.push(ask_inside(falling_offsets()));
    let joined = [
        LEAST_WEIGHT,
        GREATEST_JOINED,
        GREATEST_JOINED.next_up(),
        0.0,
        -0.0,
    ];
    for &weight in joined.iter().chain(BAD) {
        let mut m = base.clone();
        m.columns.edge_weights[1] = weight;
        list.push(ask_inside(m));
    }
    list
}

/// Inputs of the readers of a built model.
pub fn models() -> Vec<ReadArgs> {
    let rng = &mut Rng::new(5);
    let mut list = model_figures(rng);
    list.extend(every(1_201, model::short));
    for _ in 0..RANDOM {
        let mut size = build::small(rng);
        size.given = size.given.min(4);
        list.extend(model::random(rng, size));
    }
    list
}

/// Whether the replay takes the case: numbers of at most 33 bits, lists of at most 300 entries, offsets of 2,000
/// states apart.
fn fits(case: &Case) -> bool {
    let long = case.fields[0].value == Value::Number(2_000);
    case.fields.iter().all(|field| match &field.value {
        Value::Number(n) => *n <= 1 << 32,
        Value::Numbers(list) => list.len() <= if long { 2_001 } else { 300 },
        Value::Reals(list) => list.len() <= 300,
        _ => true,
    })
}

/// The cases of these inputs that `fits` takes.
fn lines<A: Oracle>(inputs: Vec<A>, fits: fn(&Case) -> bool) -> String {
    let cases = inputs.iter().map(Oracle::case).filter(fits);
    cases.map(|case| write_case(&case)).collect()
}

fn texts<A: Oracle>(inputs: Vec<A>) -> String {
    lines(inputs, fits)
}

/// The whole list in the text form, with the oracle's answers.
pub fn text() -> String {
    [
        texts(reals()),
        texts(interns()),
        texts(labels()),
        texts(builds()),
        texts(models()),
    ]
    .concat()
}

#[cfg(test)]
mod tests {
    use std::collections::BTreeMap;

    use super::*;
    use crate::text::read_cases;

    #[test]
    fn the_lists_survive_reading_and_writing() {
        let flows = (flow::text(), &["nodes", "edge", "flow"][..]);
        let relations = (relation::text(), &["relation", "related"][..]);
        let cards = (card::text(), &["card"][..]);
        let transports = (transport::text(), &["transport"][..]);
        let chains = (chain::text(), &["rate", "uniformise", "normalise"][..]);
        let distances = (distance::text(), &["distance"][..]);
        let bisims = (distance::of_models(), &["bisim_distance"][..]);
        let parts = [
            flows, relations, cards, transports, chains, distances, bisims,
        ];
        for (text, kinds) in parts {
            let cases = read_cases(&text).unwrap();
            assert_eq!(cases.iter().map(write_case).collect::<String>(), text);
            for kind in kinds {
                assert!(cases.iter().filter(|case| case.kind == *kind).count() >= 200);
            }
        }
    }

    #[test]
    fn the_lists_cover_every_refusal_and_stay_short() {
        let (models, flows, relations, cards) =
            (text(), flow::text(), relation::text(), card::text());
        assert!(models.len() < 320_000, "{} bytes", models.len());
        assert!(flows.len() < 640_000, "{} bytes", flows.len());
        assert!(relations.len() < 480_000, "{} bytes", relations.len());
        assert!(cards.len() < 320_000, "{} bytes", cards.len());
        let (transports, chains) = (transport::text(), chain::text());
        assert!(transports.len() < 400_000, "{} bytes", transports.len());
        assert!(chains.len() < 640_000, "{} bytes", chains.len());
        let (distances, bisims) = (distance::text(), distance::of_models());
        assert!(distances.len() < 400_000, "{} bytes", distances.len());
        assert!(bisims.len() < 400_000, "{} bytes", bisims.len());
        let mut counts: BTreeMap<(&str, u32), usize> = BTreeMap::new();
        let texts = [
            models, flows, relations, cards, transports, chains, distances, bisims,
        ];
        for case in read_cases(&texts.concat()).unwrap() {
            for field in case.fields {
                if let Value::Answer(refusal, _) = field.value {
                    *counts.entry((field.name, refusal)).or_default() += 1;
                }
            }
        }
        for &(name, row) in crate::rows::ROWS {
            let count = |r: &u32| counts.get(&(name, *r)).copied().unwrap_or(0);
            let total: usize = count(&0) + row.iter().map(count).sum::<usize>();
            assert!(total >= 200, "{name}: {total}");
            assert!(row.iter().all(|r| count(r) >= 5), "{name}: {counts:?}");
        }
    }
    /// As many of each number that a report prints, and many without one; some short stores.
    #[test]
    fn the_cards_cover_every_printed_number() {
        let mut counts: BTreeMap<Option<u32>, usize> = BTreeMap::new();
        for case in read_cases(&card::text()).unwrap() {
            let printed = crate::card::printed(&case.fields[3..]);
            *counts.entry(printed).or_default() += 1;
        }
        let count = |number: Option<u32>| counts.get(&number).copied().unwrap_or(0);
        let row = crate::rows::printed_numbers("report");
        assert!(row.iter().all(|&r| count(Some(r)) >= 5), "{counts:?}");
        assert!(count(Some(0)) >= 40 && count(None) >= 5, "{counts:?}");
        assert_eq!(counts.len(), row.len() + 2, "{counts:?}");
    }
}
