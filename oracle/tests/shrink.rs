//! The shrinker on deliberate differences: one answer of the oracle is damaged where something holds of the input, and the
//! smallest input of which it holds must come out.

use oracle::answers::Oracle;
use oracle::args::Leaves;
use oracle::generate::{Rng, bisim, build, card, distance, model, network, relation, transport};
use oracle::pairs::alike;
use oracle::shrink::least;
use oracle::text::{Field, Value};

/// The second side: the oracle's answers, the first with another refusal number where `wrong` says so.
fn damaged<C: Oracle>(case: &C, wrong: &dyn Fn(&C, &[Field]) -> bool) -> Vec<Field> {
    let mut fields = case.oracle();
    if wrong(case, &fields)
        && let Value::Answer(refusal, _) = &mut fields[0].value
    {
        *refusal += 90;
    }
    fields
}

/// The smallest input on which the oracle and the damaged side differ.
fn smallest<C: Oracle + Leaves>(case: &C, wrong: &dyn Fn(&C, &[Field]) -> bool) -> C {
    let mut differs = |case: &C| !alike(&case.oracle(), &damaged(case, wrong));
    assert!(differs(case), "the damage is not met");
    let small = least(case, &mut differs);
    assert!(differs(&small));
    small
}

/// The first input of a run that is damaged.
fn first<C: Oracle>(
    mut make: impl FnMut(&mut Rng) -> C,
    wrong: &dyn Fn(&C, &[Field]) -> bool,
) -> C {
    let rng = &mut Rng::new(3);
    let met = (0..20_000).map(|_| make(rng));
    let mut met = met.filter(|case| wrong(case, &case.oracle()));
    met.next().expect("an input that is damaged")
}

fn accepted(fields: &[Field]) -> bool {
    matches!(fields[0].value, Value::Answer(0, _))
}

#[test]
fn transitions_that_are_joined() {
    let wrong = |a: &oracle::args::BuildArgs, fields: &[Field]| {
        let Value::Answer(0, counts) = &fields[0].value else {
            return false;
        };
        counts[0] != Value::Number(a.given as u64)
    };
    let size = build::Size {
        states: 30,
        given: 150,
        labels: 4,
        targets: 3,
    };
    let case = first(|rng| build::random(rng, size), &wrong);
    let a = smallest(&case, &wrong);
    // a transition of weight 0 is left out
    assert_eq!((a.states, a.given, a.initial.unwrap_or(0)), (1, 1, 0));
    assert_eq!(
        (a.sources, a.labels, a.targets),
        (vec![0], vec![0], vec![0])
    );
    assert_eq!(a.weights, [0.0]);
}

#[test]
fn a_state_with_two_targets() {
    let wrong = |a: &oracle::args::RelationArgs, fields: &[Field]| {
        let two = |w: &[u32]| w[1] == w[0] + 2;
        accepted(fields) && a.left.columns.offsets[..=a.left.states].windows(2).any(two)
    };
    let case = first(relation::good, &wrong);
    let a = smallest(&case, &wrong);
    assert_eq!((a.left.edges, a.right.edges), (2, 0), "{a:?}");
    // two targets, or two labels and one target
    assert!(a.left.states <= 2 && a.right.states <= 1, "{a:?}");
    assert_eq!(a.left.columns.edge_weights, [1.0, 1.0]);
    assert_eq!((a.epsilon, a.rho), (0.0, 1.0));
    assert_eq!(a.relation.len(), 1);
}

#[test]
fn a_card_with_a_transition_and_a_pair() {
    let wrong = |a: &oracle::args::CardArgs, fields: &[Field]| {
        let mut lines = a.card.split_inclusive(|&b| b == b'\n');
        let printed =
            matches!(&fields[0].value, Value::Answer(0, v) if matches!(v[0], Value::Number(20..)));
        printed && lines.any(|line| line.len() == 25)
    };
    let sheet = |rng: &mut Rng| {
        let card = card::sheet(rng, 8, 20).bytes();
        card::lent(rng, &card)
    };
    let a = smallest(&first(sheet, &wrong), &wrong);
    let side = |transitions: &[[usize; 4]]| card::Side::new(0, &[0], transitions);
    let (one, none) = (side(&[[0; 4]]), side(&[]));
    let of = |left: &card::Side, right: &card::Side| card::Sheet {
        left: left.clone(),
        right: right.clone(),
        epsilon: 0,
        rho: 1_024,
    };
    let expected = [of(&one, &none).bytes(), of(&none, &one).bytes()];
    let text = String::from_utf8_lossy(&a.card);
    assert!(expected.contains(&a.card), "{text}");
}

#[test]
fn a_readers_state_of_two_edges() {
    let wrong = |_: &oracle::args::ReadArgs, fields: &[Field]| {
        let Value::Answer(0, ends) = &fields[5].value else {
            return false;
        };
        matches!(ends[..], [Value::Number(from), Value::Number(to)] if to > from + 1)
    };
    let case = first(
        |rng| loop {
            let size = build::small(rng);
            if let Some(a) = model::random(rng, size) {
                return a;
            }
        },
        &wrong,
    );
    let a = smallest(&case, &wrong);
    assert_eq!(a.model.edges, 2, "{a:?}");
    assert!(a.model.states <= 2, "{a:?}");
}

#[test]
fn a_flow_in_two_pushes() {
    let wrong = |_: &oracle::args::FlowArgs, fields: &[Field]| matches!(&fields[0].value, Value::Answer(0, v) if matches!(v[2], Value::Number(2..)));
    let case = first(network::good, &wrong);
    let a = smallest(&case, &wrong);
    assert!(a.network.nodes <= 3 && a.network.count <= 8, "{a:?}");
}

#[test]
fn a_plan_of_two_cells() {
    let wrong = |_: &oracle::args::TransportArgs, fields: &[Field]| matches!(&fields[0].value, Value::Answer(0, v) if matches!(v[1], Value::Number(2..)));
    let case = first(transport::small, &wrong);
    let a = smallest(&case, &wrong);
    assert_eq!(a.a.len() + a.b.len(), 3);
    assert!(a.costs.iter().all(|&cost| cost == 0.0));
}

#[test]
fn distances_of_two_pairs() {
    let two = |fields: &[Field]| matches!(&fields[0].value, Value::Answer(0, v) if matches!(v[3], Value::Number(2..)));
    let case = first(distance::good, &|_, fields| two(fields));
    let a = smallest(&case, &|_, fields| two(fields));
    assert!(a.left.states + a.right.states <= 4, "{a:?}");
    let case = first(bisim::good, &|_, fields| two(fields));
    let a = smallest(&case, &|_, fields| two(fields));
    assert!(a.left.model.states + a.right.model.states <= 4, "{a:?}");
}
