//! The third part of the fixed list: relations. Figures of document 01, faults of each number, some of the short inputs,
//! lines along which strikes go on, random ones.

use super::{every, lines};
use crate::answers::{Oracle, handed_in};
use crate::args::{BuildArgs, RelatedArgs, RelationArgs};
use crate::generate::build::{Transition, from_transitions};
use crate::generate::lines::cascade;
use crate::generate::misfits::{FAULTS, HARMLESS};
use crate::generate::related::{asked, asked_at, short_asked};
use crate::generate::relation::{self, bare, between, fan, number_classes, of_models};
use crate::generate::{Rng, model};
use crate::text::{Case, Value};

/// Cases of each way to change the arguments.
const TURNS: usize = 5;
/// Random cases of each kind.
const RANDOM: usize = 90;
/// The longest relation that is listed with all its bytes filled.
const LISTED: usize = 512;

/// The fans with each state in a class of its own, at these tolerances.
fn fans(left: &[f64], right: &[f64], epsilon: f64, rho: f64) -> RelationArgs {
    let mut a = between(&fan(left), &fan(right));
    number_classes(&mut a);
    RelationArgs { epsilon, rho, ..a }
}

/// A state with edges to itself and to so many others, beside a state that leads on to one.
fn star(rng: &mut Rng, targets: usize) -> RelationArgs {
    let right = handed_in(&fan(&[3.0])).expect("a good model");
    let a = of_models(model::star_model(rng, targets), right);
    RelationArgs { rho: 64.0, ..a }
}

/// The figures of document 01 and their neighbours.
fn figures() -> Vec<RelationArgs> {
    let rng = &mut Rng::new(9);
    let two = [
        2.0f64.next_down(),
        2.0,
        2.0f64.next_up(),
        1.5,
        1.0,
        1_048_576.0,
    ];
    let mut list: Vec<RelationArgs> = two.map(|rho| fans(&[2.0], &[4.0], 0.0, rho)).into();
    let quarter = [
        0.25 - 1e-9,
        0.25 - 1.1e-9,
        0.25,
        0.2,
        0.0,
        -0.0,
        1.0,
        2.0,
        f64::MAX,
    ];
    list.extend(quarter.map(|epsilon| fans(&[3.0, 1.0], &[2.0, 2.0], epsilon, 1.0)));
    let third = 1.0 / 3.0;
    list.extend([third, third - 1e-9].map(|epsilon| fans(&[2.0, 1.0], &[1.0, 2.0], epsilon, 1.0)));
    list.push(fans(&[], &[], 0.0, 1.0));
    list.push(between(&fan(&[0.1, 0.2, 0.3]), &fan(&[0.3, 0.2, 0.1])));
    list.extend([31, 32, 32, 33].map(|targets| star(rng, targets)));
    let full = [0.5; 31];
    list.push(between(&fan(&full), &fan(&full)));
    let empty = from_transitions(0, None, &[]);
    list.push(between(&empty, &empty));
    list.push(between(&empty, &fan(&[1.0])));
    list.push(between(&fan(&[1.0]), &empty));
    list.push(several_labels());
    list.extend((1..7).flat_map(|n| [cascade(rng, n), cascade(rng, n), cascade(rng, n)]));
    list.extend([(2_001, 2_001), (2_001, 2_000)].map(|(total, room)| bare(rng, total, room)));
    list.extend(as_the_sweep_began());
    list
}

/// Tells testing against the relation as it was when the sweep began apart: of a pair whose flow is at the limit, the
/// flow over more pairs is added otherwise. That strikes a pair too many in the first two, one too few in the third.
pub fn as_the_sweep_began() -> [RelationArgs; 3] {
    let line = |last: &[Transition]| {
        let on = [(1, 7, 0, 1.0), (2, 7, 1, 1.0)];
        from_transitions(4, Some(3), &[&on[..], last].concat())
    };
    let left = line(&[(3, 7, 0, 0.3), (3, 7, 1, 0.6), (3, 7, 2, 0.3)]);
    let lines = between(&left, &line(&[(3, 7, 1, 0.3), (3, 7, 2, 0.1)]));
    let few = [
        (0, 7, 1, 0.8),
        (2, 7, 1, 0.3),
        (2, 7, 3, 0.1),
        (3, 7, 0, 0.2),
        (3, 7, 1, 0.7),
        (3, 7, 2, 0.3),
    ];
    let few = between(&from_transitions(4, Some(3), &few), &fan(&[]));
    let kept = [
        (0, 7, 3, 1.0),
        (2, 7, 0, 0.9),
        (2, 7, 1, 0.7),
        (2, 7, 3, 0.1),
        (2, 7, 5, 0.6),
        (3, 7, 1, 1.0),
        (4, 7, 0, 0.1),
        (4, 7, 1, 0.7),
        (4, 7, 5, 0.1),
        (5, 7, 0, 1.0),
    ];
    let kept = between(&from_transitions(6, Some(5), &kept), &fan(&[]));
    let at = |a, epsilon| RelationArgs {
        epsilon,
        rho: 1_048_576.0,
        ..a
    };
    [
        at(lines, 0.249999999),
        at(few, 0.16666666566666663),
        at(kept, 0.4734299506908212),
    ]
}

/// Several labels to the same target, whose weights are added in the order of label ids; loops only; nothing.
fn several_labels() -> RelationArgs {
    let model = |last: f64| -> BuildArgs {
        let own = [(1, 5, 1, 2.0), (1, 7, 1, 0.5)];
        let others = [
            (0, 9, 1, 0.1),
            (0, 3, 1, 0.2),
            (0, 5, 1, 0.3),
            (0, 9, 2, last),
        ];
        from_transitions(3, Some(0), &[&others[..], &own[..]].concat())
    };
    between(&model(0.6), &model(0.6000000000000001))
}

/// Arguments of few states that every change can be made in.
fn base() -> RelationArgs {
    let left = [
        (0, 7, 1, 0.75),
        (0, 5, 2, 0.1),
        (1, 7, 0, 0.3),
        (2, 7, 2, 1.0),
    ];
    let right = [(0, 7, 1, 0.7), (1, 7, 0, 0.4)];
    let mut a = between(
        &from_transitions(3, Some(1), &left),
        &from_transitions(2, Some(0), &right),
    );
    (a.epsilon, a.rho) = (0.125, 2.0);
    a
}

/// Keeps the first bytes of a long relation and makes the others zero.
fn shortly(mut a: RelationArgs) -> RelationArgs {
    if a.relation.len() > LISTED {
        a.relation[8..].fill(0);
    }
    a
}

/// Inputs of `epsdelta`, `epsdelta_bisimilar` and `min_epsilon`.
pub fn relations() -> Vec<RelationArgs> {
    let rng = &mut Rng::new(10);
    let mut list = figures();
    for _ in 0..TURNS {
        let faults = FAULTS.iter().map(|fault| fault.2);
        for change in faults.chain(HARMLESS.iter().map(|harmless| harmless.1)) {
            let mut a = base();
            change(rng, &mut a);
            list.push(a);
        }
    }
    list.extend(every(61, relation::short));
    list.extend(every(61, relation::short_fans));
    for _ in 0..RANDOM {
        let a = relation::good(rng);
        list.push(relation::random(rng, a));
    }
    list.into_iter().map(shortly).collect()
}

/// Inputs of `related`.
pub fn askings() -> Vec<RelatedArgs> {
    let rng = &mut Rng::new(11);
    let limits = [
        (1_000, 2_000, 2_000),
        (1_999, 2_000, 2_000),
        (1, 2_001, 2_001),
        (2, 2_001, 2_001),
        (1_000, 2_001, 2_001),
        (1_001, 2_001, 2_001),
        (2_000, 2_001, 2_001),
        (2_000, 2_001, 2_000),
    ];
    let mut list: Vec<RelatedArgs> = limits
        .map(|(left, total, room)| {
            let mut a = asked_at(rng, left, total, room);
            a.relation[200..].fill(0);
            (a.s, a.t) = (0, a.t % 4);
            a
        })
        .into();
    list.extend(every(37, short_asked));
    list.extend((0..2 * RANDOM).map(|_| asked(rng)));
    list
}

/// Whether the replay takes the case: numbers of at most 33 bits; lists of at most 300 entries, offsets and classes of
/// 2,001, relations of [`LISTED`].
fn fits(case: &Case) -> bool {
    case.fields.iter().all(|field| match &field.value {
        Value::Number(n) => *n <= 1 << 32,
        Value::Numbers(list) => {
            let long = field.name == "offsets" || field.name.ends_with("classes");
            list.len() <= if long { 2_001 } else { 300 }
        }
        Value::Bytes(list) => list.len() <= LISTED,
        Value::Reals(list) => list.len() <= 300,
        _ => true,
    })
}

fn texts<A: Oracle>(inputs: Vec<A>) -> String {
    lines(inputs, fits)
}

/// The whole list in the text form, with the oracle's answers.
pub fn text() -> String {
    [texts(relations()), texts(askings())].concat()
}
