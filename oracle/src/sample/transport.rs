//! The fifth part of the fixed list: transports. Masses and costs at their limits, runs that meet the cap of rounds, each
//! clause of 7, 15 and 16, some of the short inputs, random ones.

use super::{every, lines};
use crate::args::TransportArgs;
use crate::generate::transport::{
    FAULTS, HARMLESS, good, lent, limits, many_rounds, random, short, small, totals_apart,
};
use crate::generate::{GREATEST_WEIGHT, Rng};
use crate::text::{Case, Value};

/// Cases of each way to change an input.
const TURNS: usize = 4;
/// Random cases.
const RANDOM: usize = 80;

/// Three masses against two.
fn base() -> TransportArgs {
    let costs = vec![0.5, 2.0, 1.0, 1.0, 3.0, 0.25];
    lent(vec![0.25, 0.5, 0.25], vec![0.625, 0.375], costs)
}

/// Inputs at the limits: of masses, of costs, of sizes, of the totals.
fn figures() -> Vec<TransportArgs> {
    let rng = &mut Rng::new(9);
    let one = |a: f64, b: f64, cost: f64| lent(vec![a], vec![b], vec![cost]);
    let mut list = vec![base(), lent(vec![], vec![], vec![])];
    list.extend(limits().into_iter().map(|x| one(x, x, 1.0)));
    list.extend(limits().into_iter().map(|x| one(0.5, 0.5, x)));
    for x in [1e-9, 1e-9f64.next_up()] {
        list.push(lent(vec![], vec![x], vec![]));
        list.push(lent(vec![x], vec![], vec![]));
        list.push(one(GREATEST_WEIGHT, GREATEST_WEIGHT * (1.0 - x), 1.0));
        list.push(one(1.0, 1.0 + x, 1.0));
        list.push(one(1.0, 1.0 - x, 1.0));
    }
    for (m, n) in [(32, 1), (33, 1), (1, 33), (8, 8), (9, 8), (8, 9)] {
        list.push(good(rng, m, n));
    }
    list.push(good(rng, 32, 32));
    for n in [8, 9, 10] {
        list.extend([false, true].map(|corner| many_rounds(n, corner)));
    }
    list
}

/// Inputs on which a run breaks off with mass left, up to 12 cells.
fn broken_off() -> Vec<TransportArgs> {
    let rng = &mut Rng::new(11);
    let inputs = (0..20_000).map(|_| small(rng));
    let short = inputs.filter(|t| t.a.len() * t.b.len() <= 12);
    short.filter(|t| t.left_over() > 1.0).take(8).collect()
}

/// Inputs of `transport`.
pub fn transports() -> Vec<TransportArgs> {
    let rng = &mut Rng::new(10);
    let mut list = figures();
    for _ in 0..TURNS {
        for (_, change) in FAULTS.iter().chain(HARMLESS) {
            let mut t = base();
            change(rng, &mut t);
            list.push(t);
        }
        let mut t = base();
        totals_apart(rng, &mut t);
        list.push(t);
    }
    list.extend(broken_off());
    list.extend(every(499, short));
    list.extend((0..RANDOM).map(|_| {
        let t = small(rng);
        random(rng, t)
    }));
    list
}

/// Whether the replay takes the case: at most 100 entries of a list, but for the largest that is accepted.
fn fits(case: &Case) -> bool {
    let most = match &case.fields[0].value {
        Value::Reals(a) if a.len() == 32 => 1_024,
        _ => 100,
    };
    case.fields.iter().all(|field| match &field.value {
        Value::Numbers(list) => list.len() <= most,
        Value::Reals(list) => list.len() <= most,
        _ => true,
    })
}

/// The whole list in the text form, with the oracle's answers.
pub fn text() -> String {
    lines(transports(), fits)
}
