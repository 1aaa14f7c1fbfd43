//! The sixth part of the fixed list: rates, models made chains, observations scaled. Each limit, six copies changed in
//! each way, some of the short inputs, random ones.

use super::{every, lines};
use crate::answers::handed_in;
use crate::args::{NormaliseArgs, RateArgs, UniformiseArgs};
use crate::generate::normalise::{self, at_the_allowance, good_pair, still};
use crate::generate::rate::{
    self, BAD_OBSERVATIONS, BAD_RATES, GOOD_OBSERVATIONS, GREATEST_RATE, at_the_margin,
    good_intact, lent,
};
use crate::generate::relation::{self, fan, without_edges};
use crate::generate::{LEAST_WEIGHT, Rng, misfits};
use crate::text::{Case, Value};

/// Cases of each way to change an input.
const TURNS: usize = 6;
/// Random cases.
const RANDOM: usize = 40;

/// Inputs of `common_rate`.
pub fn rates() -> Vec<RateArgs> {
    let rng = &mut Rng::new(21);
    let still = |states| without_edges(states);
    let mut list = vec![RateArgs {
        left: still(0),
        right: still(2),
    }];
    for _ in 0..TURNS {
        for (numbers, _, change) in misfits::FAULTS {
            if numbers[0] > 6 || numbers[0] == 0 {
                continue;
            }
            let mut a = relation::good_intact(rng);
            change(rng, &mut a);
            let (left, right) = (a.left, a.right);
            list.push(RateArgs { left, right });
        }
    }
    list.extend(every(67, rate::short_rates));
    for _ in 0..RANDOM {
        let a = relation::good(rng);
        let (left, right) = (a.left, a.right);
        list.push(RateArgs { left, right });
    }
    list
}

/// Two states, one left at a rate of 3, at this rate and with this observation.
fn one_step(rate: f64, seen: f64) -> UniformiseArgs {
    let model = handed_in(&fan(&[3.0])).expect("a good model");
    lent(model, rate, vec![seen, 0.5])
}

/// Inputs of `uniformise`.
pub fn chains() -> Vec<UniformiseArgs> {
    let rng = &mut Rng::new(22);
    let mut list: Vec<UniformiseArgs> = (0..20).map(at_the_margin).collect();
    let good = [LEAST_WEIGHT, GREATEST_RATE, 3.0, 3.0f64.next_up(), 2.0];
    list.extend(good.iter().chain(BAD_RATES).map(|&q| one_step(q, 0.5)));
    let seen = GOOD_OBSERVATIONS.iter().chain(BAD_OBSERVATIONS);
    list.extend(seen.map(|&x| one_step(3.0, x)));
    list.push(lent(without_edges(0), 1.0, vec![]));
    for _ in 0..TURNS {
        for (_, _, change) in rate::FAULTS {
            let mut a = good_intact(rng);
            change(rng, &mut a);
            list.push(a);
        }
        for (_, change) in rate::HARMLESS {
            let mut a = good_intact(rng);
            change(rng, &mut a);
            list.push(a);
        }
    }
    list.extend(every(131, rate::short_chains));
    list.extend(every(23, rate::short_lengths));
    list.extend((0..RANDOM).map(|_| rate::random(rng)));
    list
}

/// Inputs of `normalise`.
pub fn pairs() -> Vec<NormaliseArgs> {
    let rng = &mut Rng::new(23);
    let two = |x: f64| NormaliseArgs {
        left: still(&[0.5, x]),
        right: still(&[x, 2.0]),
    };
    let seen = GOOD_OBSERVATIONS.iter().chain(BAD_OBSERVATIONS);
    let mut list: Vec<NormaliseArgs> = seen.map(|&x| two(x)).collect();
    for _ in 0..TURNS {
        for (_, _, change) in normalise::FAULTS {
            let mut a = good_pair(rng);
            change(rng, &mut a.left);
            list.push(a);
        }
        for (_, change) in normalise::HARMLESS {
            let mut a = good_pair(rng);
            change(rng, &mut a.right);
            list.push(a);
        }
        let mut a = good_pair(rng);
        at_the_allowance(rng, &mut a.left);
        list.push(a);
    }
    list.extend(every(97, normalise::short_observations));
    list.extend(every(2_999, normalise::short_chains));
    list.extend((0..RANDOM).map(|_| normalise::random(rng)));
    list
}

/// Whether the replay takes the case: numbers of at most 33 bits, lists of at most 80 entries.
fn fits(case: &Case) -> bool {
    case.fields.iter().all(|field| match &field.value {
        Value::Number(n) => *n <= 1 << 32,
        Value::Numbers(list) => list.len() <= 80,
        Value::Reals(list) => list.len() <= 80,
        _ => true,
    })
}

/// The whole list in the text form, with the oracle's answers.
pub fn text() -> String {
    [
        lines(rates(), fits),
        lines(chains(), fits),
        lines(pairs(), fits),
    ]
    .concat()
}
