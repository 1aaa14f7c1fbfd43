//! The seventh and eighth parts of the fixed list: distances of chains, and of models. The figures of document 01, options at each limit, four
//! copies changed in each way, some of the short inputs, random ones.

use super::{every, lines};
use crate::args::{BisimArgs, DistanceArgs, Options};
use crate::generate::distance::{
    self, BAD_GAMMAS, BAD_SEEN, TOLERANCES, alone, last_gamma, many_pairs, slow, usual, wide,
};
use crate::generate::normalise::{self, at_the_allowance};
use crate::generate::{GREATEST_WEIGHT, Rng, bisim, rate};
use crate::text::{Case, Value};

/// Cases of each way to change an input.
const TURNS: usize = 4;
/// Random cases.
const RANDOM: usize = 40;

/// M5, at this discount, tolerance and number of rounds.
fn figure(gamma: f64, tolerance: f64, max_rounds: usize) -> DistanceArgs {
    let options = Options {
        gamma,
        tolerance,
        max_rounds,
        top: 10,
    };
    alone([0.0, 1.0], false, options)
}

/// M1, M5 and M7 with their neighbours, and each limit of the options.
fn figures() -> Vec<DistanceArgs> {
    let mut list = vec![figure(0.5, 1e-6, 200), figure(0.5, 1e-6, 0)];
    list.extend(BAD_GAMMAS.iter().map(|&gamma| figure(gamma, 1e-6, 200)));
    list.extend([5e-324, 0.75, 0.99].map(|gamma| figure(gamma, 1e-6, 200)));
    list.extend(
        TOLERANCES
            .iter()
            .map(|&tolerance| figure(0.5, tolerance, 3)),
    );
    for (max_rounds, top) in [
        (10_000, 64),
        (10_001, 64),
        (10_000, 65),
        (1 << 32, 0),
        (0, 1 << 32),
    ] {
        let mut a = figure(0.5, 1e-6, max_rounds);
        a.options.top = top;
        list.push(a);
    }
    for &x in [0.0, -0.0, 1.0].iter().chain(BAD_SEEN) {
        list.push(alone([0.5, x], false, usual(0.5)));
    }
    list
}

/// Pair 4,096 and pair 4,097, and runs of 1,000,000 rounds, of which one more would have been needed.
fn edges(rng: &mut Rng) -> Vec<DistanceArgs> {
    let mut list: Vec<DistanceArgs> = [4_096, 4_097].map(|n| many_pairs(rng, n)).into();
    let last = last_gamma();
    for gamma in [last, last.next_up(), 1.0 - 1e-6, 1.0 - 1e-7] {
        list.push(slow(rng, gamma, false));
        list.push(slow(rng, gamma, false));
    }
    list.push(slow(rng, 1.0f64.next_down(), false));
    list
}

/// Inputs of `distance`.
pub fn distances() -> Vec<DistanceArgs> {
    let rng = &mut Rng::new(31);
    let mut list = figures();
    list.extend(edges(rng));
    for _ in 0..TURNS {
        for (_, _, change) in normalise::FAULTS {
            let mut a = distance::good(rng);
            change(rng, &mut a.left);
            list.push(a);
        }
        for (_, _, change) in distance::FAULTS {
            let mut a = distance::good(rng);
            change(rng, &mut a);
            list.push(a);
        }
        for (_, change) in distance::HARMLESS {
            let mut a = distance::good(rng);
            change(rng, &mut a);
            list.push(a);
        }
        let mut a = distance::good(rng);
        at_the_allowance(rng, &mut a.right);
        list.push(a);
        list.push(wide(rng));
    }
    list.extend(every(97, distance::short_runs));
    list.extend(every(67, distance::short_lengths));
    list.extend((0..RANDOM).map(|_| distance::random(rng)));
    list
}

/// Two states that don't move, at these observations and options.
fn still(x: f64, options: Options) -> BisimArgs {
    bisim::still([&[0.5, x], &[x, 2.0]], options)
}

/// Inputs of `bisim_distance`.
pub fn bisims() -> Vec<BisimArgs> {
    let rng = &mut Rng::new(32);
    let seen = rate::GOOD_OBSERVATIONS.iter().chain(rate::BAD_OBSERVATIONS);
    let mut list: Vec<BisimArgs> = seen.map(|&x| still(x, usual(0.5))).collect();
    let gammas = BAD_GAMMAS
        .iter()
        .map(|&gamma| still(GREATEST_WEIGHT, usual(gamma)));
    list.extend(gammas);
    list.extend([4_096, 4_097, 4_097, 4_098].map(|n| bisim::many_pairs(rng, n)));
    let last = last_gamma();
    for gamma in [last, last.next_up(), 1.0 - 1e-6, 1.0 - 1e-7] {
        list.push(bisim::slow(rng, gamma));
        list.push(bisim::slow(rng, gamma));
    }
    for _ in 0..TURNS {
        for (_, _, change) in bisim::side_faults() {
            let mut a = bisim::good_intact(rng);
            bisim::change_side(rng, &mut a, *change);
            list.push(a);
        }
        for (_, _, change) in bisim::model_faults() {
            let mut a = bisim::good_intact(rng);
            bisim::change_models(rng, &mut a, *change);
            list.push(a);
        }
        for (_, _, change) in bisim::FAULTS {
            let mut a = bisim::good(rng);
            change(rng, &mut a);
            list.push(a);
        }
        for (_, change) in bisim::HARMLESS {
            let mut a = bisim::good(rng);
            change(rng, &mut a);
            list.push(a);
        }
        list.push(bisim::wide(rng));
    }
    list.extend(every(17, bisim::short_runs));
    list.extend(every(61, bisim::short_lengths));
    list.extend((0..RANDOM).map(|_| bisim::random(rng)));
    list
}

/// Whether the replay takes the case: numbers of at most 33 bits, lists of at most 80 entries, rooms of at most 4,200, those of the
/// chains inside of at most 200.
fn fits(case: &Case) -> bool {
    let within = |rooms: &[u64]| {
        let most = if rooms.len() == 4 { 200 } else { 4_200 };
        rooms.iter().all(|&n| n <= most)
    };
    case.fields.iter().all(|field| match &field.value {
        Value::Number(n) => *n <= 1 << 32,
        Value::Numbers(list) if field.name == "rooms" => within(list),
        Value::Numbers(list) => list.len() <= 80,
        Value::Reals(list) => list.len() <= 80,
        _ => true,
    })
}

/// The distances of chains in the text form, with the oracle's answers.
pub fn text() -> String {
    lines(distances(), fits)
}

/// Those of models.
pub fn of_models() -> String {
    lines(bisims(), fits)
}
