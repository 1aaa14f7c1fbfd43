//! Chains on which `transport` meets its cap of rounds, so that a part of the mass is left out of their distance.

use super::distance::lent;
use crate::args::{DistanceArgs, Options};
use crate::bisim_metric::kantorovich::Chain;

pub const LINES: usize = 9;
/// States of a line: three for each power of 2, and two for each line.
pub const LENGTH: usize = 5 * LINES;
pub const GAMMA: f64 = 0.99;

/// What state s of line i shows before it is scaled. Line i of the left chain and line j of the right one differ by
/// 2^max(i, j) in all, but for a part that is the same for all of them, and by far more where i = j.
fn shown(left: bool, i: usize, s: usize) -> f64 {
    if s < 3 * LINES {
        let k = s / 3;
        let seen = i >= k && [true, left, !left][s % 3];
        return f64::from(u8::from(seen)) * 2f64.powi(k as i32 - LINES as i32 - 1);
    }
    f64::from(u8::from((i == s % LINES) == left))
}

/// State 0 goes to the first state of each line by these masses, and each line to a last state that stays.
pub fn chain(left: bool, masses: &[f64]) -> Chain {
    let total: f64 = masses.iter().sum();
    let last = 1 + LINES * LENGTH;
    let first = |i: usize| 1 + i * LENGTH;
    let mut rows = vec![(0..LINES).map(|i| (first(i), masses[i] / total)).collect()];
    let mut observation = vec![0.0];
    for i in 0..LINES {
        for s in 0..LENGTH {
            let next = if s + 1 < LENGTH {
                first(i) + s + 1
            } else {
                last
            };
            rows.push(vec![(next, 1.0)]);
            observation.push(GAMMA.powi((LENGTH - 1 - s) as i32) * shown(left, i, s));
        }
    }
    rows.push(vec![(last, 1.0)]);
    observation.push(0.0);
    Chain {
        rows,
        observation,
        initial: 0,
    }
}

/// The two chains.
pub fn chains() -> (Chain, Chain) {
    let a = chain(true, &[1.0, 3.0, 5.0, 10.0, 20.0, 40.0, 80.0, 160.0, 320.0]);
    let b = chain(
        false,
        &[2.0, 2.0, 5.0, 10.0, 20.0, 40.0, 80.0, 160.0, 320.0],
    );
    (a, b)
}

/// As they are handed in.
pub fn pair(tolerance: f64, top: usize) -> DistanceArgs {
    let (a, b) = chains();
    let options = Options {
        gamma: GAMMA,
        tolerance,
        max_rounds: 200,
        top,
    };
    lent(&a, &b, options)
}
