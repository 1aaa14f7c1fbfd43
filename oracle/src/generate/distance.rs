//! Inputs of `distance`: chains of few states, point masses, rows of up to 32 entries, copies with few changes, options of all
//! kinds, runs of 1,000,000 rounds on few pairs, and a fault for each number.

use super::capped;
use super::metric::{chain, masses};
use super::normalise::{self, intact, listed, still};
use super::{Rng, all_digits, place};
use crate::args::{ChainArgs, DistanceArgs, Options, Rooms};
use crate::bisim_metric::kantorovich::{Chain, MAX_OCCUPANCY_ROUNDS};
use crate::refusals::{couplings, discovered};

/// Discounts that are refused.
pub const BAD_GAMMAS: &[f64] = &[
    0.0,
    -0.0,
    1.0,
    1.0f64.next_up(),
    -5e-324,
    -0.5,
    2.0,
    f64::INFINITY,
    f64::NEG_INFINITY,
    f64::NAN,
];

/// Tolerances: all are accepted, those that are NaN or below 1e-12 as 1e-12.
pub const TOLERANCES: &[f64] = &[
    1e-6,
    1e-6,
    1e-9,
    1e-12,
    1e-12f64.next_down(),
    1e-12f64.next_up(),
    1e-3,
    0.5,
    0.0,
    -0.0,
    -1.0,
    5e-324,
    f64::MAX,
    f64::INFINITY,
    f64::NEG_INFINITY,
    f64::NAN,
];

/// Observations that `distance` refuses.
pub const BAD_SEEN: &[f64] = &[
    1.0f64.next_up(),
    -5e-324,
    -1.0,
    2.0,
    f64::INFINITY,
    f64::NEG_INFINITY,
    f64::NAN,
];

/// What is lent where so many couplings are stored.
pub fn rooms(cells: usize) -> Rooms {
    Rooms {
        lefts: 4_096,
        rights: 4_096,
        index: 4_096,
        places: cells,
        masses: cells,
        records: 64,
    }
}

/// As many couplings as the chains need; a few where they have too many pairs.
pub fn needed(left: &Chain, right: &Chain) -> usize {
    discovered(left, right).map_or(9, |pairs| couplings(left, right, &pairs))
}

/// The chains with these options, and just as much lent as they need.
pub fn lent(left: &Chain, right: &Chain, options: Options) -> DistanceArgs {
    DistanceArgs {
        rooms: rooms(needed(left, right)),
        left: listed(left),
        right: listed(right),
        options,
    }
}

/// Options of a usual run.
pub fn usual(gamma: f64) -> Options {
    Options {
        gamma,
        tolerance: 1e-6,
        max_rounds: 200,
        top: 10,
    }
}

/// Options that are accepted and end soon.
pub fn options(rng: &mut Rng) -> Options {
    const GAMMAS: [f64; 12] = [
        0.5,
        0.5,
        0.9,
        0.8,
        0.25,
        0.7,
        0.95,
        1e-3,
        1e-300,
        5e-324,
        0.5f64.next_up(),
        0.3,
    ];
    Options {
        gamma: match rng.below(3) {
            0 => 0.05 + 0.85 * rng.unit(),
            _ => rng.pick(&GAMMAS),
        },
        tolerance: match rng.below(3) {
            0 => 1e-6,
            _ => rng.pick(TOLERANCES),
        },
        max_rounds: rng.pick(&[0, 1, 1, 2, 3, 200, 200, 10_000]),
        top: rng.pick(&[0, 1, 2, 3, 10, 10, 63, 64]),
    }
}

/// States in a line of point masses, the last of which leads back to `back`.
pub fn line(rng: &mut Rng, states: usize, back: usize) -> Chain {
    let next = |s: usize| if s + 1 < states { s + 1 } else { back };
    Chain {
        rows: (0..states).map(|s| vec![(next(s), 1.0)]).collect(),
        observation: (0..states).map(|_| rng.unit()).collect(),
        initial: 0,
    }
}

/// State 0 leads to so many others, which stay, or to itself where there are none.
pub fn fan(rng: &mut Rng, targets: usize) -> Chain {
    let row: Vec<f64> = match rng.once_in(3) {
        true => vec![1.0 / targets as f64; targets],
        false => masses(rng, targets),
    };
    let mut rows = vec![(1..).zip(row).collect::<Vec<(usize, f64)>>()];
    rows.extend((1..=targets).map(|s| vec![(s, 1.0)]));
    Chain {
        observation: (0..=targets).map(|_| rng.unit()).collect(),
        rows,
        initial: 0,
    }
}

/// A queue: a case comes or goes, or neither; its observation is how many there are.
fn queue(rng: &mut Rng, places: usize) -> Chain {
    let come = rng.pick(&[0.25, 0.5, 0.3, 0.1]);
    let row = |n: usize| -> Vec<(usize, f64)> {
        match n {
            0 => vec![(0, 1.0 - come), (1, come)],
            _ if n == places => vec![(n - 1, 0.5), (n, 0.5)],
            _ => vec![(n - 1, 0.25), (n, 0.75 - come), (n + 1, come)],
        }
    };
    Chain {
        rows: (0..=places).map(row).collect(),
        observation: (0..=places).map(|n| n as f64 / places as f64).collect(),
        initial: rng.below(places + 1),
    }
}

/// Rows of halves and quarters, so that many costs are equal.
fn dyadic(rng: &mut Rng, states: usize) -> Chain {
    let row = |rng: &mut Rng| -> Vec<(usize, f64)> {
        let parts: &[f64] = match rng.below(4) {
            0 => &[1.0],
            1 => &[0.5, 0.5],
            2 => &[0.25, 0.75],
            _ => &[0.25, 0.5, 0.25],
        };
        let parts = &parts[..parts.len().min(states)];
        let first = rng.below(states - parts.len() + 1);
        let mut row: Vec<(usize, f64)> = (first..).zip(parts.iter().copied()).collect();
        let rest: f64 = row[1..].iter().map(|entry| entry.1).sum();
        row[0].1 = 1.0 - rest;
        row
    };
    Chain {
        rows: (0..states).map(|_| row(rng)).collect(),
        observation: (0..states).map(|_| rng.below(3) as f64 / 2.0).collect(),
        initial: rng.below(states),
    }
}

/// A chain of few states, of some kind.
fn few(rng: &mut Rng) -> Chain {
    let states = 1 + rng.below(4);
    match rng.below(8) {
        0 => {
            let states = 1 + rng.below(9);
            let back = rng.below(states);
            line(rng, states, back)
        }
        1 => {
            let targets = 1 + rng.below(5);
            fan(rng, targets)
        }
        2 => {
            let places = 1 + rng.below(4);
            queue(rng, places)
        }
        3 | 4 => dyadic(rng, states),
        _ => chain(rng, states, 4),
    }
}

/// A copy with an observation or a row changed slightly, which begins elsewhere at times.
fn copy(rng: &mut Rng, c: &Chain) -> Chain {
    let mut c = c.clone();
    let s = rng.below(c.rows.len());
    match rng.below(3) {
        0 => c.observation[s] = rng.unit(),
        1 => {
            let length = c.rows[s].len();
            let masses = masses(rng, length);
            let row = c.rows[s].iter_mut().zip(masses);
            row.for_each(|(entry, p)| entry.1 = p);
        }
        _ => {}
    }
    if rng.once_in(3) {
        c.initial = rng.below(c.rows.len());
    }
    c
}

/// A fan of equal masses to states of which many look the same, and a state that stays: equal contributions.
fn twins(rng: &mut Rng) -> (Chain, Chain) {
    let targets = 2 + rng.below(4);
    let mut left = fan(rng, targets);
    for entry in &mut left.rows[0] {
        entry.1 = 1.0 / targets as f64;
    }
    left.observation.fill_with(|| rng.pick(&[0.25, 0.75, 1.0]));
    let right = line(rng, 1, 0);
    match rng.once_in(2) {
        true => (left, right),
        false => (right, left),
    }
}

/// Two chains of few states, often alike.
fn two(rng: &mut Rng) -> (Chain, Chain) {
    let left = few(rng);
    let right = match rng.below(3) {
        0 => copy(rng, &left),
        _ => few(rng),
    };
    (left, right)
}

/// Arguments that are accepted and run shortly.
pub fn good(rng: &mut Rng) -> DistanceArgs {
    let (mut left, mut right) = match rng.below(8) {
        0 => twins(rng),
        _ => two(rng),
    };
    if rng.once_in(6) {
        let kinds = rng.pick(&[1, 2, 3]);
        for c in [&mut left, &mut right] {
            c.observation
                .fill_with(|| rng.pick(&[0.0, 1.0, -0.0][..kinds]));
        }
    }
    let options = options(rng);
    lent(&left, &right, options)
}

/// Fans of up to 32 targets a side, or one beside a chain of few states with rows of up to 32 entries.
pub fn wide(rng: &mut Rng) -> DistanceArgs {
    let targets = 1 + rng.below(32);
    let left = fan(rng, targets);
    let right = match rng.below(3) {
        0 => few(rng),
        _ => {
            let others = rng.pick(&[1, 2, 7, 31, 32]);
            fan(rng, others)
        }
    };
    let (left, right) = match rng.once_in(2) {
        true => (left, right),
        false => (right, left),
    };
    let options = options(rng);
    lent(&left, &right, options)
}

/// Lines of point masses with so many pairs: a cycle of 63 and one of 65, after a tail.
pub fn many_pairs(rng: &mut Rng, pairs: usize) -> DistanceArgs {
    let tail = pairs - 63 * 65;
    let (left, right) = (line(rng, tail + 63, tail), line(rng, 65, 0));
    let mut a = lent(
        &left,
        &right,
        Options {
            max_rounds: rng.pick(&[0, 1]),
            ..usual(rng.pick(&[0.5, 0.25]))
        },
    );
    if rng.once_in(2) {
        std::mem::swap(&mut a.left, &mut a.right);
    }
    a
}

/// Two chains of so many states each, of which each state leads to two: all pairs are met where the counts are 64.
pub fn square(rng: &mut Rng, states: [usize; 2]) -> DistanceArgs {
    let ring = |rng: &mut Rng, n: usize| Chain {
        rows: (0..n)
            .map(|s| {
                let p = rng.pick(&[0.5, 0.25, 0.3]);
                match s + 1 < n {
                    true => vec![(s, p), (s + 1, 1.0 - p)],
                    false => vec![(0, p), (s, 1.0 - p)],
                }
            })
            .collect(),
        observation: (0..n).map(|_| rng.unit()).collect(),
        initial: rng.below(n),
    };
    let (left, right) = (ring(rng, states[0]), ring(rng, states[1]));
    let options = Options {
        tolerance: 1e-3,
        max_rounds: 2,
        ..usual(0.5)
    };
    lent(&left, &right, options)
}

/// One state a side, or two that take turns, with these observations.
pub fn alone(seen: [f64; 2], turns: bool, options: Options) -> DistanceArgs {
    let one = |x: f64| Chain {
        rows: match turns {
            true => vec![vec![(1, 1.0)], vec![(0, 1.0)]],
            false => vec![vec![(0, 1.0)]],
        },
        observation: vec![x; 1 + usize::from(turns)],
        initial: 0,
    };
    lent(&one(seen[0]), &one(seen[1]), options)
}

/// Whether a mass that stays is down to 1e-12 after at most so many rounds.
fn ends(gamma: f64, rounds: usize) -> bool {
    let mut mass = 1.0 - gamma;
    for _ in 0..rounds {
        if mass <= 1e-12 {
            break;
        }
        mass *= gamma;
    }
    mass <= 1e-12
}

/// The greatest discount, of those at which there is a first round, that ends within 1,000,000 rounds.
pub fn last_gamma() -> f64 {
    let (mut low, mut high) = ((1.0 - 1e-4f64).to_bits(), (1.0 - 1e-6f64).to_bits());
    while high - low > 1 {
        let middle = low + (high - low) / 2;
        match ends(f64::from_bits(middle), MAX_OCCUPANCY_ROUNDS) {
            true => low = middle,
            false => high = middle,
        }
    }
    f64::from_bits(low)
}

/// The discounts at which the mass is not down after 1,000,000 rounds, and their neighbours at which it is: those nearer to 1
/// than 1e-12 have no round at all.
pub fn slow_gammas() -> [f64; 8] {
    let last = last_gamma();
    let first: f64 = 1.0 - 1e-12;
    let none = if 1.0 - first > 1e-12 {
        first.next_up()
    } else {
        first
    };
    [
        last,
        last.next_up(),
        last.next_down(),
        1.0 - 1e-6,
        1.0 - 1e-9,
        none,
        none.next_down(),
        1.0f64.next_down(),
    ]
}

/// Runs whose occupancy takes about 1,000,000 rounds, or none; their evaluation takes one sweep, or as many where `whole`.
pub fn slow(rng: &mut Rng, gamma: f64, whole: bool) -> DistanceArgs {
    let options = Options {
        gamma,
        tolerance: rng.pick(&[1e6, f64::INFINITY]),
        max_rounds: rng.pick(&[0, 1]),
        top: 64,
    };
    let options = match whole {
        true => Options {
            tolerance: 1e-6,
            max_rounds: 1,
            ..options
        },
        false => options,
    };
    let seen = rng.pick(&[[0.0, 1.0], [0.25, 0.5], [1.0, 1.0]]);
    alone(seen, rng.once_in(3), options)
}

/// Evaluations of many sweeps: the discount is near 1, and there are few pairs.
pub fn long(rng: &mut Rng) -> DistanceArgs {
    let states = 1 + rng.below(2);
    let left = chain(rng, states, 2);
    let right = copy(rng, &left);
    let options = Options {
        gamma: rng.pick(&[0.999, 0.99, 0.995]),
        tolerance: rng.pick(&[1e-6, 1e-3, 1e-9]),
        ..options(rng)
    };
    lent(&left, &right, options)
}

/// A way to change the arguments.
pub type Change = fn(&mut Rng, &mut DistanceArgs);

fn side<'a>(rng: &mut Rng, a: &'a mut DistanceArgs) -> &'a mut ChainArgs {
    if rng.once_in(2) {
        &mut a.left
    } else {
        &mut a.right
    }
}

/// One entry too few, or more.
fn short(rng: &mut Rng, room: &mut usize, needed: usize) {
    *room = match rng.once_in(3) {
        true => rng.below(needed),
        false => needed - 1,
    }
}

/// Changes after which accepted arguments are refused; those of chains are in [`normalise::FAULTS`].
pub const FAULTS: &[(u32, &str, Change)] = &[
    (7, "lefts short", |rng, a| {
        short(rng, &mut a.rooms.lefts, 4_096)
    }),
    (7, "rights short", |rng, a| {
        short(rng, &mut a.rooms.rights, 4_096)
    }),
    (7, "index short", |rng, a| {
        short(rng, &mut a.rooms.index, 4_096)
    }),
    (7, "records short", |rng, a| {
        short(rng, &mut a.rooms.records, 64)
    }),
    (11, "discount", |rng, a| {
        a.options.gamma = rng.pick(BAD_GAMMAS)
    }),
    (12, "observation outside 0 to 1", |rng, a| {
        let c = side(rng, a);
        let s = place(rng, c.states);
        c.lists.observations[s] = rng.pick(BAD_SEEN)
    }),
    (14, "top", |rng, a| {
        a.options.top = rng.pick(&[65, 66, 1 << 32, usize::MAX])
    }),
    (14, "rounds", |rng, a| {
        a.options.max_rounds = rng.pick(&[10_001, 10_002, 1 << 32, usize::MAX])
    }),
    (17, "pair 4,097", |rng, a| {
        let pairs = 4_097 + rng.below(3);
        let options = a.options;
        *a = many_pairs(rng, pairs);
        a.options = options
    }),
    (18, "places short", |rng, a| {
        let cells = needed(&a.left.chain(), &a.right.chain());
        short(rng, &mut a.rooms.places, cells)
    }),
    (18, "masses short", |rng, a| {
        let cells = needed(&a.left.chain(), &a.right.chain());
        short(rng, &mut a.rooms.masses, cells)
    }),
];

/// Changes that leave accepted arguments accepted.
pub const HARMLESS: &[(&str, Change)] = &[
    ("room", |rng, a| {
        let r = &mut a.rooms;
        for room in [&mut r.lefts, &mut r.rights, &mut r.index] {
            *room += rng.below(3);
        }
        for room in [&mut r.places, &mut r.masses, &mut r.records] {
            *room += rng.below(3);
        }
    }),
    ("lists longer", |rng, a| {
        let l = &mut side(rng, a).lists;
        l.offsets.extend(vec![62; rng.below(3)]);
        l.targets.extend(vec![u32::MAX; rng.below(3)]);
        l.probabilities.extend(vec![-0.0; rng.below(3)]);
        l.observations.extend(vec![f64::NAN; rng.below(3)]);
    }),
    ("observation at a limit", |rng, a| {
        let c = side(rng, a);
        let s = place(rng, c.states);
        c.lists.observations[s] = rng.pick(&[0.0, -0.0, 1.0])
    }),
    ("limits of the options", |_, a| {
        a.options.top = 64;
        a.options.max_rounds = 10_000
    }),
];

/// Good or damaged: up to two faults, of the chains or others, and a harmless change in three.
pub fn random(rng: &mut Rng) -> DistanceArgs {
    let mut a = good(rng);
    if rng.once_in(3) {
        rng.pick(HARMLESS).1(rng, &mut a);
    }
    for _ in 0..rng.pick(&[0, 0, 0, 1, 1, 2]) {
        let whole = intact(&a.left) && intact(&a.right);
        match rng.once_in(2) {
            true if whole => {
                let c = side(rng, &mut a);
                rng.pick(normalise::FAULTS).2(rng, c)
            }
            // what is stored depends on the chains, which the other changes may have damaged
            _ => rng.pick(&FAULTS[..4]).2(rng, &mut a),
        }
    }
    a
}

/// All pairs of chains of two states over few rows and observations, at two discounts.
pub fn short_runs(f: &mut dyn FnMut(DistanceArgs)) {
    const ROWS: [&[(usize, f64)]; 5] = [
        &[(0, 1.0)],
        &[(1, 1.0)],
        &[(0, 0.5), (1, 0.5)],
        &[(0, 0.25), (1, 0.75)],
        &[(0, 0.9), (1, 0.1)],
    ];
    let one = |d: &[usize]| Chain {
        rows: vec![ROWS[d[0]].to_vec(), ROWS[d[1]].to_vec()],
        observation: vec![0.0, [1.0, 0.25][d[2]]],
        initial: 0,
    };
    let mut turn = 0;
    all_digits(&[5, 5, 2, 5, 5, 2], &mut |d| {
        turn += 1;
        let gamma = if turn % 2 == 0 { 0.5 } else { 0.9 };
        f(lent(&one(&d[..3]), &one(&d[3..]), usual(gamma)));
    });
}

/// Every list one short, just long enough, or longer, beside every kind of options.
pub fn short_lengths(f: &mut dyn FnMut(DistanceArgs)) {
    let rng = &mut Rng::new(3);
    let (left, right) = (dyadic(rng, 3), dyadic(rng, 3));
    let base = lent(&left, &right, usual(0.5));
    all_digits(&[3; 6], &mut |d| {
        let mut a = base.clone();
        let r = &mut a.rooms;
        let places = [
            &mut r.lefts,
            &mut r.rights,
            &mut r.index,
            &mut r.places,
            &mut r.masses,
            &mut r.records,
        ];
        for (room, more) in places.into_iter().zip(d) {
            *room = *room + more - 1;
        }
        f(a);
    });
}

/// Everything that `distance` is compared on.
pub fn distances(rng: &mut Rng, scale: usize, f: &mut dyn FnMut(DistanceArgs)) {
    short_runs(f);
    short_lengths(f);
    for (_, _, change) in normalise::FAULTS {
        for _ in 0..20 * scale {
            let mut a = good(rng);
            let c = side(rng, &mut a);
            change(rng, c);
            f(a);
        }
    }
    for (_, _, change) in FAULTS {
        for _ in 0..210 * scale {
            let mut a = good(rng);
            change(rng, &mut a);
            f(a);
        }
    }
    for i in 0..8_000 * scale {
        f(match i % 40 {
            0 => wide(rng),
            1 => long(rng),
            _ => random(rng),
        });
    }
    for i in 0..8 * scale {
        f(many_pairs(rng, 4_096));
        f(square(rng, [64, 64 + i % 2]));
    }
    edges(rng, scale, f);
}

/// Runs about 1,000,000 rounds or sweeps.
fn edges(rng: &mut Rng, scale: usize, f: &mut dyn FnMut(DistanceArgs)) {
    let gammas = slow_gammas();
    for i in 0..64 * scale {
        f(slow(rng, gammas[i % 8], false));
    }
    // 1,000,000 sweeps, then no round of the occupancy
    (0..4 * scale).for_each(|_| f(slow(rng, gammas[5], true)));
    // mass that is left out at the cap of rounds of `transport`
    for (tolerance, top) in [(1e-12, 0), (1e-3, 64)] {
        f(capped::pair(tolerance, top));
    }
    // 2,000 states that stay
    f(DistanceArgs {
        left: still(&[0.5; 2_000]),
        right: still(&[0.25; 2_000]),
        options: usual(0.5),
        rooms: rooms(1),
    });
}

#[cfg(test)]
mod tests {
    use super::*;
    use crate::answers::Oracle;
    use crate::bisim_metric::kantorovich::{MetricError, distance};
    use crate::rows::{ROWS, floor, floors};
    use crate::text::Value;
    use std::collections::BTreeMap;

    fn refused(a: &DistanceArgs) -> u32 {
        a.reply().err().unwrap_or(0)
    }

    #[test]
    fn every_fault_is_refused_and_nothing_harmless_is() {
        let rng = &mut Rng::new(1);
        for _ in 0..100 {
            let base = good(rng);
            assert_eq!(refused(&base), 0, "{base:?}");
            for (number, name, change) in FAULTS {
                let mut a = base.clone();
                change(rng, &mut a);
                assert_eq!(refused(&a), *number, "{name}: {a:?}");
            }
            for (number, name, change) in normalise::FAULTS {
                let mut a = base.clone();
                let c = side(rng, &mut a);
                change(rng, c);
                assert_eq!(refused(&a), *number, "{name}: {a:?}");
            }
            for (name, change) in HARMLESS {
                let mut a = base.clone();
                change(rng, &mut a);
                assert_eq!(refused(&a), 0, "{name}: {a:?}");
            }
        }
    }

    #[test]
    fn the_rust_stops_at_pair_4097_too() {
        let rng = &mut Rng::new(2);
        for (pairs, number) in [(4_096, 0), (4_097, 17)] {
            let a = many_pairs(rng, pairs);
            assert_eq!(refused(&a), number);
            let reply = distance(&a.left.chain(), &a.right.chain(), 0.5, a.options.rust());
            let stopped = matches!(reply, Err(MetricError::TooManyPairs(4_096)));
            assert_eq!(stopped, number == 17);
            if let Ok(d) = reply {
                assert_eq!(d.pairs_explored, pairs);
            }
        }
        assert_eq!(refused(&square(rng, [64, 64])), 0);
        assert_eq!(refused(&square(rng, [64, 65])), 17);
    }

    #[test]
    fn the_occupancy_ends_or_does_not() {
        let rng = &mut Rng::new(3);
        let numbers = slow_gammas().map(|gamma| refused(&slow(rng, gamma, false)));
        assert_eq!(numbers, [0, 19, 0, 19, 19, 0, 19, 0]);
    }

    /// Many contributions are equal, and stay in the order in which their pairs were found.
    #[test]
    fn contributions_are_equal_at_times() {
        let rng = &mut Rng::new(4);
        let (mut equal, mut several) = (0, 0);
        for _ in 0..1_000 {
            let Ok(d) = good(rng).reply() else { continue };
            let shares: Vec<f64> = d.pairs.iter().map(|p| p.contribution).collect();
            several += usize::from(d.rounds > 1);
            equal += usize::from(shares.windows(2).any(|pair| pair[0] == pair[1]));
        }
        assert!(equal >= 50 && several >= 100, "{equal} {several}");
    }

    /// No totals that differ: a row that passes 13, scaled to another's total, has that total but for rounding.
    #[test]
    fn sixteen_is_not_met() {
        let rng = &mut Rng::new(5);
        for _ in 0..2_000 {
            let mut a = wide(rng);
            normalise::at_the_allowance(rng, &mut a.left);
            normalise::at_the_allowance(rng, &mut a.right);
            a.options.max_rounds = 1;
            let number = refused(&a);
            assert!(number == 0 || number == 13, "{number}");
        }
    }

    #[test]
    fn floors_are_reached() {
        let mut counts: BTreeMap<u32, u64> = BTreeMap::new();
        distances(&mut Rng::new(1), 1, &mut |a| {
            let Value::Answer(refusal, _) = a.oracle().remove(0).value else {
                panic!("no answer");
            };
            *counts.entry(refusal).or_default() += 1;
        });
        let row = ROWS.iter().find(|row| row.0 == "distance").expect("a row");
        let numbers: Vec<u32> = [&[0], row.1].concat();
        assert_eq!(counts.keys().copied().collect::<Vec<_>>(), numbers);
        let low = |(number, n): (&u32, &u64)| *n < floor("distance", *number);
        assert!(!counts.iter().any(low), "{counts:?}");
        assert!(
            counts.values().sum::<u64>() >= floors("distance").0,
            "{counts:?}"
        );
    }
}
