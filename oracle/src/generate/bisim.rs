//! Inputs of `bisim_distance`: models of few states and their copies, observations of many kinds, the options of `distance`, and a
//! fault for each number.

use super::build::{self, Size, Transition, from_transitions};
use super::distance::{self, BAD_GAMMAS, needed, rooms, usual};
use super::metric::pair;
use super::model::star_model;
use super::rate::{self, observations};
use super::relation::{of_models, without_edges};
use super::{Rng, all_digits, misfits};
use crate::answers::handed_in;
use crate::args::{
    BisimArgs, BisimSide, BuildArgs, ChainLists, ChainRooms, ModelArgs, Options, UniformiseArgs,
};

/// A model with an initial state, with just as much lent for its chain as it needs.
pub fn side(mut model: ModelArgs, state: usize, observations: Vec<f64>) -> BisimSide {
    model.initial = model.initial.or(Some(0));
    let (states, entries) = (model.states, model.edges + model.states);
    BisimSide {
        model,
        state: state as u32,
        observations,
        rooms: ChainRooms {
            offsets: states + 1,
            targets: entries,
            probabilities: entries,
            observations: states,
        },
    }
}

/// The sides with these options, and just as much lent as they need.
pub fn lent(left: BisimSide, right: BisimSide, options: Options) -> BisimArgs {
    let mut a = BisimArgs {
        left,
        right,
        options,
        rooms: rooms(9),
    };
    let (left, right) = a.chains();
    a.rooms = rooms(needed(&left, &right));
    a
}

/// A model of few states that `build` takes, its weights of any size, about 1, or of few values.
fn few(rng: &mut Rng) -> BuildArgs {
    let size = Size {
        states: 1 + rng.below(4),
        given: rng.below(9),
        labels: 1 + rng.below(3),
        targets: 1 + rng.below(4),
    };
    let mut args = build::good(rng, size);
    match rng.below(3) {
        0 => args.weights.fill_with(|| rng.unit() + 0.1),
        1 => args.weights.fill_with(|| rng.pick(&[1.0, 2.0, 0.5, 0.0])),
        _ => {}
    }
    args
}

/// The model with a state and observations.
fn seen(rng: &mut Rng, args: &BuildArgs) -> BisimSide {
    let model = handed_in(args).expect("a good model");
    let state = rng.below(model.states);
    let observations = observations(rng, model.states);
    side(model, state, observations)
}

/// Arguments that are accepted and run shortly.
pub fn good(rng: &mut Rng) -> BisimArgs {
    let (left, right) = match rng.below(3) {
        0 => {
            let size = Size {
                states: 1 + rng.below(4),
                given: 1 + rng.below(8),
                labels: 2,
                targets: 3,
            };
            pair(rng, size)
        }
        _ => (few(rng), few(rng)),
    };
    let (mut left, mut right) = (seen(rng, &left), seen(rng, &right));
    if rng.once_in(5) {
        // few observations, or one, so that contributions are equal or none
        let kinds = rng.pick(&[1, 2, 3]);
        let x = rng.pick(rate::GOOD_OBSERVATIONS);
        let other = rng.pick(rate::GOOD_OBSERVATIONS);
        for s in [&mut left, &mut right] {
            let some = [x, other, 0.5];
            s.observations.fill_with(|| rng.pick(&some[..kinds]));
        }
    }
    let options = distance::options(rng);
    lent(left, right, options)
}

/// Stars of up to 31 targets a side.
pub fn wide(rng: &mut Rng) -> BisimArgs {
    let mut star = |targets: usize| {
        let model = star_model(rng, targets);
        let hub = model.initial.unwrap_or(0) as usize;
        let observations = observations(rng, model.states);
        side(model, hub, observations)
    };
    let (left, right) = (star(31), star(7));
    let options = distance::options(rng);
    lent(left, right, options)
}

/// A line of states that are left at rate 1, the last of which leads back.
fn line(rng: &mut Rng, states: usize, back: usize) -> BisimSide {
    let next = |s: usize| if s + 1 < states { s + 1 } else { back };
    let step = |s: usize| (s as u32, 7, next(s) as u32, 1.0);
    let list: Vec<Transition> = (0..states).map(step).collect();
    let model = handed_in(&from_transitions(states, Some(0), &list)).expect("a good model");
    let observations = observations(rng, states);
    side(model, 0, observations)
}

/// Lines with so many pairs: a cycle of 63 and one of 65, after a tail.
pub fn many_pairs(rng: &mut Rng, pairs: usize) -> BisimArgs {
    let tail = pairs - 63 * 65;
    let (left, right) = (line(rng, tail + 63, tail), line(rng, 65, 0));
    let options = Options {
        max_rounds: rng.pick(&[0, 1]),
        ..usual(0.5)
    };
    lent(left, right, options)
}

/// Models of so many states that don't move.
pub fn still(seen: [&[f64]; 2], options: Options) -> BisimArgs {
    let [left, right] = seen.map(|x| side(without_edges(x.len()), 0, x.to_vec()));
    lent(left, right, options)
}

/// Runs whose occupancy takes about 1,000,000 rounds, or none.
pub fn slow(rng: &mut Rng, gamma: f64) -> BisimArgs {
    let options = Options {
        gamma,
        tolerance: rng.pick(&[1e6, f64::INFINITY]),
        max_rounds: rng.pick(&[0, 1]),
        top: 64,
    };
    let seen: [[f64; 2]; 3] = [[0.0, 1.0], [-2.0, 2f64.powi(40)], [1.0, 1.0]];
    let [x, y] = rng.pick(&seen);
    still([&[x], &[y]], options)
}

/// A way to change the arguments.
pub type Change = fn(&mut Rng, &mut BisimArgs);

fn one<'a>(rng: &mut Rng, a: &'a mut BisimArgs) -> &'a mut BisimSide {
    if rng.once_in(2) {
        &mut a.left
    } else {
        &mut a.right
    }
}

/// One entry too few, or more.
fn short(rng: &mut Rng, room: &mut usize, needed: usize) {
    *room = match rng.once_in(3) {
        true => rng.below(needed),
        false => needed - 1,
    }
}

/// Changes after which accepted arguments are refused; [`change_side`] and [`change_models`] make those of models.
pub const FAULTS: &[(u32, &str, Change)] = &[
    (4, "state", |rng, a| {
        let side = one(rng, a);
        side.state = rng.pick(&[side.model.states as u32, u32::MAX])
    }),
    (7, "lefts short", |rng, a| {
        short(rng, &mut a.rooms.lefts, 4_096)
    }),
    (7, "rights short", |rng, a| {
        short(rng, &mut a.rooms.rights, 4_096)
    }),
    (7, "index short", |rng, a| {
        short(rng, &mut a.rooms.index, 4_096)
    }),
    (7, "records short", |rng, a| {
        short(rng, &mut a.rooms.records, 64)
    }),
    (8, "no initial state", |rng, a| {
        one(rng, a).model.initial = None
    }),
    (11, "discount", |rng, a| {
        a.options.gamma = rng.pick(BAD_GAMMAS)
    }),
    (14, "top", |rng, a| {
        a.options.top = rng.pick(&[65, 66, 1 << 32, usize::MAX])
    }),
    (14, "rounds", |rng, a| {
        a.options.max_rounds = rng.pick(&[10_001, 10_002, 1 << 32, usize::MAX])
    }),
    (17, "pair 4,097", |rng, a| {
        let pairs = 4_097 + rng.below(3);
        let options = a.options;
        *a = many_pairs(rng, pairs);
        a.options = options
    }),
    (18, "places short", |rng, a| {
        let (left, right) = a.chains();
        short(rng, &mut a.rooms.places, needed(&left, &right))
    }),
    (18, "masses short", |rng, a| {
        let (left, right) = a.chains();
        short(rng, &mut a.rooms.masses, needed(&left, &right))
    }),
];

/// Changes that leave accepted arguments accepted.
pub const HARMLESS: &[(&str, Change)] = &[
    ("room", |rng, a| {
        let r = &mut a.rooms;
        for room in [&mut r.lefts, &mut r.rights, &mut r.index] {
            *room += rng.below(3);
        }
        for room in [&mut r.places, &mut r.masses, &mut r.records] {
            *room += rng.below(3);
        }
    }),
    ("room of a chain", |rng, a| {
        let r = &mut one(rng, a).rooms;
        let lists = [&mut r.offsets, &mut r.targets];
        for room in lists.into_iter().chain([&mut r.probabilities]) {
            *room += rng.below(3);
        }
        r.observations += rng.below(3)
    }),
    ("more observations", |rng, a| {
        one(rng, a).observations.push(f64::NAN)
    }),
    ("initial state elsewhere", |rng, a| {
        let side = one(rng, a);
        side.model.initial = Some(rng.below(side.model.states) as u32)
    }),
    ("limits of the options", |_, a| {
        a.options.top = 64;
        a.options.max_rounds = 10_000
    }),
];

/// A change that `uniformise` has, on one side.
pub fn change_side(rng: &mut Rng, a: &mut BisimArgs, change: rate::Change) {
    let side = one(rng, a);
    let rooms = side.rooms;
    let mut u = UniformiseArgs {
        model: side.model.clone(),
        rate: 1.0,
        observations: side.observations.clone(),
        chain: ChainLists::filled(rooms.offsets, rooms.targets, rooms.observations),
    };
    change(rng, &mut u);
    side.model = u.model;
    side.observations = u.observations;
    side.rooms = ChainRooms {
        offsets: u.chain.offsets.len(),
        targets: u.chain.targets.len(),
        probabilities: u.chain.probabilities.len(),
        observations: u.chain.observations.len(),
    };
}

/// The changes of [`change_side`] after which arguments with an edge on each side are refused.
pub fn side_faults() -> impl Iterator<Item = &'static (u32, &'static str, rate::Change)> {
    rate::FAULTS.iter().filter(|fault| fault.0 != 11)
}

/// A change that the relation has, of its models.
pub fn change_models(rng: &mut Rng, a: &mut BisimArgs, change: misfits::Change) {
    let mut r = of_models(a.left.model.clone(), a.right.model.clone());
    change(rng, &mut r);
    (a.left.model, a.right.model) = (r.left, r.right);
}

/// The changes of [`change_models`] after which arguments with an edge on each side are refused.
pub fn model_faults() -> impl Iterator<Item = &'static ([u32; 3], &'static str, misfits::Change)> {
    misfits::FAULTS
        .iter()
        .filter(|fault| (3..=6).contains(&fault.0[0]))
}

/// True where every change can be made.
fn intact(a: &BisimArgs) -> bool {
    let models = [&a.left.model, &a.right.model];
    let seen = |side: &BisimSide| side.observations.len() >= side.model.states;
    models.iter().all(|m| m.states < 1_000) && seen(&a.left) && seen(&a.right) && {
        let [left, right] = models.map(Clone::clone);
        misfits::intact(&of_models(left, right))
    }
}

/// Accepted arguments in which every change can be made.
pub fn good_intact(rng: &mut Rng) -> BisimArgs {
    loop {
        let a = good(rng);
        if intact(&a) {
            return a;
        }
    }
}

/// Good or damaged: a change in three that is harmless, up to two faults.
pub fn random(rng: &mut Rng) -> BisimArgs {
    let mut a = good(rng);
    if rng.once_in(3) {
        rng.pick(HARMLESS).1(rng, &mut a);
    }
    for _ in 0..rng.pick(&[0, 0, 0, 1, 1, 2]) {
        let whole = intact(&a);
        match rng.below(3) {
            0 if whole => {
                let faults: Vec<_> = side_faults().collect();
                let change = rng.pick(&faults).2;
                change_side(rng, &mut a, change)
            }
            1 if whole => {
                let faults: Vec<_> = model_faults().collect();
                let change = rng.pick(&faults).2;
                change_models(rng, &mut a, change)
            }
            // what is stored depends on the models, which the other changes may have damaged
            _ => rng.pick(&FAULTS[..6]).2(rng, &mut a),
        }
    }
    a
}

/// All pairs of models of two states over few weights, with observations one of which is scaled by the other model's.
pub fn short_runs(f: &mut dyn FnMut(BisimArgs)) {
    const WEIGHTS: [f64; 4] = [0.0, 1.0, 3.0, 0.25];
    let one = |d: &[usize], top: f64| {
        let list = [(0, 7, 1, WEIGHTS[d[0]]), (1, 5, 0, WEIGHTS[d[1]])];
        let model = handed_in(&from_transitions(2, Some(0), &list)).expect("a good model");
        side(model, 0, vec![0.0, top])
    };
    let mut turn = 0;
    all_digits(&[4, 4, 4, 4, 2], &mut |d| {
        turn += 1;
        let gamma = if turn % 2 == 0 { 0.5 } else { 0.9 };
        let (left, right) = (one(&d[..2], 1.0), one(&d[2..], [2.0, 3.0][d[4]]));
        f(lent(left, right, usual(gamma)));
    });
}

/// Every list lent for the chains one short, just long enough, or longer.
pub fn short_lengths(f: &mut dyn FnMut(BisimArgs)) {
    let rng = &mut Rng::new(4);
    let base = many_pairs(rng, 63 * 65).left;
    let small = || side(without_edges(2), 1, vec![0.5, 1.0]);
    all_digits(&[3, 3, 3, 3, 2, 2], &mut |d| {
        let mut a = lent(base.clone(), small(), usual(0.5));
        let side = match d[4] {
            0 => &mut a.left,
            _ => &mut a.right,
        };
        let r = &mut side.rooms;
        let lists = [
            &mut r.offsets,
            &mut r.targets,
            &mut r.probabilities,
            &mut r.observations,
        ];
        for (room, more) in lists.into_iter().zip(d) {
            *room = *room + more - 1;
        }
        if d[5] == 1 {
            side.observations.pop();
        }
        f(a);
    });
}

/// Everything that `bisim_distance` is compared on.
pub fn distances(rng: &mut Rng, scale: usize, f: &mut dyn FnMut(BisimArgs)) {
    short_runs(f);
    short_lengths(f);
    for (_, _, change) in side_faults() {
        for _ in 0..150 * scale {
            let mut a = good_intact(rng);
            change_side(rng, &mut a, *change);
            f(a);
        }
    }
    for (_, _, change) in model_faults() {
        for _ in 0..30 * scale {
            let mut a = good_intact(rng);
            change_models(rng, &mut a, *change);
            f(a);
        }
    }
    for (_, _, change) in FAULTS {
        for _ in 0..210 * scale {
            let mut a = good(rng);
            change(rng, &mut a);
            f(a);
        }
    }
    for i in 0..8_000 * scale {
        f(match i % 80 {
            0 => wide(rng),
            _ => random(rng),
        });
    }
    for _ in 0..8 * scale {
        f(many_pairs(rng, 4_096));
    }
    let gammas = distance::slow_gammas();
    for i in 0..64 * scale {
        f(slow(rng, gammas[i % 8]));
    }
    // 2,000 and 2,000 states: 10 concerns relations only
    f(still([&[0.5; 2_000], &[0.25; 2_000]], usual(0.5)));
    f(still([&[0.5; 2_001], &[0.25]], usual(0.5)));
}

#[cfg(test)]
mod tests {
    use super::*;
    use crate::answers::{Oracle, from_columns};
    use crate::bisim_metric::kantorovich::{Chain, common_rate, distance, normalise, uniformise};
    use crate::rows::{ROWS, floor, floors};
    use crate::text::Value;
    use std::collections::BTreeMap;

    fn refused(a: &BisimArgs) -> u32 {
        a.reply().err().unwrap_or(0)
    }

    #[test]
    fn every_fault_is_refused_and_nothing_harmless_is() {
        let rng = &mut Rng::new(1);
        for _ in 0..60 {
            let base = good_intact(rng);
            assert_eq!(refused(&base), 0, "{base:?}");
            for (number, name, change) in FAULTS {
                let mut a = base.clone();
                change(rng, &mut a);
                assert_eq!(refused(&a), *number, "{name}: {a:?}");
            }
            for (number, name, change) in side_faults() {
                let mut a = base.clone();
                change_side(rng, &mut a, *change);
                assert_eq!(refused(&a), *number, "{name}: {a:?}");
            }
            for (numbers, name, change) in model_faults() {
                let mut a = base.clone();
                change_models(rng, &mut a, *change);
                assert_eq!(refused(&a), numbers[0], "{name}: {a:?}");
            }
            for (name, change) in HARMLESS {
                let mut a = base.clone();
                change(rng, &mut a);
                assert_eq!(refused(&a), 0, "{name}: {a:?}");
            }
        }
    }

    #[test]
    fn pair_4097_and_2000_states() {
        let rng = &mut Rng::new(2);
        assert_eq!(refused(&many_pairs(rng, 4_096)), 0);
        assert_eq!(refused(&many_pairs(rng, 4_097)), 17);
        assert_eq!(refused(&still([&[0.5; 2_000]; 2], usual(0.5))), 0);
        assert_eq!(refused(&still([&[0.5; 2_001], &[0.5]], usual(0.5))), 3);
    }

    /// The distance where each side's observations are scaled by themselves, which is a plausible error.
    fn scaled_alone(a: &BisimArgs) -> f64 {
        let [left, right] = [&a.left, &a.right].map(|side| from_columns(&side.model));
        let rate = common_rate(&left, &right);
        let alone = |mut c: Chain, state: u32| {
            c.initial = state as usize;
            normalise(&mut c.clone(), &mut c);
            c
        };
        let left = alone(uniformise(&left, rate, a.left.observe()), a.left.state);
        let right = alone(uniformise(&right, rate, a.right.observe()), a.right.state);
        let reply = distance(&left, &right, a.options.gamma, a.options.rust());
        reply.expect("accepted").value
    }

    #[test]
    fn scaling_each_side_by_itself_is_told_apart() {
        let mut differ = 0;
        short_runs(&mut |a| {
            let value = a.reply().expect("accepted").value;
            differ += usize::from(value != scaled_alone(&a));
        });
        assert!(differ >= 200, "{differ}");
    }

    #[test]
    fn floors_are_reached() {
        let mut counts: BTreeMap<u32, u64> = BTreeMap::new();
        distances(&mut Rng::new(1), 1, &mut |a| {
            let Value::Answer(refusal, _) = a.oracle().remove(0).value else {
                panic!("no answer");
            };
            *counts.entry(refusal).or_default() += 1;
        });
        let mut rows = ROWS.iter();
        let row = rows.find(|row| row.0 == "bisim_distance").expect("a row");
        let numbers: Vec<u32> = [&[0], row.1].concat();
        assert_eq!(counts.keys().copied().collect::<Vec<_>>(), numbers);
        let low = |(number, n): (&u32, &u64)| *n < floor("bisim_distance", *number);
        assert!(!counts.iter().any(low), "{counts:?}");
        let all = counts.values().sum::<u64>();
        assert!(all >= floors("bisim_distance").0, "{counts:?}");
    }
}
