//! Inputs of `normalise`: chains of rows that add up to 1 but for rounding, observations of many kinds, and a fault for
//! each clause of 4, 7, 12 and 13.

use super::metric::{chain, masses};
use super::rate::{BAD_OBSERVATIONS, GOOD_OBSERVATIONS, good, observations};
use super::{GREATEST_WEIGHT, Rng, all_digits, place, shorten};
use crate::args::{ChainArgs, ChainLists, NormaliseArgs};
use crate::bisim_metric::kantorovich::Chain;

/// The chain as it is handed in, its lists just long enough.
pub fn listed(chain: &Chain) -> ChainArgs {
    let entries = chain.rows.concat();
    let mut offsets = vec![0];
    for row in &chain.rows {
        offsets.push(offsets[offsets.len() - 1] + row.len() as u32);
    }
    ChainArgs {
        states: chain.rows.len(),
        entries: entries.len(),
        initial: chain.initial as u32,
        lists: ChainLists {
            offsets,
            targets: entries.iter().map(|entry| entry.0 as u32).collect(),
            probabilities: entries.iter().map(|entry| entry.1).collect(),
            observations: chain.observation.clone(),
        },
    }
}

/// A chain of so many states that stay where they are, with these observations.
pub fn still(observations: &[f64]) -> ChainArgs {
    listed(&Chain {
        rows: (0..observations.len()).map(|s| vec![(s, 1.0)]).collect(),
        observation: observations.to_vec(),
        initial: 0,
    })
}

/// A chain that is accepted: random rows, some of 32 entries, or a model made a chain at its common rate.
pub fn good_chain(rng: &mut Rng) -> ChainArgs {
    let mut c = match rng.below(8) {
        0 => loop {
            let a = good(rng);
            let made = a.chain();
            let whole = |row: &Vec<(usize, f64)>| {
                let sum: f64 = row.iter().map(|entry| entry.1).sum();
                !row.is_empty() && (sum - 1.0).abs() <= 1e-9
            };
            let probable = |entry: &(usize, f64)| entry.1 > 0.0 && entry.1 <= 1.0 + 1e-9;
            if made.rows.iter().all(whole) && made.rows.concat().iter().all(probable) {
                break listed(&made);
            }
        },
        1 => {
            let states = 33 + rng.below(4);
            listed(&chain(rng, states, 32))
        }
        _ => {
            let states = 1 + rng.below(5);
            listed(&chain(rng, states, 4))
        }
    };
    c.lists.observations = observations(rng, c.states);
    c
}

/// Two such chains; sometimes all observations are the same, or next to each other.
pub fn good_pair(rng: &mut Rng) -> NormaliseArgs {
    let mut a = NormaliseArgs {
        left: good_chain(rng),
        right: good_chain(rng),
    };
    if rng.once_in(4) {
        let x = rng.pick(GOOD_OBSERVATIONS);
        let close = [x, x, x.next_up().min(GREATEST_WEIGHT)];
        let kinds = rng.pick(&[1, 3]);
        for side in [&mut a.left, &mut a.right] {
            side.lists
                .observations
                .fill_with(|| close[rng.below(kinds)]);
        }
    }
    a
}

fn side<'a>(rng: &mut Rng, a: &'a mut NormaliseArgs) -> &'a mut ChainArgs {
    if rng.once_in(2) {
        &mut a.left
    } else {
        &mut a.right
    }
}

/// A way to change a chain; an intact one, of at least one state and with rows that are not empty.
pub type Change = fn(&mut Rng, &mut ChainArgs);

/// A row of so many entries in place of a chain.
fn long_row(rng: &mut Rng, entries: usize) -> ChainArgs {
    let mut c = still(&vec![0.5; entries]);
    let row = masses(rng, entries);
    c.lists.targets.splice(0..1, 0..entries as u32);
    c.lists.probabilities.splice(0..1, row);
    let used = c.lists.offsets[1..].iter_mut();
    used.for_each(|offset| *offset += entries as u32 - 1);
    c.entries += entries - 1;
    c
}

/// Changes after which an intact chain is refused.
pub const FAULTS: &[(u32, &str, Change)] = &[
    (4, "initial state", |rng, c| {
        c.initial = rng.pick(&[c.states as u32, u32::MAX])
    }),
    (4, "no states", |rng, c| {
        c.states = 0;
        c.entries = 0;
        c.initial = rng.pick(&[0, 1])
    }),
    (4, "states past the offsets", |rng, c| {
        c.states = rng.pick(&[c.lists.offsets.len(), 1 << 32, usize::MAX])
    }),
    (4, "offsets short", |rng, c| {
        c.lists.offsets.truncate(c.states + 1);
        shorten(rng, &mut c.lists.offsets)
    }),
    (4, "targets short", |rng, c| {
        c.lists.targets.truncate(c.entries);
        shorten(rng, &mut c.lists.targets)
    }),
    (4, "probabilities short", |rng, c| {
        c.lists.probabilities.truncate(c.entries);
        shorten(rng, &mut c.lists.probabilities)
    }),
    (4, "entries", |rng, c| {
        c.entries = rng.pick(&[c.entries - 1, c.entries + 1, usize::MAX])
    }),
    (4, "first offset", |_, c| c.lists.offsets[0] += 1),
    (4, "last offset", |rng, c| {
        let last = c.entries as u32;
        c.lists.offsets[c.states] = rng.pick(&[last - 1, last + 1, u32::MAX])
    }),
    (4, "falling offset", |rng, c| {
        if c.states < 2 {
            c.lists.offsets[0] = 1;
        } else {
            let s = 1 + rng.below(c.states - 1);
            c.lists.offsets[s] = c.entries as u32 + 1 + rng.below(3) as u32
        }
    }),
    (4, "target", |rng, c| {
        let e = place(rng, c.entries);
        c.lists.targets[e] = rng.pick(&[c.states as u32, u32::MAX])
    }),
    (7, "observations short", |rng, c| {
        c.lists.observations.truncate(c.states);
        shorten(rng, &mut c.lists.observations)
    }),
    (12, "observation", |rng, c| {
        let s = place(rng, c.states);
        c.lists.observations[s] = rng.pick(BAD_OBSERVATIONS)
    }),
    (13, "over 2,000 states", |_, c| *c = still(&[0.5; 2_001])),
    (13, "row of 33", |rng, c| {
        let entries = 33 + rng.below(2);
        *c = long_row(rng, entries)
    }),
    (13, "empty row", |rng, c| {
        // a state more, to whose row no entry belongs
        let s = rng.below(c.states + 1);
        c.lists.offsets.insert(s, c.lists.offsets[s]);
        c.lists.observations.insert(s, 0.0);
        c.states += 1
    }),
    (13, "target twice", |rng, c| {
        *c = long_row(rng, 4);
        let e = 1 + rng.below(3);
        c.lists.targets[e] = c.lists.targets[e - 1]
    }),
    (13, "targets not rising", |rng, c| {
        *c = long_row(rng, 4);
        c.lists.targets.swap(rng.below(3), 3)
    }),
    (13, "probability", |rng, c| {
        let e = place(rng, c.entries);
        let next = (1.0 + 1e-9f64).next_up();
        let bad = [0.0, -0.0, -0.5, next, 2.0, f64::INFINITY, f64::NAN];
        c.lists.probabilities[e] = rng.pick(&bad)
    }),
    (13, "row sum", |rng, c| {
        let e = place(rng, c.entries);
        c.lists.probabilities[e] += rng.pick(&[1e-8, -1e-8, 0.25])
    }),
];

/// Changes that leave an accepted chain accepted.
pub const HARMLESS: &[(&str, Change)] = &[
    ("lists longer", |rng, c| {
        c.lists.offsets.extend(vec![62; rng.below(3)]);
        c.lists.targets.extend(vec![u32::MAX; rng.below(3)]);
        c.lists.probabilities.extend(vec![-0.0; rng.below(3)]);
        c.lists.observations.extend(vec![f64::NAN; rng.below(3)]);
    }),
    ("2,000 states", |_, c| *c = still(&[0.5; 2_000])),
    ("row of 32", |rng, c| *c = long_row(rng, 32)),
    ("observation at a limit", |rng, c| {
        let s = place(rng, c.states);
        c.lists.observations[s] = rng.pick(&[GREATEST_WEIGHT, -GREATEST_WEIGHT])
    }),
];

/// The sum of the last row is about as far from 1 as it may be.
pub fn at_the_allowance(rng: &mut Rng, c: &mut ChainArgs) {
    let e = c.entries - 1;
    let part = rng.pick(&[0.5, 1.0 - 1e-6, 1.0, 1.0, 1.0 + 1e-6, 2.0]);
    let sign = rng.pick(&[1.0, -1.0]);
    let p = c.lists.probabilities[e] + sign * part * 1e-9;
    c.lists.probabilities[e] = rng.pick(&[p, p.next_up(), p.next_down()]);
}

/// True where every change can be made.
pub(super) fn intact(c: &ChainArgs) -> bool {
    let l = &c.lists;
    let entries = [l.targets.len(), l.probabilities.len()];
    (1..=2_000).contains(&c.states)
        && (1..=4_096).contains(&c.entries)
        && l.offsets.len() > c.states
        && l.offsets[c.states] as usize == c.entries
        && entries.into_iter().all(|length| length >= c.entries)
        && l.observations.len() >= c.states
}

/// Good or damaged: a change in three that is harmless, up to two faults on either side, sums at the allowance.
pub fn random(rng: &mut Rng) -> NormaliseArgs {
    let mut a = good_pair(rng);
    if rng.once_in(3) {
        // the chains of 2,000 states are in the list once
        let (_, change) = match rng.pick(HARMLESS) {
            ("2,000 states", _) => HARMLESS[0],
            other => other,
        };
        let c = side(rng, &mut a);
        change(rng, c);
    }
    if rng.once_in(6) {
        let c = side(rng, &mut a);
        at_the_allowance(rng, c);
    }
    for _ in 0..rng.pick(&[0, 0, 0, 1, 1, 2]) {
        let (_, _, change) = rng.pick(FAULTS);
        let c = side(rng, &mut a);
        if intact(c) {
            change(rng, c);
        }
    }
    a
}

/// All pairs of chains of two states that stay, over few observations.
pub fn short_observations(f: &mut dyn FnMut(NormaliseArgs)) {
    const SEEN: [f64; 7] = [-GREATEST_WEIGHT, -0.0, 0.0, 0.1, 0.3, 1.0, GREATEST_WEIGHT];
    all_digits(&[7; 4], &mut |d| {
        let [a, b, c, e] = [0, 1, 2, 3].map(|i| SEEN[d[i]]);
        let (left, right) = (still(&[a, b]), still(&[c, e]));
        f(NormaliseArgs { left, right });
    });
}

/// All chains of up to two states over few numbers, bad ones included, beside a good one.
pub fn short_chains(f: &mut dyn FnMut(NormaliseArgs)) {
    const PROBABILITIES: [f64; 3] = [1.0, 0.5, 0.0];
    for states in 0..=2usize {
        let mut bases = vec![4, 2, 3, 3, 3, 3, 2];
        bases.extend(vec![4; states + 1]);
        let mut turn = 0;
        all_digits(&bases, &mut |d| {
            turn += 1;
            let c = ChainArgs {
                states,
                entries: d[0],
                initial: d[1] as u32,
                lists: ChainLists {
                    offsets: d[7..].iter().map(|&o| o as u32).collect(),
                    targets: vec![d[2] as u32, d[3] as u32, 1],
                    probabilities: vec![PROBABILITIES[d[4]], PROBABILITIES[d[5]], 0.5],
                    observations: vec![0.5; d[6] + 1],
                },
            };
            let other = still(&[0.0, 1.0]);
            let (left, right) = match turn % 2 {
                0 => (c, other),
                _ => (other, c),
            };
            f(NormaliseArgs { left, right });
        });
    }
}

/// Everything that `normalise` is compared on.
pub fn pairs(rng: &mut Rng, scale: usize, f: &mut dyn FnMut(NormaliseArgs)) {
    short_observations(f);
    short_chains(f);
    for (_, _, change) in FAULTS {
        for _ in 0..60 * scale {
            let mut a = good_pair(rng);
            let c = side(rng, &mut a);
            change(rng, c);
            f(a);
        }
    }
    for (_, change) in HARMLESS {
        for _ in 0..20 * scale {
            let mut a = good_pair(rng);
            let c = side(rng, &mut a);
            change(rng, c);
            f(a);
        }
    }
    for _ in 0..40_000 * scale {
        f(random(rng));
    }
}

#[cfg(test)]
mod tests {
    use super::*;
    use crate::bisim_metric::kantorovich::normalise;
    use crate::refusals::normalise_refusal;
    use crate::sample;

    #[test]
    fn every_fault_is_refused_and_nothing_harmless_is() {
        let rng = &mut Rng::new(1);
        for _ in 0..500 {
            let base = good_pair(rng);
            assert_eq!(normalise_refusal(&base), 0, "{base:?}");
            for (number, name, change) in FAULTS {
                let mut a = base.clone();
                let c = side(rng, &mut a);
                change(rng, c);
                assert_eq!(normalise_refusal(&a), *number, "{name}: {a:?}");
            }
            for (name, change) in HARMLESS {
                let mut a = base.clone();
                let c = side(rng, &mut a);
                change(rng, c);
                assert_eq!(normalise_refusal(&a), 0, "{name}: {a:?}");
            }
        }
    }

    /// Sums just inside and just outside of what is allowed.
    #[test]
    fn sums_are_about_the_allowance() {
        let rng = &mut Rng::new(2);
        let mut refused = 0;
        for _ in 0..1_000 {
            let mut a = good_pair(rng);
            at_the_allowance(rng, &mut a.left);
            refused += usize::from(normalise_refusal(&a) == 13);
        }
        assert!((200..800).contains(&refused), "{refused}");
    }

    /// Whether the observations of each chain scaled by themselves are other ones.
    fn told_apart(a: &NormaliseArgs) -> bool {
        let (mut left, mut right) = (a.left.chain(), a.right.chain());
        let (mut left_alone, mut right_alone) = (left.clone(), right.clone());
        normalise(&mut left, &mut right);
        normalise(&mut left_alone.clone(), &mut left_alone);
        normalise(&mut right_alone.clone(), &mut right_alone);
        left.observation != left_alone.observation || right.observation != right_alone.observation
    }

    #[test]
    fn scaling_each_chain_by_itself_is_told_apart() {
        let accepted = |a: &&NormaliseArgs| normalise_refusal(a) == 0;
        let pairs = sample::chain::pairs();
        let differ = pairs.iter().filter(accepted).filter(|a| told_apart(a));
        assert!(differ.count() >= 30);
    }
}
