//! Arguments of `related`: relations handed in.

use super::relation::{needed, pattern};
use super::{Rng, all_digits};
use crate::args::RelatedArgs;

/// Arguments of `related`: any bytes, counts and states, mostly of few states.
pub fn asked(rng: &mut Rng) -> RelatedArgs {
    let count = |rng: &mut Rng| match rng.below(24) {
        0 => rng.pick(&[2_001, 2_002, 1 << 32, usize::MAX]),
        _ => rng.below(7),
    };
    let (left_states, right_states) = (count(rng), count(rng));
    let state = |rng: &mut Rng, states: usize| match rng.below(12) {
        0 => states as u32,
        1 => rng.pick(&[u32::MAX, states.saturating_add(1) as u32]),
        _ => rng.below(states) as u32,
    };
    let exact = needed(left_states.saturating_add(right_states)).min(400);
    let length = match rng.below(8) {
        0 => exact.saturating_sub(1),
        1 => rng.below(exact + 1),
        2 => exact + 1 + rng.below(4),
        _ => exact,
    };
    RelatedArgs {
        relation: (0..length).map(|_| rng.bits() as u8).collect(),
        s: state(rng, left_states),
        t: state(rng, right_states),
        left_states,
        right_states,
    }
}

/// Arguments of `related` at the limit of states: so many of the left, so many together, the bytes for so many.
pub fn asked_at(rng: &mut Rng, left: usize, total: usize, room: usize) -> RelatedArgs {
    RelatedArgs {
        left_states: left,
        right_states: total - left,
        relation: pattern(needed(room)),
        s: rng.below(left) as u32,
        t: rng.below(total - left) as u32,
    }
}

/// All bits of a relation over up to three states.
pub fn short_asked(f: &mut dyn FnMut(RelatedArgs)) {
    all_digits(&[4, 4, 4, 4, 10], &mut |d| {
        let bit = if d[4] < 9 { 1u16 << d[4] } else { !0 };
        f(RelatedArgs {
            left_states: d[0],
            right_states: d[1],
            relation: bit.to_le_bytes().to_vec(),
            s: d[2] as u32,
            t: d[3] as u32,
        });
    });
}

/// Everything that `related` is compared on.
pub fn askings(rng: &mut Rng, scale: usize, f: &mut dyn FnMut(RelatedArgs)) {
    short_asked(f);
    for _ in 0..12_000 * scale {
        f(asked(rng));
    }
    for i in 0..240 * scale {
        let left = rng.pick(&[1, 1_000, 1_999, 2_000]);
        f(asked_at(rng, left, 2_001, 2_001));
        if i % 12 == 0 {
            f(asked_at(rng, left, 2_001, 2_000));
            f(asked_at(rng, left.min(1_999), 2_000, 2_000));
        }
    }
}
