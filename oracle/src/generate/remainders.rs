//! Label values of which many have the same remainder by 1,024, and inputs of `build` with them.

use super::Rng;
use super::build::{self, Size};
use crate::args::BuildArgs;
use crate::bisim_core::Interner;

/// Steps between label values; twice each is a multiple of 1,024.
const STEPS: &[u32] = &[512, 512, 1_024, 1_024, 2_048, 1 << 20, 1 << 24];

/// Groups of values a step apart, each group one further than the last. Up to 1,024 values are distinct; in groups of
/// four a step of 512 makes pairs of the same remainder.
fn stepped(rng: &mut Rng, count: usize) -> Vec<u32> {
    let any = rng.bits() as u32;
    let start = rng.pick(&[0, any, any, u32::MAX, u32::MAX - 1_024]);
    let (step, group) = (rng.pick(STEPS), rng.pick(&[4, 256]));
    let value = |i: u32| start.wrapping_add(i / group).wrapping_add(i % group * step);
    (0..count as u32).map(value).collect()
}

/// Any values; half of them, or all, are near the greatest.
fn scattered(rng: &mut Rng, count: usize) -> Vec<u32> {
    let one_in = 1 + rng.below(2);
    let mut value = || match rng.once_in(one_in) {
        true => u32::MAX - rng.below(1 << 16) as u32,
        false => rng.bits() as u32,
    };
    (0..count).map(|_| value()).collect()
}

/// So many label values; `scattered` ones may be equal by chance.
fn values(rng: &mut Rng, count: usize) -> Vec<u32> {
    match rng.once_in(4) {
        true => scattered(rng, count),
        false => stepped(rng, count),
    }
}

/// Gives each distinct label another value.
pub fn relabel(rng: &mut Rng, a: &mut BuildArgs) {
    let mut known = Interner::new();
    let ids: Vec<u32> = a.labels.iter().map(|&label| known.intern(label)).collect();
    let values = values(rng, known.len());
    a.labels = ids.iter().map(|&id| values[id as usize]).collect();
}

/// From 100 to 300 transitions, mostly about 128 or 256.
pub fn size(rng: &mut Rng) -> Size {
    let given = match rng.below(3) {
        0 => 126 + rng.below(5),
        1 => 254 + rng.below(5),
        _ => 100 + rng.below(201),
    };
    Size {
        states: rng.pick(&[1, 2, 7, 40, 300, 2_000]),
        given,
        labels: rng.pick(&[1, 2, 5, 40, 256]),
        targets: rng.pick(&[1, 4, 20, 31]),
    }
}

/// An input of 100 to 300 transitions, seldom of another size; most are relabelled, and some broken up to three times.
pub fn random(rng: &mut Rng) -> BuildArgs {
    let mut a = match rng.below(16) {
        0 => build::large_random(rng),
        1 | 2 => build::at_limit(rng),
        3 | 4 => {
            let size = build::small(rng);
            build::random(rng, size)
        }
        _ => {
            let size = size(rng);
            build::random(rng, size)
        }
    };
    if !rng.once_in(5) {
        relabel(rng, &mut a);
    }
    a
}

#[cfg(test)]
mod tests {
    use std::collections::HashSet;

    use super::*;

    fn remainders(values: &[u32]) -> usize {
        values
            .iter()
            .map(|v| v % 1_024)
            .collect::<HashSet<_>>()
            .len()
    }

    #[test]
    fn stepped_values_differ_and_share_remainders() {
        let rng = &mut Rng::new(1);
        for _ in 0..200 {
            let values = stepped(rng, 300);
            assert_eq!(values.iter().collect::<HashSet<_>>().len(), 300);
            assert!(remainders(&values) <= 150, "{values:?}");
        }
    }

    #[test]
    fn new_values_stand_where_the_old_ones_stood() {
        let rng = &mut Rng::new(2);
        let old = build::many_labels(rng, 256);
        let mut new = old.clone();
        relabel(rng, &mut new);
        let pairs: HashSet<_> = old.labels.iter().zip(&new.labels).collect();
        assert_eq!(pairs.len(), 256);
    }

    #[test]
    fn sizes_lie_at_and_about_128_and_256() {
        let rng = &mut Rng::new(3);
        let sizes: Vec<usize> = (0..1_000).map(|_| size(rng).given).collect();
        assert!(sizes.iter().all(|given| (100..=300).contains(given)));
        let often = |given: usize| sizes.iter().filter(|&&g| g == given).count() > 30;
        assert!((126..=130).chain(254..=258).all(often));
    }
}
