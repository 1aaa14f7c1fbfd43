//! Inputs of `is_valid`, `is_zero`, `sum`, `intern`, `get` and `resolve`.

use super::{Rng, all_digits};
use crate::args::{InternArgs, LabelArgs, RealArgs};

/// Floats at the edges of what is valid and what is zero.
pub const EDGES: &[f64] = &[
    0.0,
    -0.0,
    1.0,
    -1.0,
    0.1,
    f64::MIN_POSITIVE,
    5e-324,
    -5e-324,
    f64::MAX,
    f64::MIN,
    f64::INFINITY,
    f64::NEG_INFINITY,
    f64::NAN,
];

/// A float: an edge, any bits, or an ordinary one.
fn float(rng: &mut Rng) -> f64 {
    match rng.below(4) {
        0 => rng.pick(EDGES),
        1 => f64::from_bits(rng.bits()),
        _ => rng.unit() * 10f64.powi(rng.below(24) as i32 - 12),
    }
}

/// `longest` bounds the list that is added.
pub fn real(rng: &mut Rng, longest: usize) -> RealArgs {
    let length = rng.below(longest + 1);
    let ordinary = !rng.once_in(4);
    let mut item = || match ordinary {
        true => rng.unit() * 2f64.powi(rng.below(40) as i32 - 20),
        false => float(rng),
    };
    let xs = (0..length).map(|_| item()).collect();
    RealArgs { x: float(rng), xs }
}

/// All lists of up to three of the edges.
pub fn short_reals(f: &mut dyn FnMut(RealArgs)) {
    for length in 0..=3 {
        all_digits(&vec![EDGES.len(); length], &mut |d| {
            let xs: Vec<f64> = d.iter().map(|&i| EDGES[i]).collect();
            let x = xs.first().copied().unwrap_or(0.5);
            f(RealArgs { x, xs });
        });
    }
}

/// All label lists of up to three values, all counts up to 4, all values and one that is not there, all ids up to 4.
pub fn short_labels(f: &mut dyn FnMut(LabelArgs)) {
    const VALUES: [u32; 4] = [7, 5, u32::MAX, 0];
    for length in 0..=3 {
        let mut bases = vec![3; length];
        bases.extend([5, 4, 5]);
        all_digits(&bases, &mut |d| {
            f(LabelArgs {
                labels: d[..length].iter().map(|&i| VALUES[i]).collect(),
                count: d[length],
                value: VALUES[d[length + 1]],
                id: d[length + 2] as u32,
            });
        });
    }
}

/// The short label inputs that differ for `intern`.
pub fn short_interns(f: &mut dyn FnMut(InternArgs)) {
    short_labels(&mut |a| {
        if a.id == 0 {
            f(interned(a));
        }
    });
}

fn interned(a: LabelArgs) -> InternArgs {
    let LabelArgs {
        labels,
        count,
        value,
        ..
    } = a;
    InternArgs {
        labels,
        count,
        value,
    }
}

/// A label list of `count` distinct values, in no order, and `spare` entries after them.
fn label_list(rng: &mut Rng, count: usize, spare: usize) -> Vec<u32> {
    let (start, step) = (rng.bits() as u32, rng.bits() as u32 | 1);
    let length = (count + spare) as u32;
    (0..length)
        .map(|i| start.wrapping_add(i.wrapping_mul(step)))
        .collect()
}

/// A count near `most` or small.
fn count_near(rng: &mut Rng, most: usize) -> usize {
    if rng.once_in(2) {
        rng.below(6)
    } else {
        (most + 1).saturating_sub(rng.below(4))
    }
}

/// `most` is the greatest count but one: 256 for the limit itself.
pub fn label(rng: &mut Rng, most: usize) -> LabelArgs {
    let count = count_near(rng, most);
    let spare = rng.below(3);
    let mut labels = label_list(rng, count, spare);
    let value = match labels.is_empty() || rng.once_in(3) {
        true => rng.bits() as u32,
        false => labels[super::place(rng, labels.len())],
    };
    let id = if rng.once_in(8) {
        u32::MAX
    } else {
        rng.below(count + 2) as u32
    };
    let mut count = count;
    match rng.below(8) {
        0 => super::shorten(rng, &mut labels),
        1 => repeat(rng, &mut labels),
        2 => {
            count = rng.pick(&[
                count + 1,
                count + 3,
                most + 1,
                most + 44,
                1 << 32,
                usize::MAX,
            ])
        }
        _ => {}
    }
    LabelArgs {
        labels,
        count,
        value,
        id,
    }
}

pub fn intern(rng: &mut Rng, most: usize) -> InternArgs {
    interned(label(rng, most))
}

/// Makes one entry equal to another.
fn repeat(rng: &mut Rng, labels: &mut [u32]) {
    if labels.len() > 1 {
        let from = rng.below(labels.len());
        let to = super::place(rng, labels.len());
        labels[to] = labels[from];
    }
}
