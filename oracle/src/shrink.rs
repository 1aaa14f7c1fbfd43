//! Makes an input on which two sides differ smaller, as long as they do: parts and states are taken out, lists cut, numbers
//! and floats replaced by simpler ones, until no such step is left that keeps the difference.

use std::time::{Duration, Instant};

use crate::args::{Held, Leaves};

/// Inputs tried at most.
const TRIES: usize = 40_000;
/// Time spent at most.
const TIME: Duration = Duration::from_secs(20);
/// The longest list of which single entries are taken out.
const SINGLY: usize = 64;

/// How far from simple: 0 for zero, then by the digits that its bits need, by how far its exponent is from that of 1, and
/// by its sign.
fn rank(x: f64) -> u32 {
    if x.is_nan() {
        return 20_000;
    }
    if x.is_infinite() {
        return 10_000 + u32::from(x < 0.0);
    }
    let negative = u32::from(x.is_sign_negative());
    if x == 0.0 {
        return negative;
    }
    let bits = x.to_bits();
    let digits = 52 - (bits & ((1 << 52) - 1)).trailing_zeros().min(52);
    let exponent = (bits >> 52 & 0x7ff) as i32 - 1_023;
    2 + 2 * (digits + exponent.unsigned_abs()) + negative
}

/// Simpler floats: whole and round ones first, then fewer digits, an exponent nearer to that of 1, the other sign.
fn simpler_reals(x: f64) -> Vec<f64> {
    let bits = x.to_bits();
    let zeros = bits.trailing_zeros().min(52);
    let digits = 52 - zeros;
    let cut = |kept: u32| f64::from_bits(bits >> (52 - kept) << (52 - kept));
    let up = |kept: u32| f64::from_bits(((bits >> (52 - kept)) + 1) << (52 - kept));
    let mut list = vec![0.0, 1.0, 2.0, 0.5, x.abs(), x.trunc(), x.round()];
    if x.is_finite() {
        let half = [digits / 2, digits.saturating_sub(1)];
        list.extend(half.map(cut));
        list.extend(half.map(up));
        list.extend([x / 1_024.0, x * 1_024.0, x / 2.0, x * 2.0]);
    }
    list.retain(|&y| rank(y) < rank(x));
    list
}

fn simpler_numbers(n: u64) -> Vec<u64> {
    let mut list = vec![0, 1, 2, n / 2, n.saturating_sub(1)];
    list.retain(|&m| m < n);
    list.dedup();
    list
}

/// The bytes of a card by how simple they are.
fn simpler_bytes(b: u8) -> Vec<u8> {
    const ORDER: &[u8] = b" 0123456789\n";
    let place = ORDER.iter().position(|&o| o == b).unwrap_or(ORDER.len());
    ORDER[..place].to_vec()
}

/// Simpler values, the simplest first.
fn simpler(held: Held) -> Vec<Held> {
    match held {
        Held::Number(n) => simpler_numbers(n).into_iter().map(Held::Number).collect(),
        Held::Byte(b) => simpler_bytes(b).into_iter().map(Held::Byte).collect(),
        Held::Real(x) => simpler_reals(x).into_iter().map(Held::Real).collect(),
        Held::Absent => Vec::new(),
    }
}

struct Search<'a, C> {
    least: C,
    differs: &'a mut dyn FnMut(&C) -> bool,
    tries: usize,
    end: Instant,
    taken: usize,
}

impl<C: Leaves> Search<'_, C> {
    fn over(&self) -> bool {
        self.tries == 0 || Instant::now() > self.end
    }

    /// Takes the candidate where it differs too.
    fn take(&mut self, candidate: C) -> bool {
        if self.over() {
            return false;
        }
        self.tries -= 1;
        let kept = (self.differs)(&candidate);
        if kept {
            self.least = candidate;
            self.taken += 1;
        }
        kept
    }

    /// Takes out runs of parts: all, halves, quarters, at last single ones.
    fn parts(&mut self) {
        let (mut at, mut chunk) = (0, self.least.parts());
        while chunk > 0 && !self.over() {
            if at + chunk > self.least.parts() {
                (at, chunk) = (0, chunk / 2);
            } else if !self.take(self.least.without(at, at + chunk)) {
                at += chunk;
            }
        }
    }

    /// Takes out states, the last first, or makes them one with the state before.
    fn states(&mut self) {
        let mut s = self.least.states();
        while s > 0 && !self.over() {
            s -= 1;
            if s >= self.least.states() || self.take(self.least.without_state(s)) || s == 0 {
                continue;
            }
            if let Some(merged) = self.least.merged(s) {
                self.take(merged);
            }
        }
    }

    fn others(&mut self) {
        let mut k = 0;
        while let Some(candidate) = self.least.other(k) {
            if self.over() {
                return;
            }
            if !self.take(candidate) {
                k += 1;
            }
        }
    }

    /// The input with a change of one of its places.
    fn changed(&self, leaf: usize, change: impl FnOnce(&mut crate::args::Leaf)) -> C {
        let mut candidate = self.least.clone();
        change(&mut candidate.leaves()[leaf]);
        candidate
    }

    fn length(&mut self, leaf: usize) -> usize {
        self.least.leaves()[leaf].list().unwrap_or(0)
    }

    /// Cuts a list to nothing, to half, by one; then takes out single entries.
    fn cut(&mut self, leaf: usize) {
        loop {
            let length = self.length(leaf);
            let kept = [0, length / 2, length.saturating_sub(1)];
            let mut kept = kept.into_iter().filter(|&kept| kept < length);
            let done = kept.any(|kept| self.take(self.changed(leaf, |l| l.cut(kept, length))));
            if !done {
                break;
            }
        }
        let length = self.length(leaf);
        for k in (0..length).rev().filter(|_| length <= SINGLY) {
            self.take(self.changed(leaf, |l| l.cut(k, k + 1)));
        }
    }

    /// Puts simpler values in the place of others.
    fn simplify(&mut self, leaf: usize) {
        let places = self.least.leaves()[leaf].places();
        for k in 0..places {
            loop {
                let held = self.least.leaves()[leaf].get(k);
                let mut list = simpler(held).into_iter();
                if self.over() || !list.any(|s| self.take(self.changed(leaf, |l| l.set(k, s)))) {
                    break;
                }
            }
        }
    }

    fn round(&mut self) {
        self.parts();
        self.states();
        self.others();
        let leaves = self.least.leaves().len();
        (0..leaves).for_each(|leaf| self.cut(leaf));
        (0..leaves).for_each(|leaf| self.simplify(leaf));
    }
}

/// A smaller input of the same difference: no single step of this module makes it smaller, unless time or tries ran out.
pub fn least<C: Leaves>(case: &C, differs: &mut dyn FnMut(&C) -> bool) -> C {
    let mut search = Search {
        least: case.clone(),
        differs,
        tries: TRIES,
        end: Instant::now() + TIME,
        taken: 0,
    };
    loop {
        let before = search.taken;
        search.round();
        if search.taken == before || search.over() {
            return search.least;
        }
    }
}

#[cfg(test)]
mod tests {
    use super::*;

    #[test]
    fn simpler_floats_have_lower_ranks() {
        assert!(simpler_reals(0.0).is_empty());
        assert_eq!(simpler_reals(1.0), [0.0]);
        let rng = &mut crate::generate::Rng::new(1);
        for _ in 0..1_000 {
            let x = f64::from_bits(rng.bits());
            assert!(simpler_reals(x).iter().all(|&y| rank(y) < rank(x)));
        }
        for x in [f64::NAN, f64::INFINITY, -0.0, 5e-324, f64::MAX, 0.1] {
            assert!(!simpler_reals(x).is_empty(), "{x}");
        }
    }

    #[test]
    fn simpler_numbers_are_smaller() {
        assert!(simpler_numbers(0).is_empty());
        assert_eq!(simpler_numbers(9), [0, 1, 2, 4, 8]);
    }
}
