//! Inputs for the comparison: short ones exhaustively, random ones at each limit, damaged copies of good ones.
//!
//! Everything follows from a seed.

pub mod bisim;
pub mod build;
pub mod capped;
pub mod card;
pub mod damage;
pub mod distance;
pub mod faults;
pub mod labels;
pub mod lines;
pub mod metric;
pub mod misfits;
pub mod model;
pub mod network;
pub mod normalise;
pub mod rate;
pub mod related;
pub mod relation;
pub mod remainders;
pub mod steps;
pub mod transport;

/// 2^-40, the least weight that is not zero.
pub const LEAST_WEIGHT: f64 = 1.0 / (1u64 << 40) as f64;
/// 2^40, the greatest weight given.
pub const GREATEST_WEIGHT: f64 = (1u64 << 40) as f64;
/// 2^52, the greatest joined weight.
pub const GREATEST_JOINED: f64 = (1u64 << 52) as f64;

/// SplitMix64.
#[derive(Debug, Clone)]
pub struct Rng(u64);

impl Rng {
    pub fn new(seed: u64) -> Self {
        Self(seed)
    }

    pub fn bits(&mut self) -> u64 {
        self.0 = self.0.wrapping_add(0x9e37_79b9_7f4a_7c15);
        let mut z = self.0;
        z = (z ^ (z >> 30)).wrapping_mul(0xbf58_476d_1ce4_e5b9);
        z = (z ^ (z >> 27)).wrapping_mul(0x94d0_49bb_1331_11eb);
        z ^ (z >> 31)
    }

    /// A number below `n`, 0 where `n` is 0.
    pub fn below(&mut self, n: usize) -> usize {
        if n == 0 {
            0
        } else {
            (self.bits() % n as u64) as usize
        }
    }

    /// True once in `n` times.
    pub fn once_in(&mut self, n: usize) -> bool {
        self.below(n) == 0
    }

    pub fn pick<T: Clone>(&mut self, list: &[T]) -> T {
        list[self.below(list.len())].clone()
    }

    /// From 0 up to but not including 1.
    pub fn unit(&mut self) -> f64 {
        (self.bits() >> 11) as f64 / (1u64 << 53) as f64
    }
}

/// Adds one to each digit in turn, the first fastest; false after the last.
pub fn count_up(digits: &mut [usize], bases: &[usize]) -> bool {
    for (digit, &base) in digits.iter_mut().zip(bases) {
        *digit += 1;
        if *digit < base {
            return true;
        }
        *digit = 0;
    }
    false
}

/// All lists of digits below `bases`.
pub fn all_digits(bases: &[usize], f: &mut dyn FnMut(&[usize])) {
    if bases.contains(&0) {
        return;
    }
    let mut digits = vec![0; bases.len()];
    loop {
        f(&digits);
        if !count_up(&mut digits, bases) {
            return;
        }
    }
}

/// Makes the list shorter by one entry, or by more.
pub fn shorten<T>(rng: &mut Rng, list: &mut Vec<T>) {
    let length = list.len();
    let kept = if rng.once_in(3) {
        rng.below(length)
    } else {
        length.saturating_sub(1)
    };
    list.truncate(kept);
}

/// A place of the list, often its last.
pub fn place(rng: &mut Rng, length: usize) -> usize {
    if rng.once_in(3) {
        length - 1
    } else {
        rng.below(length)
    }
}

#[cfg(test)]
mod tests {
    use super::*;

    #[test]
    fn the_seed_decides() {
        let draw = |seed| (0..5).map(|_| Rng::new(seed).bits()).collect::<Vec<_>>();
        assert_eq!(draw(7), draw(7));
        assert_ne!(draw(7), draw(8));
        assert_eq!(Rng::new(0).bits(), 0xe220_a839_7b1d_cdaf);
    }

    #[test]
    fn digits_are_all_there() {
        let mut seen = std::collections::HashSet::new();
        all_digits(&[2, 3, 4], &mut |d| assert!(seen.insert(d.to_vec())));
        assert_eq!(seen.len(), 24);
        all_digits(&[2, 0], &mut |_| panic!("no digit below 0"));
    }
}
