//! Weights as the library counts with them.

use crate::sys;

/// Whether x is finite and at least 0.
///
/// ```
/// assert!(tanqesha::real::is_valid(-0.0) && !tanqesha::real::is_valid(f64::INFINITY));
/// ```
#[must_use]
pub fn is_valid(x: f64) -> bool {
    sys::is_valid(x)
}

/// Whether x is equal to 0; both zeros are.
///
/// ```
/// assert!(tanqesha::real::is_zero(-0.0) && !tanqesha::real::is_zero(1e-300));
/// ```
#[must_use]
pub fn is_zero(x: f64) -> bool {
    sys::is_zero(x)
}

/// The sum, left to right from 0.
///
/// ```
/// assert_eq!(tanqesha::real::sum(&[1e16, 1.0, -1e16]), 0.0);
/// assert_eq!(tanqesha::real::sum(&[1e16, -1e16, 1.0]), 1.0);
/// ```
#[must_use]
pub fn sum(items: &[f64]) -> f64 {
    sys::sum(items)
}
