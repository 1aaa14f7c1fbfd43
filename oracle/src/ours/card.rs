//! The library's report on a card, in a lent store.

/// `report`, which alters the store.
pub use tanqesha::sys::report;

use super::{Ours, count};
use crate::args::{CardArgs, lent_out};
use crate::text::Field;

impl Ours for CardArgs {
    fn ours(&self) -> Vec<Field> {
        let mut out = self.out.clone();
        let answer = count("report", |written| report(&self.card, &mut out, written));
        vec![answer, lent_out(&out)]
    }
}
