//! The library's `transport`, over masses, costs and lent columns of a plan.

use tanqesha::sys;

use super::{BEFORE, BEFORE_REAL, Ours, left};
use crate::answers::answer;
use crate::args::TransportArgs;
use crate::text::{Field, Value};

/// `transport`, which alters the plan's columns of `t`.
pub fn transport(t: &mut TransportArgs, total: &mut f64, cells: &mut usize) -> u32 {
    sys::transport(
        &t.a,
        &t.b,
        &t.costs,
        &mut t.plan_rows,
        &mut t.plan_columns,
        &mut t.plan_masses,
        total,
        cells,
    )
}

impl Ours for TransportArgs {
    fn ours(&self) -> Vec<Field> {
        let mut lent = self.clone();
        let (mut total, mut cells) = (BEFORE_REAL, BEFORE as usize);
        let refusal = transport(&mut lent, &mut total, &mut cells);
        let total = match refusal {
            0 => total,
            _ => total - BEFORE_REAL,
        };
        let values = vec![Value::Real(total), left(refusal, cells as u64)];
        let mut fields = vec![answer("transport", refusal, values)];
        fields.extend(lent.plan());
        fields
    }
}
