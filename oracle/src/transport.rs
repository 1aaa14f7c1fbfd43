//! The oracle's answer of `transport`: a refusal, or the Rust's plan over the front of the lent columns.

use crate::answers::{Oracle, answer};
use crate::args::TransportArgs;
use crate::bisim_metric::flow::transport;
use crate::refusals::transport_refusal;
use crate::text::{Field, Value};

impl TransportArgs {
    /// The costs as the Rust takes them: a list for each mass of a.
    pub fn cost_rows(&self) -> Vec<Vec<f64>> {
        let n = self.b.len();
        let row = |i: usize| self.costs[i * n..(i + 1) * n].to_vec();
        (0..self.a.len()).map(row).collect()
    }

    /// What the Rust's run leaves unmoved, in parts of what the totals may differ by; only for accepted inputs.
    pub fn left_over(&self) -> f64 {
        let (ta, tb): (f64, f64) = (self.a.iter().sum(), self.b.iter().sum());
        let (_, plan) = transport(&self.a, &self.b, &self.cost_rows());
        let moved: f64 = plan.iter().map(|cell| cell.2).sum();
        (ta.min(tb) - moved) / (1e-9 * ta.max(1.0))
    }
}

impl Oracle for TransportArgs {
    fn oracle(&self) -> Vec<Field> {
        let refusal = transport_refusal(self);
        let mut lent = self.clone();
        let mut values = vec![Value::Real(0.0), Value::Number(0)];
        if refusal == 0 {
            let (total, plan) = transport(&self.a, &self.b, &self.cost_rows());
            for (k, &(i, j, mass)) in plan.iter().enumerate() {
                lent.plan_rows[k] = i as u32;
                lent.plan_columns[k] = j as u32;
                lent.plan_masses[k] = mass;
            }
            values = vec![Value::Real(total), Value::Number(plan.len() as u64)];
        }
        let mut fields = vec![answer("transport", refusal, values)];
        fields.extend(lent.plan());
        fields
    }
}
