//! The oracle's answers about chains: a refusal, or what the Rust gives, laid out in the lent lists.

use crate::answers::{Oracle, answer, from_columns};
use crate::args::{ChainArgs, ChainLists, NormaliseArgs, RateArgs, UniformiseArgs, reals};
use crate::bisim_core::StateId;
use crate::bisim_metric::kantorovich::{Chain, common_rate, normalise, uniformise};
use crate::refusals::{common_rate_refusal, normalise_refusal, uniformise_refusal};
use crate::text::{Field, Value};

impl Oracle for RateArgs {
    fn oracle(&self) -> Vec<Field> {
        let refusal = common_rate_refusal(self);
        let rate = match refusal {
            0 => common_rate(&from_columns(&self.left), &from_columns(&self.right)),
            _ => 0.0,
        };
        vec![answer("common_rate", refusal, vec![Value::Real(rate)])]
    }
}

/// Lays the chain out at the start of the lists; how many entries it has.
fn lay_out(chain: &Chain, lists: &mut ChainLists) -> usize {
    let mut end = 0;
    lists.offsets[0] = 0;
    for (s, row) in chain.rows.iter().enumerate() {
        for &(target, probability) in row {
            lists.targets[end] = target as u32;
            lists.probabilities[end] = probability;
            end += 1;
        }
        lists.offsets[s + 1] = end as u32;
    }
    lists.observations[..chain.rows.len()].copy_from_slice(&chain.observation);
    end
}

impl UniformiseArgs {
    /// The Rust's chain of accepted arguments.
    pub fn chain(&self) -> Chain {
        let observe = |s: StateId| self.observations[s.index()];
        uniformise(&from_columns(&self.model), self.rate, observe)
    }
}

impl Oracle for UniformiseArgs {
    fn oracle(&self) -> Vec<Field> {
        let refusal = uniformise_refusal(self);
        let mut lists = self.chain.clone();
        let entries = match refusal {
            0 => lay_out(&self.chain(), &mut lists),
            _ => 0,
        };
        let entries = Value::Number(entries as u64);
        let mut fields = vec![answer("uniformise", refusal, vec![entries])];
        fields.extend(lists.fields());
        fields
    }
}

impl ChainArgs {
    /// The chain as the Rust takes it; only for chains that pass the checks.
    pub fn chain(&self) -> Chain {
        let l = &self.lists;
        let row = |s: usize| {
            let entries = l.offsets[s] as usize..l.offsets[s + 1] as usize;
            let entry = |e: usize| (l.targets[e] as usize, l.probabilities[e]);
            entries.map(entry).collect()
        };
        Chain {
            rows: (0..self.states).map(row).collect(),
            observation: l.observations[..self.states].to_vec(),
            initial: self.initial as usize,
        }
    }
}

/// DECIDED (docs/DIFFERENCES.md): a zero without its sign, since `f64::min` leaves open which of two zeros is the less.
fn unsigned(x: f64) -> f64 {
    if x == 0.0 { 0.0 } else { x }
}

impl NormaliseArgs {
    /// The answer lines of `normalise`, with the observations as it leaves them; what it writes is compared without the
    /// sign of a zero.
    pub fn scaled(&self, refusal: u32, scale: f64, left: &[f64], right: &[f64]) -> Vec<Field> {
        let written = |c: &ChainArgs, seen: &[f64]| -> Vec<f64> {
            let count = if refusal == 0 { c.states } else { 0 };
            let front = seen.iter().take(count).map(|&x| unsigned(x));
            front.chain(seen.iter().skip(count).copied()).collect()
        };
        vec![
            answer("normalise", refusal, vec![Value::Real(unsigned(scale))]),
            reals("left_observations", &written(&self.left, left)),
            reals("right_observations", &written(&self.right, right)),
        ]
    }
}

impl Oracle for NormaliseArgs {
    fn oracle(&self) -> Vec<Field> {
        let refusal = normalise_refusal(self);
        let [mut left, mut right] = [&self.left, &self.right].map(|c| c.lists.observations.clone());
        let mut scale = 0.0;
        if refusal == 0 {
            let (mut a, mut b) = (self.left.chain(), self.right.chain());
            scale = normalise(&mut a, &mut b);
            left[..self.left.states].copy_from_slice(&a.observation);
            right[..self.right.states].copy_from_slice(&b.observation);
        }
        self.scaled(refusal, scale, &left, &right)
    }
}
