//! The library's chains: lists that are lent.

use tanqesha::sys::{self, ChainView};

use super::{BEFORE_REAL, Ours, count, view};
use crate::answers::answer;
use crate::args::{ChainArgs, ChainLists, NormaliseArgs, RateArgs, UniformiseArgs};
use crate::text::{Field, Value};

/// `uniformise` into these lists.
pub fn uniformise(a: &UniformiseArgs, lists: &mut ChainLists, entries: &mut usize) -> u32 {
    sys::uniformise(
        &view(&a.model),
        a.rate,
        &a.observations,
        &mut lists.offsets,
        &mut lists.targets,
        &mut lists.probabilities,
        &mut lists.observations,
        entries,
    )
}

/// A chain as the interface takes it, without its observations.
pub(super) fn chain(c: &ChainArgs) -> ChainView<'_> {
    ChainView {
        states: c.states,
        entries: c.entries,
        initial: c.initial,
        offsets: &c.lists.offsets,
        targets: &c.lists.targets,
        probabilities: &c.lists.probabilities,
    }
}

/// `normalise`, which alters the observations that are lent beside the chains.
pub fn normalise(
    left: &ChainArgs,
    left_seen: &mut [f64],
    right: &ChainArgs,
    right_seen: &mut [f64],
    scale: &mut f64,
) -> u32 {
    sys::normalise(&chain(left), left_seen, &chain(right), right_seen, scale)
}

/// What a call left behind a reference to a float; 0 where a refusal left it as it was.
fn left_real(refusal: u32, value: f64) -> f64 {
    match refusal {
        0 => value,
        _ => value - BEFORE_REAL,
    }
}

impl Ours for RateArgs {
    fn ours(&self) -> Vec<Field> {
        let mut rate = BEFORE_REAL;
        let refusal = sys::common_rate(&view(&self.left), &view(&self.right), &mut rate);
        let rate = Value::Real(left_real(refusal, rate));
        vec![answer("common_rate", refusal, vec![rate])]
    }
}

impl Ours for UniformiseArgs {
    fn ours(&self) -> Vec<Field> {
        let mut lists = self.chain.clone();
        let call = |entries: &mut usize| uniformise(self, &mut lists, entries);
        let mut fields = vec![count("uniformise", call)];
        fields.extend(lists.fields());
        fields
    }
}

impl Ours for NormaliseArgs {
    fn ours(&self) -> Vec<Field> {
        let [mut left, mut right] = [&self.left, &self.right].map(|c| c.lists.observations.clone());
        let mut scale = BEFORE_REAL;
        let refusal = normalise(&self.left, &mut left, &self.right, &mut right, &mut scale);
        self.scaled(refusal, left_real(refusal, scale), &left, &right)
    }
}
