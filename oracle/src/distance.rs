//! The oracle's answers about distances: a refusal, or what the Rust gives, and what is left in lent memory.

use crate::answers::{Oracle, answer, from_columns};
use crate::args::{BisimArgs, BisimSide, DistanceArgs, Options, Record, Rooms};
use crate::bisim_core::StateId;
use crate::bisim_metric::kantorovich::{
    Chain, Distance, MetricError, MetricOptions, bisim_distance, common_rate, distance, normalise,
    uniformise,
};
use crate::refusals::{bisim_distance_refusal, distance_refusal, run_refusal};
use crate::text::{Field, Value};

/// What a call gives behind its references.
#[derive(Debug, Clone, Copy, Default)]
pub struct Given {
    pub value: f64,
    pub error_bound: f64,
    pub discount: f64,
    pub pairs_explored: usize,
    pub contributions: usize,
    pub rounds: usize,
}

impl Given {
    /// The values of the answer line.
    pub fn values(&self) -> Vec<Value> {
        let count = |n: usize| Value::Number(n as u64);
        vec![
            Value::Real(self.value),
            Value::Real(self.error_bound),
            Value::Real(self.discount),
            count(self.pairs_explored),
            count(self.contributions),
            count(self.rounds),
        ]
    }
}

impl Options {
    pub fn rust(&self) -> MetricOptions {
        MetricOptions {
            tolerance: self.tolerance,
            max_rounds: self.max_rounds,
            top: self.top,
        }
    }
}

/// The Rust's reply with a refusal's number; what passed the refusals fails in one way only.
fn replied(reply: Result<Distance, MetricError>) -> Result<Distance, u32> {
    reply.map_err(|error| match error {
        MetricError::TooManyRounds(_) => 19,
        other => panic!("refused before: {other}"),
    })
}

/// The answer lines: the reply over the front of the records, scratch zero where 1 to 15 are passed.
fn lines(
    name: &'static str,
    reply: Result<Distance, u32>,
    rooms: &Rooms,
    chains: impl Fn(bool) -> Vec<u64>,
) -> Vec<Field> {
    let refusal = reply.as_ref().err().copied().unwrap_or(0);
    let mut lent = Rooms {
        lefts: 0,
        rights: 0,
        index: 0,
        places: 0,
        masses: 0,
        ..*rooms
    }
    .lent();
    let mut given = Given::default();
    if let Ok(d) = reply {
        given = Given {
            value: d.value,
            error_bound: d.error_bound,
            discount: d.gamma,
            pairs_explored: d.pairs_explored,
            contributions: d.pairs.len(),
            rounds: d.rounds,
        };
        for (record, c) in lent.records.iter_mut().zip(&d.pairs) {
            *record = Record {
                left: c.left as u32,
                right: c.right as u32,
                gap: c.gap,
                occupancy: c.occupancy,
                contribution: c.contribution,
            };
        }
    }
    let zero = refusal == 0 || refusal > 15;
    let mut scratch = rooms.scratch(zero);
    scratch.extend(chains(zero));
    let mut fields = vec![answer(name, refusal, given.values())];
    fields.extend(lent.fields(given.contributions, scratch));
    fields
}

impl DistanceArgs {
    /// The Rust's reply, or a refusal.
    pub fn reply(&self) -> Result<Distance, u32> {
        let refused = |number| if number == 0 { Ok(()) } else { Err(number) };
        refused(distance_refusal(self))?;
        let (left, right) = (self.left.chain(), self.right.chain());
        refused(run_refusal(
            &left,
            &right,
            &self.rooms,
            self.options.max_rounds,
        ))?;
        replied(distance(
            &left,
            &right,
            self.options.gamma,
            self.options.rust(),
        ))
    }
}

impl Oracle for DistanceArgs {
    fn oracle(&self) -> Vec<Field> {
        lines("distance", self.reply(), &self.rooms, |_| Vec::new())
    }
}

impl BisimSide {
    /// The observations as the Rust takes them.
    pub fn observe(&self) -> impl Fn(StateId) -> f64 {
        |s| self.observations[s.index()]
    }
}

impl BisimArgs {
    /// The chains that are compared inside, by the Rust's own steps.
    pub fn chains(&self) -> (Chain, Chain) {
        let [left, right] = [&self.left, &self.right].map(|side| from_columns(&side.model));
        let rate = common_rate(&left, &right);
        let mut a = uniformise(&left, rate, self.left.observe());
        let mut b = uniformise(&right, rate, self.right.observe());
        (a.initial, b.initial) = (self.left.state as usize, self.right.state as usize);
        normalise(&mut a, &mut b);
        (a, b)
    }

    /// The Rust's reply, or a refusal.
    pub fn reply(&self) -> Result<Distance, u32> {
        let refused = |number| if number == 0 { Ok(()) } else { Err(number) };
        refused(bisim_distance_refusal(self))?;
        let (a, b) = self.chains();
        refused(run_refusal(&a, &b, &self.rooms, self.options.max_rounds))?;
        let [left, right] = [&self.left, &self.right].map(|side| from_columns(&side.model));
        replied(bisim_distance(
            (&left, StateId(self.left.state)),
            (&right, StateId(self.right.state)),
            self.left.observe(),
            self.right.observe(),
            self.options.gamma,
            self.options.rust(),
        ))
    }
}

impl Oracle for BisimArgs {
    fn oracle(&self) -> Vec<Field> {
        lines("bisim_distance", self.reply(), &self.rooms, |zero| {
            [&self.left, &self.right]
                .map(|side| side.rooms.scratch(zero))
                .concat()
        })
    }
}
