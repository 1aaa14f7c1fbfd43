//! The oracle's answers about relations: a refusal, or what the Rust gives, laid out in bits.

use crate::answers::{Model, Oracle, answer, from_columns, one};
use crate::args::{RelatedArgs, RelationArgs, RunArgs, bytes, listed};
use crate::bisim_core::StateId;
use crate::bisim_metric::epsdelta::{EpsDeltaRelation, epsdelta, epsdelta_bisimilar, min_epsilon};
use crate::network::trimmed;
use crate::refusals::{
    epsdelta_bisimilar_refusal, epsdelta_refusal, min_epsilon_refusal, related_refusal,
};
use crate::text::{Field, Value};

/// Both models of accepted arguments, as the Rust takes them.
pub fn models(a: &RelationArgs) -> (Model, Model) {
    (from_columns(&a.left), from_columns(&a.right))
}

/// The class of each state.
pub fn class(classes: &[u32]) -> impl Fn(StateId) -> u32 + Copy + '_ {
    |s| classes[s.index()]
}

/// The Rust's relation of accepted arguments.
pub fn relation(a: &RelationArgs) -> EpsDeltaRelation {
    let (left, right) = models(a);
    let (left_class, right_class) = (class(&a.left_classes), class(&a.right_classes));
    let reply = epsdelta(&left, &right, left_class, right_class, a.epsilon, a.rho);
    reply.expect("not refused")
}

/// Lays out the rows, lowest bit of a byte first, at the start of the bytes.
pub fn lay_out(rows: &[Vec<bool>], relation: &mut [u8]) {
    let pairs: Vec<bool> = rows.concat();
    for (byte, bits) in relation.iter_mut().zip(pairs.chunks(8)) {
        let bits = bits.iter().enumerate();
        *byte = bits.fold(0, |byte, (i, &bit)| byte | u8::from(bit) << i);
    }
}

/// `epsdelta`, and the relation.
fn run(a: &RelationArgs) -> [Field; 2] {
    let refusal = epsdelta_refusal(a);
    let mut bits = a.relation.clone();
    if refusal == 0 {
        lay_out(&relation(a).related, &mut bits);
    }
    [answer("epsdelta", refusal, Vec::new()), bytes(&bits)]
}

/// An answer, and the relation as scratch: all zero after a call that is not refused.
fn with_scratch(a: &RelationArgs, answer: Field) -> [Field; 2] {
    let scratch = match answer.value {
        Value::Answer(0, _) => vec![0; a.relation.len()],
        _ => a.relation.clone(),
    };
    [answer, bytes(&scratch)]
}

/// `epsdelta_bisimilar`.
fn bisimilar(a: &RelationArgs) -> Field {
    one("epsdelta_bisimilar", epsdelta_bisimilar_refusal(a), || {
        let (left, right) = models(a);
        let (left_class, right_class) = (class(&a.left_classes), class(&a.right_classes));
        let reply = epsdelta_bisimilar(&left, &right, left_class, right_class, a.epsilon, a.rho);
        Value::Number(reply.expect("not refused").into())
    })
}

/// `min_epsilon`.
fn least(a: &RelationArgs) -> Field {
    let refusal = min_epsilon_refusal(a);
    let mut value = Value::Real(0.0);
    if refusal == 0 {
        let (left, right) = models(a);
        let (left_class, right_class) = (class(&a.left_classes), class(&a.right_classes));
        let reply = min_epsilon(&left, &right, left_class, right_class, a.rho);
        value = reply
            .expect("not refused")
            .map_or(Value::Absent, Value::Real);
    }
    answer("min_epsilon", refusal, vec![value])
}

impl Oracle for RelationArgs {
    fn oracle(&self) -> Vec<Field> {
        let scratch = |answer| with_scratch(self, answer);
        [run(self), scratch(bisimilar(self)), scratch(least(self))].concat()
    }

    fn shown(&self, fields: Vec<Field>) -> Vec<Field> {
        trimmed(fields, &[("relation", listed(&self.relation))])
    }
}

impl Oracle for RunArgs {
    fn oracle(&self) -> Vec<Field> {
        run(&self.0).to_vec()
    }

    fn shown(&self, fields: Vec<Field>) -> Vec<Field> {
        self.0.shown(fields)
    }
}

/// The relation of these bytes; only for arguments that pass the checks.
fn from_bytes(a: &RelatedArgs) -> EpsDeltaRelation {
    let total = a.left_states + a.right_states;
    let bit = |n: usize| a.relation[n / 8] >> (n % 8) & 1 == 1;
    let row = |s: usize| (s * total..(s + 1) * total).map(bit).collect();
    EpsDeltaRelation {
        related: (0..total).map(row).collect(),
        left_states: a.left_states,
        sweeps: 0,
        strikes: 0,
    }
}

impl Oracle for RelatedArgs {
    fn oracle(&self) -> Vec<Field> {
        vec![one("related", related_refusal(self), || {
            let relation = from_bytes(self);
            Value::Number(relation.related(StateId(self.s), StateId(self.t)).into())
        })]
    }
}
