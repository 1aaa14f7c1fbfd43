//! The static library that is compared, by its bindings for Rust over lent memory. Each function returns a refusal's
//! number, or 0 with its answer behind the references.

pub mod card;
pub mod chain;
pub mod distance;
pub mod network;
pub mod relation;
pub mod transport;

use tanqesha::sys::{self, ModelView};

use crate::answers::{Oracle, answer};
use crate::args::{BuildArgs, InternArgs, LabelArgs, ModelArgs, ReadArgs, RealArgs, numbers};
use crate::text::{Field, Value};

/// What the references hold before a call: a refusal leaves it there.
const BEFORE: u32 = 0xabcd;
/// What a reference to a float holds before a call.
const BEFORE_REAL: f64 = -7.5;

/// An initial state as the interface takes it: any mark but 0 for a present one; an absent one's number is not read.
fn present(initial: Option<u32>) -> (u32, u32) {
    initial.map_or((0, 5), |s| (1 + s % 2, s))
}

/// A model as the interface takes it.
fn view(m: &ModelArgs) -> ModelView<'_> {
    let (present, start) = present(m.initial);
    ModelView {
        states: m.states,
        edges: m.edges,
        labels: m.labels,
        present,
        start,
        label_values: &m.columns.label_values,
        offsets: &m.columns.offsets,
        edge_labels: &m.columns.edge_labels,
        edge_targets: &m.columns.edge_targets,
        edge_weights: &m.columns.edge_weights,
    }
}

/// `build`, which alters the stores of `a`.
pub fn build(a: &mut BuildArgs, edges: &mut usize, distinct: &mut usize) -> u32 {
    let (present, initial) = present(a.initial);
    let c = &mut a.stores;
    sys::build(
        a.states,
        present,
        initial,
        a.given,
        &a.sources,
        &a.labels,
        &a.targets,
        &a.weights,
        &mut c.label_values,
        &mut c.offsets,
        &mut c.edge_labels,
        &mut c.edge_targets,
        &mut c.edge_weights,
        edges,
        distinct,
    )
}

/// An input that the library answers.
pub trait Ours: Oracle {
    /// The answer lines of the case.
    fn ours(&self) -> Vec<Field>;
}

/// A number that a call left behind a reference; 0 where a refusal left it as it was, as the text form has it.
fn left(refusal: u32, value: u64) -> Value {
    let before = if refusal == 0 { 0 } else { BEFORE.into() };
    Value::Number(value.wrapping_sub(before))
}

fn one(name: &'static str, call: impl FnOnce(&mut u32) -> u32) -> Field {
    let mut value = BEFORE;
    let refusal = call(&mut value);
    answer(name, refusal, vec![left(refusal, value.into())])
}

fn count(name: &'static str, call: impl FnOnce(&mut usize) -> u32) -> Field {
    let mut value = BEFORE as usize;
    let refusal = call(&mut value);
    answer(name, refusal, vec![left(refusal, value as u64)])
}

/// An answer that may be absent, which leaves its second number as it was.
fn maybe(name: &'static str, call: impl FnOnce(&mut u32, &mut u32) -> u32) -> Field {
    let (mut present, mut value) = (BEFORE, BEFORE);
    let refusal = call(&mut present, &mut value);
    let value = match (refusal, present, value) {
        (0, 0, BEFORE) => Value::Absent,
        (0, 1, value) => Value::Number(value.into()),
        (0, ..) => Value::Number(u64::MAX),
        (_, BEFORE, value) => left(refusal, value.into()),
        _ => Value::Number(u64::MAX),
    };
    answer(name, refusal, vec![value])
}

impl Ours for RealArgs {
    fn ours(&self) -> Vec<Field> {
        let test = |name, b: bool| answer(name, 0, vec![Value::Number(b.into())]);
        vec![
            test("is_valid", sys::is_valid(self.x)),
            test("is_zero", sys::is_zero(self.x)),
            answer("sum", 0, vec![Value::Real(sys::sum(&self.xs))]),
        ]
    }
}

impl Ours for InternArgs {
    fn ours(&self) -> Vec<Field> {
        let mut labels = self.labels.clone();
        let (mut id, mut total) = (BEFORE, BEFORE as usize);
        let refusal = sys::intern(&mut labels, self.count, self.value, &mut id, &mut total);
        let values = [id.into(), total as u64].map(|value| left(refusal, value));
        vec![
            answer("intern", refusal, values.to_vec()),
            numbers("labels", &labels),
        ]
    }
}

impl Ours for LabelArgs {
    fn ours(&self) -> Vec<Field> {
        vec![
            maybe("get", |present, id| {
                sys::get(&self.labels, self.count, self.value, present, id)
            }),
            one("resolve", |value| {
                sys::resolve(&self.labels, self.count, self.id, value)
            }),
        ]
    }
}

impl Ours for BuildArgs {
    fn ours(&self) -> Vec<Field> {
        let mut args = self.clone();
        let (mut edges, mut distinct) = (BEFORE as usize, BEFORE as usize);
        let refusal = build(&mut args, &mut edges, &mut distinct);
        let values = [edges, distinct].map(|value| left(refusal, value as u64));
        let mut fields = vec![answer("build", refusal, values.to_vec())];
        fields.extend(args.stores.fields());
        fields
    }
}

/// `successors`, an answer of two places.
fn row(m: &ModelView<'_>, s: u32) -> Field {
    let (mut from, mut to) = (BEFORE as usize, BEFORE as usize);
    let refusal = sys::successors(m, s, &mut from, &mut to);
    let values = [from, to].map(|value| left(refusal, value as u64));
    answer("successors", refusal, values.to_vec())
}

impl Ours for ReadArgs {
    fn ours(&self) -> Vec<Field> {
        let m = &view(&self.model);
        vec![
            answer("model_refusal", sys::model_refusal(m), Vec::new()),
            count("num_states", |value| sys::num_states(m, value)),
            count("num_transitions", |value| sys::num_transitions(m, value)),
            count("num_labels", |value| sys::num_labels(m, value)),
            maybe("initial", |found, state| sys::initial(m, found, state)),
            row(m, self.s),
            one("label", |value| sys::label(m, self.id, value)),
            maybe("label_id", |found, id| {
                sys::label_id(m, self.value, found, id)
            }),
        ]
    }
}
