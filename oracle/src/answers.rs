//! The oracle's answers: a refusal of [`refusals`](crate::refusals), or the Rust's own result laid out in the lent
//! memory.

use crate::args::{
    BuildArgs, Columns, Input, InternArgs, LabelArgs, ModelArgs, ReadArgs, RealArgs, maybe, numbers,
};
use crate::bisim_core::{Edge, Interner, LabelId, Real, Semiring, StateId, Wlts, WltsBuilder};
use crate::refusals::{
    build_refusal, get_refusal, intern_refusal, model_refusal, reader_refusal, resolve_refusal,
};
use crate::text::{Case, Field, Value};

/// The Rust's model: labels are numbers, weights reals.
pub type Model = Wlts<u32, Real>;

/// An input that the oracle answers.
pub trait Oracle: Input {
    /// The answer lines of the case, with all lent memory.
    fn oracle(&self) -> Vec<Field>;

    /// Of the answer lines those that the text form has.
    fn shown(&self, fields: Vec<Field>) -> Vec<Field> {
        fields
    }

    /// The whole case.
    fn case(&self) -> Case {
        let mut fields = self.fields();
        fields.extend(self.shown(self.oracle()));
        Case {
            kind: Self::KIND,
            fields,
        }
    }
}

/// An answer line.
pub fn answer(name: &'static str, refusal: u32, values: Vec<Value>) -> Field {
    Field {
        name,
        value: Value::Answer(refusal, values),
    }
}

fn count(n: usize) -> Value {
    Value::Number(n as u64)
}

/// The answer line with one value, run only where nothing is refused.
pub fn one(name: &'static str, refusal: u32, value: impl FnOnce() -> Value) -> Field {
    let value = if refusal == 0 {
        value()
    } else {
        Value::Number(0)
    };
    answer(name, refusal, vec![value])
}

/// The Rust's interner after these values.
fn interner(values: &[u32]) -> Interner<u32> {
    let mut interner = Interner::new();
    for &value in values {
        interner.intern(value);
    }
    interner
}

impl Oracle for RealArgs {
    fn oracle(&self) -> Vec<Field> {
        let x = Real(self.x);
        let xs: Vec<Real> = self.xs.iter().copied().map(Real).collect();
        vec![
            one("is_valid", 0, || Value::Number(x.is_valid().into())),
            one("is_zero", 0, || Value::Number(x.is_zero().into())),
            one("sum", 0, || Value::Real(Real::sum(&xs).value())),
        ]
    }
}

impl Oracle for InternArgs {
    fn oracle(&self) -> Vec<Field> {
        let refusal = intern_refusal(self);
        let mut labels = self.labels.clone();
        let mut values = vec![Value::Number(0); 2];
        if refusal == 0 {
            let mut interner = interner(&labels[..self.count]);
            let id = interner.intern(self.value);
            labels[..interner.len()].copy_from_slice(interner.values());
            values = vec![Value::Number(id.into()), count(interner.len())];
        }
        vec![
            answer("intern", refusal, values),
            numbers("labels", &labels),
        ]
    }
}

impl Oracle for LabelArgs {
    fn oracle(&self) -> Vec<Field> {
        let used = || interner(&self.labels[..self.count]);
        vec![
            one("get", get_refusal(self), || maybe(used().get(&self.value))),
            one("resolve", resolve_refusal(self), || {
                Value::Number((*used().resolve(self.id)).into())
            }),
        ]
    }
}

/// The Rust's `build` of accepted arguments.
pub fn built(a: &BuildArgs) -> Model {
    let mut builder = WltsBuilder::new();
    builder.ensure_states(a.states);
    for i in 0..a.given {
        builder.add_transition(
            StateId(a.sources[i]),
            a.labels[i],
            StateId(a.targets[i]),
            Real(a.weights[i]),
        );
    }
    if let Some(s) = a.initial {
        builder.set_initial(StateId(s));
    }
    builder.build()
}

/// Lays the model out at the start of each store.
fn lay_out(model: &Model, stores: &mut Columns) {
    stores.label_values[..model.labels().len()].copy_from_slice(model.labels());
    stores.offsets[..=model.num_states()].copy_from_slice(&model.offsets);
    for (e, edge) in model.edges.iter().enumerate() {
        stores.edge_labels[e] = edge.label.0;
        stores.edge_targets[e] = edge.target.0;
        stores.edge_weights[e] = edge.weight.value();
    }
}

impl Oracle for BuildArgs {
    fn oracle(&self) -> Vec<Field> {
        let refusal = build_refusal(self);
        let mut stores = self.stores.clone();
        let mut values = vec![Value::Number(0); 2];
        if refusal == 0 {
            let model = built(self);
            lay_out(&model, &mut stores);
            values = vec![count(model.num_transitions()), count(model.labels().len())];
        }
        let mut fields = vec![answer("build", refusal, values)];
        fields.extend(stores.fields());
        fields
    }
}

/// The built model of `a` as it is handed in afterwards, none where `build` refuses.
pub fn handed_in(a: &BuildArgs) -> Option<ModelArgs> {
    if build_refusal(a) != 0 {
        return None;
    }
    let model = built(a);
    let mut columns = a.stores.clone();
    lay_out(&model, &mut columns);
    Some(ModelArgs {
        states: a.states,
        edges: model.num_transitions(),
        labels: model.labels().len(),
        initial: a.initial,
        columns,
    })
}

/// The Rust's model with these columns; only for models that pass the checks.
pub fn from_columns(m: &ModelArgs) -> Model {
    let c = &m.columns;
    let edge = |e: usize| Edge {
        label: LabelId(c.edge_labels[e]),
        target: StateId(c.edge_targets[e]),
        weight: Real(c.edge_weights[e]),
    };
    Wlts {
        labels: interner(&c.label_values[..m.labels]),
        offsets: c.offsets[..=m.states].to_vec(),
        edges: (0..m.edges).map(edge).collect(),
        initial: m.initial.map(StateId),
    }
}

/// From which edge to which the successors go.
fn successors(model: &Model, s: u32) -> Vec<Value> {
    let from = model.offsets[s as usize] as usize;
    let to = from + model.successors(StateId(s)).len();
    vec![count(from), count(to)]
}

impl Oracle for ReadArgs {
    fn oracle(&self) -> Vec<Field> {
        let m = &self.model;
        let refusal = model_refusal(m);
        let state = reader_refusal(m, self.s as usize >= m.states);
        let id = reader_refusal(m, self.id as usize >= m.labels);
        let model = (refusal == 0).then(|| from_columns(m));
        let read = || model.as_ref().expect("not refused");
        let run = match state {
            0 => successors(read(), self.s),
            _ => vec![Value::Number(0); 2],
        };
        vec![
            answer("model_refusal", refusal, Vec::new()),
            one("num_states", refusal, || count(read().num_states())),
            one("num_transitions", refusal, || {
                count(read().num_transitions())
            }),
            one("num_labels", refusal, || count(read().labels().len())),
            one("initial", refusal, || maybe(read().initial().map(|s| s.0))),
            answer("successors", state, run),
            one("label", id, || {
                Value::Number((*read().label(LabelId(self.id))).into())
            }),
            one("label_id", refusal, || {
                maybe(read().label_id(&self.value).map(|l| l.0))
            }),
        ]
    }
}
