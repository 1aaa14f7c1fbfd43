//! The arguments of each entry, as both sides take them, and their lines in the text form.

use crate::text::{Field, Value};

mod distance;
mod leaves;

pub use leaves::{Held, Leaf, Leaves};

pub use distance::{
    BisimArgs, BisimSide, ChainRooms, DistanceArgs, Lent, Options, Record, Rooms, marked,
    real_marked, real_state_of, state_of,
};

/// An input of one kind of case.
pub trait Input: Clone {
    const KIND: &'static str;

    /// The input lines of the case, lent memory as filled beforehand included.
    fn fields(&self) -> Vec<Field>;

    /// How many parts can be taken out to make the input shorter.
    fn parts(&self) -> usize {
        0
    }

    /// The input without the parts `from..to`.
    fn without(&self, _from: usize, _to: usize) -> Self {
        self.clone()
    }
}

/// `is_valid` and `is_zero` of `x`, `sum` of `xs`.
#[derive(Debug, Clone)]
pub struct RealArgs {
    pub x: f64,
    pub xs: Vec<f64>,
}

/// `intern`: the first `count` of the lent `labels` are in use.
#[derive(Debug, Clone)]
pub struct InternArgs {
    pub labels: Vec<u32>,
    pub count: usize,
    pub value: u32,
}

/// `get` of `value` and `resolve` of `id`.
#[derive(Debug, Clone)]
pub struct LabelArgs {
    pub labels: Vec<u32>,
    pub count: usize,
    pub value: u32,
    pub id: u32,
}

/// The columns of a built model: lent to `build`, or handed in.
#[derive(Debug, Clone)]
pub struct Columns {
    pub label_values: Vec<u32>,
    pub offsets: Vec<u32>,
    pub edge_labels: Vec<u32>,
    pub edge_targets: Vec<u32>,
    pub edge_weights: Vec<f64>,
}

/// `build`.
#[derive(Debug, Clone)]
pub struct BuildArgs {
    pub states: usize,
    pub initial: Option<u32>,
    pub given: usize,
    pub sources: Vec<u32>,
    pub labels: Vec<u32>,
    pub targets: Vec<u32>,
    pub weights: Vec<f64>,
    pub stores: Columns,
}

/// A built model handed in.
#[derive(Debug, Clone)]
pub struct ModelArgs {
    pub states: usize,
    pub edges: usize,
    pub labels: usize,
    pub initial: Option<u32>,
    pub columns: Columns,
}

/// The readers of a built model: `successors` of `s`, `label` of `id`, `label_id` of `value`.
#[derive(Debug, Clone)]
pub struct ReadArgs {
    pub model: ModelArgs,
    pub s: u32,
    pub id: u32,
    pub value: u32,
}

/// A network handed in: `count` links in use, reverses included; link e leads to `heads[e]`; node u's list is
/// `list[starts[u]..starts[u + 1]]`. Places past those listed are 0.
#[derive(Debug, Clone, PartialEq)]
pub struct NetworkArgs {
    pub nodes: usize,
    pub count: usize,
    pub heads: Vec<u32>,
    pub caps: Vec<f64>,
    pub costs: Vec<f64>,
    pub starts: Vec<u32>,
    pub list: Vec<u32>,
}

/// `max_flow`.
#[derive(Debug, Clone)]
pub struct FlowArgs {
    pub network: NetworkArgs,
    pub source: usize,
    pub sink: usize,
}

/// `max_flow` over rows that hold the links in use and no others.
#[derive(Debug, Clone)]
pub struct RowsArgs(pub FlowArgs);

/// `add_edge`.
#[derive(Debug, Clone)]
pub struct EdgeArgs {
    pub network: NetworkArgs,
    pub from: usize,
    pub to: usize,
    pub capacity: f64,
    pub cost: f64,
}

/// `new`.
#[derive(Debug, Clone)]
pub struct NodesArgs {
    pub nodes: usize,
}

/// `transport` of masses a and b, with a cost for each pair in row order; the three columns of the plan are lent.
#[derive(Debug, Clone)]
pub struct TransportArgs {
    pub a: Vec<f64>,
    pub b: Vec<f64>,
    pub costs: Vec<f64>,
    pub plan_rows: Vec<u32>,
    pub plan_columns: Vec<u32>,
    pub plan_masses: Vec<f64>,
}

/// The lists of a chain: lent to `uniformise`, or handed in.
#[derive(Debug, Clone)]
pub struct ChainLists {
    pub offsets: Vec<u32>,
    pub targets: Vec<u32>,
    pub probabilities: Vec<f64>,
    pub observations: Vec<f64>,
}

/// A chain handed in.
#[derive(Debug, Clone)]
pub struct ChainArgs {
    pub states: usize,
    pub entries: usize,
    pub initial: u32,
    pub lists: ChainLists,
}

/// `common_rate`.
#[derive(Debug, Clone)]
pub struct RateArgs {
    pub left: ModelArgs,
    pub right: ModelArgs,
}

/// `uniformise` of a model at a rate, with an observation of each state; the lists of the chain are lent.
#[derive(Debug, Clone)]
pub struct UniformiseArgs {
    pub model: ModelArgs,
    pub rate: f64,
    pub observations: Vec<f64>,
    pub chain: ChainLists,
}

/// `normalise`; the observations of both chains are lent.
#[derive(Debug, Clone)]
pub struct NormaliseArgs {
    pub left: ChainArgs,
    pub right: ChainArgs,
}

/// `epsdelta`, `epsdelta_bisimilar` and `min_epsilon`, which has no ε; `relation` is lent.
#[derive(Debug, Clone)]
pub struct RelationArgs {
    pub left: ModelArgs,
    pub right: ModelArgs,
    pub left_classes: Vec<u32>,
    pub right_classes: Vec<u32>,
    pub epsilon: f64,
    pub rho: f64,
    pub relation: Vec<u8>,
}

/// `epsdelta` alone, on models for which `min_epsilon` takes long.
#[derive(Debug, Clone)]
pub struct RunArgs(pub RelationArgs);

/// `related` of state s of the left model and state t of the right one, by their counts and a lent relation.
#[derive(Debug, Clone)]
pub struct RelatedArgs {
    pub left_states: usize,
    pub right_states: usize,
    pub relation: Vec<u8>,
    pub s: u32,
    pub t: u32,
}

/// `report` of the bytes of a card; `out` is lent, and holds the same byte everywhere.
#[derive(Debug, Clone)]
pub struct CardArgs {
    pub card: Vec<u8>,
    pub out: Vec<u8>,
}

impl Columns {
    /// Lent stores of these lengths, filled with values that no result has at that place.
    pub fn filled(labels: usize, offsets: usize, edges: usize) -> Self {
        Self {
            label_values: fill(labels),
            offsets: fill(offsets),
            edge_labels: fill(edges),
            edge_targets: fill(edges),
            edge_weights: (0..edges).map(|i| -1.0 - i as f64).collect(),
        }
    }

    /// The five lines.
    pub fn fields(&self) -> Vec<Field> {
        vec![
            numbers("label_values", &self.label_values),
            numbers("offsets", &self.offsets),
            numbers("edge_labels", &self.edge_labels),
            numbers("edge_targets", &self.edge_targets),
            reals("edge_weights", &self.edge_weights),
        ]
    }
}

/// Numbers above any state number, offset and label id.
pub fn fill(length: usize) -> Vec<u32> {
    (5_000..).take(length).collect()
}

pub fn number(name: &'static str, n: u64) -> Field {
    Field {
        name,
        value: Value::Number(n),
    }
}

pub fn numbers(name: &'static str, list: &[u32]) -> Field {
    Field {
        name,
        value: Value::Numbers(list.iter().map(|&n| n.into()).collect()),
    }
}

pub fn reals(name: &'static str, list: &[f64]) -> Field {
    Field {
        name,
        value: Value::Reals(list.to_vec()),
    }
}

fn real(name: &'static str, x: f64) -> Field {
    Field {
        name,
        value: Value::Real(x),
    }
}

/// The number, or absent.
pub fn maybe(n: Option<u32>) -> Value {
    n.map_or(Value::Absent, |n| Value::Number(n.into()))
}

fn initial(state: Option<u32>) -> Field {
    Field {
        name: "initial",
        value: maybe(state),
    }
}

/// The list without the places `from..to`.
fn cut<T: Clone>(list: &[T], from: usize, to: usize) -> Vec<T> {
    let kept = list
        .iter()
        .enumerate()
        .filter(|(i, _)| *i < from || *i >= to);
    kept.map(|(_, x)| x.clone()).collect()
}

impl Input for RealArgs {
    const KIND: &'static str = "real";

    fn fields(&self) -> Vec<Field> {
        vec![real("x", self.x), reals("xs", &self.xs)]
    }

    fn parts(&self) -> usize {
        self.xs.len()
    }

    fn without(&self, from: usize, to: usize) -> Self {
        let xs = cut(&self.xs, from, to);
        Self { x: self.x, xs }
    }
}

impl Input for InternArgs {
    const KIND: &'static str = "intern";

    fn fields(&self) -> Vec<Field> {
        vec![
            numbers("labels", &self.labels),
            number("count", self.count as u64),
            number("value", self.value.into()),
        ]
    }
}

impl Input for LabelArgs {
    const KIND: &'static str = "label";

    fn fields(&self) -> Vec<Field> {
        vec![
            numbers("labels", &self.labels),
            number("count", self.count as u64),
            number("value", self.value.into()),
            number("id", self.id.into()),
        ]
    }
}

impl Input for BuildArgs {
    const KIND: &'static str = "build";

    fn fields(&self) -> Vec<Field> {
        let mut fields = vec![
            number("states", self.states as u64),
            initial(self.initial),
            number("given", self.given as u64),
            numbers("sources", &self.sources),
            numbers("labels", &self.labels),
            numbers("targets", &self.targets),
            reals("weights", &self.weights),
        ];
        fields.extend(self.stores.fields());
        fields
    }

    fn parts(&self) -> usize {
        self.given.min(self.sources.len())
    }

    /// Fewer transitions; the stores keep their lengths.
    fn without(&self, from: usize, to: usize) -> Self {
        Self {
            given: self.given - (to - from),
            sources: cut(&self.sources, from, to),
            labels: cut(&self.labels, from, to),
            targets: cut(&self.targets, from, to),
            weights: cut(&self.weights, from, to),
            ..self.clone()
        }
    }
}

/// The offset without the edges `from..to`.
fn moved(offset: u32, from: usize, to: usize) -> u32 {
    let before = (offset as usize).clamp(from, to) - from;
    offset - before as u32
}

impl ModelArgs {
    /// Edges that are listed.
    fn listed(&self) -> usize {
        let c = &self.columns;
        let columns = [&c.edge_labels, &c.edge_targets].map(Vec::len);
        let listed = columns.into_iter().fold(c.edge_weights.len(), usize::min);
        listed.min(self.edges)
    }

    /// Without the edges `from..to`.
    fn without(&self, from: usize, to: usize) -> Self {
        let c = &self.columns;
        let offsets = c.offsets.iter().map(|&offset| moved(offset, from, to));
        Self {
            edges: self.edges - (to - from),
            columns: Columns {
                label_values: c.label_values.clone(),
                offsets: offsets.collect(),
                edge_labels: cut(&c.edge_labels, from, to),
                edge_targets: cut(&c.edge_targets, from, to),
                edge_weights: cut(&c.edge_weights, from, to),
            },
            ..*self
        }
    }

    /// The nine lines.
    fn fields(&self) -> Vec<Field> {
        let mut fields = vec![
            number("states", self.states as u64),
            number("edges", self.edges as u64),
            number("labels", self.labels as u64),
            initial(self.initial),
        ];
        fields.extend(self.columns.fields());
        fields
    }
}

impl Input for ReadArgs {
    const KIND: &'static str = "model";

    fn fields(&self) -> Vec<Field> {
        let mut fields = self.model.fields();
        fields.push(number("s", self.s.into()));
        fields.push(number("id", self.id.into()));
        fields.push(number("value", self.value.into()));
        fields
    }
}

impl NetworkArgs {
    /// The seven lines.
    fn fields(&self) -> Vec<Field> {
        vec![
            number("nodes", self.nodes as u64),
            number("count", self.count as u64),
            numbers("heads", &self.heads),
            reals("caps", &self.caps),
            reals("costs", &self.costs),
            numbers("starts", &self.starts),
            numbers("list", &self.list),
        ]
    }

    /// Added links that are listed, with a cost or without.
    fn pairs(&self) -> usize {
        let listed = [self.heads.len(), self.caps.len()];
        listed.into_iter().fold(self.count, usize::min) / 2
    }

    /// Without the added links `from..to`; the others keep their order, and their places in the node lists.
    fn without(&self, from: usize, to: usize) -> Self {
        let gone = 2 * from as u32..2 * to as u32;
        let taken = gone.end - gone.start;
        let kept = self.list.iter().filter(|e| !gone.contains(e));
        let before = |start: u32| {
            let listed = self.list.iter().take(start as usize);
            listed.filter(|e| gone.contains(e)).count() as u32
        };
        Self {
            nodes: self.nodes,
            count: self.count - taken as usize,
            heads: cut(&self.heads, 2 * from, 2 * to),
            caps: cut(&self.caps, 2 * from, 2 * to),
            costs: cut(&self.costs, 2 * from, 2 * to),
            starts: self.starts.iter().map(|&s| s - before(s)).collect(),
            list: kept
                .map(|&e| if e < gone.end { e } else { e - taken })
                .collect(),
        }
    }
}

/// The parts of an input with a network: its added links.
macro_rules! without_links {
    () => {
        fn parts(&self) -> usize {
            self.network.pairs()
        }

        fn without(&self, from: usize, to: usize) -> Self {
            Self {
                network: self.network.without(from, to),
                ..*self
            }
        }
    };
}

impl FlowArgs {
    /// The same over rows of the links in use and no others; none where not all of them are listed.
    pub fn rows(&self) -> Option<RowsArgs> {
        let mut a = self.clone();
        let n = &mut a.network;
        n.heads.truncate(n.count);
        n.caps.truncate(n.count);
        n.costs.truncate(n.count);
        let listed = [n.heads.len(), n.caps.len(), n.costs.len()];
        (listed == [n.count; 3]).then(|| RowsArgs(a))
    }
}

impl Input for FlowArgs {
    const KIND: &'static str = "flow";

    fn fields(&self) -> Vec<Field> {
        let mut fields = self.network.fields();
        fields.push(number("source", self.source as u64));
        fields.push(number("sink", self.sink as u64));
        fields
    }

    without_links!();
}

/// An input of one part, with another kind of case.
macro_rules! as_kind {
    ($args:ident, $kind:literal) => {
        impl Input for $args {
            const KIND: &'static str = $kind;

            fn fields(&self) -> Vec<Field> {
                self.0.fields()
            }

            fn parts(&self) -> usize {
                self.0.parts()
            }

            fn without(&self, from: usize, to: usize) -> Self {
                Self(self.0.without(from, to))
            }
        }
    };
}

as_kind!(RowsArgs, "rows");

impl Input for EdgeArgs {
    const KIND: &'static str = "edge";

    fn fields(&self) -> Vec<Field> {
        let mut fields = self.network.fields();
        fields.push(number("from", self.from as u64));
        fields.push(number("to", self.to as u64));
        fields.push(real("capacity", self.capacity));
        fields.push(real("cost", self.cost));
        fields
    }

    without_links!();
}

impl Input for NodesArgs {
    const KIND: &'static str = "nodes";

    fn fields(&self) -> Vec<Field> {
        vec![number("nodes", self.nodes as u64)]
    }
}

impl TransportArgs {
    /// The columns of the plan, as answer lines.
    pub fn plan(&self) -> [Field; 3] {
        [
            numbers("plan_rows", &self.plan_rows),
            numbers("plan_columns", &self.plan_columns),
            reals("plan_masses", &self.plan_masses),
        ]
    }
}

impl Input for TransportArgs {
    const KIND: &'static str = "transport";

    fn fields(&self) -> Vec<Field> {
        let mut fields = vec![
            reals("a", &self.a),
            reals("b", &self.b),
            reals("costs", &self.costs),
        ];
        fields.extend(self.plan());
        fields
    }

    /// The masses of both sides.
    fn parts(&self) -> usize {
        self.a.len() + self.b.len()
    }

    /// The cells of a mass go with it, so far as their costs are there.
    fn without(&self, from: usize, to: usize) -> Self {
        let (m, n) = (self.a.len(), self.b.len());
        let out = |part: usize| (from..to).contains(&part);
        let kept = |k: usize| k >= m * n || !(out(k / n) || out(m + k % n));
        let costs = self.costs.iter().enumerate().filter(|(k, _)| kept(*k));
        Self {
            a: cut(&self.a, from.min(m), to.min(m)),
            b: cut(&self.b, from.saturating_sub(m), to.saturating_sub(m)),
            costs: costs.map(|(_, &cost)| cost).collect(),
            ..self.clone()
        }
    }
}

impl ChainLists {
    /// Lent lists of these lengths, filled with values that no result has at that place.
    pub fn filled(offsets: usize, entries: usize, states: usize) -> Self {
        Self {
            offsets: fill(offsets),
            targets: (7_000..).take(entries).collect(),
            probabilities: (0..entries).map(|k| -1.0 - k as f64).collect(),
            observations: (0..states).map(|k| 1e15 + k as f64).collect(),
        }
    }

    /// The four lines.
    pub fn fields(&self) -> [Field; 4] {
        [
            numbers("chain_offsets", &self.offsets),
            numbers("chain_targets", &self.targets),
            reals("chain_probabilities", &self.probabilities),
            reals("chain_observations", &self.observations),
        ]
    }
}

impl ChainArgs {
    /// The seven lines.
    fn fields(&self) -> Vec<Field> {
        let mut fields = vec![
            number("states", self.states as u64),
            number("entries", self.entries as u64),
            number("initial", self.initial.into()),
        ];
        fields.extend(self.lists.fields());
        fields
    }
}

impl Input for RateArgs {
    const KIND: &'static str = "rate";

    fn fields(&self) -> Vec<Field> {
        [self.left.fields(), self.right.fields()].concat()
    }

    /// The edges of both models.
    fn parts(&self) -> usize {
        self.left.listed() + self.right.listed()
    }

    fn without(&self, from: usize, to: usize) -> Self {
        let left = self.left.listed();
        let right = |edge: usize| edge.saturating_sub(left);
        Self {
            left: self.left.without(from.min(left), to.min(left)),
            right: self.right.without(right(from), right(to)),
        }
    }
}

impl Input for UniformiseArgs {
    const KIND: &'static str = "uniformise";

    fn fields(&self) -> Vec<Field> {
        let mut fields = self.model.fields();
        fields.push(real("rate", self.rate));
        fields.push(reals("observations", &self.observations));
        fields.extend(self.chain.fields());
        fields
    }

    /// The edges of the model.
    fn parts(&self) -> usize {
        self.model.listed()
    }

    fn without(&self, from: usize, to: usize) -> Self {
        Self {
            model: self.model.without(from, to),
            ..self.clone()
        }
    }
}

impl Input for NormaliseArgs {
    const KIND: &'static str = "normalise";

    fn fields(&self) -> Vec<Field> {
        [self.left.fields(), self.right.fields()].concat()
    }
}

/// How many bytes of a relation its lines list: all, or of over 512 those up to the last that is not zero.
pub fn listed(relation: &[u8]) -> usize {
    match relation.len() {
        ..=512 => relation.len(),
        _ => relation.iter().rposition(|&b| b != 0).map_or(0, |i| i + 1),
    }
}

/// The bytes, as an answer line.
pub fn bytes(relation: &[u8]) -> Field {
    Field {
        name: "relation",
        value: Value::Bytes(relation.to_vec()),
    }
}

/// How many bytes are lent, and what they hold; those not listed are 0.
fn lent(relation: &[u8]) -> [Field; 2] {
    let room = number("room", relation.len() as u64);
    [room, bytes(&relation[..listed(relation)])]
}

impl Input for RelationArgs {
    const KIND: &'static str = "relation";

    fn fields(&self) -> Vec<Field> {
        let mut fields = [self.left.fields(), self.right.fields()].concat();
        fields.push(numbers("left_classes", &self.left_classes));
        fields.push(numbers("right_classes", &self.right_classes));
        fields.push(real("epsilon", self.epsilon));
        fields.push(real("rho", self.rho));
        fields.extend(lent(&self.relation));
        fields
    }

    /// The edges of both models.
    fn parts(&self) -> usize {
        self.left.listed() + self.right.listed()
    }

    fn without(&self, from: usize, to: usize) -> Self {
        let left = self.left.listed();
        let right = |edge: usize| edge.saturating_sub(left);
        Self {
            left: self.left.without(from.min(left), to.min(left)),
            right: self.right.without(right(from), right(to)),
            ..self.clone()
        }
    }
}

as_kind!(RunArgs, "run");

impl Input for RelatedArgs {
    const KIND: &'static str = "related";

    fn fields(&self) -> Vec<Field> {
        let mut fields = vec![
            number("left_states", self.left_states as u64),
            number("right_states", self.right_states as u64),
        ];
        fields.extend(lent(&self.relation));
        fields.push(number("s", self.s.into()));
        fields.push(number("t", self.t.into()));
        fields
    }
}

/// The bytes of the lent store, as an answer line.
pub fn lent_out(out: &[u8]) -> Field {
    Field {
        name: "out",
        value: Value::Hex(out.to_vec()),
    }
}

impl Input for CardArgs {
    const KIND: &'static str = "card";

    /// The store is said by its length and by what it holds everywhere.
    fn fields(&self) -> Vec<Field> {
        let card = Value::Hex(self.card.clone());
        let fill = self.out.first().copied().unwrap_or(0);
        vec![
            Field {
                name: "card",
                value: card,
            },
            number("room", self.out.len() as u64),
            number("fill", fill.into()),
        ]
    }

    /// The bytes of the card.
    fn parts(&self) -> usize {
        self.card.len()
    }

    fn without(&self, from: usize, to: usize) -> Self {
        let card = cut(&self.card, from, to);
        let out = self.out.clone();
        Self { card, out }
    }
}
