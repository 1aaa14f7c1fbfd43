//! The oracle's answers about networks: a refusal, or what the Rust does, laid out in the places of a network.

use crate::answers::{Oracle, answer};
use crate::args::{EdgeArgs, FlowArgs, NetworkArgs, NodesArgs, RowsArgs, numbers, reals};
use crate::bisim_metric::flow::FlowNetwork;
use crate::refusals::{add_edge_refusal, max_flow_refusal, network_refusal_new};
use crate::text::{Field, Value};

/// Places for links, and for entries of the node lists.
pub const LINKS: usize = 2_176;
/// Places for the starts of node lists.
pub const STARTS: usize = 67;

impl NetworkArgs {
    /// With every place of the memory listed.
    pub fn whole(&self) -> Self {
        let mut n = self.clone();
        n.heads.resize(LINKS, 0);
        n.caps.resize(LINKS, 0.0);
        n.costs.resize(LINKS, 0.0);
        n.starts.resize(STARTS, 0);
        n.list.resize(LINKS, 0);
        n
    }

    /// So many nodes and no links, no place listed.
    pub fn empty(nodes: usize) -> Self {
        Self {
            nodes,
            count: 0,
            heads: Vec::new(),
            caps: Vec::new(),
            costs: Vec::new(),
            starts: Vec::new(),
            list: Vec::new(),
        }
    }

    /// A network that nothing has made: what lent memory holds before `new`.
    pub fn filled() -> Self {
        let junk = |i: usize| 1e9 + i as f64;
        Self {
            nodes: 7_001,
            count: 7_002,
            heads: (7_100..).take(LINKS).collect(),
            caps: (0..LINKS).map(junk).collect(),
            costs: (LINKS..2 * LINKS).map(junk).collect(),
            starts: (9_500..).take(STARTS).collect(),
            list: (9_600..).take(LINKS).collect(),
        }
    }

    /// Every place, as answer lines.
    pub fn lines(&self) -> Vec<Field> {
        let counts = [self.nodes as u64, self.count as u64];
        vec![
            numbers("heads", &self.heads),
            reals("caps", &self.caps),
            reals("costs", &self.costs),
            numbers("starts", &self.starts),
            numbers("list", &self.list),
            Field {
                name: "counts",
                value: Value::Numbers(counts.to_vec()),
            },
        ]
    }

    /// Lays out the Rust's node lists.
    fn set_lists(&mut self, net: &FlowNetwork) {
        let lists = net.adj.iter().flatten();
        for (place, &e) in self.list.iter_mut().zip(lists) {
            *place = e as u32;
        }
        let mut end = 0;
        let ends = net.adj.iter().map(|links| {
            end += links.len() as u32;
            end
        });
        for (place, start) in self.starts.iter_mut().zip([0].into_iter().chain(ends)) {
            *place = start;
        }
    }

    /// Lays out the Rust's link e.
    fn set_link(&mut self, net: &FlowNetwork, e: usize) {
        let (head, cap, cost) = net.edges[e];
        self.heads[e] = head as u32;
        self.caps[e] = cap;
        self.costs[e] = cost;
    }
}

/// The Rust's network of the added links in order, with the capacities given; only for networks that pass the check.
pub fn rebuilt(n: &NetworkArgs) -> FlowNetwork {
    let mut net = FlowNetwork::new(n.nodes);
    for e in (0..n.count).step_by(2) {
        let (from, to) = (n.heads[e + 1] as usize, n.heads[e] as usize);
        net.add_edge(from, to, n.caps[e], n.costs[e]);
        net.edges[e + 1].1 = n.caps[e + 1];
    }
    net
}

/// The answer of `max_flow` under this name, and the network afterwards.
fn flowed(a: &FlowArgs, name: &'static str) -> (Field, NetworkArgs) {
    let mut whole = FlowArgs {
        network: a.network.whole(),
        ..*a
    };
    let refusal = max_flow_refusal(&whole);
    let mut values = vec![Value::Real(0.0), Value::Number(0), Value::Number(0)];
    if refusal == 0 {
        let mut net = rebuilt(&whole.network);
        let reply = net.max_flow(a.source, a.sink);
        for (cap, link) in whole.network.caps.iter_mut().zip(&net.edges) {
            *cap = link.1;
        }
        values = vec![
            Value::Real(reply.flow),
            Value::Number(reply.phases as u64),
            Value::Number(reply.pushes as u64),
        ];
    }
    (answer(name, refusal, values), whole.network)
}

/// The network of these arguments after the Rust's run, none where it is refused.
pub fn after_run(a: &FlowArgs) -> Option<NetworkArgs> {
    let (answer, network) = flowed(a, "max_flow");
    let mut after = a.network.clone();
    after.caps = network.caps[..after.caps.len()].to_vec();
    matches!(answer.value, Value::Answer(0, _)).then_some(after)
}

/// The answers, and of the lists those that are named, as long as said.
pub fn trimmed(fields: Vec<Field>, lengths: &[(&str, usize)]) -> Vec<Field> {
    let trim = |mut field: Field| {
        let length = lengths.iter().find(|l| l.0 == field.name).map(|l| l.1);
        match (&mut field.value, length) {
            (Value::Answer(..), _) => {}
            (Value::Numbers(list), Some(length)) => list.truncate(length),
            (Value::Bytes(list) | Value::Hex(list), Some(length)) => list.truncate(length),
            (Value::Reals(list), Some(length)) => list.truncate(length),
            _ => return None,
        }
        Some(field)
    };
    fields.into_iter().filter_map(trim).collect()
}

impl Oracle for FlowArgs {
    fn oracle(&self) -> Vec<Field> {
        let (answer, network) = flowed(self, "max_flow");
        let mut fields = vec![answer];
        fields.extend(network.lines());
        fields
    }

    fn shown(&self, fields: Vec<Field>) -> Vec<Field> {
        trimmed(fields, &[("caps", self.network.caps.len())])
    }
}

impl Oracle for RowsArgs {
    fn oracle(&self) -> Vec<Field> {
        let (run, network) = flowed(&self.0, "max_flow_rows");
        let Value::Answer(refusal, _) = run.value else {
            panic!("no answer");
        };
        let caps = reals("caps", &network.caps[..self.0.network.caps.len()]);
        vec![run, caps, answer("network_refusal", refusal, Vec::new())]
    }
}

impl Oracle for EdgeArgs {
    fn oracle(&self) -> Vec<Field> {
        let mut whole = EdgeArgs {
            network: self.network.whole(),
            ..*self
        };
        let refusal = add_edge_refusal(&whole);
        let after = &mut whole.network;
        let mut count = 0;
        if refusal == 0 {
            let mut net = rebuilt(after);
            net.add_edge(self.from, self.to, self.capacity, self.cost);
            after.set_link(&net, after.count);
            after.set_link(&net, after.count + 1);
            after.set_lists(&net);
            after.count = net.edges.len();
            count = after.count;
        }
        let mut fields = vec![answer(
            "add_edge",
            refusal,
            vec![Value::Number(count as u64)],
        )];
        fields.extend(after.lines());
        fields
    }

    fn shown(&self, fields: Vec<Field>) -> Vec<Field> {
        let n = &self.network;
        let two_more = |length: usize| (length + 2).min(LINKS);
        let lengths = [
            ("heads", two_more(n.heads.len())),
            ("caps", two_more(n.caps.len())),
            ("costs", two_more(n.costs.len())),
            ("starts", n.starts.len()),
            ("list", two_more(n.list.len())),
        ];
        trimmed(fields, &lengths)
    }
}

impl Oracle for NodesArgs {
    fn oracle(&self) -> Vec<Field> {
        let refusal = network_refusal_new(self.nodes);
        let mut after = NetworkArgs::filled();
        let mut nodes = 0;
        if refusal == 0 {
            nodes = FlowNetwork::new(self.nodes).adj.len();
            after = NetworkArgs::empty(nodes).whole();
        }
        let mut fields = vec![answer("new", refusal, vec![Value::Number(nodes as u64)])];
        fields.extend(after.lines());
        fields
    }

    fn shown(&self, fields: Vec<Field>) -> Vec<Field> {
        trimmed(fields, &[])
    }
}
