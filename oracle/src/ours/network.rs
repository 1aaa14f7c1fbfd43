//! The library's networks: a struct that is lent by pointer, and rows of its links.

use tanqesha::sys::{self, FlowNetwork, Link};

use super::{BEFORE, BEFORE_REAL, Ours, left};
use crate::answers::answer;
use crate::args::{EdgeArgs, FlowArgs, NetworkArgs, NodesArgs, RowsArgs, reals};
use crate::network::{LINKS, STARTS};
use crate::text::{Field, Value};

/// What a flow run leaves behind its references.
#[derive(Debug)]
pub struct Flowed {
    pub flow: f64,
    pub phases: usize,
    pub pushes: usize,
}

impl Flowed {
    pub fn before() -> Self {
        Self {
            flow: BEFORE_REAL,
            phases: BEFORE as usize,
            pushes: BEFORE as usize,
        }
    }

    /// The answer; 0 where a refusal left all as it was.
    fn answer(&self, name: &'static str, refusal: u32) -> Field {
        let flow = match refusal {
            0 => self.flow,
            _ => self.flow - BEFORE_REAL,
        };
        let counts = [self.phases, self.pushes].map(|n| left(refusal, n as u64));
        let values = [vec![Value::Real(flow)], counts.to_vec()].concat();
        answer(name, refusal, values)
    }
}

/// The network in memory; `whole` has every place listed.
pub fn network(whole: &NetworkArgs) -> Box<FlowNetwork> {
    let link = |e: usize| Link {
        head: whole.heads[e],
        cap: whole.caps[e],
        cost: whole.costs[e],
    };
    Box::new(FlowNetwork {
        links: std::array::from_fn(link),
        count: whole.count,
        nodes: whole.nodes,
        starts: whole.starts[..].try_into().expect("every place"),
        list: whole.list[..].try_into().expect("every place"),
    })
}

/// Every place, as answer lines.
fn lines(net: &FlowNetwork) -> Vec<Field> {
    let args = NetworkArgs {
        nodes: net.nodes,
        count: net.count,
        heads: net.links.iter().map(|link| link.head).collect(),
        caps: net.links.iter().map(|link| link.cap).collect(),
        costs: net.links.iter().map(|link| link.cost).collect(),
        starts: net.starts.to_vec(),
        list: net.list.to_vec(),
    };
    args.lines()
}

/// Gives a network the capacities of another.
pub fn restore(net: &mut FlowNetwork, other: &FlowNetwork) {
    for (link, made) in net.links[..net.count].iter_mut().zip(&other.links) {
        link.cap = made.cap;
    }
}

/// `max_flow` on a network, which keeps the capacities left.
pub fn max_flow(net: &mut FlowNetwork, source: usize, sink: usize, out: &mut Flowed) -> u32 {
    let (flow, phases, pushes) = (&mut out.flow, &mut out.phases, &mut out.pushes);
    sys::max_flow(net, source, sink, flow, phases, pushes)
}

/// The check of the rows of `a` alone.
pub fn network_refusal(a: &FlowArgs) -> u32 {
    let n = &a.network;
    sys::network_refusal(
        &n.heads, &n.caps, &n.costs, &n.starts, &n.list, n.nodes, a.source, a.sink,
    )
}

/// `max_flow` over the rows of `a`, whose capacities it alters.
pub fn max_flow_rows(a: &mut FlowArgs, out: &mut Flowed) -> u32 {
    let n = &mut a.network;
    sys::max_flow_rows(
        &n.heads,
        &mut n.caps,
        &n.costs,
        &n.starts,
        &n.list,
        n.nodes,
        a.source,
        a.sink,
        &mut out.flow,
        &mut out.phases,
        &mut out.pushes,
    )
}

/// The rows as they are passed: all starts, and the lists as long as they are listed, or all of them.
pub fn rows(a: &FlowArgs) -> FlowArgs {
    let mut rows = a.clone();
    let n = &mut rows.network;
    n.starts.resize(STARTS, 0);
    if n.list.len() < n.count {
        n.list.resize(LINKS, 0);
    }
    rows
}

impl Ours for FlowArgs {
    fn ours(&self) -> Vec<Field> {
        let mut net = network(&self.network.whole());
        let mut out = Flowed::before();
        let refusal = max_flow(&mut net, self.source, self.sink, &mut out);
        let mut fields = vec![out.answer("max_flow", refusal)];
        fields.extend(lines(&net));
        fields
    }
}

impl Ours for RowsArgs {
    fn ours(&self) -> Vec<Field> {
        let mut rows = rows(&self.0);
        let check = network_refusal(&rows);
        let mut out = Flowed::before();
        let refusal = max_flow_rows(&mut rows, &mut out);
        vec![
            out.answer("max_flow_rows", refusal),
            reals("caps", &rows.network.caps),
            answer("network_refusal", check, Vec::new()),
        ]
    }
}

impl Ours for EdgeArgs {
    fn ours(&self) -> Vec<Field> {
        let mut net = network(&self.network.whole());
        let refusal = sys::add_edge(&mut net, self.from, self.to, self.capacity, self.cost);
        let count = if refusal == 0 { net.count } else { 0 };
        let mut fields = vec![answer(
            "add_edge",
            refusal,
            vec![Value::Number(count as u64)],
        )];
        fields.extend(lines(&net));
        fields
    }
}

impl Ours for NodesArgs {
    fn ours(&self) -> Vec<Field> {
        let mut net = network(&NetworkArgs::filled());
        let refusal = sys::new_network(self.nodes, &mut net);
        let nodes = if refusal == 0 { net.nodes } else { 0 };
        let mut fields = vec![answer("new", refusal, vec![Value::Number(nodes as u64)])];
        fields.extend(lines(&net));
        fields
    }
}
