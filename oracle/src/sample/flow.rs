//! The second part of the fixed list: networks. Figures of document 01, each clause of 15, some of the short inputs, random ones.

use super::{every, lines};
use crate::answers::Oracle;
use crate::args::{EdgeArgs, FlowArgs, NetworkArgs, NodesArgs};
use crate::generate::faults::{END_FAULTS, FAULTS, HARMLESS};
use crate::generate::{GREATEST_WEIGHT, Rng, metric, network};
use crate::network::{LINKS, after_run};
use crate::text::{Case, Value};

/// Cases of each way to change a network.
const TURNS: usize = 4;
/// Random cases of each kind.
const RANDOM: usize = 100;

/// Links from the source, to it, parallel, infinite, and from a node to itself.
fn base() -> FlowArgs {
    let links = [
        (0, 1, 0.75, 1.0),
        (1, 2, 0.5, 0.0),
        (2, 3, f64::INFINITY, GREATEST_WEIGHT),
        (3, 0, 1.0, 3.0),
        (1, 1, 0.5, 0.0),
        (0, 1, 0.5, 2.0),
    ];
    between(4, &links)
}

/// The network of these links, from its first node to its last.
fn between(nodes: usize, links: &[(usize, usize, f64, f64)]) -> FlowArgs {
    FlowArgs {
        network: network::from_links(nodes, links),
        source: 0,
        sink: nodes - 1,
    }
}

/// A network of 66 nodes with so many added links; all but two are not listed and lead from node 0 to itself.
fn crowded(added: usize) -> FlowArgs {
    let mut links = vec![(0, 1, 0.5, 1.0), (1, 65, 0.25, 0.0)];
    links.resize(added, (0, 0, 0.0, 0.0));
    let mut a = between(66, &links);
    a.network.heads.truncate(4);
    a.network.caps.truncate(4);
    a.network.costs.truncate(4);
    a
}

/// The figures of document 01, and networks at its limits.
fn flow_figures() -> Vec<FlowArgs> {
    let chain = |caps: &[f64]| {
        let link = |(i, &cap): (usize, &f64)| (i, i + 1, cap, 0.0);
        let links: Vec<_> = caps.iter().enumerate().map(link).collect();
        between(caps.len() + 1, &links)
    };
    let mut list = vec![
        chain(&[0.75, 0.5]),
        chain(&[1e-12]),
        chain(&[1e-12f64.next_up()]),
        chain(&[GREATEST_WEIGHT, f64::INFINITY]),
        between(66, &[(0, 65, 0.5, 0.0)]),
        between(67, &[(0, 66, 0.5, 0.0)]),
        between(2, &[]),
        base(),
        crowded(LINKS / 2),
        crowded(LINKS / 2 + 1),
        network::flow(&metric::flow_test(&mut Rng::new(6), 31, 31)),
    ];
    let again = after_run(&base()).map(|network| FlowArgs { network, ..base() });
    list.extend(again);
    list
}

/// A network of up to 8 added links.
fn short(rng: &mut Rng) -> FlowArgs {
    loop {
        let a = network::good(rng);
        if a.network.count <= 16 {
            return a;
        }
    }
}

/// Inputs of `max_flow`.
pub fn flows() -> Vec<FlowArgs> {
    let rng = &mut Rng::new(7);
    let mut list = flow_figures();
    for _ in 0..TURNS {
        for (_, change) in FAULTS.iter().chain(HARMLESS) {
            let mut a = base();
            change(rng, &mut a.network);
            list.push(a);
        }
        for (_, change) in END_FAULTS {
            let mut a = base();
            change(rng, &mut a);
            list.push(a);
        }
    }
    list.extend(every(97, network::short));
    list.extend(every(1_999, network::short_damaged));
    list.extend((0..RANDOM).map(|_| {
        let a = short(rng);
        network::random(rng, a)
    }));
    list
}

/// A link from node 1 to node 2.
fn from_1_to_2(network: NetworkArgs) -> EdgeArgs {
    EdgeArgs {
        network,
        from: 1,
        to: 2,
        capacity: 0.5,
        cost: 1.0,
    }
}

/// Inputs of `add_edge`.
pub fn edges() -> Vec<EdgeArgs> {
    let rng = &mut Rng::new(8);
    let networks = [
        crowded(LINKS / 2 - 1),
        crowded(LINKS / 2),
        between(66, &[]),
        between(67, &[]),
        base(),
    ];
    let mut list: Vec<EdgeArgs> = networks.map(|a| from_1_to_2(a.network)).into();
    for _ in 0..TURNS {
        for (_, change) in FAULTS.iter().chain(HARMLESS) {
            let mut a = from_1_to_2(base().network);
            change(rng, &mut a.network);
            list.push(a);
        }
    }
    list.extend(every(67, network::short_edges));
    list.extend((0..RANDOM).map(|_| {
        let a = short(rng);
        network::random_edge(rng, a.network)
    }));
    list
}

/// Inputs of `new`.
pub fn nodes() -> Vec<NodesArgs> {
    let counts = network::node_counts().into_iter();
    counts
        .filter(|a| a.nodes <= 200 || a.nodes > 1_000)
        .collect()
}

/// Whether the replay takes the case: numbers of at most 33 bits, and no more than 100 links listed unless all are used.
fn fits(case: &Case) -> bool {
    let large = |value: &Value| matches!(value, Value::Number(n) if *n > 1 << 32);
    let spare = match case
        .fields
        .get(1..3)
        .map(|two| (&two[0].value, &two[1].value))
    {
        Some((Value::Number(count), Value::Numbers(heads))) => {
            heads.len() > 100 && heads.len() as u64 != *count
        }
        _ => false,
    };
    !spare && !case.fields.iter().any(|field| large(&field.value))
}

fn texts<A: Oracle>(inputs: Vec<A>) -> String {
    lines(inputs, fits)
}

/// The whole list in the text form, with the oracle's answers.
pub fn text() -> String {
    [texts(nodes()), texts(edges()), texts(flows())].concat()
}
