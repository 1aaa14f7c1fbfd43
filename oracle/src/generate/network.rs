//! Networks handed in, good and damaged, for `max_flow` and `add_edge`.

use super::faults::{
    BAD_CAPS, BAD_COSTS, END_FAULTS, FAULTS, GOOD_CAPS, GOOD_COSTS, HARMLESS, INFINITY, intact,
    past,
};
use super::metric::{self, Network};
use super::{Rng, all_digits};
use crate::args::{EdgeArgs, FlowArgs, NetworkArgs, NodesArgs};
use crate::network::{LINKS, STARTS, after_run};

/// A link to be added: from, to, capacity, cost.
type Added = (usize, usize, f64, f64);

/// The network that adding these links in order makes, as far as there are places.
pub fn from_links(nodes: usize, links: &[Added]) -> NetworkArgs {
    let mut n = NetworkArgs::empty(nodes);
    for &(from, to, cap, cost) in links {
        n.heads.extend([to as u32, from as u32]);
        n.caps.extend([cap, 0.0]);
        n.costs.extend([cost, -cost]);
    }
    n.count = n.heads.len();
    list_links(&mut n);
    n.heads.truncate(LINKS);
    n.caps.truncate(LINKS);
    n.costs.truncate(LINKS);
    n.list.truncate(LINKS);
    n.starts.truncate(STARTS);
    n
}

/// Makes the node lists: the links that leave each node, in order.
pub fn list_links(n: &mut NetworkArgs) {
    (n.starts, n.list) = (vec![0], Vec::new());
    for u in 0..n.nodes as u32 {
        let leaves = |e: &usize| n.heads[e ^ 1] == u;
        let own = (0..n.heads.len()).filter(leaves).map(|e| e as u32);
        n.list.extend(own);
        n.starts.push(n.list.len() as u32);
    }
}

/// The network of these links with its ends.
pub fn flow(network: &Network) -> FlowArgs {
    FlowArgs {
        network: from_links(network.nodes, &network.links),
        source: network.source,
        sink: network.sink,
    }
}

/// Two ends of so many nodes, at least two.
fn ends(rng: &mut Rng, nodes: usize) -> (usize, usize) {
    let source = rng.below(nodes);
    (source, (source + 1 + rng.below(nodes - 1)) % nodes)
}

/// So many links between any of the nodes, many of them parallel, some from a node to itself, costs at the limits too.
pub fn any_links(rng: &mut Rng, nodes: usize, links: usize) -> FlowArgs {
    let (source, sink) = ends(rng, nodes);
    let mut link = || {
        let (from, to) = (rng.below(nodes), rng.below(nodes));
        let capacity = match rng.below(8) {
            0 if from != source => INFINITY,
            1 | 2 => rng.pick(&GOOD_CAPS[..GOOD_CAPS.len() - 1]),
            _ => rng.unit() * 3.0,
        };
        (from, to, capacity, rng.pick(GOOD_COSTS))
    };
    let links: Vec<Added> = (0..links).map(|_| link()).collect();
    FlowArgs {
        network: from_links(nodes, &links),
        source,
        sink,
    }
}

/// Gives some of the reverses a capacity; none that leaves the source is infinite.
fn back(rng: &mut Rng, a: &mut FlowArgs) {
    let n = &mut a.network;
    for e in (1..n.caps.len()).step_by(2) {
        let leaves = n.heads[e ^ 1] as usize == a.source;
        n.caps[e] = match rng.below(6) {
            0 if !leaves => INFINITY,
            1 => rng.pick(&GOOD_CAPS[..GOOD_CAPS.len() - 1]),
            2 | 3 => rng.unit(),
            _ => continue,
        };
    }
}

/// The network as a run leaves it, with the same ends, the two exchanged, or others.
fn again(rng: &mut Rng, a: &FlowArgs) -> FlowArgs {
    let network = after_run(a).unwrap_or_else(|| a.network.clone());
    let (source, sink) = match rng.below(3) {
        0 => (a.source, a.sink),
        1 => (a.sink, a.source),
        _ => ends(rng, network.nodes),
    };
    FlowArgs {
        network,
        source,
        sink,
    }
}

/// A flow test with up to so many targets on a side.
fn flow_test(rng: &mut Rng, most: usize) -> FlowArgs {
    let (a, b) = (1 + rng.below(most), 1 + rng.below(most));
    flow(&metric::flow_test(rng, a, b))
}

/// A good network of up to some 50 added links; after a run it may have an infinite link that leaves its new source.
pub fn good(rng: &mut Rng) -> FlowArgs {
    let mut a = match rng.below(6) {
        0 => flow_test(rng, 6),
        1 | 2 => {
            let (nodes, links) = (2 + rng.below(6), rng.below(16));
            any_links(rng, nodes, links)
        }
        _ => flow(&metric::network(rng)),
    };
    if rng.once_in(3) {
        back(rng, &mut a);
    }
    if rng.once_in(4) { again(rng, &a) } else { a }
}

/// A flow test of up to 31 targets on a side, or a network at or one past a limit of nodes or links.
pub fn large(rng: &mut Rng) -> FlowArgs {
    let mut a = match rng.below(3) {
        0 => {
            let nodes = rng.pick(&[2, 40, 65, 66, 66, 67]);
            let links = rng.pick(&[100, 1_000, 1_087, 1_088, 1_088, 1_089]);
            any_links(rng, nodes, links)
        }
        _ => flow_test(rng, 31),
    };
    if rng.once_in(3) {
        back(rng, &mut a);
    }
    if rng.once_in(4) { again(rng, &a) } else { a }
}

/// All capacities on the network of [`metric::short_networks`].
pub fn short(f: &mut dyn FnMut(FlowArgs)) {
    metric::short_networks(&mut |network| f(flow(&network)));
}

/// Flow tests of all sizes, 1 to 31 targets on either side.
pub fn flow_tests(rng: &mut Rng, f: &mut dyn FnMut(FlowArgs)) {
    all_digits(&[31, 31], &mut |d| {
        f(flow(&metric::flow_test(rng, d[0] + 1, d[1] + 1)));
    });
}

/// All networks of one or two nodes and at most one added link over few values, mostly damaged.
pub fn short_damaged(f: &mut dyn FnMut(FlowArgs)) {
    all_digits(&[2, 3, 3, 3, 2, 3, 3, 2, 2, 3, 3], &mut |d| {
        let number = |i: usize| d[i] as u32;
        f(FlowArgs {
            network: NetworkArgs {
                nodes: 1 + d[0],
                count: d[1],
                heads: vec![number(2), number(3)],
                caps: vec![0.5, 0.0],
                costs: vec![1.0, -1.0],
                starts: vec![number(4), number(5), number(6)],
                list: vec![number(7), number(8)],
            },
            source: d[9],
            sink: d[10],
        });
    });
}

/// Makes one harmless change in three, and up to one fault of the network.
fn change(rng: &mut Rng, n: &mut NetworkArgs) {
    if rng.once_in(3) && intact(n) {
        rng.pick(HARMLESS).1(rng, n);
    }
    if rng.once_in(2) && intact(n) {
        rng.pick(FAULTS).1(rng, n);
    }
}

/// Arguments of `max_flow`, good or damaged.
pub fn random(rng: &mut Rng, mut a: FlowArgs) -> FlowArgs {
    change(rng, &mut a.network);
    if rng.once_in(5) {
        rng.pick(END_FAULTS).1(rng, &mut a);
    }
    a
}

/// Arguments of `add_edge`, good or damaged.
pub fn random_edge(rng: &mut Rng, mut network: NetworkArgs) -> EdgeArgs {
    let nodes = network.nodes;
    if rng.once_in(2) {
        change(rng, &mut network);
    }
    let node = |rng: &mut Rng| match rng.once_in(16) {
        true => past(rng, nodes),
        false => rng.below(nodes),
    };
    let value = |rng: &mut Rng, good: &[f64], bad: &[f64]| match rng.below(12) {
        0 => rng.pick(bad),
        1..6 => rng.pick(good),
        _ => rng.unit(),
    };
    EdgeArgs {
        from: node(rng),
        to: node(rng),
        capacity: value(rng, GOOD_CAPS, BAD_CAPS),
        cost: value(rng, GOOD_COSTS, BAD_COSTS),
        network,
    }
}

/// All capacities and costs at the limits between any nodes of networks of up to two nodes and links.
pub fn short_edges(f: &mut dyn FnMut(EdgeArgs)) {
    let caps = [GOOD_CAPS, BAD_CAPS].concat();
    let costs = [GOOD_COSTS, BAD_COSTS].concat();
    let links: [Added; 2] = [(0, 0, 0.5, 0.0), (0, 1, INFINITY, 2.0)];
    for nodes in 0..=2 {
        let bases = [nodes + 1, 3, 3, caps.len(), costs.len()];
        all_digits(&bases, &mut |d| {
            f(EdgeArgs {
                network: from_links(nodes, &links[..d[0]]),
                from: d[1],
                to: d[2],
                capacity: caps[d[3]],
                cost: costs[d[4]],
            });
        });
    }
}

/// Numbers of nodes: all up to 1,000, and far greater ones.
pub fn node_counts() -> Vec<NodesArgs> {
    let far = (10..64).map(|bit| 1 << bit).chain([usize::MAX]);
    let counts = (0..=1_000).chain(far);
    counts.map(|nodes| NodesArgs { nodes }).collect()
}

/// Everything that `max_flow` is compared on.
pub fn flows(rng: &mut Rng, scale: usize, f: &mut dyn FnMut(FlowArgs)) {
    short(f);
    short_damaged(f);
    flow_tests(rng, f);
    for i in 0..60_000 * scale {
        let base = match i % 20 {
            0 => large(rng),
            _ => good(rng),
        };
        f(random(rng, base));
    }
}

/// Everything that `add_edge` is compared on.
pub fn edges(rng: &mut Rng, scale: usize, f: &mut dyn FnMut(EdgeArgs)) {
    short_edges(f);
    for i in 0..40_000 * scale {
        let base = match i % 20 {
            0 => large(rng),
            _ => good(rng),
        };
        f(random_edge(rng, base.network));
    }
}

#[cfg(test)]
mod tests {
    use super::*;
    use crate::answers::Oracle;
    use crate::network::rebuilt;
    use crate::rows::floors;
    use crate::text::Value;

    /// The node lists are the Rust's own after `add_edge`.
    fn lists_hold(n: &NetworkArgs) {
        let net = rebuilt(n);
        let lists: Vec<u32> = net.adj.iter().flatten().map(|&e| e as u32).collect();
        assert_eq!(n.list, lists);
        assert_eq!(n.starts.len(), n.nodes + 1);
        for (u, links) in net.adj.iter().enumerate() {
            assert_eq!((n.starts[u + 1] - n.starts[u]) as usize, links.len());
        }
    }

    #[test]
    fn node_lists_are_those_of_the_rust() {
        let rng = &mut Rng::new(1);
        short(&mut |a| lists_hold(&a.network));
        for _ in 0..2_000 {
            lists_hold(&good(rng).network);
        }
        for i in 0..100 {
            lists_hold(&flow_test(rng, 31).network);
            lists_hold(&any_links(rng, 2 + i % 65, 1_088 - i).network);
        }
    }

    /// Enough comparisons, and enough for 15 and for none.
    fn reaches(name: &str, answers: &[Value]) {
        let count = |number: u32| {
            let same = |v: &&Value| matches!(v, Value::Answer(r, _) if *r == number);
            answers.iter().filter(same).count() as u64
        };
        let (least, each) = floors(name);
        let outcomes = [count(0), count(15)];
        assert_eq!(outcomes.iter().sum::<u64>(), answers.len() as u64);
        assert!(answers.len() as u64 >= least, "{name}: {outcomes:?}");
        assert!(outcomes.iter().all(|n| *n >= each), "{name}: {outcomes:?}");
    }

    #[test]
    fn floors_are_reached() {
        let rng = &mut Rng::new(1);
        let (mut runs, mut rows, mut added) = (Vec::new(), Vec::new(), Vec::new());
        flows(rng, 1, &mut |a| {
            let answer = a.oracle().remove(0).value;
            rows.extend(a.rows().map(|_| answer.clone()));
            runs.push(answer);
        });
        edges(rng, 1, &mut |a| added.push(a.oracle().remove(0).value));
        let new = node_counts()
            .into_iter()
            .map(|a| a.oracle().remove(0).value);
        reaches("max_flow", &runs);
        reaches("max_flow_rows", &rows);
        reaches("add_edge", &added);
        reaches("new", &new.collect::<Vec<_>>());
    }
}
