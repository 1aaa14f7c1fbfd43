//! Networks through `sys`.

mod common;

use std::mem::{offset_of, size_of};

use common::{BEFORE_COUNT, BEFORE_REAL, short, short_mut};
use tanqesha::sys::{self, FlowNetwork, LINKS, Link, STARTS};

/// The number that a run returns, and what its references hold then.
type Run = (u32, f64, usize, usize);

fn refused() -> Run {
    (15, BEFORE_REAL, BEFORE_COUNT, BEFORE_COUNT)
}

/// A network that nothing has made.
fn junk() -> Box<FlowNetwork> {
    let mut net = FlowNetwork::empty();
    for (i, link) in net.links.iter_mut().enumerate() {
        *link = Link {
            head: 70 + i as u32,
            cap: -0.5 - i as f64,
            cost: 3e50,
        };
    }
    net.count = 4_321;
    net.nodes = 1_234;
    net.starts = std::array::from_fn(|i| 90_000 + i as u32);
    net.list = std::array::from_fn(|i| 80_000 + i as u32);
    net
}

/// A network of these added links: from, to, capacity, cost.
fn network(nodes: usize, links: &[(usize, usize, f64, f64)]) -> Box<FlowNetwork> {
    let mut net = junk();
    assert_eq!(sys::new_network(nodes, &mut net), 0);
    for &(from, to, capacity, cost) in links {
        assert_eq!(sys::add_edge(&mut net, from, to, capacity, cost), 0);
    }
    net
}

/// Two links in a row, of 0.75 and 0.5 (M3).
fn path() -> Box<FlowNetwork> {
    network(3, &[(0, 1, 0.75, 2.0), (1, 2, 0.5, 0.0)])
}

fn run(net: &mut FlowNetwork, source: usize, sink: usize) -> Run {
    let (mut flow, mut phases, mut pushes) = (BEFORE_REAL, BEFORE_COUNT, BEFORE_COUNT);
    let number = sys::max_flow(net, source, sink, &mut flow, &mut phases, &mut pushes);
    (number, flow, phases, pushes)
}

#[test]
fn a_network_is_laid_out_as_in_c() {
    assert_eq!(size_of::<Link>(), 24);
    assert_eq!((offset_of!(Link, cap), offset_of!(Link, cost)), (8, 16));
    assert_eq!(size_of::<FlowNetwork>(), 61_216);
    assert_eq!(offset_of!(FlowNetwork, count), 52_224);
    assert_eq!(offset_of!(FlowNetwork, nodes), 52_232);
    assert_eq!(offset_of!(FlowNetwork, starts), 52_240);
    assert_eq!(offset_of!(FlowNetwork, list), 52_508);
}

#[test]
fn a_network_is_made() {
    for nodes in [0, 1, 66] {
        let mut net = junk();
        assert_eq!(sys::new_network(nodes, &mut net), 0);
        let mut expected = FlowNetwork::empty();
        expected.nodes = nodes;
        assert_eq!(net, expected);
    }
    for nodes in [67, usize::MAX] {
        let mut net = junk();
        assert_eq!(sys::new_network(nodes, &mut net), 15);
        assert_eq!(net, junk());
    }
}

#[test]
fn links_are_added() {
    let mut expected = FlowNetwork::empty();
    expected.nodes = 3;
    expected.count = 4;
    let links = [
        (1, 0.75, 2.0),
        (0, 0.0, -2.0),
        (2, 0.5, 0.0),
        (1, 0.0, -0.0),
    ];
    for (place, (head, cap, cost)) in expected.links.iter_mut().zip(links) {
        *place = Link { head, cap, cost };
    }
    // node 0 has link 0, node 1 has 1 and 2, node 2 has 3
    expected.starts[..4].copy_from_slice(&[0, 1, 3, 4]);
    expected.list[..4].copy_from_slice(&[0, 1, 2, 3]);
    assert_eq!(path(), expected);
    // a link within a node, an infinite capacity, the greatest capacity and cost
    let most = 2f64.powi(40);
    let net = network(
        2,
        &[
            (1, 1, f64::INFINITY, most),
            (0, 1, most, 0.0),
            (0, 0, 0.0, 0.0),
        ],
    );
    assert_eq!(
        (net.starts[..3].to_vec(), net.list[..6].to_vec()),
        (vec![0, 3, 6], vec![2, 4, 5, 0, 1, 3])
    );
}

#[test]
fn links_are_refused() {
    let refused = |net: &FlowNetwork, from, to, capacity, cost| {
        let mut lent = Box::new(net.clone());
        assert_eq!(sys::add_edge(&mut lent, from, to, capacity, cost), 15);
        assert_eq!(*lent, *net);
    };
    let over = 2f64.powi(41);
    let net = path();
    refused(&net, 3, 0, 1.0, 0.0);
    refused(&net, 0, 3, 1.0, 0.0);
    refused(&net, usize::MAX, 0, 1.0, 0.0);
    for capacity in [-1.0, over, f64::NAN, f64::NEG_INFINITY] {
        refused(&net, 0, 1, capacity, 0.0);
    }
    for cost in [-1.0, over, f64::NAN, f64::INFINITY] {
        refused(&net, 0, 1, 1.0, cost);
    }
    refused(&network(0, &[]), 0, 0, 1.0, 0.0);
    refused(&junk(), 0, 1, 1.0, 0.0);
    for net in damaged() {
        refused(&net, 0, 1, 1.0, 0.0);
    }
    let full = full();
    assert_eq!(full.count, LINKS);
    refused(&full, 0, 1, 1.0, 0.0);
}

/// 1,088 added links.
fn full() -> Box<FlowNetwork> {
    let links: Vec<_> = (0..1_088).map(|k| (k % 65, k % 65 + 1, 1.0, 0.0)).collect();
    network(66, &links)
}

/// Networks that are not as adding their links in order gives.
fn damaged() -> Vec<Box<FlowNetwork>> {
    let damages: [fn(&mut FlowNetwork); 13] = [
        |n| n.nodes = 67,
        |n| n.nodes = 2,
        |n| n.count = 3,
        |n| n.count = LINKS + 2,
        |n| n.count = usize::MAX,
        |n| n.links[0].head = 3,
        |n| n.links[3].head = 2,
        |n| n.links[0].cap = -1.0,
        |n| n.links[1].cap = f64::NEG_INFINITY,
        |n| n.links[1].cost = 2.0,
        |n| n.links[2].cost = 2f64.powi(41),
        |n| n.starts[1] = 2,
        |n| n.list.swap(1, 2),
    ];
    let damage = |damage: &fn(&mut FlowNetwork)| {
        let mut net = path();
        damage(&mut net);
        net
    };
    damages.iter().map(damage).collect()
}

#[test]
fn flows() {
    // M3: flow 0.5, one push; the capacities left, and of the reverses what went through
    let mut net = path();
    let mut expected = net.clone();
    assert_eq!(run(&mut net, 0, 2), (0, 0.5, 1, 1));
    for (link, cap) in expected.links.iter_mut().zip([0.25, 0.5, 0.0, 0.5]) {
        link.cap = cap;
    }
    assert_eq!(net, expected);
    // again, nothing is left
    assert_eq!(run(&mut net, 0, 2), (0, 0.0, 0, 0));
    assert_eq!(net, expected);
    // M4: one link of 1e-12
    let mut net = network(2, &[(0, 1, 1e-12, 0.0)]);
    assert_eq!(run(&mut net, 0, 1), (0, 0.0, 0, 0));
    // two ways in one phase, and one round about in a second
    let links = [
        (0, 1, 2.0, 0.0),
        (0, 2, 1.0, 0.0),
        (1, 3, 1.0, 0.0),
        (2, 3, 2.0, 0.0),
        (1, 2, f64::INFINITY, 0.0),
    ];
    let mut net = network(4, &links);
    assert_eq!(run(&mut net, 0, 3), (0, 3.0, 2, 3));
    let left: Vec<_> = net.links[..10].iter().map(|l| l.cap).collect();
    assert_eq!(
        left,
        [0.0, 2.0, 0.0, 1.0, 0.0, 1.0, 0.0, 2.0, f64::INFINITY, 1.0]
    );
    // no links; links past the count are not looked at
    let mut net = network(2, &[]);
    net.links[0].cap = f64::NAN;
    assert_eq!(run(&mut net, 1, 0), (0, 0.0, 0, 0));
    // 1,088 links: 16 or 17 beside each other, 65 in a row
    assert_eq!(run(&mut full(), 0, 65), (0, 16.0, 1, 16));
}

#[test]
fn flows_are_refused() {
    let check = |net: &FlowNetwork, source, sink| {
        let mut lent = Box::new(net.clone());
        assert_eq!(run(&mut lent, source, sink), refused());
        assert_eq!(*lent, *net);
    };
    let net = path();
    check(&net, 0, 0);
    check(&net, 3, 0);
    check(&net, 0, 3);
    check(&net, usize::MAX, 0);
    check(&network(0, &[]), 0, 1);
    check(
        &network(3, &[(0, 1, f64::INFINITY, 0.0), (1, 2, 1.0, 0.0)]),
        0,
        2,
    );
    check(&junk(), 0, 1);
    for net in damaged() {
        check(&net, 0, 1);
    }
}

/// A network in rows.
#[derive(Clone, PartialEq, Debug)]
struct Rows {
    heads: Vec<u32>,
    caps: Vec<f64>,
    costs: Vec<f64>,
    starts: Vec<u32>,
    list: Vec<u32>,
    nodes: usize,
}

fn rows(net: &FlowNetwork) -> Rows {
    let links = &net.links[..net.count];
    Rows {
        heads: links.iter().map(|l| l.head).collect(),
        caps: links.iter().map(|l| l.cap).collect(),
        costs: links.iter().map(|l| l.cost).collect(),
        starts: net.starts.to_vec(),
        list: net.list[..net.count].to_vec(),
        nodes: net.nodes,
    }
}

/// The check and the run, slice `cut` one too short.
fn run_rows(r: &mut Rows, source: usize, sink: usize, cut: usize) -> (u32, Run) {
    let check = sys::network_refusal(
        short(&r.heads, cut == 0),
        short(&r.caps, cut == 1),
        short(&r.costs, cut == 2),
        short(&r.starts, cut == 3),
        short(&r.list, cut == 4),
        r.nodes,
        source,
        sink,
    );
    let (mut flow, mut phases, mut pushes) = (BEFORE_REAL, BEFORE_COUNT, BEFORE_COUNT);
    let number = sys::max_flow_rows(
        short(&r.heads, cut == 0),
        short_mut(&mut r.caps, cut == 1),
        short(&r.costs, cut == 2),
        short(&r.starts, cut == 3),
        short(&r.list, cut == 4),
        r.nodes,
        source,
        sink,
        &mut flow,
        &mut phases,
        &mut pushes,
    );
    (check, (number, flow, phases, pushes))
}

const WHOLE: usize = usize::MAX;

#[test]
fn flows_over_rows() {
    let mut r = rows(&path());
    assert_eq!(run_rows(&mut r, 0, 2, WHOLE), (0, (0, 0.5, 1, 1)));
    assert_eq!(r.caps, [0.25, 0.5, 0.0, 0.5]);
    assert_eq!(
        run_rows(&mut rows(&full()), 0, 65, WHOLE),
        (0, (0, 16.0, 1, 16))
    );
    // a longer list, starts past the nodes
    let mut r = rows(&path());
    r.list.push(77);
    r.starts[4..].fill(77);
    assert_eq!(run_rows(&mut r, 0, 2, WHOLE), (0, (0, 0.5, 1, 1)));
    // no links
    let mut r = rows(&network(2, &[]));
    assert_eq!(run_rows(&mut r, 0, 1, WHOLE), (0, (0, 0.0, 0, 0)));
}

#[test]
fn rows_are_refused() {
    let check = |r: &Rows, source, sink, cut| {
        let mut lent = r.clone();
        assert_eq!(run_rows(&mut lent, source, sink, cut), (15, refused()));
        assert_eq!(&lent, r);
    };
    let r = rows(&path());
    for cut in 0..5 {
        check(&r, 0, 2, cut);
    }
    let longer: [fn(&mut Rows); 4] = [
        |r| r.heads.push(0),
        |r| r.caps.push(1.0),
        |r| r.costs.push(0.0),
        |r| r.starts.push(0),
    ];
    for change in longer {
        let mut r = r.clone();
        change(&mut r);
        check(&r, 0, 2, WHOLE);
    }
    check(&r, 0, 0, WHOLE);
    check(&r, 0, 3, WHOLE);
    for net in damaged() {
        if net.count <= LINKS {
            check(&rows(&net), 0, 1, WHOLE);
        }
    }
    // nothing at all
    let nothing = Rows {
        heads: vec![],
        caps: vec![],
        costs: vec![],
        starts: vec![],
        list: vec![],
        nodes: 2,
    };
    check(&nothing, 0, 1, WHOLE);
    assert_eq!(STARTS, 67);
}
