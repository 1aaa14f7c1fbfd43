//! Inputs of the flow, the relation and the distance.

use super::build::{self, Size};
use super::{Rng, all_digits, count_up};
use crate::args::BuildArgs;
use crate::bisim_metric::kantorovich::Chain;

/// A flow network and the nodes between which the flow runs.
#[derive(Debug, Clone)]
pub struct Network {
    pub nodes: usize,
    /// From, to, capacity, cost.
    pub links: Vec<(usize, usize, f64, f64)>,
    pub source: usize,
    pub sink: usize,
}

/// Capacities about the least that counts.
const CAPACITIES: [f64; 6] = [0.0, 1e-12, 1.0000000000000002e-12, 0.5, 1.0, f64::INFINITY];

/// All capacities on the network of source, two middle nodes with a link between, and sink.
pub fn short_networks(f: &mut dyn FnMut(Network)) {
    const ENDS: [(usize, usize); 5] = [(0, 1), (0, 2), (1, 2), (1, 3), (2, 3)];
    all_digits(&[5, 5, 6, 6, 6], &mut |d| {
        let links = ENDS.iter().zip(d);
        f(Network {
            nodes: 4,
            links: links
                .map(|(&(u, v), &c)| (u, v, CAPACITIES[c], 0.0))
                .collect(),
            source: 0,
            sink: 3,
        });
    });
}

/// Any links between up to 12 nodes; none that leaves the source is infinite.
pub fn network(rng: &mut Rng) -> Network {
    let nodes = 2 + rng.below(11);
    let source = rng.below(nodes);
    let sink = (source + 1 + rng.below(nodes - 1)) % nodes;
    let mut link = || {
        let (from, to) = (rng.below(nodes), rng.below(nodes));
        let finite = if from == source { 5 } else { 6 };
        let capacity = match rng.once_in(2) {
            true => CAPACITIES[rng.below(finite)],
            false => rng.unit() * 3.0,
        };
        (from, to, capacity, rng.below(5) as f64)
    };
    let links = (0..4 * nodes).map(|_| link()).collect();
    Network {
        nodes,
        links,
        source,
        sink,
    }
}

/// A network as the flow tests make it: `a` and `b` targets, some related.
pub fn flow_test(rng: &mut Rng, a: usize, b: usize) -> Network {
    let (source, sink) = (a + b, a + b + 1);
    let (left, right) = (masses(rng, a), masses(rng, b));
    let mut links: Vec<(usize, usize, f64, f64)> = Vec::new();
    links.extend(left.iter().enumerate().map(|(i, &p)| (source, i, p, 0.0)));
    links.extend(
        right
            .iter()
            .enumerate()
            .map(|(j, &p)| (a + j, sink, p, 0.0)),
    );
    let mut ends = [0, 0];
    loop {
        if a > 0 && b > 0 && !rng.once_in(3) {
            links.push((ends[0], a + ends[1], f64::INFINITY, 0.0));
        }
        if !count_up(&mut ends, &[a, b]) {
            break;
        }
    }
    let nodes = a + b + 2;
    Network {
        nodes,
        links,
        source,
        sink,
    }
}

/// `n` positive masses that add up to 1 but for rounding.
pub fn masses(rng: &mut Rng, n: usize) -> Vec<f64> {
    let rates: Vec<f64> = (0..n).map(|_| rng.unit() + 0.05).collect();
    let total: f64 = rates.iter().sum();
    rates.into_iter().map(|r| r / total).collect()
}

/// A model and a copy in which some weights are changed slightly and sometimes a target.
pub fn pair(rng: &mut Rng, size: Size) -> (BuildArgs, BuildArgs) {
    let mut left = build::good(rng, size);
    for weight in &mut left.weights {
        *weight = rng.unit() + 0.1;
    }
    let mut right = left.clone();
    for weight in &mut right.weights {
        *weight *= rng.pick(&[1.0, 1.0, 1.05, 0.9]);
    }
    if !right.targets.is_empty() && rng.once_in(3) {
        let i = rng.below(right.targets.len());
        right.targets[i] = rng.below(right.states) as u32;
    }
    (left, right)
}

/// A class per state, of `kinds` classes.
pub fn classes(rng: &mut Rng, states: usize, kinds: usize) -> Vec<u32> {
    (0..states).map(|_| rng.below(kinds) as u32).collect()
}

/// Values of ε: accepted ones first.
pub const EPSILONS: &[f64] = &[
    0.0,
    -0.0,
    0.1,
    0.25,
    1.0,
    2.0,
    5e-324,
    f64::MAX,
    -5e-324,
    f64::INFINITY,
    f64::NAN,
];
/// How many of [`EPSILONS`] are accepted.
pub const GOOD_EPSILONS: usize = 8;

/// Values of ρ: accepted ones first.
pub const RHOS: &[f64] = &[
    1.0,
    1.5,
    2.0,
    1_048_576.0,
    1.0f64.next_down(),
    1_048_576.0f64.next_up(),
    0.0,
    f64::INFINITY,
    f64::NAN,
];
/// How many of [`RHOS`] are accepted.
pub const GOOD_RHOS: usize = 4;

/// A chain of `states` states with rows of up to `most` entries and observations from 0 to 1.
pub fn chain(rng: &mut Rng, states: usize, most: usize) -> Chain {
    let row = |rng: &mut Rng| {
        let length = 1 + rng.below(most.min(states));
        let first = rng.below(states - length + 1);
        (first..).zip(masses(rng, length)).collect()
    };
    Chain {
        rows: (0..states).map(|_| row(rng)).collect(),
        observation: (0..states).map(|_| rng.unit()).collect(),
        initial: rng.below(states),
    }
}

#[cfg(test)]
mod tests {
    use super::*;
    use crate::answers::built;
    use crate::bisim_core::StateId;
    use crate::bisim_metric::epsdelta::{epsdelta, epsdelta_bisimilar, min_epsilon};
    use crate::bisim_metric::flow::FlowNetwork;
    use crate::bisim_metric::kantorovich::{MetricOptions, bisim_distance, distance};

    /// At most nodes - 1 phases, at most one push per added link in each, nothing made or lost.
    fn flow_holds(network: Network) {
        let mut net = FlowNetwork::new(network.nodes);
        for &(from, to, capacity, cost) in &network.links {
            net.add_edge(from, to, capacity, cost);
        }
        let reply = net.max_flow(network.source, network.sink);
        assert!(reply.phases < network.nodes);
        assert!(reply.pushes <= reply.phases * network.links.len());
        assert_eq!(reply.flow > 0.0, reply.pushes > 0);
        for (i, link) in network.links.iter().enumerate() {
            let (left, back) = (net.edges[2 * i].1, net.edges[2 * i + 1].1);
            assert!((left + back - link.2).abs() < 1e-9 || link.2.is_infinite());
        }
    }

    #[test]
    fn flows_keep_the_limits() {
        short_networks(&mut flow_holds);
        let mut rng = Rng::new(1);
        for i in 0..2_000 {
            flow_holds(network(&mut rng));
            flow_holds(flow_test(&mut rng, i % 32, i / 2 % 32));
        }
    }

    #[test]
    fn relations_are_reflexive_and_symmetric() {
        let mut rng = Rng::new(3);
        for _ in 0..200 {
            let size = Size {
                states: 1 + rng.below(6),
                given: 12,
                labels: 2,
                targets: 3,
            };
            let (left, right) = pair(&mut rng, size);
            let kinds = classes(&mut rng, left.states, 2);
            let class = |s: StateId| kinds[s.index()];
            let epsilon = EPSILONS[rng.below(GOOD_EPSILONS)];
            let rho = RHOS[rng.below(GOOD_RHOS)];
            let (left, right) = (built(&left), built(&right));
            let relation = epsdelta(&left, &right, class, class, epsilon, rho).unwrap();
            let rows = &relation.related;
            for (s, row) in rows.iter().enumerate() {
                assert!(row[s] && (0..s).all(|t| row[t] == rows[t][s]));
            }
            let least = min_epsilon(&left, &right, class, class, rho);
            let whole = epsdelta_bisimilar(&left, &right, class, class, 1.0, rho);
            assert_eq!(least.map(|e| e.is_some()), whole);
        }
    }

    #[test]
    fn other_tolerances_are_refused() {
        let mut rng = Rng::new(4);
        let size = Size {
            states: 2,
            given: 3,
            labels: 1,
            targets: 2,
        };
        let model = built(&build::good(&mut rng, size));
        for (i, &epsilon) in EPSILONS.iter().enumerate() {
            for (j, &rho) in RHOS.iter().enumerate() {
                let good = i < GOOD_EPSILONS && j < GOOD_RHOS;
                let reply = epsdelta(&model, &model, |_| 0, |_| 0, epsilon, rho);
                assert_eq!(reply.is_ok(), good, "{epsilon} {rho}");
            }
        }
    }

    #[test]
    fn distances_are_from_0_to_1() {
        let mut rng = Rng::new(5);
        for _ in 0..40 {
            let states = 1 + rng.below(5);
            let (a, b) = (chain(&mut rng, states, 32), chain(&mut rng, 4, 3));
            let reply = distance(&a, &b, 0.5, MetricOptions::default()).unwrap();
            assert!((0.0..=1.0).contains(&reply.value));
            assert!(reply.pairs_explored <= 4 * states);
        }
    }

    #[test]
    fn a_model_is_at_distance_0_from_itself() {
        let mut rng = Rng::new(6);
        let size = Size {
            states: 4,
            given: 9,
            labels: 2,
            targets: 3,
        };
        let mut args = build::good(&mut rng, size);
        args.initial = Some(0);
        let model = built(&args);
        let seen = |s: StateId| s.0 as f64;
        let at = (&model, StateId(1));
        let reply = bisim_distance(at, at, seen, seen, 0.9, MetricOptions::default()).unwrap();
        assert!(reply.value < 1e-6);
    }
}
