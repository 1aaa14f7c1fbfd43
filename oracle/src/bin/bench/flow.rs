//! Flow tests of 3, 8 and 31 targets a side. The Rust makes the network (`new`, each `add_edge`) and runs `max_flow`.
//!
//! Three lines a case, all against that same Rust time:
//! - NAME: the run over rows alone, which is `tanqesha_max_flow_rows` less `tanqesha_network_refusal` on the same rows;
//! - NAME_checked: `tanqesha_max_flow_rows`, the check of the rows included;
//! - NAME_network: `tanqesha_max_flow` on a network that was made beforehand, check and copies included.
//!
//! Capacities are restored before each call of ours; what that takes by itself is measured and taken off.

use std::hint::black_box;

use oracle::args::FlowArgs;
use oracle::bisim_metric::flow::FlowNetwork;
use oracle::generate::Rng;
use oracle::generate::metric::{Network, masses};
use oracle::generate::network::flow;
use oracle::ours::network::{
    Flowed, max_flow, max_flow_rows, network, network_refusal, restore, rows,
};

use crate::{SAMPLE_NS, SAMPLES, median, nanoseconds, print};

/// A flow test of `side` targets a side: each related to all of the other side, or to two of it.
fn test(side: usize, all: bool) -> Network {
    let rng = &mut Rng::new(side as u64);
    let (source, sink) = (2 * side, 2 * side + 1);
    let (left, right) = (masses(rng, side), masses(rng, side));
    let mut links = Vec::new();
    links.extend((0..side).map(|i| (source, i, left[i], 0.0)));
    links.extend((0..side).map(|j| (side + j, sink, right[j], 0.0)));
    for i in 0..side {
        let related = |j: &usize| all || *j == i || *j == (i + 1) % side;
        let targets = (0..side).filter(related);
        links.extend(targets.map(|j| (i, side + j, f64::INFINITY, 0.0)));
    }
    Network {
        nodes: 2 * side + 2,
        links,
        source,
        sink,
    }
}

pub fn cases() -> Vec<(&'static str, Network)> {
    vec![
        ("flow_3_sparse", test(3, false)),
        ("flow_3_all", test(3, true)),
        ("flow_8_sparse", test(8, false)),
        ("flow_8_all", test(8, true)),
        ("flow_31_sparse", test(31, false)),
        ("flow_31_all", test(31, true)),
    ]
}

/// Medians of the calls, taken in turn.
fn medians<const N: usize>(turns: u128, mut calls: [&mut dyn FnMut(); N]) -> [u128; N] {
    let mut times = [const { Vec::new() }; N];
    for _ in 0..SAMPLES {
        for (call, times) in calls.iter_mut().zip(&mut times) {
            times.push(nanoseconds(turns, *call));
        }
    }
    times.map(median)
}

fn rust(test: &Network) {
    let mut net = FlowNetwork::new(test.nodes);
    for &(from, to, capacity, cost) in &test.links {
        net.add_edge(from, to, capacity, cost);
    }
    black_box(net.max_flow(test.source, test.sink));
}

/// The times of the Rust, of restoring, of the check and of the run over rows; the last two with restoring.
fn rows_times(turns: u128, a: &FlowArgs, test: &Network) -> [u128; 4] {
    let caps = a.network.caps.clone();
    let (mut idle, mut checked, mut run) = (rows(a), rows(a), rows(a));
    medians(
        turns,
        [
            &mut || rust(black_box(test)),
            &mut || black_box(&mut idle).network.caps.copy_from_slice(&caps),
            &mut || {
                checked.network.caps.copy_from_slice(&caps);
                assert_eq!(network_refusal(black_box(&checked)), 0);
            },
            &mut || {
                run.network.caps.copy_from_slice(&caps);
                let refusal = max_flow_rows(black_box(&mut run), &mut Flowed::before());
                assert_eq!(refusal, 0);
            },
        ],
    )
}

/// The times of restoring and of the run on a network, the last with restoring.
fn network_times(turns: u128, a: &FlowArgs) -> [u128; 2] {
    let made = network(&a.network.whole());
    let (mut idle, mut run) = (made.clone(), made.clone());
    medians(
        turns,
        [&mut || restore(black_box(&mut idle), &made), &mut || {
            restore(&mut run, &made);
            let net = black_box(&mut run);
            let refusal = max_flow(net, a.source, a.sink, &mut Flowed::before());
            assert_eq!(refusal, 0);
        }],
    )
}

pub fn measure(name: &str, test: &Network) {
    let a = flow(test);
    let turns = 1 + SAMPLE_NS / nanoseconds(3, &mut || rust(test)).max(1);
    let [rust, restored, checked, run] = rows_times(turns, &a, test);
    let check = checked.saturating_sub(restored);
    let run = run.saturating_sub(restored);
    let [restored, network] = network_times(turns, &a);
    print(name, rust, run.saturating_sub(check));
    print(&format!("{name}_checked"), rust, run);
    let network = network.saturating_sub(restored);
    print(&format!("{name}_network"), rust, network);
}
