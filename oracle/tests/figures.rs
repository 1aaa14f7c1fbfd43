//! The figures of document 01 ("Figures at the edges") on the Rust side.

use oracle::bisim_core::{Real, StateId, Wlts, WltsBuilder};
use oracle::bisim_metric::epsdelta::{epsdelta, epsdelta_bisimilar, min_epsilon};
use oracle::bisim_metric::flow::{FlowNetwork, MaxFlow};
use oracle::bisim_metric::kantorovich::{Chain, Distance, MetricError, MetricOptions, distance};

/// Flow from node 0 to the last of a chain of links.
fn chain_flow(capacities: &[f64]) -> MaxFlow {
    let mut net = FlowNetwork::new(capacities.len() + 1);
    for (i, &capacity) in capacities.iter().enumerate() {
        net.add_edge(i, i + 1, capacity, 0.0);
    }
    net.max_flow(0, capacities.len())
}

fn one_state(observation: f64) -> Chain {
    Chain {
        rows: vec![vec![(0, 1.0)]],
        observation: vec![observation],
        initial: 0,
    }
}

fn one_state_distance(gamma: f64, max_rounds: usize) -> Result<Distance, MetricError> {
    let options = MetricOptions {
        max_rounds,
        ..MetricOptions::default()
    };
    distance(&one_state(0.0), &one_state(1.0), gamma, options)
}

/// State 0 with these rates to states 1, 2, ..; state 0 is the initial one.
fn fan(rates: &[f64]) -> Wlts<u32, Real> {
    let mut builder = WltsBuilder::new();
    builder.set_initial(StateId(0));
    for (i, &rate) in rates.iter().enumerate() {
        builder.add_transition(StateId(0), 7, StateId(i as u32 + 1), Real(rate));
    }
    builder.build()
}

fn number(s: StateId) -> u32 {
    s.0
}

#[test]
fn m1_discounts_0_and_1_are_refused() {
    assert!(one_state_distance(0.0, 200).is_err());
    assert!(one_state_distance(1.0, 200).is_err());
}

#[test]
fn m2_epsilon_minus_0_is_accepted() {
    let model = fan(&[1.0]);
    assert!(epsdelta(&model, &model, number, number, -0.0, 1.0).is_ok());
}

#[test]
fn m3_m4_small_flows() {
    let reply = chain_flow(&[0.75, 0.5]);
    assert_eq!((reply.flow, reply.phases, reply.pushes), (0.5, 1, 1));
    let reply = chain_flow(&[1e-12]);
    assert_eq!((reply.flow, reply.phases, reply.pushes), (0.0, 0, 0));
}

#[test]
fn m5_m6_m7_one_state_chains() {
    let reply = one_state_distance(0.5, 200).unwrap();
    let tiny = 2f64.powi(-25);
    assert_eq!(
        (reply.value, reply.error_bound, reply.rounds),
        (1.0 - tiny, tiny, 1)
    );
    assert_eq!(reply.pairs[0].occupancy, 1.0 - 2f64.powi(-39));
    let reply = one_state_distance(0.5, 0).unwrap();
    assert_eq!(
        (reply.value, reply.error_bound, reply.rounds),
        (0.0, f64::INFINITY, 0)
    );
}

#[test]
fn m8_rates_2_and_4() {
    let (left, right) = (fan(&[2.0]), fan(&[4.0]));
    let alike = |rho| epsdelta_bisimilar(&left, &right, number, number, 0.0, rho).unwrap();
    assert!(alike(2.0) && !alike(1.5));
}

#[test]
fn m9_m10_rates_3_1_against_2_2() {
    let (left, right) = (fan(&[3.0, 1.0]), fan(&[2.0, 2.0]));
    let alike = |epsilon| epsdelta_bisimilar(&left, &right, number, number, epsilon, 1.0).unwrap();
    assert!(alike(0.25) && !alike(0.2));
    let least = min_epsilon(&left, &right, number, number, 1.0).unwrap();
    assert_eq!(least, Some(0.25));
}

#[test]
fn occupancy_gives_up() {
    let gamma = 1.0 - 1e-6;
    let reply = one_state_distance(gamma, 0);
    assert_eq!(reply, Err(MetricError::TooManyRounds(1_000_000)));
}

#[test]
fn relations_of_2000_states_pass_and_of_2001_do_not() {
    let states = |n: usize| {
        let mut builder = WltsBuilder::<u32, Real>::new();
        builder.ensure_states(n);
        builder.build()
    };
    let reply = |n| epsdelta(&states(1_000), &states(n), |_| 0, |_| 1, 0.0, 1.0);
    assert!(reply(1_000).is_ok() && reply(1_001).is_err());
}
