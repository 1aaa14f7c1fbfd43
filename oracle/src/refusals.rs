//! OURS, no part of the Rust: the refusals of document 01 ("Turned back, in this order"), written from that paper and its readings.

// Each public function gives the number of the first check that fails, 0 where none does. Lent stores are only measured.
// Within one number the order of the clauses cannot be seen; here a clause that reads a column stands after those that
// measure it. P1, P2 and so on are the entries of POINTS.md, the points that the papers leave open.

use crate::args::{
    BuildArgs, EdgeArgs as AddArgs, FlowArgs, InternArgs, LabelArgs, ModelArgs, NetworkArgs,
    RelatedArgs, RelationArgs, TransportArgs,
};
use std::collections::{BTreeMap, BTreeSet};

mod chain;
mod distance;

pub use chain::{common_rate_refusal, normalise_refusal, uniformise_refusal};
pub use distance::{bisim_distance_refusal, couplings, discovered, distance_refusal, run_refusal};

/// 3: a model's states.
pub const MAX_STATES: usize = 2_000;
/// 3: a model's transitions, as given, or its edges.
pub const MAX_TRANSITIONS: usize = 4_096;
/// 3: a model's distinct labels.
pub const MAX_LABELS: usize = 256;
/// 5: the least weight that is not zero, 2^-40.
pub const MIN_WEIGHT: f64 = 1.0 / MAX_WEIGHT;
/// 5: the greatest weight given, 2^40.
pub const MAX_WEIGHT: f64 = (1_u64 << 40) as f64;
/// 5: the greatest weight once joined, 2^52.
pub const MAX_JOINED_WEIGHT: f64 = (1_u64 << 52) as f64;
/// 6: a state's distinct targets other than itself.
pub const MAX_TARGETS: usize = 31;
/// 9: the least ρ.
pub const MIN_RHO: f64 = 1.0;
/// 9: the greatest ρ, 2^20.
pub const MAX_RHO: f64 = (1_u64 << 20) as f64;
/// 10: the states of both models together.
pub const MAX_STATES_TOGETHER: usize = 2_000;
/// 15: a network's nodes.
pub const MAX_NODES: usize = 66;
/// 15: a network's added links.
pub const MAX_ADDED_LINKS: usize = 1_088;
/// The links that a network holds, reverses included: 2,176.
pub const MAX_LINKS: usize = 2 * MAX_ADDED_LINKS;
/// 15: the greatest capacity that is not infinite, 2^40.
pub const MAX_CAPACITY: f64 = (1_u64 << 40) as f64;
/// 15: the greatest cost of an added link, 2^40.
pub const MAX_COST: f64 = (1_u64 << 40) as f64;
/// 15: the masses on a side of `transport`.
pub const MAX_MASSES: usize = 32;
/// 15: the greatest mass, and the greatest cost of `transport`, 2^40.
pub const MAX_MASS: f64 = (1_u64 << 40) as f64;
/// 16: by how much the totals may differ, for each unit of the first, or of 1.
pub const TOTALS_APART: f64 = 1e-9;

// The entries, with the checks that each makes, in order.

/// `intern`: 3 (a 257th distinct label), 4 (a label value listed twice), 7 (list full).
pub fn intern_refusal(a: &InternArgs) -> u32 {
    let new = !first_of(&a.labels, a.count).contains(&a.value);
    if over_labels(a.count.saturating_add(usize::from(new))) {
        3
    } else if label_list_wrong(&a.labels, a.count) {
        4
    } else if new && list_full(&a.labels, a.count) {
        7
    } else {
        0
    }
}

/// `get`: 3 and 4 of the label list (P5); a value that is absent is an answer.
pub fn get_refusal(a: &LabelArgs) -> u32 {
    if over_labels(a.count) {
        3
    } else if label_list_wrong(&a.labels, a.count) {
        4
    } else {
        0
    }
}

/// `resolve`: as `get`, and "a label id out of range: 4".
pub fn resolve_refusal(a: &LabelArgs) -> u32 {
    with_argument(get_refusal(a), outside(a.id, a.count))
}

/// `build`: 3, 4, 5, 6, 7. Where columns are shorter than the count given (7), 3 to 6 are made on what is there (P6).
pub fn build_refusal(a: &BuildArgs) -> u32 {
    if over_states(a.states)
        || over_transitions(a.given)
        || over_labels(distinct(first_of(&a.labels, a.given)))
    {
        3
    } else if initial_outside(a.initial, a.states)
        || any_outside(first_of(&a.sources, a.given), a.states)
        || any_outside(first_of(&a.targets, a.given), a.states)
    {
        4
    } else if any_weight_wrong(first_of(&a.weights, a.given), MAX_WEIGHT)
        || any_weight_wrong(&joined_weights(a), MAX_JOINED_WEIGHT)
    {
        5
    } else if over_targets(given_jumps(a)) {
        6
    } else if given_short(a) || stores_short(a) {
        7
    } else {
        0
    }
}

/// A built model handed in, "checked afresh": 3, 4, 5, 6.
pub fn model_refusal(m: &ModelArgs) -> u32 {
    if over_states(m.states) || over_transitions(m.edges) || over_labels(m.labels) {
        3
    } else if initial_outside(m.initial, m.states)
        || label_list_wrong(&m.columns.label_values, m.labels)
        || offsets_or_edges_short(m)
        || offsets_run_wrong(m)
        || any_outside(first_of(&m.columns.edge_targets, m.edges), m.states)
        || any_outside(first_of(&m.columns.edge_labels, m.edges), m.labels)
        || edges_not_rising(m)
        || any_zero(first_of(&m.columns.edge_weights, m.edges))
    {
        4
    } else if any_weight_wrong(
        first_of(&m.columns.edge_weights, m.edges),
        MAX_JOINED_WEIGHT,
    ) {
        5
    } else if over_targets(built_jumps(m)) {
        6
    } else {
        0
    }
}

/// A reader of a built model: 3, 4, 5, 6 ("a label id or state number out of range: 4").
pub fn reader_refusal(m: &ModelArgs, outside: bool) -> u32 {
    with_argument(model_refusal(m), outside)
}

/// A new network: 15, "over 66 nodes".
pub fn network_refusal_new(nodes: usize) -> u32 {
    fifteen_if(over_nodes(nodes))
}

/// `max_flow`: 15, the network handed in and the clauses of its source and sink.
pub fn max_flow_refusal(a: &FlowArgs) -> u32 {
    fifteen_if(
        network_wrong(&a.network)
            || node_outside(a.source, a.network.nodes)
            || node_outside(a.sink, a.network.nodes)
            || a.source == a.sink
            || infinite_leaves(&a.network, a.source),
    )
}

/// Adding a link: 15, the link itself and "the network handed in too, its source and sink clauses apart".
pub fn add_edge_refusal(a: &AddArgs) -> u32 {
    fifteen_if(
        network_wrong(&a.network)
            || over_links(a.network.count.saturating_add(2))
            || node_outside(a.from, a.network.nodes)
            || node_outside(a.to, a.network.nodes)
            || capacity_wrong(a.capacity)
            || cost_wrong(a.cost),
    )
}

/// `transport`: 7, 15, 16.
pub fn transport_refusal(a: &TransportArgs) -> u32 {
    if transport_short(a) {
        7
    } else if masses_wrong(&a.a) || masses_wrong(&a.b) || cell_costs(a).iter().any(mass_wrong) {
        15
    } else if totals_differ(total(&a.a), total(&a.b)) {
        16
    } else {
        0
    }
}

/// `epsdelta`: 3, 4, 5, 6, 7, 9, 10.
pub fn epsdelta_refusal(a: &RelationArgs) -> u32 {
    let models = models_refusal(&a.left, &a.right);
    if models != 0 {
        models
    } else if either_classes_short(a) || relation_short(&a.relation, states_together(a)) {
        7
    } else if epsilon_wrong(a.epsilon) || rho_wrong(a.rho) {
        9
    } else if over_together(states_together(a)) {
        10
    } else {
        0
    }
}

/// `related`: "3 for each count given, 4 for the two state numbers against them, 7 for the store, 10 for the sum of the
/// counts" (P25 to P27).
pub fn related_refusal(a: &RelatedArgs) -> u32 {
    let together = a.left_states.saturating_add(a.right_states);
    if over_states(a.left_states) || over_states(a.right_states) {
        3
    } else if outside(a.s, a.left_states) || outside(a.t, a.right_states) {
        4
    } else if relation_short(&a.relation, together) {
        7
    } else if over_together(together) {
        10
    } else {
        0
    }
}

/// `epsdelta_bisimilar`: 3, 4, 5, 6, 7, 8, 9, 10. "Initial states first" puts 8 before 9 and 10 (P29).
pub fn epsdelta_bisimilar_refusal(a: &RelationArgs) -> u32 {
    let models = models_refusal(&a.left, &a.right);
    if models != 0 {
        models
    } else if either_classes_short(a) || relation_short(&a.relation, states_together(a)) {
        7
    } else if either_initial_absent(a) {
        8
    } else if epsilon_wrong(a.epsilon) || rho_wrong(a.rho) {
        9
    } else if over_together(states_together(a)) {
        10
    } else {
        0
    }
}

/// `min_epsilon`: 3, 4, 5, 6, 7, 8, 9 ("ρ alone", P31), 10.
pub fn min_epsilon_refusal(a: &RelationArgs) -> u32 {
    let models = models_refusal(&a.left, &a.right);
    if models != 0 {
        models
    } else if either_classes_short(a) || relation_short(&a.relation, states_together(a)) {
        7
    } else if either_initial_absent(a) {
        8
    } else if rho_wrong(a.rho) {
        9
    } else if over_together(states_together(a)) {
        10
    } else {
        0
    }
}

/// Two built models handed in, each "checked afresh": 3, 4, 5, 6, and 3 of both before 4 of either, and so on.
fn models_refusal(left: &ModelArgs, right: &ModelArgs) -> u32 {
    let both = [model_refusal(left), model_refusal(right)];
    both.into_iter().filter(|&n| n != 0).min().unwrap_or(0)
}

// 3. "A model has over 2,000 states, 4,096 transitions or 256 distinct labels."

/// "A model has over 2,000 states".
fn over_states(states: usize) -> bool {
    states > MAX_STATES
}

/// "A model has over ... 4,096 transitions": as given, before joining and dropping, or the edges of a built model.
fn over_transitions(transitions: usize) -> bool {
    transitions > MAX_TRANSITIONS
}

/// "A model has over ... 256 distinct labels": those of the transitions given, or the count of a list of labels (P1).
fn over_labels(labels: usize) -> bool {
    labels > MAX_LABELS
}

// 4. State numbers, label ids, and the form of a built model handed in.

/// "A state number is not below its model's state count"; "a label id not below its label count".
fn outside(number: u32, count: usize) -> bool {
    number as usize >= count
}

/// The same of any number of a column.
fn any_outside(numbers: &[u32], count: usize) -> bool {
    numbers.iter().any(|&number| outside(number, count))
}

/// The initial state is a state number; none is no fault here.
fn initial_outside(initial: Option<u32>, states: usize) -> bool {
    initial.is_some_and(|state| outside(state, states))
}

/// "A label id or state number out of range: 4", after the 3 and before the 5 and 6 of what was handed in.
fn with_argument(refusal: u32, outside: bool) -> u32 {
    match refusal {
        1..=3 => refusal,
        _ if outside => 4,
        _ => refusal,
    }
}

/// "Too few ... labels for its counts", or "a label value listed twice".
fn label_list_wrong(labels: &[u32], count: usize) -> bool {
    labels.len() < count || distinct(&labels[..count]) < count
}

/// "Too few offsets (states + 1 are needed), edges ... for its counts".
fn offsets_or_edges_short(m: &ModelArgs) -> bool {
    m.columns.offsets.len() <= m.states
        || m.columns.edge_labels.len() < m.edges
        || m.columns.edge_targets.len() < m.edges
        || m.columns.edge_weights.len() < m.edges
}

/// "Offsets that don't run from 0 to its count of edges ... without falling".
fn offsets_run_wrong(m: &ModelArgs) -> bool {
    let offsets = &m.columns.offsets[..=m.states];
    offsets[0] != 0 || offsets[m.states] as usize != m.edges || !offsets.is_sorted()
}

/// "Edges not strictly rising by label id then target within a source".
fn edges_not_rising(m: &ModelArgs) -> bool {
    let edge = |e: usize| (m.columns.edge_labels[e], m.columns.edge_targets[e]);
    (0..m.states).any(|state| {
        let edges: Vec<usize> = edges_of(m, state).collect();
        edges.windows(2).any(|two| edge(two[0]) >= edge(two[1]))
    })
}

/// "Or a zero weight"; the two zeros count as equal.
fn any_zero(weights: &[f64]) -> bool {
    weights.contains(&0.0)
}

// 5. "A weight is neither zero nor from 2^-40 to 2^40 (2^52 once joined), NaN included."

/// "A weight is neither zero nor from 2^-40 to" the greatest, "NaN included".
fn weight_wrong(weight: f64, greatest: f64) -> bool {
    !(weight == 0.0 || (MIN_WEIGHT..=greatest).contains(&weight))
}

/// The same of any weight of a column.
fn any_weight_wrong(weights: &[f64], greatest: f64) -> bool {
    weights.iter().any(|&weight| weight_wrong(weight, greatest))
}

/// "Once joined": the sum, left to right from zero, of the weights of each source, label and target. As 3 leaves at
/// most 4,096 transitions, each at most 2^40, no sum is over 2^52.
fn joined_weights(a: &BuildArgs) -> Vec<f64> {
    let mut sums = BTreeMap::new();
    for ((source, target, weight), label) in given_jumps(a).zip(&a.labels) {
        *sums.entry((source, label, target)).or_insert(0.0) += weight;
    }
    sums.into_values().collect()
}

// 6. "A state has over 31 distinct targets other than itself, zero weights dropped."

/// "A state has over 31 distinct targets other than itself, zero weights dropped": of jumps (source, target, weight).
fn over_targets(jumps: impl Iterator<Item = (u32, u32, f64)>) -> bool {
    let mut targets: BTreeMap<u32, BTreeSet<u32>> = BTreeMap::new();
    for (source, target, weight) in jumps {
        if weight != 0.0 && source != target {
            targets.entry(source).or_default().insert(target);
        }
    }
    targets.values().any(|set| set.len() > MAX_TARGETS)
}

/// Source, target and weight of the transitions given, as far as all three columns reach.
fn given_jumps(a: &BuildArgs) -> impl Iterator<Item = (u32, u32, f64)> {
    let ends = a.sources.iter().zip(&a.targets);
    let jumps = ends.zip(&a.weights).take(a.given);
    jumps.map(|((&source, &target), &weight)| (source, target, weight))
}

/// Source, target and weight of the edges of a built model that passes 3 and 4.
fn built_jumps(m: &ModelArgs) -> impl Iterator<Item = (u32, u32, f64)> {
    let c = &m.columns;
    (0..m.states).flat_map(move |state| {
        edges_of(m, state).map(move |e| (state as u32, c.edge_targets[e], c.edge_weights[e]))
    })
}

// 7. "A lent store or list is short".

/// "Transitions given for a built model": a column shorter than the count given.
fn given_short(a: &BuildArgs) -> bool {
    a.sources.len() < a.given
        || a.labels.len() < a.given
        || a.targets.len() < a.given
        || a.weights.len() < a.given
}

/// The stores that `build` fills: an entry per transition given in each column, and "states + 1 offsets".
fn stores_short(a: &BuildArgs) -> bool {
    let stores = &a.stores;
    stores.label_values.len() < a.given
        || stores.edge_labels.len() < a.given
        || stores.edge_targets.len() < a.given
        || stores.edge_weights.len() < a.given
        || stores.offsets.len() <= a.states
}

/// `intern`'s "list full": no place after those in use.
fn list_full(labels: &[u32], count: usize) -> bool {
    labels.len() <= count
}

/// "A class ... per state", in the list of each model.
fn either_classes_short(a: &RelationArgs) -> bool {
    a.left_classes.len() < a.left.states || a.right_classes.len() < a.right.states
}

/// "⌈T²/8⌉ bytes for a relation over T states".
fn relation_short(relation: &[u8], states: usize) -> bool {
    relation.len() < states.saturating_mul(states).div_ceil(8)
}

/// "For `transport` of m and n masses m × n costs and m × n plan cells": in each column of the plan (P40).
fn transport_short(a: &TransportArgs) -> bool {
    let cells = cells(a);
    a.costs.len() < cells
        || a.plan_rows.len() < cells
        || a.plan_columns.len() < cells
        || a.plan_masses.len() < cells
}

/// m × n.
fn cells(a: &TransportArgs) -> usize {
    a.a.len().saturating_mul(a.b.len())
}

// 8. "An initial state is absent (`epsdelta_bisimilar`, `min_epsilon`, ...)."

/// "An initial state is absent", of either model (P28).
fn either_initial_absent(a: &RelationArgs) -> bool {
    a.left.initial.is_none() || a.right.initial.is_none()
}

// 9. "ε is NaN, infinite or negative, or ρ is NaN, below 1 or above 2^20."

/// "ε is NaN, infinite or negative"; -0 is accepted (M2).
fn epsilon_wrong(epsilon: f64) -> bool {
    epsilon.is_nan() || epsilon.is_infinite() || epsilon < 0.0
}

/// "ρ is NaN, below 1 or above 2^20".
fn rho_wrong(rho: f64) -> bool {
    rho.is_nan() || rho < MIN_RHO || rho > MAX_RHO
}

// 10. "In a call that makes or reads a relation, both models together have over 2,000 states."

/// "Both models together have over 2,000 states".
fn over_together(states: usize) -> bool {
    states > MAX_STATES_TOGETHER
}

/// The states of both models together, over which the relation is.
fn states_together(a: &RelationArgs) -> usize {
    a.left.states.saturating_add(a.right.states)
}

// 15. Networks.

/// All clauses of 15 that concern a network handed in, those of source and sink apart.
fn network_wrong(n: &NetworkArgs) -> bool {
    no_network(n)
        || over_nodes(n.nodes)
        || over_links(n.count)
        || (n.heads[..n.count].iter()).any(|&head| outside(head, n.nodes))
        || (n.caps[..n.count].iter()).any(|&capacity| capacity_wrong(capacity))
        || costs_wrong(n)
        || lists_wrong(n)
}

/// Columns that no network has, or a link in use without its reverse, which no adding gives (P10, P11).
fn no_network(n: &NetworkArgs) -> bool {
    n.heads.len() != MAX_LINKS
        || n.caps.len() != MAX_LINKS
        || n.costs.len() != MAX_LINKS
        || n.list.len() != MAX_LINKS
        || n.starts.len() != MAX_NODES + 1
        || !n.count.is_multiple_of(2)
}

/// "A network has over 66 nodes".
fn over_nodes(nodes: usize) -> bool {
    nodes > MAX_NODES
}

/// "A network has over ... 1,088 added links": of the links in use every other one is a reverse.
fn over_links(count: usize) -> bool {
    count > MAX_LINKS
}

/// "A node out of range".
fn node_outside(node: usize, nodes: usize) -> bool {
    node >= nodes
}

/// "A capacity neither from 0 to 2^40 nor infinite" (P8: nor minus infinity).
fn capacity_wrong(capacity: f64) -> bool {
    !((0.0..=MAX_CAPACITY).contains(&capacity) || capacity == f64::INFINITY)
}

/// "An infinite one leaving the source", an added link or a reverse.
fn infinite_leaves(n: &NetworkArgs, source: usize) -> bool {
    (0..n.count).any(|link| tail(n, link) == source && n.caps[link] == f64::INFINITY)
}

/// "An added link's cost not from 0 to 2^40".
fn cost_wrong(cost: f64) -> bool {
    !(0.0..=MAX_COST).contains(&cost)
}

/// "An added link's cost not from 0 to 2^40 or its reverse's not the negation"; the two zeros count as equal.
fn costs_wrong(n: &NetworkArgs) -> bool {
    let mut pairs = n.costs[..n.count].chunks_exact(2);
    pairs.any(|pair| cost_wrong(pair[0]) || pair[1] != -pair[0])
}

/// "Node lists other than adding its links in order gives": each link joins the list of the node that it leaves (P12).
fn lists_wrong(n: &NetworkArgs) -> bool {
    let mut lists = vec![Vec::new(); n.nodes];
    for link in 0..n.count {
        lists[tail(n, link)].push(link as u32);
    }
    let mut starts = vec![0];
    for list in &lists {
        starts.push(starts[starts.len() - 1] + list.len() as u32);
    }
    n.starts[..=n.nodes] != starts || n.list[..n.count] != lists.concat()
}

// 15. `transport`.

/// "Over 32 masses on a side, a negative, non-finite or over-2^40 mass".
fn masses_wrong(masses: &[f64]) -> bool {
    masses.len() > MAX_MASSES || masses.iter().any(mass_wrong)
}

/// "A negative, non-finite or over-2^40 mass, or such a cost"; -0 is not negative (P42).
fn mass_wrong(mass: &f64) -> bool {
    *mass < 0.0 || !mass.is_finite() || *mass > MAX_MASS
}

/// The costs of the m × n pairs; what follows them is not read (P41).
fn cell_costs(a: &TransportArgs) -> &[f64] {
    &a.costs[..cells(a)]
}

// 16. "`transport` is given totals ta and tb that differ by over 1e-9 × max(ta, 1)."

/// "Sums run left to right from zero."
fn total(masses: &[f64]) -> f64 {
    masses.iter().fold(0.0, |sum, mass| sum + mass)
}

/// "Differ by over 1e-9 × max(ta, 1)", one rounding per operation (P43).
fn totals_differ(ta: f64, tb: f64) -> bool {
    (ta - tb).abs() > TOTALS_APART * ta.max(1.0)
}

// Small helps.

/// The number 15 or none.
fn fifteen_if(wrong: bool) -> u32 {
    if wrong { 15 } else { 0 }
}

/// The first `count` of a column, or as many as it has.
fn first_of<T>(column: &[T], count: usize) -> &[T] {
    &column[..count.min(column.len())]
}

/// How many distinct values there are.
fn distinct(values: &[u32]) -> usize {
    values.iter().collect::<BTreeSet<_>>().len()
}

/// The numbers of a state's edges, by offsets that run as they should.
fn edges_of(m: &ModelArgs, state: usize) -> std::ops::Range<usize> {
    m.columns.offsets[state] as usize..m.columns.offsets[state + 1] as usize
}

/// The node that a link leaves: the head of its partner.
fn tail(n: &NetworkArgs, link: usize) -> usize {
    n.heads[link ^ 1] as usize
}

#[cfg(test)]
mod tests {
    use super::*;
    use crate::args::Columns;

    const INFINITY: f64 = f64::INFINITY;
    const TWO_40: f64 = 1_099_511_627_776.0;
    const TWO_52: f64 = 4_503_599_627_370_496.0;

    // Labels.

    fn intern(labels: &[u32], count: usize, value: u32) -> u32 {
        let labels = labels.to_vec();
        intern_refusal(&InternArgs {
            labels,
            count,
            value,
        })
    }

    fn look_up(labels: &[u32], count: usize, id: u32) -> (u32, u32) {
        let labels = labels.to_vec();
        let a = LabelArgs {
            labels,
            count,
            value: 7,
            id,
        };
        (get_refusal(&a), resolve_refusal(&a))
    }

    #[test]
    fn intern_at_256_labels() {
        let labels: Vec<u32> = (0..300).collect();
        assert_eq!(intern(&labels, 255, 1_000), 0);
        assert_eq!(intern(&labels, 256, 255), 0);
        assert_eq!(intern(&labels, 256, 256), 3);
        assert_eq!(intern(&labels, 257, 0), 3);
        assert_eq!(intern(&labels, usize::MAX, 0), 3);
    }

    #[test]
    fn intern_in_a_full_short_or_doubled_list() {
        assert_eq!(intern(&[], 0, 5), 7);
        assert_eq!(intern(&[0], 0, 5), 0);
        assert_eq!(intern(&[5, 6], 2, 6), 0);
        assert_eq!(intern(&[5, 6], 2, 7), 7);
        assert_eq!(intern(&[5, 6, 0], 2, 7), 0);
        assert_eq!(intern(&[5, 5, 0], 2, 5), 4);
        assert_eq!(intern(&[5, 5], 2, 7), 4);
        assert_eq!(intern(&[5, 5, 5], 1, 7), 0);
        assert_eq!(intern(&[5, 6], 3, 5), 4);
        assert_eq!(intern(&[5; 256], 256, 7), 3);
    }

    #[test]
    fn looking_up() {
        let labels: Vec<u32> = (0..300).collect();
        assert_eq!(look_up(&labels, 256, 255), (0, 0));
        assert_eq!(look_up(&labels, 256, 256), (0, 4));
        assert_eq!(look_up(&labels, 257, 0), (3, 3));
        assert_eq!(look_up(&labels, 257, 999), (3, 3));
        assert_eq!(look_up(&[], 0, 0), (0, 4));
        assert_eq!(look_up(&[1, 2], 3, 0), (4, 4));
        assert_eq!(look_up(&[1, 1], 2, 0), (4, 4));
        assert_eq!(look_up(&[1, 1], 1, 0), (0, 0));
        assert_eq!(look_up(&[1, 1], 1, 1), (0, 4));
    }

    // Models. A transition is its source, label, target and weight.

    type Transition = (u32, u32, u32, f64);

    fn columns(entries: usize, offsets: usize) -> Columns {
        Columns {
            label_values: vec![9; entries],
            offsets: vec![9; offsets],
            edge_labels: vec![9; entries],
            edge_targets: vec![9; entries],
            edge_weights: vec![f64::NAN; entries],
        }
    }

    fn given(states: usize, transitions: &[Transition]) -> BuildArgs {
        BuildArgs {
            states,
            initial: None,
            given: transitions.len(),
            sources: transitions.iter().map(|t| t.0).collect(),
            labels: transitions.iter().map(|t| t.1).collect(),
            targets: transitions.iter().map(|t| t.2).collect(),
            weights: transitions.iter().map(|t| t.3).collect(),
            stores: columns(transitions.len(), states + 1),
        }
    }

    fn build(states: usize, transitions: &[Transition]) -> u32 {
        build_refusal(&given(states, transitions))
    }

    /// A built model of edges that stand in order, with label ids 0, 1, ... of the values 10, 11, ...
    fn built(states: usize, labels: usize, edges: &[Transition]) -> ModelArgs {
        let before = |state: usize| edges.iter().filter(|e| (e.0 as usize) < state).count();
        ModelArgs {
            states,
            edges: edges.len(),
            labels,
            initial: None,
            columns: Columns {
                label_values: (0..labels as u32).map(|id| id + 10).collect(),
                offsets: (0..=states).map(|state| before(state) as u32).collect(),
                edge_labels: edges.iter().map(|e| e.1).collect(),
                edge_targets: edges.iter().map(|e| e.2).collect(),
                edge_weights: edges.iter().map(|e| e.3).collect(),
            },
        }
    }

    fn model(states: usize, labels: usize, edges: &[Transition]) -> u32 {
        model_refusal(&built(states, labels, edges))
    }

    /// A sound model of 3 states, 4 edges and 2 labels.
    fn small() -> ModelArgs {
        let edges = [
            (0, 0, 1, 1.0),
            (0, 0, 2, 1.0),
            (0, 1, 1, 1.0),
            (2, 1, 2, 1.0),
        ];
        built(3, 2, &edges)
    }

    /// The refusal of that model after a change.
    fn changed(change: impl Fn(&mut ModelArgs)) -> u32 {
        let mut m = small();
        change(&mut m);
        model_refusal(&m)
    }

    #[test]
    fn states_at_2000() {
        assert_eq!(build(2_000, &[(1_999, 0, 1_999, 1.0)]), 0);
        assert_eq!(build(2_001, &[]), 3);
        assert_eq!(model(2_000, 1, &[(1_999, 0, 1_999, 1.0)]), 0);
        assert_eq!(model(2_001, 0, &[]), 3);
        assert_eq!(build(0, &[]), 0);
        assert_eq!(model(0, 0, &[]), 0);
        assert_eq!(changed(|m| m.states = usize::MAX), 3);
    }

    #[test]
    fn transitions_at_4096() {
        let many = vec![(0, 0, 0, 1.0); 4_097];
        assert_eq!(build(1, &many[..4_096]), 0);
        assert_eq!(build(1, &many), 3);
        assert_eq!(build(1, &vec![(0, 0, 0, 0.0); 4_097]), 3);
        let edges: Vec<Transition> = (0..4_097).map(|i| (i / 3, 0, i / 3 + i % 3, 1.0)).collect();
        assert_eq!(model(2_000, 1, &edges[..4_096]), 0);
        assert_eq!(model(2_000, 1, &edges), 3);
        assert_eq!(changed(|m| m.edges = 4_096), 4);
        assert_eq!(changed(|m| m.edges = 4_097), 3);
    }

    #[test]
    fn labels_at_256() {
        let many: Vec<Transition> = (0..257).map(|l| (0, 1_000 - l, 0, 0.0)).collect();
        assert_eq!(build(1, &many[..256]), 0);
        assert_eq!(build(1, &many), 3);
        let mut short = given(1, &many);
        short.given = 256;
        assert_eq!(build_refusal(&short), 0);
        assert_eq!(model(1, 256, &[(0, 255, 0, 1.0)]), 0);
        assert_eq!(model(1, 256, &[(0, 256, 0, 1.0)]), 4);
        assert_eq!(model(1, 257, &[(0, 255, 0, 1.0)]), 3);
        assert_eq!(changed(|m| m.labels = 256), 4);
        assert_eq!(changed(|m| m.labels = 257), 3);
    }

    #[test]
    fn state_numbers() {
        assert_eq!(build(2, &[(2, 0, 0, 1.0)]), 4);
        assert_eq!(build(2, &[(0, 0, 2, 0.0)]), 4);
        assert_eq!(build(2, &[(u32::MAX, 0, 0, 1.0)]), 4);
        for (states, initial, expected) in [(2, 1, 0), (2, 2, 4), (0, 0, 4)] {
            let mut a = given(states, &[]);
            a.initial = Some(initial);
            assert_eq!(build_refusal(&a), expected);
            let mut m = built(states, 0, &[]);
            m.initial = Some(initial);
            assert_eq!(model_refusal(&m), expected);
        }
    }

    #[test]
    fn form_of_a_built_model() {
        assert_eq!(changed(|_| ()), 0);
        let long = |m: &mut ModelArgs| {
            m.columns.label_values.push(10);
            m.columns.offsets.push(0);
            m.columns.edge_labels.push(9);
            m.columns.edge_targets.push(9);
            m.columns.edge_weights.push(f64::NAN);
        };
        assert_eq!(changed(long), 0);
        assert_eq!(changed(|m| m.columns.label_values.truncate(1)), 4);
        assert_eq!(changed(|m| m.columns.offsets.truncate(3)), 4);
        assert_eq!(changed(|m| m.columns.edge_labels.truncate(3)), 4);
        assert_eq!(changed(|m| m.columns.edge_targets.truncate(3)), 4);
        assert_eq!(changed(|m| m.columns.edge_weights.truncate(3)), 4);
        assert_eq!(changed(|m| m.columns.offsets = vec![0, 3, 3, 4]), 0);
        assert_eq!(changed(|m| m.columns.offsets = vec![1, 3, 3, 4]), 4);
        assert_eq!(changed(|m| m.columns.offsets = vec![0, 3, 2, 4]), 4);
        assert_eq!(changed(|m| m.columns.offsets = vec![0, 3, 3, 3]), 4);
        assert_eq!(changed(|m| m.columns.offsets = vec![0, 3, 3, 5]), 4);
        assert_eq!(changed(|m| m.columns.offsets = vec![0, 5, 5, 4]), 4);
        assert_eq!(changed(|m| m.columns.offsets[1] = u32::MAX), 4);
        assert_eq!(changed(|m| m.columns.edge_targets[1] = 1), 4);
        assert_eq!(changed(|m| m.columns.edge_targets.swap(0, 1)), 4);
        assert_eq!(changed(|m| m.columns.edge_targets[2] = 0), 0);
        assert_eq!(changed(|m| m.columns.edge_labels.swap(0, 2)), 4);
        assert_eq!(changed(|m| m.columns.edge_targets[3] = 3), 4);
        assert_eq!(changed(|m| m.columns.edge_labels[3] = 0), 0);
        assert_eq!(changed(|m| m.columns.edge_labels[3] = 2), 4);
        assert_eq!(changed(|m| m.columns.label_values[1] = 10), 4);
        assert_eq!(changed(|m| m.columns.label_values[1] = 3), 0);
        assert_eq!(changed(|m| m.columns.edge_weights[0] = 0.0), 4);
        assert_eq!(changed(|m| m.columns.edge_weights[0] = -0.0), 4);
        assert_eq!(
            changed(|m| m.columns.edge_weights = vec![-1.0, 1.0, 1.0, 0.0]),
            4
        );
    }

    #[test]
    fn weights() {
        let tiny = 1.0 / TWO_40;
        assert_eq!((MIN_WEIGHT, MAX_WEIGHT), (tiny, TWO_40));
        for (weight, when_given, when_joined) in [
            (0.0, 0, 4),
            (-0.0, 0, 4),
            (tiny, 0, 0),
            (tiny.next_down(), 5, 5),
            (tiny.next_up(), 0, 0),
            (f64::from_bits(1), 5, 5),
            (-f64::from_bits(1), 5, 5),
            (-tiny, 5, 5),
            (-1.0, 5, 5),
            (TWO_40.next_down(), 0, 0),
            (TWO_40, 0, 0),
            (TWO_40.next_up(), 5, 0),
            (TWO_52.next_down(), 5, 0),
            (TWO_52, 5, 0),
            (TWO_52.next_up(), 5, 5),
            (f64::MAX, 5, 5),
            (INFINITY, 5, 5),
            (-INFINITY, 5, 5),
            (f64::NAN, 5, 5),
            (-f64::NAN, 5, 5),
        ] {
            assert_eq!(build(2, &[(0, 0, 1, weight)]), when_given, "{weight:e}");
            assert_eq!(model(2, 1, &[(0, 0, 1, weight)]), when_joined, "{weight:e}");
        }
    }

    #[test]
    fn joined_weights_reach_2_to_52() {
        let most = vec![(0, 0, 0, TWO_40); 4_096];
        assert_eq!(joined_weights(&given(1, &most)), [TWO_52]);
        assert_eq!(build(1, &most), 0);
        let transitions = [
            (0, 5, 1, 1.0),
            (0, 6, 1, 2.0),
            (0, 5, 1, 4.0),
            (1, 5, 1, 0.0),
        ];
        assert_eq!(joined_weights(&given(2, &transitions)), [5.0, 2.0, 0.0]);
    }

    #[test]
    fn targets_at_31() {
        // State 1 has itself and `targets` others, the last of them twice.
        let jumps = |targets: u32| -> Vec<Transition> {
            let others = (0..=targets).map(|target| (1, 0, target, 1.0));
            others.chain([(1, 1, targets, 1.0)]).collect()
        };
        assert_eq!(build(33, &jumps(31)), 0);
        assert_eq!(build(33, &jumps(32)), 6);
        assert_eq!(model(33, 2, &jumps(31)), 0);
        assert_eq!(model(33, 2, &jumps(32)), 6);
        let mut dropped = jumps(32);
        dropped[0].3 = -0.0;
        assert_eq!(build(33, &dropped), 0);
        // 32 in all, over two labels; 32 edges, of two states.
        let by_labels: Vec<Transition> = (0..32).map(|i| (0, i / 16, i + 1, 1.0)).collect();
        assert_eq!(build(33, &by_labels), 6);
        assert_eq!(model(33, 2, &by_labels), 6);
        let by_states: Vec<Transition> = (0..32).map(|i| (i / 16, 0, i + 1, 1.0)).collect();
        assert_eq!(build(33, &by_states), 0);
        assert_eq!(model(33, 1, &by_states), 0);
    }

    #[test]
    fn short_stores_of_build() {
        let transitions = [(0, 0, 1, 1.0), (0, 0, 1, 1.0), (1, 0, 1, 0.0)];
        let short = |change: &dyn Fn(&mut BuildArgs)| {
            let mut a = given(2, &transitions);
            change(&mut a);
            build_refusal(&a)
        };
        assert_eq!(short(&|_| ()), 0);
        assert_eq!(short(&|a| a.stores = columns(9, 9)), 0);
        assert_eq!(short(&|a| a.stores.label_values.truncate(2)), 7);
        assert_eq!(short(&|a| a.stores.offsets.truncate(2)), 7);
        assert_eq!(short(&|a| a.stores.edge_labels.truncate(2)), 7);
        assert_eq!(short(&|a| a.stores.edge_targets.truncate(2)), 7);
        assert_eq!(short(&|a| a.stores.edge_weights.truncate(2)), 7);
        assert_eq!(short(&|a| a.sources.truncate(2)), 7);
        assert_eq!(short(&|a| a.labels.truncate(2)), 7);
        assert_eq!(short(&|a| a.targets.truncate(2)), 7);
        assert_eq!(short(&|a| a.weights.truncate(2)), 7);
        assert_eq!(short(&|a| a.given = 4_096), 7);
        assert_eq!(short(&|a| a.given = usize::MAX), 3);
    }

    #[test]
    fn short_columns_are_read_as_far_as_they_go() {
        let mut a = given(2, &[(0, 0, 1, 1.0), (1, 0, 1, 1.0)]);
        a.labels.clear();
        assert_eq!(build_refusal(&a), 7);
        a.weights[1] = f64::NAN;
        assert_eq!(build_refusal(&a), 5);
        a.sources[1] = 2;
        assert_eq!(build_refusal(&a), 4);
        a.labels = (0..257).collect();
        a.given = 257;
        assert_eq!(build_refusal(&a), 3);
        let many: Vec<Transition> = (0..32).map(|i| (0, 0, i + 1, 1.0)).collect();
        let mut b = given(33, &many);
        b.labels.clear();
        assert_eq!(build_refusal(&b), 6);
        b.weights.pop();
        assert_eq!(build_refusal(&b), 7);
    }

    #[test]
    fn entries_past_the_count_given_are_not_read() {
        let mut a = given(2, &[(0, 0, 1, 1.0), (9, 0, 9, f64::NAN)]);
        assert_eq!(build_refusal(&a), 4);
        a.given = 1;
        assert_eq!(build_refusal(&a), 0);
    }

    #[test]
    fn order_of_the_checks() {
        // All faults at once, taken away one by one.
        let mut transitions: Vec<Transition> = (0..33).map(|i| (0, 0, i, 1.0)).collect();
        transitions.push((0, 0, 40, 2.0 * TWO_40));
        let mut a = given(2_001, &transitions);
        a.stores = columns(0, 0);
        assert_eq!(build_refusal(&a), 3);
        a.states = 40;
        assert_eq!(build_refusal(&a), 4);
        a.targets[33] = 0;
        assert_eq!(build_refusal(&a), 5);
        a.weights[33] = 1.0;
        assert_eq!(build_refusal(&a), 6);
        a.weights[32] = 0.0;
        assert_eq!(build_refusal(&a), 7);
        a.stores = columns(34, 41);
        assert_eq!(build_refusal(&a), 0);
    }

    #[test]
    fn readers_and_their_own_argument() {
        let two = |m: &ModelArgs| (reader_refusal(m, false), reader_refusal(m, true));
        let edges: Vec<Transition> = (1..33).map(|i| (0, 0, i, 1.0)).collect();
        let mut m = built(33, 1, &edges);
        assert_eq!(two(&m), (6, 4));
        m.columns.edge_weights[0] = -1.0;
        assert_eq!(two(&m), (5, 4));
        m.columns.edge_weights[0] = 0.0;
        assert_eq!(two(&m), (4, 4));
        m.labels = 257;
        assert_eq!(two(&m), (3, 3));
        assert_eq!(two(&built(1, 0, &[])), (0, 4));
    }

    // Relations.

    /// Two models with initial states, classes, a relation as long as they need, and tolerances that pass.
    fn both(mut left: ModelArgs, mut right: ModelArgs) -> RelationArgs {
        left.initial = Some(0);
        right.initial = Some(0);
        let states = left.states + right.states;
        RelationArgs {
            left_classes: vec![0; left.states],
            right_classes: vec![0; right.states],
            left,
            right,
            epsilon: 0.25,
            rho: 2.0,
            relation: vec![0; (states * states).div_ceil(8)],
        }
    }

    /// The same, of models without edges.
    fn bare(left: usize, right: usize) -> RelationArgs {
        both(built(left, 0, &[]), built(right, 0, &[]))
    }

    /// The refusals of `epsdelta`, `epsdelta_bisimilar` and `min_epsilon`.
    fn three(a: &RelationArgs) -> [u32; 3] {
        [
            epsdelta_refusal(a),
            epsdelta_bisimilar_refusal(a),
            min_epsilon_refusal(a),
        ]
    }

    /// Those of two sound models, of 3 states and of 2, after a change.
    fn after(change: impl Fn(&mut RelationArgs)) -> [u32; 3] {
        let mut a = both(small(), built(2, 1, &[(0, 0, 1, 1.0)]));
        change(&mut a);
        three(&a)
    }

    fn related(left_states: usize, right_states: usize, bytes: usize, s: u32, t: u32) -> u32 {
        related_refusal(&RelatedArgs {
            left_states,
            right_states,
            relation: vec![0; bytes],
            s,
            t,
        })
    }

    /// A model that gives this number, or none.
    fn faulty(number: u32) -> ModelArgs {
        let edges: Vec<Transition> = (1..33).map(|i| (0, 0, i, 1.0)).collect();
        let mut m = built(33, 1, &edges);
        match number {
            3 => m.labels = 257,
            4 => m.columns.edge_labels[31] = 1,
            5 => m.columns.edge_weights[31] = -1.0,
            6 => (),
            _ => m = small(),
        }
        assert_eq!(model_refusal(&m), number);
        m
    }

    #[test]
    fn least_number_of_both_models() {
        for left in [0, 3, 4, 5, 6] {
            for right in [0, 3, 4, 5, 6] {
                let a = both(faulty(left), faulty(right));
                let least = match (left, right) {
                    (0, n) | (n, 0) => n,
                    _ => left.min(right),
                };
                assert_eq!(three(&a), [least; 3], "{left} and {right}");
            }
        }
    }

    #[test]
    fn each_model_is_checked_afresh() {
        assert_eq!(after(|_| ()), [0; 3]);
        assert_eq!(after(|a| a.left.states = 2_001), [3; 3]);
        assert_eq!(after(|a| a.right.states = 2_001), [3; 3]);
        assert_eq!(after(|a| a.left.edges = 4_097), [3; 3]);
        assert_eq!(after(|a| a.right.labels = 257), [3; 3]);
        assert_eq!(after(|a| a.left.columns.offsets.truncate(3)), [4; 3]);
        assert_eq!(after(|a| a.right.columns.label_values.clear()), [4; 3]);
        assert_eq!(after(|a| a.right.columns.edge_targets[0] = 2), [4; 3]);
        assert_eq!(after(|a| a.right.columns.edge_weights[0] = 0.0), [4; 3]);
        assert_eq!(after(|a| a.right.columns.edge_weights[0] = TWO_52), [0; 3]);
        assert_eq!(
            after(|a| a.right.columns.edge_weights[0] = TWO_52.next_up()),
            [5; 3]
        );
        // Transitions and labels are counted in each model by itself.
        let edges: Vec<Transition> = (0..4_096).map(|i| (i / 5, 0, i / 5 + i % 5, 1.0)).collect();
        let most = built(1_000, 256, &edges);
        assert_eq!(three(&both(most.clone(), most)), [0; 3]);
    }

    #[test]
    fn classes() {
        assert_eq!(after(|a| a.left_classes.truncate(2)), [7; 3]);
        assert_eq!(after(|a| a.right_classes.truncate(1)), [7; 3]);
        assert_eq!(after(|a| a.left_classes.clear()), [7; 3]);
        // A class of one list is none of the other.
        assert_eq!(
            after(|a| (a.left_classes, a.right_classes) = (vec![0; 4], vec![0])),
            [7; 3]
        );
        assert_eq!(
            after(|a| (a.left_classes, a.right_classes) = (vec![0; 2], vec![0; 3])),
            [7; 3]
        );
        // Any number is a class, and lists may be longer.
        assert_eq!(after(|a| a.left_classes = vec![u32::MAX; 9]), [0; 3]);
        assert_eq!(after(|a| a.right_classes = (0..9).collect()), [0; 3]);
    }

    #[test]
    fn bytes_of_a_relation() {
        for (left, right, bytes) in [
            (1, 1, 1),
            (1, 2, 2),
            (2, 2, 2),
            (2, 3, 4),
            (3, 2, 4),
            (3, 3, 5),
            (1, 7, 8),
            (5, 4, 11),
            (999, 1_000, 499_501),
            (1_000, 1_000, 500_000),
            (1, 1_999, 500_000),
        ] {
            let mut a = bare(left, right);
            a.relation = vec![255; bytes];
            assert_eq!(three(&a), [0; 3], "{left} and {right}");
            assert_eq!(related(left, right, bytes, 0, 0), 0, "{left} and {right}");
            a.relation.push(255);
            assert_eq!(three(&a), [0; 3], "{left} and {right}");
            assert_eq!(related(left, right, bytes + 1, 0, 0), 0);
            a.relation.truncate(bytes - 1);
            assert_eq!(three(&a), [7; 3], "{left} and {right}");
            assert_eq!(related(left, right, bytes - 1, 0, 0), 7);
        }
    }

    #[test]
    fn states_together_at_2000() {
        for (left, right, bytes, expected) in [
            (1_000, 1_000, 500_000, 0),
            (2_000, 0, 500_000, 0),
            (0, 2_000, 500_000, 0),
            (2_000, 0, 499_999, 7),
            // 2,001 together: 7 stands first.
            (1_000, 1_001, 500_000, 7),
            (1_000, 1_001, 500_500, 7),
            (1_000, 1_001, 500_501, 10),
            (1_001, 1_000, 500_501, 10),
            (1, 2_000, 500_501, 10),
            (2_000, 1, 500_501, 10),
            (2_000, 2_000, 1_999_999, 7),
            (2_000, 2_000, 2_000_000, 10),
            // 2,001 of one model alone.
            (2_001, 0, 500_501, 3),
            (0, 2_001, 500_501, 3),
            (2_001, 0, 0, 3),
        ] {
            let mut a = bare(left, right);
            a.relation = vec![0; bytes];
            assert_eq!(epsdelta_without_initial(&a), expected, "{left} and {right}");
            if left > 0 && right > 0 {
                assert_eq!(three(&a), [expected; 3], "{left} and {right}");
                let last = (left as u32 - 1, right as u32 - 1);
                assert_eq!(related(left, right, bytes, last.0, last.1), expected);
            }
        }
    }

    /// `epsdelta` of the same models without initial states, which it does not need.
    fn epsdelta_without_initial(a: &RelationArgs) -> u32 {
        let mut a = a.clone();
        (a.left.initial, a.right.initial) = (None, None);
        epsdelta_refusal(&a)
    }

    #[test]
    fn initial_states() {
        assert_eq!(after(|a| a.left.initial = None), [0, 8, 8]);
        assert_eq!(after(|a| a.right.initial = None), [0, 8, 8]);
        assert_eq!(
            after(|a| (a.left.initial, a.right.initial) = (None, None)),
            [0, 8, 8]
        );
        // By each model's own count, 3 and 2.
        assert_eq!(after(|a| a.left.initial = Some(2)), [0; 3]);
        assert_eq!(after(|a| a.left.initial = Some(3)), [4; 3]);
        assert_eq!(after(|a| a.right.initial = Some(1)), [0; 3]);
        assert_eq!(after(|a| a.right.initial = Some(2)), [4; 3]);
        assert_eq!(after(|a| a.right.initial = Some(u32::MAX)), [4; 3]);
        assert_eq!(
            after(|a| (a.left.initial, a.right.initial) = (None, Some(2))),
            [4; 3]
        );
    }

    #[test]
    fn epsilons() {
        for (epsilon, expected) in [
            (0.0, 0),
            (-0.0, 0),
            (f64::from_bits(1), 0),
            (-f64::from_bits(1), 9),
            (0.25, 0),
            (1.0, 0),
            (1.0_f64.next_up(), 0),
            (f64::MAX, 0),
            (-0.25, 9),
            (-1.0, 9),
            (-f64::MAX, 9),
            (INFINITY, 9),
            (-INFINITY, 9),
            (f64::NAN, 9),
            (-f64::NAN, 9),
        ] {
            // `min_epsilon` has no ε.
            let numbers = [expected, expected, 0];
            assert_eq!(after(|a| a.epsilon = epsilon), numbers, "{epsilon:e}");
        }
    }

    #[test]
    fn rhos() {
        let two_20 = 1_048_576.0_f64;
        assert_eq!(MAX_RHO, two_20);
        for (rho, expected) in [
            (1.0, 0),
            (1.0_f64.next_down(), 9),
            (1.0_f64.next_up(), 0),
            (1.5, 0),
            (two_20.next_down(), 0),
            (two_20, 0),
            (two_20.next_up(), 9),
            (0.0, 9),
            (-0.0, 9),
            (-1.0, 9),
            (-2.0, 9),
            (f64::MAX, 9),
            (INFINITY, 9),
            (-INFINITY, 9),
            (f64::NAN, 9),
            (-f64::NAN, 9),
        ] {
            assert_eq!(after(|a| a.rho = rho), [expected; 3], "{rho:e}");
        }
    }

    #[test]
    fn models_of_no_states() {
        let numbers = |left: usize, right: usize| {
            let mut a = bare(left, right);
            let named = three(&a);
            (a.left.initial, a.right.initial) = (None, None);
            (named, three(&a))
        };
        // An initial state that is named is not below 0.
        assert_eq!(numbers(0, 0), ([4; 3], [0, 8, 8]));
        assert_eq!(numbers(0, 1), ([4; 3], [0, 8, 8]));
        assert_eq!(numbers(1, 0), ([4; 3], [0, 8, 8]));
        assert_eq!(related(0, 0, 0, 0, 0), 4);
        assert_eq!(related(0, 1, 1, 0, 0), 4);
        assert_eq!(related(1, 0, 1, 0, 0), 4);
        // No bytes are needed for no states, one for one.
        let mut a = bare(0, 1);
        a.left.initial = None;
        a.relation.clear();
        assert_eq!(epsdelta_refusal(&a), 7);
    }

    #[test]
    fn order_of_the_checks_of_a_relation() {
        // All faults at once, taken away one by one.
        let edges: Vec<Transition> = (1..33).map(|i| (0, 0, i, 1.0)).collect();
        let mut a = bare(1_500, 1_500);
        a.left = built(1_500, 1, &edges);
        a.right = built(1_500, 1, &edges);
        a.left.initial = None;
        a.right.initial = Some(1_500);
        a.left.columns.edge_weights[0] = f64::NAN;
        a.left.labels = 257;
        a.right_classes.pop();
        a.relation.pop();
        a.epsilon = f64::NAN;
        a.rho = 0.5;
        assert_eq!(three(&a), [3; 3]);
        a.left.labels = 1;
        assert_eq!(three(&a), [4; 3]);
        a.right.initial = Some(1_499);
        assert_eq!(three(&a), [5; 3]);
        a.left.columns.edge_weights[0] = 1.0;
        assert_eq!(three(&a), [6; 3]);
        a.left = built(1_500, 1, &edges[1..]);
        assert_eq!(three(&a), [6; 3]);
        a.right = built(1_500, 1, &edges[1..]);
        assert_eq!(three(&a), [7; 3]);
        a.right_classes.push(0);
        assert_eq!(three(&a), [7; 3]);
        a.relation.push(0);
        assert_eq!(three(&a), [9, 8, 8]);
        a.left.initial = Some(0);
        assert_eq!(three(&a), [9, 8, 8]);
        a.right.initial = Some(0);
        assert_eq!(three(&a), [9; 3]);
        a.rho = 1.0;
        assert_eq!(three(&a), [9, 9, 10]);
        a.epsilon = 0.0;
        assert_eq!(three(&a), [10; 3]);
        a.rho = 0.5;
        assert_eq!(three(&a), [9; 3]);
    }

    #[test]
    fn state_numbers_of_related() {
        // Each below its own model's count, 3 and 2: 4 bytes.
        for (s, t, expected) in [
            (0, 0, 0),
            (2, 1, 0),
            (3, 1, 4),
            (2, 2, 4),
            (1, 2, 4),
            (0, 3, 4),
            (0, 4, 4),
            (u32::MAX, 0, 4),
            (0, u32::MAX, 4),
        ] {
            assert_eq!(related(3, 2, 4, s, t), expected, "{s} and {t}");
        }
    }

    #[test]
    fn contents_of_a_relation_are_not_checked() {
        // Not symmetric, self-pairs missing, spare bits set.
        for byte in 0..=255 {
            let a = RelatedArgs {
                left_states: 1,
                right_states: 1,
                relation: vec![byte, !byte],
                s: 0,
                t: 0,
            };
            assert_eq!(related_refusal(&a), 0);
        }
    }

    #[test]
    fn order_of_the_checks_of_related() {
        assert_eq!(related(2_001, 2_000, 0, 2_001, 2_000), 3);
        assert_eq!(related(2_000, 2_001, 0, 2_000, 2_001), 3);
        assert_eq!(related(2_000, 2_000, 0, 2_000, 1_999), 4);
        assert_eq!(related(2_000, 2_000, 0, 1_999, 2_000), 4);
        assert_eq!(related(2_000, 2_000, 0, 1_999, 1_999), 7);
        assert_eq!(related(2_000, 2_000, 2_000_000, 1_999, 2_000), 4);
        assert_eq!(related(2_000, 2_000, 2_000_000, 1_999, 1_999), 10);
        assert_eq!(related(1_000, 1_000, 500_000, 999, 999), 0);
    }

    #[test]
    fn huge_counts() {
        for huge in [usize::MAX, usize::MAX - 1, usize::MAX / 2 + 1, 1 << 32] {
            assert_eq!(after(|a| a.left.states = huge), [3; 3]);
            assert_eq!(after(|a| a.right.states = huge), [3; 3]);
            assert_eq!(
                after(|a| (a.left.states, a.right.states) = (huge, huge)),
                [3; 3]
            );
            assert_eq!(after(|a| a.left.edges = huge), [3; 3]);
            assert_eq!(after(|a| a.right.labels = huge), [3; 3]);
            assert_eq!(related(huge, 1, 9, 0, 0), 3);
            assert_eq!(related(1, huge, 9, 0, 0), 3);
            assert_eq!(related(huge, huge, 9, u32::MAX, u32::MAX), 3);
            assert!(relation_short(&[0; 9], huge));
            assert!(over_together(huge));
        }
    }

    // Networks.

    fn network(nodes: usize, links: &[(u32, u32, f64, f64)]) -> NetworkArgs {
        let mut n = NetworkArgs {
            nodes,
            count: 2 * links.len(),
            heads: vec![0; 2_176],
            caps: vec![0.0; 2_176],
            costs: vec![0.0; 2_176],
            starts: vec![0; 67],
            list: vec![0; 2_176],
        };
        for (k, &(from, to, capacity, cost)) in links.iter().enumerate() {
            (n.heads[2 * k], n.heads[2 * k + 1]) = (to, from);
            n.caps[2 * k] = capacity;
            (n.costs[2 * k], n.costs[2 * k + 1]) = (cost, -cost);
        }
        let mut place = 0;
        for node in 0..nodes.min(66) {
            for link in 0..n.count {
                if n.heads[link ^ 1] as usize == node {
                    n.list[place] = link as u32;
                    place += 1;
                }
            }
            n.starts[node + 1] = place as u32;
        }
        n
    }

    fn flow(network: &NetworkArgs, source: usize, sink: usize) -> u32 {
        let network = network.clone();
        max_flow_refusal(&FlowArgs {
            network,
            source,
            sink,
        })
    }

    fn add(network: &NetworkArgs, from: usize, to: usize, capacity: f64, cost: f64) -> u32 {
        let network = network.clone();
        add_edge_refusal(&AddArgs {
            network,
            from,
            to,
            capacity,
            cost,
        })
    }

    /// What a network handed in gives, source and sink apart: the same from `max_flow` and from adding a link.
    fn handed(n: &NetworkArgs) -> u32 {
        let refusal = flow(n, 0, n.nodes.wrapping_sub(1));
        assert_eq!(add(n, 0, 0, 1.0, 0.0), refusal);
        refusal
    }

    /// The refusal of a sound network of 3 nodes and 3 added links after a change.
    fn altered(change: impl Fn(&mut NetworkArgs)) -> u32 {
        let mut n = network(
            3,
            &[(0, 1, 1.0, 2.0), (1, 2, INFINITY, 0.0), (0, 2, 0.5, 1.0)],
        );
        change(&mut n);
        handed(&n)
    }

    #[test]
    fn nodes_at_66() {
        assert_eq!(network_refusal_new(0), 0);
        assert_eq!(network_refusal_new(66), 0);
        assert_eq!(network_refusal_new(67), 15);
        assert_eq!(network_refusal_new(usize::MAX), 15);
        assert_eq!(handed(&network(66, &[(65, 0, 1.0, 0.0)])), 0);
        assert_eq!(handed(&network(67, &[])), 15);
        assert_eq!(altered(|n| n.nodes = usize::MAX), 15);
    }

    #[test]
    fn added_links_at_1088() {
        let links = vec![(0, 1, 1.0, 0.0); 1_088];
        assert_eq!(add(&network(2, &links[1..]), 0, 1, 1.0, 0.0), 0);
        let full = network(2, &links);
        assert_eq!(flow(&full, 0, 1), 0);
        assert_eq!(add(&full, 0, 1, 1.0, 0.0), 15);
        let mut over = full.clone();
        over.count = 2_178;
        assert_eq!(handed(&over), 15);
        over.count = usize::MAX;
        assert_eq!(handed(&over), 15);
        over.count = usize::MAX - 1;
        assert_eq!(handed(&over), 15);
    }

    #[test]
    fn nodes_out_of_range() {
        let n = network(3, &[(0, 1, 1.0, 0.0)]);
        for (from, to, expected) in [(0, 2, 0), (2, 0, 0), (0, 3, 15), (3, 0, 15)] {
            assert_eq!(flow(&n, from, to), expected);
            assert_eq!(add(&n, from, to, 1.0, 0.0), expected);
        }
        assert_eq!(flow(&n, usize::MAX, 0), 15);
        assert_eq!(flow(&n, 1, 1), 15);
        assert_eq!(add(&n, 1, 1, 1.0, 0.0), 0);
        assert_eq!(flow(&network(0, &[]), 0, 1), 15);
        assert_eq!(add(&network(0, &[]), 0, 0, 1.0, 0.0), 15);
        assert_eq!(altered(|n| n.heads[0] = 3), 15);
        assert_eq!(altered(|n| n.heads[5] = u32::MAX), 15);
        assert_eq!(altered(|n| n.heads[6] = u32::MAX), 0);
    }

    #[test]
    fn capacities() {
        for (capacity, expected) in [
            (0.0, 0),
            (-0.0, 0),
            (f64::from_bits(1), 0),
            (-f64::from_bits(1), 15),
            (-1.0, 15),
            (TWO_40, 0),
            (TWO_40.next_up(), 15),
            (f64::MAX, 15),
            (INFINITY, 0),
            (-INFINITY, 15),
            (f64::NAN, 15),
        ] {
            assert_eq!(altered(|n| n.caps[2] = capacity), expected, "{capacity:e}");
            assert_eq!(altered(|n| n.caps[3] = capacity), expected, "{capacity:e}");
            assert_eq!(altered(|n| n.caps[6] = capacity), 0, "{capacity:e}");
            let n = network(2, &[]);
            assert_eq!(add(&n, 0, 1, capacity, 0.0), expected, "{capacity:e}");
        }
    }

    #[test]
    fn infinite_capacity_leaving_the_source() {
        // Links 0 and 2 are added, 1 and 3 their reverses.
        let mut n = network(3, &[(0, 1, INFINITY, 0.0), (1, 2, 1.0, 0.0)]);
        assert_eq!(flow(&n, 0, 2), 15);
        assert_eq!(flow(&n, 1, 2), 0);
        assert_eq!(flow(&n, 2, 0), 0);
        assert_eq!(add(&n, 0, 2, INFINITY, 0.0), 0);
        n.caps[0] = 1.0;
        assert_eq!(flow(&n, 0, 2), 0);
        n.caps[1] = INFINITY;
        assert_eq!(flow(&n, 0, 2), 0);
        assert_eq!(flow(&n, 1, 2), 15);
        assert_eq!(flow(&n, 1, 0), 15);
        assert_eq!(add(&n, 1, 2, 1.0, 0.0), 0);
        assert_eq!(flow(&network(2, &[(0, 0, INFINITY, 0.0)]), 0, 1), 15);
    }

    #[test]
    fn costs() {
        for (cost, expected) in [
            (0.0, 0),
            (-0.0, 0),
            (f64::from_bits(1), 0),
            (-f64::from_bits(1), 15),
            (TWO_40, 0),
            (TWO_40.next_up(), 15),
            (INFINITY, 15),
            (-INFINITY, 15),
            (f64::NAN, 15),
        ] {
            let both = |n: &mut NetworkArgs| (n.costs[2], n.costs[3]) = (cost, -cost);
            assert_eq!(altered(both), expected, "{cost:e}");
            let n = network(2, &[]);
            assert_eq!(add(&n, 0, 1, 1.0, cost), expected, "{cost:e}");
        }
        assert_eq!(altered(|n| n.costs[3] = 0.0), 0);
        assert_eq!(altered(|n| n.costs[1] = 2.0), 15);
        assert_eq!(altered(|n| n.costs[1] = (-2.0_f64).next_up()), 15);
        assert_eq!(altered(|n| n.costs[1] = f64::NAN), 15);
    }

    #[test]
    fn node_lists() {
        assert_eq!(altered(|_| ()), 0);
        // Node 0 has links 0 and 4, node 1 has 1 and 2, node 2 has 3 and 5.
        assert_eq!(
            altered(|n| n.list[..6].copy_from_slice(&[0, 4, 1, 2, 3, 5])),
            0
        );
        assert_eq!(altered(|n| n.list.swap(0, 1)), 15);
        assert_eq!(altered(|n| n.list.swap(2, 3)), 15);
        assert_eq!(altered(|n| n.list.swap(0, 2)), 15);
        assert_eq!(altered(|n| n.list.swap(4, 5)), 15);
        assert_eq!(altered(|n| n.list[0] = 4), 15);
        assert_eq!(altered(|n| n.list[0] = u32::MAX), 15);
        assert_eq!(altered(|n| n.starts[..4].copy_from_slice(&[0, 2, 4, 6])), 0);
        assert_eq!(altered(|n| n.starts[1] = 1), 15);
        assert_eq!(altered(|n| n.starts[1] = u32::MAX), 15);
        assert_eq!(altered(|n| n.starts[0] = 1), 15);
        assert_eq!(altered(|n| n.starts[3] = 5), 15);
        assert_eq!(altered(|n| n.starts[3] = 7), 15);
        // What no node's list holds is not read.
        assert_eq!(altered(|n| n.starts[4] = 1), 0);
        assert_eq!(altered(|n| n.list[6] = 9), 0);
        // Two whole lists exchanged, starts and all lengths as they were.
        assert_eq!(
            altered(|n| n.list[..6].copy_from_slice(&[1, 2, 0, 4, 3, 5])),
            15
        );
        // A link from a node to itself stands there twice, the added one first.
        let mut own = network(2, &[(0, 0, 1.0, 1.0)]);
        assert_eq!(handed(&own), 0);
        own.list.swap(0, 1);
        assert_eq!(handed(&own), 15);
        // The added links 0 and 1 exchanged in the columns, but not in the lists.
        assert_eq!(altered(|n| n.heads[..4].copy_from_slice(&[2, 1, 1, 0])), 15);
    }

    #[test]
    fn no_networks_columns() {
        assert_eq!(altered(|n| n.count = 5), 15);
        // Half a pair, with lists that would fit it.
        let mut half = network(2, &[(0, 1, 1.0, 0.0)]);
        half.count = 1;
        half.starts[2] = 1;
        assert_eq!(handed(&half), 15);
        assert_eq!(altered(|n| n.heads.truncate(2_175)), 15);
        assert_eq!(altered(|n| n.caps.truncate(6)), 15);
        assert_eq!(altered(|n| n.costs.push(0.0)), 15);
        assert_eq!(altered(|n| n.list.clear()), 15);
        assert_eq!(altered(|n| n.starts.truncate(66)), 15);
        assert_eq!(altered(|n| n.starts.push(0)), 15);
    }

    // `transport`.

    /// The refusal of masses and costs with as many plan cells.
    fn transport(a: &[f64], b: &[f64], costs: &[f64], rooms: [usize; 3]) -> u32 {
        transport_refusal(&TransportArgs {
            a: a.to_vec(),
            b: b.to_vec(),
            costs: costs.to_vec(),
            plan_rows: vec![9; rooms[0]],
            plan_columns: vec![9; rooms[1]],
            plan_masses: vec![9.0; rooms[2]],
        })
    }

    #[test]
    fn cells_of_a_plan() {
        let (a, b) = ([0.5, 0.5], [0.25, 0.25, 0.5]);
        let at = |costs: usize, rooms| transport(&a, &b, &vec![1.0; costs], rooms);
        assert_eq!(at(6, [6, 6, 6]), 0);
        assert_eq!(at(7, [8, 9, 10]), 0);
        assert_eq!(at(5, [6, 6, 6]), 7);
        assert_eq!(at(6, [5, 6, 6]), 7);
        assert_eq!(at(6, [6, 5, 6]), 7);
        assert_eq!(at(6, [6, 6, 5]), 7);
        assert_eq!(transport(&[], &[], &[], [0; 3]), 0);
        assert_eq!(transport(&[], &[0.0, 1e-9], &[], [0; 3]), 0);
        assert_eq!(transport(&[2e-9], &[], &[], [0; 3]), 16);
    }

    #[test]
    fn masses_and_costs_at_their_limits() {
        let one = |x: f64| transport(&[x], &[x], &[1.0], [1; 3]);
        let cost = |x: f64| transport(&[1.0], &[1.0], &[x], [1; 3]);
        for good in [0.0, -0.0, 5e-324, 1.0, TWO_40] {
            assert_eq!((one(good), cost(good)), (0, 0), "{good}");
        }
        let far = [TWO_40.next_up(), f64::MAX, INFINITY];
        for bad in [far, far.map(|x| -x), [-5e-324, -1.0, f64::NAN]].concat() {
            assert_eq!((one(bad), cost(bad)), (15, 15), "{bad}");
        }
        let side = |m: usize, n: usize| {
            transport(&vec![0.0; m], &vec![0.0; n], &vec![1.0; m * n], [m * n; 3])
        };
        assert_eq!([side(32, 32), side(33, 0), side(0, 33)], [0, 15, 15]);
        assert_eq!([side(33, 32), side(32, 33)], [15, 15]);
        assert_eq!(transport(&[1.0], &[1.0], &[1.0, -1.0], [1; 3]), 0);
    }

    #[test]
    fn totals() {
        let of = |ta: f64, tb: f64| transport(&[ta], &[tb], &[0.0], [1; 3]);
        assert_eq!([of(0.0, 1e-9), of(1e-9, 0.0)], [0, 0]);
        assert_eq!([of(0.0, 1e-9f64.next_up()), of(2.0, 2.1)], [16, 16]);
        assert_eq!([of(1e6, 1e6 + 0.0005), of(1e6, 1e6 + 0.002)], [0, 16]);
        assert_eq!(of(TWO_40, TWO_40 - 1_000.0), 0);
        assert_eq!(of(TWO_40, TWO_40 - 1_100.0), 16);
    }

    #[test]
    fn order_of_the_checks_of_transport() {
        assert_eq!(transport(&[1.0], &[-1.0], &[], [1; 3]), 7);
        assert_eq!(transport(&[1.0], &[-1.0], &[0.0], [1; 3]), 15);
        assert_eq!(transport(&[1.0], &[3.0], &[-1.0], [1; 3]), 15);
        assert_eq!(transport(&[1.0], &[3.0], &[1.0], [1; 3]), 16);
        assert_eq!(transport(&[1.0; 33], &[33.0], &[1.0; 33], [32; 3]), 7);
        assert_eq!(transport(&[1.0; 33], &[33.0], &[1.0; 33], [33; 3]), 15);
    }

    // No input makes a function panic: many small and damaged ones.

    struct Dice(u64);

    impl Dice {
        fn below(&mut self, end: u64) -> u64 {
            let a = self.0.wrapping_mul(6_364_136_223_846_793_005);
            self.0 = a.wrapping_add(1_442_695_040_888_963_407);
            (self.0 >> 33) % end
        }
        fn count(&mut self) -> usize {
            match self.below(12) {
                0 => usize::MAX - self.below(3) as usize,
                1 => self.below(5_000) as usize,
                _ => self.below(5) as usize,
            }
        }
        fn numbers(&mut self, most: u64) -> Vec<u32> {
            let length = self.below(most);
            let number = |_| match self.below(40) {
                0 => u32::MAX,
                _ => self.below(4) as u32,
            };
            (0..length).map(number).collect()
        }
        fn floats(&mut self, most: u64) -> Vec<f64> {
            let length = self.below(most);
            let float = |_| match self.below(40) {
                0 => f64::from_bits(self.below(1 << 31) << 33),
                1 => 0.0,
                n => n as f64,
            };
            (0..length).map(float).collect()
        }
        fn columns(&mut self) -> Columns {
            Columns {
                label_values: self.numbers(5),
                offsets: self.numbers(6),
                edge_labels: self.numbers(6),
                edge_targets: self.numbers(6),
                edge_weights: self.floats(6),
            }
        }
    }

    type Seen = BTreeSet<(&'static str, u32)>;

    /// The numbers that an entry gave.
    fn of(seen: &Seen, name: &str) -> Vec<u32> {
        let own = seen.iter().filter(|s| s.0 == name);
        own.map(|s| s.1).collect()
    }

    fn damaged(d: &mut Dice) -> ModelArgs {
        let mut m = small();
        let place = d.below(4) as usize;
        match d.below(8) {
            0 => m.states = d.count(),
            1 => m.edges = d.count(),
            2 => m.labels = d.count(),
            3 => m.columns.offsets[place] = d.below(6) as u32,
            4 => m.columns.edge_labels[place] = d.below(3) as u32,
            5 => m.columns.edge_targets[place] = d.below(4) as u32,
            6 => m.columns.edge_weights[place] = f64::from_bits(d.below(1 << 31) << 33),
            _ => m.columns = d.columns(),
        }
        m
    }

    #[test]
    fn nothing_panics_on_labels() {
        let mut d = Dice(1);
        let mut seen = Seen::new();
        for _ in 0..200_000 {
            let (labels, count, value) = (d.numbers(5), d.count(), d.below(5) as u32);
            seen.insert(("intern", intern(&labels, count, value)));
            seen.insert(("get", look_up(&labels, count, value).0));
            seen.insert(("resolve", look_up(&labels, count, value).1));
        }
        assert_eq!(of(&seen, "intern"), [0, 3, 4, 7]);
        assert_eq!(of(&seen, "get"), [0, 3, 4]);
        assert_eq!(of(&seen, "resolve"), [0, 3, 4]);
    }

    #[test]
    fn nothing_panics_on_models() {
        let mut d = Dice(1);
        let mut seen = Seen::new();
        for _ in 0..200_000 {
            let initial = d.numbers(3).first().copied();
            let a = BuildArgs {
                states: d.count(),
                initial,
                given: d.count(),
                sources: d.numbers(6),
                labels: d.numbers(6),
                targets: d.numbers(6),
                weights: d.floats(6),
                stores: d.columns(),
            };
            seen.insert(("build", build_refusal(&a)));
            let m = ModelArgs {
                states: d.count(),
                edges: d.count(),
                labels: d.count(),
                initial,
                columns: d.columns(),
            };
            seen.insert(("model", model_refusal(&m)));
            seen.insert(("model", model_refusal(&damaged(&mut d))));
        }
        assert_eq!(of(&seen, "build"), [0, 3, 4, 5, 7]);
        assert_eq!(of(&seen, "model"), [0, 3, 4, 5]);
    }

    #[test]
    fn nothing_panics_on_relations() {
        let mut d = Dice(1);
        let mut seen = Seen::new();
        for _ in 0..50_000 {
            let mut a = both(small(), built(2, 1, &[(0, 0, 1, 1.0)]));
            match d.below(10) {
                0 => a.left = damaged(&mut d),
                1 => a.right = damaged(&mut d),
                2 => (a.left.initial, a.right.initial) = (None, d.numbers(2).first().copied()),
                3 => a.left_classes = d.numbers(6),
                4 => a.right_classes = d.numbers(6),
                5 => a.relation.truncate(d.count()),
                6 => a.epsilon = f64::from_bits(d.below(1 << 31) << 33),
                7 => a.rho = f64::from_bits(d.below(1 << 31) << 33),
                8 => (a.left.states, a.right.states) = (d.count(), d.count()),
                _ => (),
            }
            let [one, two, three] = three(&a);
            seen.insert(("epsdelta", one));
            seen.insert(("bisimilar", two));
            seen.insert(("min", three));
            let (left, right, s) = (d.count(), d.count(), d.below(5) as u32);
            let bytes = d.below(20) as usize;
            seen.insert(("related", related(left, right, bytes, s, d.below(5) as u32)));
        }
        assert_eq!(of(&seen, "epsdelta"), [0, 3, 4, 5, 7, 9]);
        assert_eq!(of(&seen, "bisimilar"), [0, 3, 4, 5, 7, 8, 9]);
        assert_eq!(of(&seen, "min"), [0, 3, 4, 5, 7, 8, 9]);
        assert_eq!(of(&seen, "related"), [0, 3, 4, 7]);
    }

    #[test]
    fn nothing_panics_on_transports() {
        let mut d = Dice(1);
        let mut seen = Seen::new();
        for _ in 0..100_000 {
            let (a, b) = (d.floats(4), d.floats(4));
            let rooms = [8 + d.below(8), 8 + d.below(8), 8 + d.below(8)].map(|n| n as usize);
            seen.insert(("transport", transport(&a, &b, &d.floats(20), rooms)));
        }
        assert_eq!(of(&seen, "transport"), [0, 7, 15, 16]);
    }

    #[test]
    fn nothing_panics_on_networks() {
        let mut d = Dice(1);
        let mut seen = Seen::new();
        for _ in 0..2_000 {
            let mut n = network(3, &[(0, 1, 1.0, 2.0), (1, 2, 1.0, 0.0), (0, 2, 0.5, 1.0)]);
            let place = d.below(8) as usize;
            match d.below(6) {
                0 => n.nodes = d.count(),
                1 => n.count = d.count(),
                2 => n.heads[place] = d.below(5) as u32,
                3 => n.starts[place] = d.below(9) as u32,
                4 => n.list[place] = d.below(9) as u32,
                _ => n.heads = d.numbers(9),
            }
            seen.insert(("flow", flow(&n, d.count(), d.count())));
            seen.insert(("add", add(&n, d.count(), d.count(), 1.0, 1.0)));
        }
        assert_eq!(of(&seen, "flow"), [0, 15]);
        assert_eq!(of(&seen, "add"), [0, 15]);
    }
}
