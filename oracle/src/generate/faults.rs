//! Ways to change a network: faults of each clause of 15, and changes that leave it good.

use super::network::list_links;
use super::{GREATEST_WEIGHT, Rng, place};
use crate::args::{FlowArgs, NetworkArgs};
use crate::network::{LINKS, STARTS};

pub const INFINITY: f64 = f64::INFINITY;
/// The least number above 2^40.
const ABOVE: f64 = GREATEST_WEIGHT.next_up();

/// Capacities at the limits that are good; the last only where it does not leave the source.
pub const GOOD_CAPS: &[f64] = &[0.0, -0.0, 5e-324, 1e-12, 1.0, GREATEST_WEIGHT, INFINITY];
pub const BAD_CAPS: &[f64] = &[-5e-324, -1.0, ABOVE, f64::MAX, f64::NAN, f64::NEG_INFINITY];
pub const GOOD_COSTS: &[f64] = &[0.0, -0.0, 5e-324, 0.1, GREATEST_WEIGHT];
pub const BAD_COSTS: &[f64] = &[-5e-324, -1.0, ABOVE, INFINITY, f64::NEG_INFINITY, f64::NAN];

/// A way to change a network; harmless ones leave it good.
pub type Change = fn(&mut Rng, &mut NetworkArgs);

/// Changes after which a network of at least one link is refused, whatever its ends.
pub const FAULTS: &[(&str, Change)] = &[
    ("nodes over 66", |rng, n| {
        n.nodes = rng.pick(&[67, 68, 1 << 32, usize::MAX])
    }),
    ("count over 2,176", |rng, n| {
        n.count = rng.pick(&[2_177, 2_178, 1 << 32, usize::MAX])
    }),
    ("count odd", |rng, n| {
        n.count = rng.pick(&[n.count - 1, n.count + 1])
    }),
    ("count over the listed", |rng, n| {
        n.count += rng.pick(&[2, 4])
    }),
    ("count under the listed", |_, n| n.count -= 2),
    ("head of an added link", |rng, n| bad_head(rng, n, 0)),
    ("head of a reverse", |rng, n| bad_head(rng, n, 1)),
    ("another head", other_head),
    ("capacity of an added link", |rng, n| bad_cap(rng, n, 0)),
    ("capacity of a reverse", |rng, n| bad_cap(rng, n, 1)),
    ("cost", |rng, n| {
        let cost = rng.pick(BAD_COSTS);
        set_cost(rng, n, cost)
    }),
    ("cost of a reverse", bad_reverse_cost),
    ("entries exchanged", exchange),
    ("start", bad_start),
    ("list without a link", unlist),
    ("entry", bad_entry),
];

/// Changes that leave a good network good.
pub const HARMLESS: &[(&str, Change)] = &[
    ("junk past the used part", junk),
    ("all places listed", |_, n| *n = n.whole()),
    ("links of zeros past the listed", zero_links),
    ("cost at a limit", |rng, n| {
        let cost = rng.pick(GOOD_COSTS);
        set_cost(rng, n, cost)
    }),
    ("zeros of either sign", other_zeros),
];

/// An added link (0) or a reverse (1).
fn link(rng: &mut Rng, n: &NetworkArgs, reverse: usize) -> usize {
    2 * place(rng, n.count / 2) + reverse
}

fn bad_head(rng: &mut Rng, n: &mut NetworkArgs, reverse: usize) {
    let e = link(rng, n, reverse);
    n.heads[e] = rng.pick(&[n.nodes as u32, n.nodes as u32, 1 << 20, u32::MAX]);
}

fn bad_cap(rng: &mut Rng, n: &mut NetworkArgs, reverse: usize) {
    let e = link(rng, n, reverse);
    n.caps[e] = rng.pick(BAD_CAPS);
}

/// Another node as the head, which the node lists don't have; with one node a head that is none.
fn other_head(rng: &mut Rng, n: &mut NetworkArgs) {
    let reverse = rng.below(2);
    let e = link(rng, n, reverse);
    let nodes = n.nodes as u32;
    n.heads[e] = match nodes {
        1 => 1,
        _ => (n.heads[e] + 1 + rng.below(n.nodes - 1) as u32) % nodes,
    };
}

/// Sets the cost of an added link, and its negation for the reverse.
fn set_cost(rng: &mut Rng, n: &mut NetworkArgs, cost: f64) {
    let e = link(rng, n, 0);
    (n.costs[e], n.costs[e + 1]) = (cost, -cost);
}

/// A reverse's cost that is not the negation.
fn bad_reverse_cost(rng: &mut Rng, n: &mut NetworkArgs) {
    let e = link(rng, n, 0);
    let cost = n.costs[e];
    let unnegated = if cost == 0.0 { 1.0 } else { cost };
    let others = [
        unnegated,
        (-cost).next_up(),
        (-cost).next_down(),
        cost + 1.0,
        f64::NAN,
        INFINITY,
    ];
    n.costs[e + 1] = rng.pick(&others);
}

/// Exchanges two entries of the lists, often neighbours.
fn exchange(rng: &mut Rng, n: &mut NetworkArgs) {
    let i = rng.below(n.count - 1);
    let j = if rng.once_in(2) {
        i + 1
    } else {
        (i + 1 + rng.below(n.count - 1)) % n.count
    };
    n.list.swap(i, j);
}

/// A start one too high or too low, or far off.
fn bad_start(rng: &mut Rng, n: &mut NetworkArgs) {
    let start = &mut n.starts[place(rng, n.nodes + 1)];
    *start = match rng.below(5) {
        0 => rng.pick(&[u32::MAX, *start + 2_176]),
        1 | 2 => start.wrapping_sub(1),
        _ => *start + 1,
    };
}

/// Takes one link out of the lists and nothing else.
fn unlist(rng: &mut Rng, n: &mut NetworkArgs) {
    let i = rng.below(n.count);
    n.list.remove(i);
    for start in n.starts.iter_mut().filter(|s| **s as usize > i) {
        *start -= 1;
    }
}

/// Another number in the lists.
fn bad_entry(rng: &mut Rng, n: &mut NetworkArgs) {
    let i = place(rng, n.count);
    let entry = n.list[i];
    n.list[i] = rng.pick(&[entry + 1, entry ^ 1, n.count as u32, u32::MAX]);
}

/// Lists places past the used ones, with contents that would be refused there.
fn junk(rng: &mut Rng, n: &mut NetworkArgs) {
    let more = 1 + rng.below(4);
    for _ in 0..more.min(LINKS - n.heads.len()) {
        n.heads.push(u32::MAX);
        n.caps.push(rng.pick(BAD_CAPS));
        n.costs.push(rng.pick(BAD_COSTS));
        n.list.push(rng.pick(&[0, 7, u32::MAX]));
    }
    while n.starts.len() < STARTS && rng.below(4) > 0 {
        n.starts.push(rng.pick(&[1, 2_177, u32::MAX]));
    }
}

/// Links that are not listed, and so lead from node 0 to itself; the node lists have them.
fn zero_links(rng: &mut Rng, n: &mut NetworkArgs) {
    let (listed, more) = (n.count, 2 * (1 + rng.below(2)));
    if listed + more > LINKS || n.heads.len() > listed {
        return;
    }
    n.heads.extend(vec![0; more]);
    list_links(n);
    n.heads.truncate(listed);
    n.count += more;
}

/// Costs of zero with any signs, and a capacity of -0.
fn other_zeros(rng: &mut Rng, n: &mut NetworkArgs) {
    let e = link(rng, n, 0);
    n.costs[e] = rng.pick(&[0.0, -0.0]);
    n.costs[e + 1] = rng.pick(&[0.0, -0.0]);
    n.caps[e + rng.below(2)] = -0.0;
}

/// A way to change the ends, or what leaves the source.
pub type EndChange = fn(&mut Rng, &mut FlowArgs);

/// Changes after which the arguments of `max_flow` are refused, if a link and its reverse leave the source.
pub const END_FAULTS: &[(&str, EndChange)] = &[
    ("source", |rng, a| a.source = past(rng, a.network.nodes)),
    ("sink", |rng, a| a.sink = past(rng, a.network.nodes)),
    ("source equal to sink", |_, a| a.sink = a.source),
    ("infinite added link leaves the source", |_, a| {
        infinite(a, 0)
    }),
    ("infinite reverse leaves the source", |_, a| infinite(a, 1)),
];

/// No number of a node.
pub fn past(rng: &mut Rng, nodes: usize) -> usize {
    rng.pick(&[nodes, nodes.saturating_add(1), 1 << 32, usize::MAX])
}

/// Makes the last added link (0) or reverse (1) that leaves the source infinite.
fn infinite(a: &mut FlowArgs, reverse: usize) {
    let n = &mut a.network;
    let pairs = n.count.min(n.heads.len()) / 2;
    let links = (0..pairs).map(|k| 2 * k + reverse);
    if let Some(e) = links.rev().find(|e| n.heads[e ^ 1] as usize == a.source) {
        n.caps[e] = INFINITY;
    }
}

/// True where the changes can be made: all links in use are listed, in good lists, and there is one.
pub fn intact(n: &NetworkArgs) -> bool {
    let listed = [n.heads.len(), n.caps.len(), n.costs.len(), n.list.len()];
    n.count >= 2
        && n.count.is_multiple_of(2)
        && listed.into_iter().all(|length| length >= n.count)
        && n.starts.len() > n.nodes
}

#[cfg(test)]
mod tests {
    use super::*;
    use crate::generate::network::good;
    use crate::refusals::max_flow_refusal;

    fn refusal(a: &FlowArgs) -> u32 {
        let whole = FlowArgs {
            network: a.network.whole(),
            ..*a
        };
        max_flow_refusal(&whole)
    }

    /// Good networks of at least one link.
    fn bases() -> Vec<FlowArgs> {
        let rng = &mut Rng::new(2);
        let list = (0..400).map(|_| good(rng));
        list.filter(|a| intact(&a.network) && refusal(a) == 0)
            .collect()
    }

    #[test]
    fn every_fault_is_refused_and_nothing_harmless_is() {
        let rng = &mut Rng::new(3);
        for base in bases() {
            for (expected, changes) in [(15, FAULTS), (0, HARMLESS)] {
                for (name, change) in changes {
                    let mut a = base.clone();
                    change(rng, &mut a.network);
                    assert_eq!(refusal(&a), expected, "{name}: {a:?}");
                }
            }
        }
    }

    #[test]
    fn every_fault_of_the_ends_is_refused() {
        let rng = &mut Rng::new(4);
        for (name, change) in END_FAULTS {
            let mut refused = 0;
            for mut a in bases() {
                change(rng, &mut a);
                refused += u32::from(refusal(&a) == 15);
            }
            assert!(refused > 200, "{name}: {refused}");
        }
    }
}
