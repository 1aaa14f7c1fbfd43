//! Models of one class in which states lead on along a line, and copies whose end differs.

use super::Rng;
use super::build::{Transition, from_transitions};
use super::relation::between;
use crate::args::RelationArgs;

/// How the states of a line lead on.
#[derive(Debug, Clone, Copy)]
enum Line {
    Chain,
    Ring,
    Queue,
    Leaky,
}

/// A line of so many states: each leads on to the next, at the end to nothing or to the first.
fn line(rng: &mut Rng, kind: Line, n: usize) -> Vec<Transition> {
    let (on, back) = (rng.unit() + 0.5, rng.unit() + 0.5);
    let mut list = Vec::new();
    for s in 0..n as u32 {
        let last = s as usize + 1 == n;
        match kind {
            Line::Ring => list.push((s, 7, (s + 1) % n as u32, on)),
            _ if !last => list.push((s, 7, s + 1, on)),
            _ => {}
        }
        match kind {
            Line::Queue if s > 0 => list.push((s, 5, s - 1, back)),
            Line::Leaky if !last => list.push((s, 5, 0, back * 0.1)),
            _ => {}
        }
    }
    list
}

/// Changes what leaves the last state.
fn change_end(rng: &mut Rng, list: &mut Vec<Transition>, n: usize) {
    let end = n as u32 - 1;
    let own = |t: &&mut Transition| t.0 == end;
    match rng.below(4) {
        0 => list.retain(|t| t.0 != end),
        1 => list.iter_mut().filter(own).for_each(|t| t.3 *= 3.0),
        2 => list.push((end, 3, end, 1.0)),
        _ => list.push((end, 3, end / 2, 0.7)),
    }
}

/// A line and a copy whose end may differ, all states of one class: what is struck at the end is struck on towards the
/// start, one state in each sweep where states are numbered along the line.
pub fn cascade(rng: &mut Rng, n: usize) -> RelationArgs {
    let kind = rng.pick(&[Line::Chain, Line::Ring, Line::Queue, Line::Leaky]);
    let left = line(rng, kind, n);
    let mut right = left.clone();
    if !rng.once_in(4) {
        change_end(rng, &mut right, n);
    }
    let turned = rng.once_in(3);
    let number = |s: u32| if turned { n as u32 - 1 - s } else { s };
    let turn = |list: &[Transition]| {
        let list = list.iter().map(|t| (number(t.0), t.1, number(t.2), t.3));
        from_transitions(n, Some(number(0)), &list.collect::<Vec<_>>())
    };
    between(&turn(&left), &turn(&right))
}
