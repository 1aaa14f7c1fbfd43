//! The library's distances: chains or models, options, and lent memory that was marked.

use tanqesha::sys::{self, PairContribution};

use super::chain::chain;
use super::{BEFORE, BEFORE_REAL, Ours, view};
use crate::answers::answer;
use crate::args::{
    BisimArgs, BisimSide, ChainLists, DistanceArgs, Lent, Record, marked, real_marked,
    real_state_of, state_of,
};
use crate::distance::Given;
use crate::text::Field;

/// What the references hold before a call.
const BEFORE_GIVEN: Given = Given {
    value: BEFORE_REAL,
    error_bound: BEFORE_REAL,
    discount: BEFORE_REAL,
    pairs_explored: BEFORE as usize,
    contributions: BEFORE as usize,
    rounds: BEFORE as usize,
};

/// What they hold afterwards: as the text form has it, zeros where a refusal left them as they were.
fn told(refusal: u32, g: &Given) -> Given {
    let b = &BEFORE_GIVEN;
    match refusal {
        0 => *g,
        _ => Given {
            value: g.value - b.value,
            error_bound: g.error_bound - b.error_bound,
            discount: g.discount - b.discount,
            pairs_explored: g.pairs_explored.wrapping_sub(b.pairs_explored),
            contributions: g.contributions.wrapping_sub(b.contributions),
            rounds: g.rounds.wrapping_sub(b.rounds),
        },
    }
}

/// The records as the interface has them.
pub fn rows(records: &[Record]) -> Vec<PairContribution> {
    let row = |r: &Record| PairContribution {
        left: r.left,
        right: r.right,
        gap: r.gap,
        occupancy: r.occupancy,
        contribution: r.contribution,
    };
    records.iter().map(row).collect()
}

fn records(rows: &[PairContribution]) -> Vec<Record> {
    let record = |r: &PairContribution| Record {
        left: r.left,
        right: r.right,
        gap: r.gap,
        occupancy: r.occupancy,
        contribution: r.contribution,
    };
    rows.iter().map(record).collect()
}

/// `distance` in this memory, but for the records, which go into `rows`.
pub fn distance(
    a: &DistanceArgs,
    lent: &mut Lent,
    rows: &mut [PairContribution],
    given: &mut Given,
) -> u32 {
    sys::distance(
        &chain(&a.left),
        &a.left.lists.observations,
        &chain(&a.right),
        &a.right.lists.observations,
        a.options.gamma,
        a.options.tolerance,
        a.options.max_rounds,
        a.options.top,
        &mut lent.lefts,
        &mut lent.rights,
        &mut lent.index,
        &mut lent.places,
        &mut lent.masses,
        rows,
        &mut given.value,
        &mut given.error_bound,
        &mut given.discount,
        &mut given.pairs_explored,
        &mut given.contributions,
        &mut given.rounds,
    )
}

/// The lists lent for a side's chain, marked.
pub fn chain_lists(side: &BisimSide) -> ChainLists {
    ChainLists {
        offsets: marked(side.rooms.offsets),
        targets: marked(side.rooms.targets),
        probabilities: real_marked(side.rooms.probabilities),
        observations: real_marked(side.rooms.observations),
    }
}

/// `bisim_distance` in this memory, but for the records, which go into `rows`.
pub fn bisim_distance(
    a: &BisimArgs,
    chains: &mut [ChainLists; 2],
    lent: &mut Lent,
    rows: &mut [PairContribution],
    given: &mut Given,
) -> u32 {
    let [left, right] = chains;
    sys::bisim_distance(
        &view(&a.left.model),
        a.left.state,
        &a.left.observations,
        &mut left.offsets,
        &mut left.targets,
        &mut left.probabilities,
        &mut left.observations,
        &view(&a.right.model),
        a.right.state,
        &a.right.observations,
        &mut right.offsets,
        &mut right.targets,
        &mut right.probabilities,
        &mut right.observations,
        a.options.gamma,
        a.options.tolerance,
        a.options.max_rounds,
        a.options.top,
        &mut lent.lefts,
        &mut lent.rights,
        &mut lent.index,
        &mut lent.places,
        &mut lent.masses,
        rows,
        &mut given.value,
        &mut given.error_bound,
        &mut given.discount,
        &mut given.pairs_explored,
        &mut given.contributions,
        &mut given.rounds,
    )
}

/// The answer lines of a call that left this in lent memory.
fn lines(
    name: &'static str,
    refusal: u32,
    given: &Given,
    mut lent: Lent,
    rows: &[PairContribution],
    chains: Vec<u64>,
) -> Vec<Field> {
    let given = told(refusal, given);
    lent.records = records(rows);
    let scratch = [lent.scratch(), chains].concat();
    let mut fields = vec![answer(name, refusal, given.values())];
    fields.extend(lent.fields(given.contributions, scratch));
    fields
}

impl Ours for DistanceArgs {
    fn ours(&self) -> Vec<Field> {
        let (mut lent, mut given) = (self.rooms.lent(), BEFORE_GIVEN);
        let mut rows = rows(&lent.records);
        let refusal = distance(self, &mut lent, &mut rows, &mut given);
        lines("distance", refusal, &given, lent, &rows, Vec::new())
    }
}

impl Ours for BisimArgs {
    fn ours(&self) -> Vec<Field> {
        let (mut lent, mut given) = (self.rooms.lent(), BEFORE_GIVEN);
        let mut rows = rows(&lent.records);
        let mut chains = [&self.left, &self.right].map(chain_lists);
        let refusal = bisim_distance(self, &mut chains, &mut lent, &mut rows, &mut given);
        let states = |c: &ChainLists| {
            [
                state_of(&c.offsets),
                state_of(&c.targets),
                real_state_of(&c.probabilities),
                real_state_of(&c.observations),
            ]
        };
        let chains = chains.iter().flat_map(states).collect();
        lines("bisim_distance", refusal, &given, lent, &rows, chains)
    }
}
