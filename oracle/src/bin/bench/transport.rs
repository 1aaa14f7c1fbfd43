//! `transport` of 3, 8 and 32 masses a side with random costs. The Rust makes its network and its plan; ours writes the
//! plan into lent columns. Both must give the same total and as many cells.

use std::hint::black_box;

use oracle::args::TransportArgs;
use oracle::bisim_metric::flow::transport;
use oracle::generate::Rng;
use oracle::generate::metric::masses;
use oracle::generate::transport::lent;
use oracle::ours;

use crate::in_turns;

/// Random masses and costs, so many masses a side.
fn random(side: usize) -> TransportArgs {
    let rng = &mut Rng::new(side as u64);
    let (a, b) = (masses(rng, side), masses(rng, side));
    let costs = (0..side * side).map(|_| rng.unit()).collect();
    lent(a, b, costs)
}

pub fn cases() -> Vec<(&'static str, TransportArgs)> {
    vec![
        ("transport_3", random(3)),
        ("transport_8", random(8)),
        ("transport_32", random(32)),
    ]
}

pub fn measure(name: &str, t: &TransportArgs) {
    let rows = t.cost_rows();
    let (mut columns, mut total, mut cells) = (t.clone(), 0.0, 0);
    let refusal = ours::transport::transport(&mut columns, &mut total, &mut cells);
    let (same, plan) = transport(&t.a, &t.b, &rows);
    assert_eq!((refusal, total, cells), (0, same, plan.len()));
    let mut rust = || drop(black_box(transport(black_box(&t.a), &t.b, &rows)));
    let mut library = || {
        let refusal = ours::transport::transport(black_box(&mut columns), &mut total, &mut cells);
        assert_eq!(black_box(refusal), 0);
    };
    in_turns(name, &mut rust, &mut library);
}
