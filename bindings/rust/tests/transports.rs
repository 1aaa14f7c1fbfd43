//! Transports through `sys`.

mod common;

use common::{BEFORE_COUNT, BEFORE_REAL, short, short_mut};
use tanqesha::sys;

/// What a transport is given, and the columns of its plan.
#[derive(Debug, Clone, PartialEq)]
struct Given {
    a: Vec<f64>,
    b: Vec<f64>,
    costs: Vec<f64>,
    rows: Vec<u32>,
    columns: Vec<u32>,
    masses: Vec<f64>,
}

fn given(a: &[f64], b: &[f64], costs: &[f64]) -> Given {
    let cells = a.len() * b.len();
    Given {
        a: a.to_vec(),
        b: b.to_vec(),
        costs: costs.to_vec(),
        rows: vec![91; cells],
        columns: vec![92; cells],
        masses: vec![-9.5; cells],
    }
}

/// Halves to a quarter and three, at no cost straight and 1 across.
fn halves() -> Given {
    given(&[0.5, 0.5], &[0.25, 0.75], &[0.0, 1.0, 1.0, 0.0])
}

/// The number, the cost and the number of cells, slice `cut` one too short.
fn transport(g: &mut Given, cut: usize) -> (u32, f64, usize) {
    let (mut total, mut cells) = (BEFORE_REAL, BEFORE_COUNT);
    let number = sys::transport(
        short(&g.a, cut == 0),
        short(&g.b, cut == 1),
        short(&g.costs, cut == 2),
        short_mut(&mut g.rows, cut == 3),
        short_mut(&mut g.columns, cut == 4),
        short_mut(&mut g.masses, cut == 5),
        &mut total,
        &mut cells,
    );
    (number, total, cells)
}

const WHOLE: usize = usize::MAX;

#[test]
fn a_plan() {
    let mut g = halves();
    // costs past the cells are not looked at
    g.costs.push(f64::NAN);
    assert_eq!(transport(&mut g, WHOLE), (0, 0.25, 3));
    assert_eq!(g.rows, [0, 0, 1, 91]);
    assert_eq!(g.columns, [0, 1, 1, 92]);
    assert_eq!(g.masses, [0.25, 0.25, 0.5, -9.5]);
    // no masses
    assert_eq!(transport(&mut given(&[], &[], &[]), WHOLE), (0, 0.0, 0));
    assert_eq!(transport(&mut given(&[], &[0.0], &[]), WHOLE), (0, 0.0, 0));
    // 32 a side, each to its own
    let costs: Vec<_> = (0..1_024)
        .map(|k| f64::from(u8::from(k / 32 != k % 32)))
        .collect();
    let mut g = given(&[1.0; 32], &[1.0; 32], &costs);
    assert_eq!(transport(&mut g, WHOLE), (0, 0.0, 32));
    assert_eq!(g.rows[..32], (0..32).collect::<Vec<_>>());
    assert_eq!(g.rows[..33], [&g.columns[..32], &[91]].concat());
}

#[test]
fn transports_are_refused() {
    let refused = |number, g: &Given, cut| {
        let mut lent = g.clone();
        assert_eq!(
            transport(&mut lent, cut),
            (number, BEFORE_REAL, BEFORE_COUNT)
        );
        assert_eq!(format!("{lent:?}"), format!("{g:?}"));
    };
    // a mass less, and totals differ; a cost or a place less, and a list is short
    for (cut, number) in [(0, 16), (1, 16), (2, 7), (3, 7), (4, 7), (5, 7)] {
        refused(number, &halves(), cut);
    }
    let mut g = halves();
    (g.costs, g.rows, g.columns, g.masses) = (vec![], vec![], vec![], vec![]);
    refused(7, &g, WHOLE);
    let over = 2f64.powi(41);
    for bad in [-1.0, f64::NAN, f64::INFINITY, over] {
        for place in 0..3 {
            let mut g = halves();
            [&mut g.a, &mut g.b, &mut g.costs][place][1] = bad;
            refused(15, &g, WHOLE);
        }
    }
    refused(15, &given(&[1.0; 33], &[33.0], &[0.0; 33]), WHOLE);
    refused(15, &given(&[33.0], &[1.0; 33], &[0.0; 33]), WHOLE);
    refused(7, &given(&[1.0; 33], &[33.0], &[0.0; 32]), WHOLE);
    refused(16, &given(&[1.0], &[1.0 + 2e-9], &[0.0]), WHOLE);
    refused(16, &given(&[], &[1.0], &[]), WHOLE);
}
