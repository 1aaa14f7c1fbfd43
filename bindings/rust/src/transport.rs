//! Plans that move masses to masses.

use crate::{Refusal, sys};

/// A cell of a plan: so much mass goes from the row's to the column's.
#[derive(Debug, Clone, Copy, PartialEq)]
pub struct Cell {
    /// Which of the first masses.
    pub row: usize,
    /// Which of the second masses.
    pub column: usize,
    /// How much.
    pub mass: f64,
}

/// A plan: its cells above 1e-12 in row order, and what it costs.
#[derive(Debug, Clone, PartialEq)]
pub struct Plan {
    /// What it costs.
    pub total: f64,
    /// Its cells.
    pub cells: Vec<Cell>,
}

/// A plan that moves masses `a` to masses `b` along cheapest paths; `costs` has one for each pair, row after row. That it is
/// the cheapest, or moves all mass, is not claimed.
///
/// ```
/// use tanqesha::{Refusal, transport};
///
/// let plan = transport(&[0.5, 0.5], &[0.25, 0.75], &[0.0, 1.0, 1.0, 0.0])?;
/// let cells: Vec<_> = plan.cells.iter().map(|c| (c.row, c.column, c.mass)).collect();
/// assert_eq!(cells, [(0, 0, 0.25), (0, 1, 0.25), (1, 1, 0.5)]);
/// assert_eq!(plan.total, 0.25);
/// assert_eq!(transport(&[1.0], &[2.0], &[0.0]), Err(Refusal::Totals));
/// # Ok::<(), Refusal>(())
/// ```
///
/// # Errors
/// [`Refusal::Store`] where a pair has no cost, [`Refusal::NetworkOrMasses`] where a side has over 32 masses or a mass or a
/// cost is not from 0 to 2^40, or [`Refusal::Totals`], the first that applies.
pub fn transport(a: &[f64], b: &[f64], costs: &[f64]) -> Result<Plan, Refusal> {
    // too few costs are refused whatever room there is
    let room = a.len().saturating_mul(b.len()).min(costs.len());
    let (mut rows, mut columns, mut masses) = (vec![0; room], vec![0; room], vec![0.0; room]);
    let (mut total, mut cells) = (0.0, 0);
    Refusal::check(sys::transport(
        a,
        b,
        costs,
        &mut rows,
        &mut columns,
        &mut masses,
        &mut total,
        &mut cells,
    ))?;
    let places = rows.iter().zip(&columns).zip(&masses).take(cells);
    let cells = places.map(|((&row, &column), &mass)| Cell {
        row: row as usize,
        column: column as usize,
        mass,
    });
    Ok(Plan {
        total,
        cells: cells.collect(),
    })
}
