//! Cards of two models, and their reports. docs/CARD.md says how a card is laid out.

use crate::sys::{self, REPORT};
use crate::{Refusal, StateId};

/// The report of a card: which states of its left model are alike to which of its right model.
#[derive(Debug, Clone, PartialEq, Eq)]
pub struct Report {
    /// How many states of the left model.
    pub left_states: usize,
    /// How many states of the right model.
    pub right_states: usize,
    /// A left state and a right one, by left then right.
    pub pairs: Vec<(StateId, StateId)>,
}

/// What the report program prints for the bytes of a card, a refusal's line included.
///
/// ```
/// assert_eq!(tanqesha::card::print(b"no card"), "     1\n");
/// ```
#[must_use]
pub fn print(card: &[u8]) -> String {
    let mut out = vec![0; REPORT];
    let mut written = 0;
    Refusal::check(sys::report(card, &mut out, &mut written)).expect("room for every report");
    out.truncate(written);
    String::from_utf8(out).expect("digits, spaces and line feeds")
}

/// The report of a card.
///
/// ```
/// use tanqesha::{Refusal, StateId, card};
///
/// let lines = [
///     "     2     0     1", // left: states, initial state, transitions
///     "     0",             // a class for each state
///     "     1",
///     "     0     0     1     2", // source, label, target, weight
///     "     2     0     1",
///     "     0",
///     "     1",
///     "     0     0     1     4",
///     "     0  2048", // epsilon and rho in 1,024ths
/// ];
/// let text = lines.map(|line| format!("{line}\n")).concat();
/// let report = card::report(text.as_bytes())?;
/// assert_eq!(report.pairs, [(StateId(0), StateId(0)), (StateId(1), StateId(1))]);
/// assert_eq!(card::report(b"no card"), Err(Refusal::CardLayout));
/// # Ok::<(), Refusal>(())
/// ```
///
/// # Errors
/// [`Refusal::CardLayout`], [`Refusal::CardSize`], [`Refusal::OutOfRange`] or [`Refusal::Tolerance`]: what the card's
/// refusal line says.
pub fn report(card: &[u8]) -> Result<Report, Refusal> {
    let text = print(card);
    let mut rows = text.lines().map(columns);
    let head = rows.next().unwrap_or_default();
    match head[..] {
        [left_states, right_states, _] => Ok(Report {
            left_states: left_states as usize,
            right_states: right_states as usize,
            pairs: rows.map(|row| (StateId(row[0]), StateId(row[1]))).collect(),
        }),
        [number] => Refusal::check(number).map(|()| unreachable!("a refusal is not 0")),
        _ => unreachable!("a report begins with three numbers, a refusal is one"),
    }
}

/// The numbers of a line that the report program prints.
fn columns(line: &str) -> Vec<u32> {
    let number = |word: &str| word.parse().expect("a number of at most six digits");
    line.split_ascii_whitespace().map(number).collect()
}
