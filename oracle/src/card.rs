//! The report on a card, written from document 01 ("The card and the printed relation") and its readings (A1 to A23),
//! without sight of the definitions: the card is read, both models are built by the Rust, and its relation is printed.

use crate::answers::{Model, Oracle, built, one};
use crate::args::{BuildArgs, CardArgs, Columns, lent_out};
use crate::bisim_core::StateId;
use crate::bisim_metric::epsdelta::{EpsDeltaRelation, epsdelta};
use crate::network::trimmed;
use crate::relation::class;
use crate::text::{Field, Value};

/// The longest card: two models of 32 states and 200 transitions, every line with its line feed (A1).
pub const LONGEST_CARD: usize = 2 * (19 + 32 * 7 + 200 * 25) + 13;
/// The greatest report, 32 × 32 pairs after the first line; a lent store under that gives 7 (B27).
pub const LONGEST_REPORT: usize = 19 + 32 * 32 * 13;

/// "Decimal numbers ... in columns of six."
const COLUMN: usize = 6;
/// "A card's model has over 32 states or 200 transitions."
const MOST_STATES: u32 = 32;
const MOST_TRANSITIONS: u32 = 200;
/// "The last line is ε and ρ, both in 1,024ths."
const PARTS: f64 = 1_024.0;

/// A model as its lines give it: source, label, target and weight of each transition.
struct CardModel {
    states: u32,
    initial: u32,
    classes: Vec<u32>,
    transitions: Vec<[u32; 4]>,
}

/// A card that passes 1 and 2.
struct Card {
    left: CardModel,
    right: CardModel,
    epsilon: u32,
    rho: u32,
}

/// A number without leading zeros, right-justified and padded with spaces, else 1 (A2, A4).
fn number(column: &[u8]) -> Result<u32, u32> {
    let spaces = column.iter().take_while(|&&byte| byte == b' ').count();
    let digits = &column[spaces..];
    let leading_zero = digits.len() > 1 && digits[0] == b'0';
    if digits.is_empty() || leading_zero || !digits.iter().all(u8::is_ascii_digit) {
        return Err(1);
    }
    let value = |n: u32, digit: &u8| 10 * n + u32::from(digit - b'0');
    Ok(digits.iter().fold(0, value))
}

/// Takes the next line, of N columns and a line feed; 1 where it is missing (A7), has no line feed (A5), is of another
/// width (A1, A3) or has a column that is no number.
fn line<const N: usize>(card: &mut &[u8]) -> Result<[u32; N], u32> {
    let end = card.iter().position(|&byte| byte == b'\n').ok_or(1u32)?;
    let (columns, rest) = card.split_at(end);
    *card = &rest[1..];
    if columns.len() != N * COLUMN {
        return Err(1);
    }
    let mut numbers = [0; N];
    for (n, column) in numbers.iter_mut().zip(columns.chunks(COLUMN)) {
        *n = number(column)?;
    }
    Ok(numbers)
}

/// "For each model: a line of states, initial state, transitions; a class per state; a line of source, label, target,
/// weight per transition." 2 is given at the head line (A10), of its two numbers (A11), once it is as laid out (A9).
fn model(card: &mut &[u8]) -> Result<CardModel, u32> {
    let [states, initial, transitions] = line(card)?;
    if states > MOST_STATES || transitions > MOST_TRANSITIONS {
        return Err(2);
    }
    let mut classes = Vec::new();
    for _ in 0..states {
        let [class] = line(card)?;
        classes.push(class);
    }
    let mut list = Vec::new();
    for _ in 0..transitions {
        list.push(line(card)?);
    }
    Ok(CardModel {
        states,
        initial,
        classes,
        transitions: list,
    })
}

/// Checks 1 and 2: "line by line, and the first fault met is the answer". Bytes after the last line give 1 (A8).
fn read(mut card: &[u8]) -> Result<Card, u32> {
    let left = model(&mut card)?;
    let right = model(&mut card)?;
    let [epsilon, rho] = line(&mut card)?;
    if !card.is_empty() {
        return Err(1);
    }
    Ok(Card {
        left,
        right,
        epsilon,
        rho,
    })
}

impl CardModel {
    /// "A state number is not below its model's state count": the initial state, each source and each target (A13), so
    /// in a model of no states the initial state always (A14).
    fn state_outside(&self) -> bool {
        let outside = |state: u32| state >= self.states;
        let mut ends = self.transitions.iter().map(|t| [t[0], t[2]]);
        outside(self.initial) || ends.any(|[source, target]| outside(source) || outside(target))
    }

    /// The arguments of `build`; the stores are not needed.
    fn args(&self) -> BuildArgs {
        let column = |i: usize| -> Vec<u32> { self.transitions.iter().map(|t| t[i]).collect() };
        BuildArgs {
            states: self.states as usize,
            initial: Some(self.initial),
            given: self.transitions.len(),
            sources: column(0),
            labels: column(1),
            targets: column(2),
            weights: self.transitions.iter().map(|t| t[3].into()).collect(),
            stores: Columns::filled(0, 0, 0),
        }
    }

    fn built(&self) -> Model {
        built(&self.args())
    }
}

impl Card {
    /// ε and ρ, exactly (A18).
    fn tolerances(&self) -> (f64, f64) {
        (f64::from(self.epsilon) / PARTS, f64::from(self.rho) / PARTS)
    }

    /// 4 over both models, then 9 (A12): "ε is NaN, infinite or negative, or ρ is NaN, below 1 or above 2^20". A card
    /// gives no other number (A15).
    fn refusal(&self) -> u32 {
        let (epsilon, rho) = self.tolerances();
        if self.left.state_outside() || self.right.state_outside() {
            4
        } else if !(epsilon.is_finite() && epsilon >= 0.0 && (1.0..=1_048_576.0).contains(&rho)) {
            9
        } else {
            0
        }
    }

    /// The Rust's relation of a card that is not refused.
    fn relation(&self) -> EpsDeltaRelation {
        let (left, right) = (&self.left, &self.right);
        let (epsilon, rho) = self.tolerances();
        let reply = epsdelta(
            &left.built(),
            &right.built(),
            class(&left.classes),
            class(&right.classes),
            epsilon,
            rho,
        );
        reply.expect("not refused")
    }

    /// The related pairs, "left state then right, by left then right" (A19, A20).
    fn pairs(&self) -> Vec<[u32; 2]> {
        let relation = self.relation();
        let right = |s: u32| (0..self.right.states).map(move |t| [s, t]);
        let all = (0..self.left.states).flat_map(right);
        all.filter(|&[s, t]| relation.related(StateId(s), StateId(t)))
            .collect()
    }
}

/// A printed line.
fn print(numbers: &[u32]) -> String {
    let columns: String = numbers.iter().map(|n| format!("{n:>6}")).collect();
    columns + "\n"
}

/// A card that passes all checks, else the number of the refusal.
fn accepted(card: &[u8]) -> Result<Card, u32> {
    let card = read(card)?;
    match card.refusal() {
        0 => Ok(card),
        number => Err(number),
    }
}

/// "Left states, right states and the count of related left-right pairs, then each such pair"; "a refusal prints one
/// line with its number in six columns" (A21).
pub fn report(card: &[u8]) -> Vec<u8> {
    let text = match accepted(card) {
        Err(number) => print(&[number]),
        Ok(card) => {
            let pairs = card.pairs();
            let head = print(&[card.left.states, card.right.states, pairs.len() as u32]);
            let lines = pairs.iter().map(|pair| print(pair));
            head + &lines.collect::<String>()
        }
    };
    text.into_bytes()
}

/// The bytes that an answer of `report` says are printed; none where it is a refusal.
fn text(fields: &[Field]) -> &[u8] {
    let [answer, store] = fields else {
        return &[];
    };
    let (Value::Answer(0, values), Value::Hex(out)) = (&answer.value, &store.value) else {
        return &[];
    };
    match values.as_slice() {
        [Value::Number(length)] if answer.name == "report" => {
            &out[..out.len().min(*length as usize)]
        }
        _ => &[],
    }
}

/// The number that an answer of `report` prints as a refusal, 0 where it prints a relation; none where it prints
/// nothing, and for other answers.
pub fn printed(fields: &[Field]) -> Option<u32> {
    let lines = std::str::from_utf8(text(fields)).ok()?;
    match lines.len() {
        0 => None,
        7 => lines.trim().parse().ok(),
        _ => Some(0),
    }
}

impl Oracle for CardArgs {
    fn oracle(&self) -> Vec<Field> {
        let mut out = self.out.clone();
        let refusal = if out.len() < LONGEST_REPORT { 7 } else { 0 };
        let answer = one("report", refusal, || {
            let text = report(&self.card);
            out[..text.len()].copy_from_slice(&text);
            Value::Number(text.len() as u64)
        });
        vec![answer, lent_out(&out)]
    }

    /// Of the store the text alone.
    fn shown(&self, fields: Vec<Field>) -> Vec<Field> {
        let length = text(&fields).len();
        trimmed(fields, &[("out", length)])
    }
}

#[cfg(test)]
mod tests {
    use super::*;
    use crate::generate::Rng;
    use crate::generate::card::sheet;
    use crate::refusals::build_refusal;

    /// A15: what passes 4 and 9 is refused by no other number.
    #[test]
    fn no_model_of_a_good_card_is_refused() {
        let rng = &mut Rng::new(3);
        for _ in 0..100 {
            let card = accepted(&sheet(rng, 32, 200).bytes()).expect("a good card");
            for model in [card.left, card.right] {
                let stores = Columns::filled(200, 33, 200);
                let args = BuildArgs {
                    stores,
                    ..model.args()
                };
                assert_eq!(build_refusal(&args), 0);
            }
        }
    }

    #[test]
    fn what_is_printed() {
        let answers = |card: &[u8], room: usize| {
            let card = card.to_vec();
            let out = vec![0xff; room];
            printed(&CardArgs { card, out }.oracle())
        };
        let good = sheet(&mut Rng::new(4), 2, 2).bytes();
        assert_eq!(answers(&good, LONGEST_REPORT), Some(0));
        assert_eq!(answers(&good[1..], LONGEST_REPORT), Some(1));
        assert_eq!(answers(b"    33     0     0\n", LONGEST_REPORT), Some(2));
        assert_eq!(answers(&good, LONGEST_REPORT - 1), None);
    }
}
