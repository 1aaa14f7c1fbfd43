//! Cards, good and at their limits, and all that differ from a short one in a byte. The faults are in
//! [`damage`](super::damage).

use super::Rng;
use super::damage::{DAMAGE, FAULTS, HARMLESS, intact};
use crate::args::CardArgs;
use crate::card::{LONGEST_CARD, LONGEST_REPORT};

/// The greatest number of a column.
pub const GREATEST: usize = 999_999;

/// One model of a card: what its head line says, and its other lines, which may be more or fewer.
#[derive(Debug, Clone)]
pub struct Side {
    pub states: usize,
    pub initial: usize,
    pub given: usize,
    pub classes: Vec<usize>,
    /// Source, label, target, weight.
    pub transitions: Vec<[usize; 4]>,
}

/// The numbers of a card.
#[derive(Debug, Clone)]
pub struct Sheet {
    pub left: Side,
    pub right: Side,
    pub epsilon: usize,
    pub rho: usize,
}

/// Columns of six, right-justified, ended by a line feed.
pub fn line(numbers: &[usize]) -> String {
    let columns: String = numbers.iter().map(|n| format!("{n:>6}")).collect();
    columns + "\n"
}

impl Side {
    /// The head line says what the others are.
    pub fn new(initial: usize, classes: &[usize], transitions: &[[usize; 4]]) -> Self {
        Self {
            states: classes.len(),
            initial,
            given: transitions.len(),
            classes: classes.to_vec(),
            transitions: transitions.to_vec(),
        }
    }

    pub fn text(&self) -> String {
        let head = line(&[self.states, self.initial, self.given]);
        let classes = self.classes.iter().map(|&class| line(&[class]));
        let transitions = self.transitions.iter().map(|t| line(t));
        head + &classes.chain(transitions).collect::<String>()
    }
}

impl Sheet {
    pub fn bytes(&self) -> Vec<u8> {
        let last = line(&[self.epsilon, self.rho]);
        (self.left.text() + &self.right.text() + &last).into_bytes()
    }
}

/// The card of document 01.
pub fn worked() -> Sheet {
    let side = |weight: usize| Side::new(0, &[0, 1], &[[0, 0, 1, weight]]);
    Sheet {
        left: side(2),
        right: side(4),
        epsilon: 0,
        rho: 2_048,
    }
}

/// A card of six-digit numbers, whose columns touch.
pub fn touching() -> Sheet {
    let side = Side::new(0, &[GREATEST], &[[0, GREATEST, 0, GREATEST]]);
    Sheet {
        left: side.clone(),
        right: side,
        epsilon: GREATEST,
        rho: GREATEST,
    }
}

/// The shortest card that is not refused.
pub fn shortest() -> Sheet {
    let side = Side::new(0, &[0], &[]);
    Sheet {
        left: side.clone(),
        right: side,
        epsilon: 0,
        rho: 1_024,
    }
}

/// A ring of 32 states of one class and of the same rate, with 168 loops: 200 transitions.
fn ring() -> Side {
    let on = (0..32).map(|s| [s, s, (s + 1) % 32, GREATEST]);
    let loops = (32..200).map(|i| [i % 32, GREATEST - i, i % 32, GREATEST]);
    let transitions: Vec<[usize; 4]> = on.chain(loops).collect();
    Side::new(31, &[GREATEST; 32], &transitions)
}

/// The longest card with the longest report.
pub fn longest() -> Sheet {
    Sheet {
        left: ring(),
        right: ring(),
        epsilon: 0,
        rho: 1_024,
    }
}

/// A weight: zero, small or the greatest.
fn weight(rng: &mut Rng) -> usize {
    let other = rng.below(1_000);
    rng.pick(&[0, 1, 1, 2, 2, 3, 4, other, GREATEST])
}

/// A model of so many states (1 to 32) and transitions (up to 200).
fn side(rng: &mut Rng, states: usize, transitions: usize) -> Side {
    let classes = rng.pick(&[1, 1, 2, 3]);
    let first = rng.pick(&[0, 0, 7, GREATEST - 2]);
    let labels = rng.pick(&[1, 4, GREATEST + 1]);
    let classes: Vec<usize> = (0..states).map(|_| first + rng.below(classes)).collect();
    let transitions: Vec<[usize; 4]> = (0..transitions)
        .map(|_| {
            let (source, target) = (rng.below(states), rng.below(states));
            [source, rng.below(labels), target, weight(rng)]
        })
        .collect();
    Side::new(rng.below(states), &classes, &transitions)
}

/// A copy with some weights and labels changed, and all weights multiplied.
fn like(rng: &mut Rng, side: &Side) -> Side {
    let mut copy = side.clone();
    let factor = rng.pick(&[1, 1, 2, 3]);
    for t in &mut copy.transitions {
        let more = usize::from(rng.once_in(6));
        t[3] = (t[3] * factor + more).min(GREATEST);
        t[1] = if rng.once_in(3) { rng.below(5) } else { t[1] };
    }
    copy
}

/// ε and ρ in 1,024ths, often at a limit.
fn tolerances(rng: &mut Rng) -> (usize, usize) {
    let (epsilon, rho) = (rng.below(1_100), 1_024 + rng.below(3_000));
    (
        rng.pick(&[0, 0, 1, 256, 512, 1_023, 1_024, 1_025, GREATEST, epsilon]),
        rng.pick(&[1_024, 1_024, 1_025, 2_048, 3_072, GREATEST, rho]),
    )
}

/// Of exactly these sizes on the left, and of these or of others on the right.
pub fn of_sizes(rng: &mut Rng, states: usize, transitions: usize) -> Sheet {
    let left = side(rng, states, transitions);
    let right = if rng.once_in(3) {
        side(rng, states, transitions)
    } else {
        like(rng, &left)
    };
    let (epsilon, rho) = tolerances(rng);
    Sheet {
        left,
        right,
        epsilon,
        rho,
    }
}

/// A card that is not refused, of up to `states` states (1 to 32) and `transitions` (up to 200) per model.
pub fn sheet(rng: &mut Rng, states: usize, transitions: usize) -> Sheet {
    let mut size = || (1 + rng.below(states), rng.below(transitions + 1));
    let (own, other) = (size(), size());
    let mut sheet = of_sizes(rng, own.0, own.1);
    if rng.once_in(4) {
        sheet.right = side(rng, other.0, other.1);
    }
    sheet
}

/// Of few states, and such that every change can be made.
pub fn small(rng: &mut Rng) -> Sheet {
    loop {
        let sheet = sheet(rng, 4, 4);
        if intact(&sheet) {
            return sheet;
        }
    }
}

/// A state that leads to so many others, to itself too, in a model of 32 states.
fn star(targets: usize, weight: usize) -> Side {
    let transitions: Vec<[usize; 4]> = (0..=targets).map(|t| [0, t, t, weight]).collect();
    let classes: Vec<usize> = (0..32).map(|s| usize::from(s == 0)).collect();
    Side::new(0, &classes, &transitions)
}

/// The same transition 200 times.
fn joined(weight: usize) -> Side {
    Side::new(1, &[0, 1], &[[0, 5, 1, weight]; 200])
}

/// Cards at their limits, none of them refused.
pub fn at_limits() -> Vec<Sheet> {
    let of = |left: Side, right: Side, epsilon: usize, rho: usize| Sheet {
        left,
        right,
        epsilon,
        rho,
    };
    let alone = Side::new(0, &[0], &[]);
    let still = Side::new(31, &[3; 32], &[]);
    vec![
        worked(),
        touching(),
        shortest(),
        longest(),
        of(star(31, 1), star(31, 1), 0, 1_024),
        of(star(31, 1), star(30, 1), 33, 2_048),
        of(star(31, GREATEST), star(31, 1), 0, GREATEST),
        of(joined(GREATEST), joined(GREATEST), 0, 1_024),
        of(joined(GREATEST), joined(0), GREATEST, GREATEST),
        of(joined(GREATEST), joined(1_025), 0, GREATEST),
        of(joined(GREATEST), joined(1_024), 0, GREATEST),
        of(alone.clone(), still.clone(), 1_024, 1_024),
        of(still.clone(), alone, 1_025, 1_025),
        of(still.clone(), still, 0, 1_024),
    ]
}

/// Bytes put in the place of others, before them, and after the end.
const OTHER: &[u8] = b" 0129-x\n\r\t\0\xff";

/// All cards that differ from this one in one byte, lack one byte, have one more or end too soon.
pub fn damaged(card: &[u8], f: &mut dyn FnMut(&[u8])) {
    let mut copy = card.to_vec();
    for i in 0..card.len() {
        for &byte in OTHER.iter().filter(|&&byte| byte != card[i]) {
            copy[i] = byte;
            f(&copy);
        }
        copy[i] = card[i];
        f(&[&card[..i], &card[i + 1..]].concat());
        f(&card[..i]);
    }
    for i in 0..=card.len() {
        for &byte in OTHER {
            f(&[&card[..i], &[byte], &card[i..]].concat());
        }
    }
}

/// Columns that hold no number.
const NO_NUMBERS: &[&[u8; 6]] = &[
    b"      ",
    b"    00",
    b"    01",
    b"   010",
    b"000000",
    b"000001",
    b"    +0",
    b"    +1",
    b"    -0",
    b"    -1",
    b"     -",
    b"   1.0",
    b"   1e2",
    b"   0x1",
    b"    1 ",
    b"0     ",
    b"1    1",
    b"   0 0",
    b" 1,000",
    b"\t    1",
    b"    1\r",
    b"    1\0",
    b"\xa0    1",
    b"    \xb2 ",
];

/// All cards that have one of these in a column.
pub fn misprinted(card: &[u8], f: &mut dyn FnMut(&[u8])) {
    let feeds = |i: usize| card[..i].iter().filter(|&&b| b == b'\n').count();
    let starts = (0..card.len()).filter(|&i| card[i] != b'\n' && (i - feeds(i)) % 6 == 0);
    let starts: Vec<usize> = starts.collect();
    for text in NO_NUMBERS {
        for &start in &starts {
            let mut copy = card.to_vec();
            copy[start..start + 6].copy_from_slice(&text[..]);
            f(&copy);
        }
    }
}

/// All cards with two lines of this one swapped.
pub fn swapped(card: &[u8], f: &mut dyn FnMut(&[u8])) {
    let lines: Vec<&[u8]> = card.split_inclusive(|&b| b == b'\n').collect();
    for i in 0..lines.len() {
        for j in 0..i {
            let mut copy = lines.clone();
            copy.swap(i, j);
            f(&copy.concat());
        }
    }
}

/// The right head is over the limits; each byte in turn is none that a card has.
pub fn damaged_before_a_head(f: &mut dyn FnMut(&[u8])) {
    for (states, given) in [(33, 1), (2, 201), (33, 201)] {
        let mut sheet = worked();
        (sheet.right.states, sheet.right.given) = (states, given);
        let card = sheet.bytes();
        f(&card);
        for i in 0..card.len() {
            let mut copy = card.clone();
            copy[i] = 0xff;
            f(&copy);
        }
    }
}

/// Inputs about as long as the longest card and longer: other cards made as long, and the same byte all along.
pub fn overlong(f: &mut dyn FnMut(&[u8])) {
    let changed = |mut sheet: Sheet, change: fn(&mut Sheet)| {
        change(&mut sheet);
        sheet
    };
    let sheets = [
        worked(),
        longest(),
        changed(worked(), |c| c.right.states = 33),
        changed(longest(), |c| c.right.states = 33),
        changed(longest(), |c| c.left.given = 201),
        changed(longest(), |c| c.right.initial = 32),
        changed(longest(), |c| c.rho = 1_023),
    ];
    for length in [-1, 0, 1, 2, 13, 5_000, 60_000] {
        let length = LONGEST_CARD.saturating_add_signed(length);
        for byte in *b" 0\n\0" {
            f(&vec![byte; length]);
            for sheet in &sheets {
                let mut card = sheet.bytes();
                card.resize(length, byte);
                f(&card);
            }
        }
    }
}

/// A card that may have several faults.
pub fn random(rng: &mut Rng, states: usize, transitions: usize) -> Vec<u8> {
    let mut sheet = sheet(rng, states, transitions);
    for _ in 0..rng.below(3) {
        if intact(&sheet) && rng.once_in(3) {
            rng.pick(HARMLESS).1(rng, &mut sheet);
        } else if intact(&sheet) {
            rng.pick(FAULTS).2(rng, &mut sheet);
        }
    }
    let mut card = sheet.bytes();
    if rng.once_in(4) {
        rng.pick(DAMAGE).1(rng, &mut card);
    }
    card
}

/// Bytes that a lent store holds: some that no text has, and some that texts have.
const FILLS: &[u8] = b"\xa5\0\xff 0\n";

/// With a store that is long enough.
pub fn lent(rng: &mut Rng, card: &[u8]) -> CardArgs {
    let room = LONGEST_REPORT + rng.pick(&[0, 0, 0, 1, 100]);
    CardArgs {
        card: card.to_vec(),
        out: vec![rng.pick(FILLS); room],
    }
}

/// With a store that is too short, though it may hold the text.
pub fn lent_too_little(rng: &mut Rng, card: &[u8]) -> CardArgs {
    let other = rng.below(LONGEST_REPORT);
    let room = rng.pick(&[
        LONGEST_REPORT - 1,
        LONGEST_REPORT - 1,
        0,
        6,
        7,
        19,
        45,
        other,
    ]);
    CardArgs {
        card: card.to_vec(),
        out: vec![rng.pick(FILLS); room],
    }
}

/// The chosen inputs of `report`: at the limits, damaged byte by byte, too long.
fn chosen(rng: &mut Rng, f: &mut dyn FnMut(CardArgs)) {
    at_limits()
        .iter()
        .for_each(|sheet| f(lent(rng, &sheet.bytes())));
    let mut refused = shortest();
    refused.rho = 1_023;
    for sheet in [worked(), touching(), shortest(), refused, small(rng)] {
        damaged(&sheet.bytes(), &mut |card| f(lent(rng, card)));
        misprinted(&sheet.bytes(), &mut |card| f(lent(rng, card)));
        swapped(&sheet.bytes(), &mut |card| f(lent(rng, card)));
    }
    damaged_before_a_head(&mut |card| f(lent(rng, card)));
    overlong(&mut |card| f(lent(rng, card)));
}

/// A small card for each way to change one.
fn changed(rng: &mut Rng, f: &mut dyn FnMut(CardArgs)) {
    let faults = FAULTS.iter().map(|fault| fault.2);
    for change in faults.chain(HARMLESS.iter().map(|harmless| harmless.1)) {
        let mut sheet = small(rng);
        change(rng, &mut sheet);
        f(lent(rng, &sheet.bytes()));
    }
    for (_, damage) in DAMAGE {
        let mut card = small(rng).bytes();
        damage(rng, &mut card);
        f(lent(rng, &card));
    }
}

/// Cards of any size, with several faults or none, and some with too short a store.
fn mixed(rng: &mut Rng, f: &mut dyn FnMut(CardArgs)) {
    for _ in 0..20 {
        let card = random(rng, 6, 12);
        f(lent(rng, &card));
    }
    for _ in 0..3 {
        let card = random(rng, 4, 4);
        f(lent_too_little(rng, &card));
    }
    let card = random(rng, 32, 200);
    f(lent(rng, &card));
    let (states, transitions) = (1 + rng.below(32), rng.below(201));
    let (states, transitions) = rng.pick(&[(32, 200), (states, transitions), (32, transitions)]);
    let card = of_sizes(rng, states, transitions).bytes();
    f(lent(rng, &card));
}

/// Inputs of `report`.
pub fn cards(rng: &mut Rng, scale: usize, f: &mut dyn FnMut(CardArgs)) {
    chosen(rng, f);
    for _ in 0..150 * scale {
        changed(rng, f);
        mixed(rng, f);
    }
}

#[cfg(test)]
mod tests {
    use super::*;
    use crate::answers::Oracle;
    use crate::card::{printed, report};
    use crate::rows::{floors, printed_numbers};
    use std::collections::BTreeMap;

    #[test]
    fn good_cards_have_columns_of_six() {
        let mut rng = Rng::new(1);
        for _ in 0..50 {
            let card = String::from_utf8(sheet(&mut rng, 32, 200).bytes()).unwrap();
            assert!(card.len() <= LONGEST_CARD && card.ends_with('\n'));
            assert!(card.lines().all(|l| [6, 12, 18, 24].contains(&l.len())));
        }
    }

    #[test]
    fn good_cards_are_not_refused() {
        let rng = &mut Rng::new(5);
        let random = (0..100).map(|_| sheet(rng, 32, 200));
        for sheet in at_limits().into_iter().chain(random) {
            assert!(report(&sheet.bytes()).len() >= 19, "{sheet:?}");
        }
    }

    #[test]
    fn damaged_cards_differ() {
        let card = sheet(&mut Rng::new(2), 2, 2).bytes();
        let mut count = 0;
        damaged(&card, &mut |other| {
            count += 1;
            assert_ne!(other, card);
        });
        assert!(count > 24 * card.len());
    }

    #[test]
    fn misprinted_cards_give_1() {
        let mut count = 0;
        misprinted(&worked().bytes(), &mut |card| {
            count += 1;
            let shown = String::from_utf8_lossy(card);
            assert_eq!(report(card), b"     1\n", "{shown}");
        });
        // three, one, one and four columns a side, and two
        assert_eq!(count, NO_NUMBERS.len() * 20);
    }

    /// Lines of other widths give 1 (A1); the classes and the heads of both models may be swapped.
    #[test]
    fn swapped_lines() {
        let mut counts = [0; 10];
        swapped(&worked().bytes(), &mut |card| {
            let text = String::from_utf8(report(card)).expect("spaces, digits and line feeds");
            let number: usize = text[..6].trim().parse().expect("a number");
            counts[if text.len() == 7 { number } else { 0 }] += 1;
        });
        assert_eq!(counts, [8, 28, 0, 0, 0, 0, 0, 0, 0, 0]);
    }

    /// The head line itself and what stands before it give 1, what stands after it is not looked at (A9, A10).
    #[test]
    fn a_head_over_the_limits_hides_what_follows() {
        let length = worked().bytes().len();
        let head = worked().left.text().len() + 19;
        let mut turn = 0;
        damaged_before_a_head(&mut |card| {
            let intact = turn % (length + 1) == 0 || turn % (length + 1) > head;
            let expected = if intact { "     2\n" } else { "     1\n" };
            assert_eq!(report(card), expected.as_bytes(), "{turn}");
            turn += 1;
        });
        assert_eq!(turn, 3 * (length + 1));
    }

    #[test]
    fn floors_are_reached() {
        let mut counts: BTreeMap<Option<u32>, u64> = BTreeMap::new();
        cards(&mut Rng::new(1), 1, &mut |a| {
            *counts.entry(printed(&a.oracle())).or_default() += 1;
        });
        let (least, each) = floors("report");
        let count = |number: Option<u32>| counts.get(&number).copied().unwrap_or(0);
        assert!(counts.values().sum::<u64>() >= least, "{counts:?}");
        assert!(count(None) >= each && count(Some(0)) >= each, "{counts:?}");
        let row = printed_numbers("report");
        assert!(row.iter().all(|&r| count(Some(r)) >= each), "{counts:?}");
        assert_eq!(counts.len(), row.len() + 2, "{counts:?}");
    }

    /// Reports with no pair, with some and with all of them.
    #[test]
    fn relations_are_various() {
        let rng = &mut Rng::new(6);
        let (mut none, mut some, mut all) = (0, 0, 0);
        for _ in 0..300 {
            let sheet = sheet(rng, 8, 16);
            let pairs = report(&sheet.bytes()).len() / 13 - 1;
            match pairs {
                0 => none += 1,
                n if n == sheet.left.states * sheet.right.states => all += 1,
                _ => some += 1,
            }
        }
        assert!(none >= 20 && some >= 80 && all >= 10, "{none} {some} {all}");
    }
}
