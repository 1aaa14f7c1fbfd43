//! The fourth part of the fixed list: cards. That of document 01 with its neighbours, faults of each number, damage of
//! each kind, random ones.

use super::{every, lines};
use crate::args::CardArgs;
use crate::card::LONGEST_REPORT;
use crate::generate::Rng;
use crate::generate::card::{
    Sheet, Side, damaged, damaged_before_a_head, lent, lent_too_little, misprinted, random, sheet,
    shortest, small, swapped, touching, worked,
};
use crate::generate::damage::{DAMAGE, FAULTS, HARMLESS};
use crate::text::{Case, Value};

/// Cards of each way to change one.
const TURNS: usize = 3;
/// Random cards, and as many that are not refused.
const RANDOM: usize = 45;
/// The longest card and the longest text that are listed.
const LISTED: usize = 600;

/// The sides at these tolerances, in 1,024ths.
fn at(left: Side, right: Side, epsilon: usize, rho: usize) -> Sheet {
    Sheet {
        left,
        right,
        epsilon,
        rho,
    }
}

/// A state that leads to others with these weights, each state in a class of its own.
fn fan(weights: &[usize]) -> Side {
    let classes: Vec<usize> = (0..=weights.len()).collect();
    let on = weights.iter().enumerate();
    let transitions: Vec<[usize; 4]> = on.map(|(i, &weight)| [0, 7, i + 1, weight]).collect();
    Side::new(0, &classes, &transitions)
}

/// The figures of document 01 and their neighbours.
fn figures() -> Vec<Sheet> {
    let mut list = vec![worked(), touching(), shortest()];
    let rates = [1_024, 1_536, 2_047, 2_048, 2_049, 999_999];
    list.extend(rates.map(|rho| at(fan(&[2]), fan(&[4]), 0, rho)));
    list.extend(rates.map(|rho| at(fan(&[4]), fan(&[2]), 0, rho)));
    let quarter = [0, 204, 255, 256, 257, 1_024, 999_999];
    list.extend(quarter.map(|epsilon| at(fan(&[3, 1]), fan(&[2, 2]), epsilon, 1_024)));
    let least = [0, 1, 512, 1_000, 1_022, 1_023, 1_024, 1_025];
    list.extend(least.map(|rho| at(fan(&[0]), fan(&[]), 0, rho)));
    let several = Side::new(2, &[5, 5, 5], &[[0, 1, 1, 2], [1, 0, 0, 1], [0, 3, 1, 2]]);
    list.push(at(several.clone(), fan(&[4]), 0, 1_024));
    list.push(at(several.clone(), several, 0, 4_096));
    let still = Side::new(1, &[5, 9, 5, 9, 5], &[]);
    list.push(at(still.clone(), Side::new(0, &[9, 5], &[]), 0, 1_024));
    list.push(at(Side::new(0, &[6], &[]), still, 0, 1_024));
    list
}

/// Heads alone: what follows is missing, or not looked at.
const HEADS: &[&[u8]] = &[
    b"",
    b"\n",
    b"    32     0   200\n",
    b"    33     0     0\n",
    b"    33     0     0",
    b"    33     0     x\n",
    b"     1     0   201\n",
    b"    33     0   201\nnonsense",
    b"999999999999999999\n",
    b"     0     0     0\n",
    b"     0     0     0\n    33     0     0\n",
    b"     0     0     0\n     0     0     0\n     0  1023\n",
    b"     0     0     0\n     0     0     0\n     0  1024\n",
    b"     0     7     0\n     0     0     0\n     0  1024\n\n",
    b"     0     0     1\n     0     0     0     1\n     0     0     0\n     0  1024\n",
];

/// Every `step`th of the cards that `all` makes.
fn copies(step: usize, all: impl Fn(&mut dyn FnMut(&[u8]))) -> Vec<Vec<u8>> {
    every(step, |f: &mut dyn FnMut(Vec<u8>)| {
        all(&mut |card| f(card.to_vec()))
    })
}

/// Inputs of `report`.
pub fn cards() -> Vec<CardArgs> {
    let rng = &mut Rng::new(12);
    let mut list: Vec<Vec<u8>> = HEADS.iter().map(|head| head.to_vec()).collect();
    list.extend(figures().iter().map(Sheet::bytes));
    for _ in 0..TURNS {
        let faults = FAULTS.iter().map(|fault| fault.2);
        for change in faults.chain(HARMLESS.iter().map(|harmless| harmless.1)) {
            let mut sheet = small(rng);
            change(rng, &mut sheet);
            list.push(sheet.bytes());
        }
        for (_, damage) in DAMAGE {
            let mut card = small(rng).bytes();
            damage(rng, &mut card);
            list.push(card);
        }
    }
    let card = worked().bytes();
    list.extend(copies(67, |f| damaged(&card, f)));
    list.extend(copies(19, |f| misprinted(&card, f)));
    list.extend(copies(3, |f| swapped(&card, f)));
    list.extend(copies(17, damaged_before_a_head));
    list.extend((0..RANDOM).map(|_| sheet(rng, 4, 5).bytes()));
    list.extend((0..RANDOM).map(|_| random(rng, 4, 5)));
    let mut cards: Vec<CardArgs> = list.iter().map(|card| lent(rng, card)).collect();
    let short = list.iter().step_by(24);
    cards.extend(short.map(|card| lent_too_little(rng, card)));
    cards
}

/// Whether the replay takes the case: a card and a text of at most [`LISTED`] bytes.
fn fits(case: &Case) -> bool {
    case.fields.iter().all(|field| match &field.value {
        Value::Number(n) => *n <= 2 * LONGEST_REPORT as u64,
        Value::Hex(list) => list.len() <= LISTED,
        _ => true,
    })
}

/// The whole list in the text form, with the oracle's answers.
pub fn text() -> String {
    lines(cards(), fits)
}
