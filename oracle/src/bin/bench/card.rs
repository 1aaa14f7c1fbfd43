//! Reports of cards: the worked card, one of 10 states and 30 transitions a side, the longest one, one with many flow tests.
//! The Rust reads the same bytes by the oracle's reader and builds the same text; ours writes it into a lent store. Both must
//! give the same bytes.

use std::hint::black_box;

use oracle::card::{LONGEST_REPORT, report};
use oracle::generate::Rng;
use oracle::generate::card::{Sheet, Side, longest, of_sizes, worked};
use oracle::ours;

use crate::in_turns;

/// All states in one class, with few weights, so that many pairs are tested again and again.
fn dense(rng: &mut Rng) -> Side {
    let transition = |rng: &mut Rng| [rng.below(32), 0, rng.below(32), 1 + rng.below(2)];
    let transitions: Vec<[usize; 4]> = (0..200).map(|_| transition(rng)).collect();
    Side::new(0, &[0; 32], &transitions)
}

pub fn cases() -> Vec<(&'static str, Vec<u8>)> {
    let rng = &mut Rng::new(2);
    let crowd = Sheet {
        left: dense(rng),
        right: dense(rng),
        epsilon: 0,
        rho: 4_096,
    };
    vec![
        ("report_worked", worked().bytes()),
        ("report_10", of_sizes(&mut Rng::new(1), 10, 30).bytes()),
        ("report_longest", longest().bytes()),
        ("report_dense", crowd.bytes()),
    ]
}

pub fn measure(name: &str, card: &[u8]) {
    let (mut out, mut written) = (vec![0; LONGEST_REPORT], 0);
    assert_eq!(ours::card::report(card, &mut out, &mut written), 0);
    assert_eq!(out[..written], report(card));
    let mut rust = || drop(black_box(report(black_box(card))));
    let mut library = || {
        let refusal = ours::card::report(black_box(card), &mut out, &mut written);
        assert_eq!(black_box(refusal), 0);
    };
    in_turns(name, &mut rust, &mut library);
}
