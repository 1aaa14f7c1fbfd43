//! The figures of document 01 about relations, as the oracle answers them on models that are handed in.

use oracle::answers::{Oracle, handed_in};
use oracle::args::{RelatedArgs, RelationArgs};
use oracle::generate::build::from_transitions;
use oracle::generate::relation::{between, fan, needed, number_classes, of_models, without_edges};
use oracle::generate::{Rng, model};
use oracle::sample::relation::as_the_sweep_began;
use oracle::text::{Field, Value};

/// Refusal and value of the answer of this name.
fn answer(fields: &[Field], name: &str) -> (u32, Option<Value>) {
    let found = fields.iter().find(|field| field.name == name);
    match &found.expect("an answer").value {
        Value::Answer(refusal, values) => (*refusal, values.first().cloned()),
        other => panic!("{other:?} is no answer"),
    }
}

/// The refusals of `epsdelta`, `epsdelta_bisimilar` and `min_epsilon`.
fn refusals(a: &RelationArgs) -> [u32; 3] {
    let fields = a.oracle();
    ["epsdelta", "epsdelta_bisimilar", "min_epsilon"].map(|name| answer(&fields, name).0)
}

fn alike(a: &RelationArgs) -> bool {
    answer(&a.oracle(), "epsdelta_bisimilar") == (0, Some(Value::Number(1)))
}

/// Two fans with each state in a class of its own.
fn fans(left: &[f64], right: &[f64], epsilon: f64, rho: f64) -> RelationArgs {
    let mut a = between(&fan(left), &fan(right));
    number_classes(&mut a);
    RelationArgs { epsilon, rho, ..a }
}

#[test]
fn m2_epsilon_minus_0_is_accepted() {
    assert_eq!(refusals(&fans(&[1.0], &[1.0], -0.0, 1.0)), [0; 3]);
    assert_eq!(refusals(&fans(&[1.0], &[1.0], -5e-324, 1.0)), [9, 9, 0]);
}

#[test]
fn m8_rates_2_and_4() {
    let at = |rho: f64| alike(&fans(&[2.0], &[4.0], 0.0, rho));
    assert!(at(2.0) && !at(2.0f64.next_down()) && !at(1.5));
}

#[test]
fn m9_m10_rates_3_1_against_2_2() {
    let at = |epsilon: f64| fans(&[3.0, 1.0], &[2.0, 2.0], epsilon, 1.0);
    assert!(alike(&at(0.25)) && !alike(&at(0.2)));
    let least = answer(&at(0.2).oracle(), "min_epsilon");
    assert_eq!(least, (0, Some(Value::Real(0.25))));
    let none = answer(&fans(&[3.0], &[2.0], 0.0, 1.0).oracle(), "min_epsilon");
    assert_eq!(none, (0, Some(Value::Absent)));
}

/// The models of the card: left 0 and right 0 are related, left 1 and right 1, and no others but each with itself.
#[test]
fn the_card() {
    let mut a = fans(&[2.0], &[4.0], 0.0, 2.0);
    a.relation.extend([0xa5, 0x5a]);
    let fields = a.oracle();
    let bytes = |i: usize| fields[i].value.clone();
    let [low, high] = 0b1010_0101_1010_0101u16.to_le_bytes();
    assert_eq!(bytes(1), Value::Bytes(vec![low, high, 0xa5, 0x5a]));
    assert_eq!(bytes(3), Value::Bytes(vec![0; 4]));
    assert_eq!(bytes(5), Value::Bytes(vec![0; 4]));
    a.rho = f64::NAN;
    let kept = Value::Bytes(a.relation.clone());
    let fields = a.oracle();
    assert!([1, 3, 5].iter().all(|&i| fields[i].value == kept));
}

#[test]
fn targets_31_pass_and_32_give_6() {
    let rng = &mut Rng::new(1);
    let mut of = |targets: usize| {
        let small = handed_in(&fan(&[1.0])).expect("a good model");
        refusals(&of_models(model::star_model(rng, targets), small))
    };
    assert_eq!([of(31), of(32)], [[0; 3], [6; 3]]);
}

/// 2,000 states together pass; 2,001 give 10 with 500,501 bytes, 7 with 500,000.
#[test]
fn states_together() {
    let of = |states: usize, room: usize| {
        let mut a = of_models(without_edges(1_000), without_edges(states - 1_000));
        number_classes(&mut a);
        a.relation = vec![1; room];
        refusals(&a)
    };
    assert_eq!([needed(2_000), needed(2_001)], [500_000, 500_501]);
    assert_eq!(of(2_000, 500_000), [0; 3]);
    assert_eq!(of(2_001, 500_501), [10; 3]);
    assert_eq!(of(2_001, 500_000), [7; 3]);
}

/// The bit of the pair (s, left count + t), lowest bit of a byte first.
#[test]
fn related_reads_one_bit() {
    for pair in 0..25 {
        let relation = (1u32 << pair).to_le_bytes().to_vec();
        for (s, t) in (0..3).flat_map(|s| (0..2).map(move |t| (s, t))) {
            let a = RelatedArgs {
                left_states: 3,
                right_states: 2,
                relation: relation.clone(),
                s,
                t,
            };
            let holds = Value::Number((s * 5 + 3 + t == pair).into());
            assert_eq!(answer(&a.oracle(), "related"), (0, Some(holds)));
        }
    }
}

/// Absent initial states and empty models.
#[test]
fn initial_states_are_needed_by_two_entries() {
    let empty = from_transitions(0, None, &[]);
    assert_eq!(refusals(&between(&empty, &empty)), [0, 8, 8]);
    assert_eq!(refusals(&between(&fan(&[1.0]), &empty)), [0, 8, 8]);
    assert_eq!(refusals(&between(&fan(&[1.0]), &fan(&[]))), [0; 3]);
}

/// Each pair is tested against the relation as it then stands, not as it was when the sweep began. That would leave out
/// (3, 7) of the first and (2, 3) of the second, and leave (2, 4) in the third.
#[test]
fn tested_against_the_relation_as_it_stands() {
    let bits = as_the_sweep_began().map(|a| a.oracle()[1].value.clone());
    let first = [0x11, 0x22, 0x44, 0x88, 0x11, 0x22, 0x44, 0x88];
    let second = [0x41, 0x32, 0x26, 0x01];
    let third = [0x01, 0x21, 0x01, 0x83, 0x01, 0x09, 0x01];
    assert_eq!(
        bits,
        [&first[..], &second, &third].map(|list| Value::Bytes(list.to_vec()))
    );
    assert!(alike(&as_the_sweep_began()[0]));
}
