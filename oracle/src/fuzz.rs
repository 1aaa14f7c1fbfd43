//! Changes of inputs for the fuzzer: of single places, or taken over from another input. What comes out may be anything.

use crate::args::{
    BisimArgs, BuildArgs, CardArgs, DistanceArgs, FlowArgs, Held, Leaf, Leaves, NormaliseArgs,
    ReadArgs, RelationArgs, TransportArgs, UniformiseArgs,
};
use crate::generate::{GREATEST_JOINED, GREATEST_WEIGHT, LEAST_WEIGHT, Rng};
use crate::text::{Field, Value};

/// Numbers at limits.
const NUMBERS: &[u64] = &[
    0,
    1,
    2,
    3,
    31,
    32,
    33,
    63,
    64,
    65,
    66,
    67,
    199,
    200,
    201,
    255,
    256,
    257,
    999,
    1_000,
    1_024,
    1_087,
    1_088,
    2_000,
    2_001,
    2_176,
    4_095,
    4_096,
    4_097,
    0x7fff_ffff,
    0xffff_ffff,
    u64::MAX,
];

/// Floats at limits.
const REALS: &[f64] = &[
    0.0,
    -0.0,
    1.0,
    -1.0,
    0.5,
    2.0,
    1e-9,
    1e-15,
    LEAST_WEIGHT,
    LEAST_WEIGHT / 2.0,
    GREATEST_WEIGHT,
    2.0 * GREATEST_WEIGHT,
    GREATEST_JOINED,
    1_048_576.0,
    f64::MIN_POSITIVE,
    5e-324,
    f64::MAX,
    f64::INFINITY,
    f64::NEG_INFINITY,
    f64::NAN,
];

/// Bytes of cards, and some others.
const BYTES: &[u8] = b"   00123456789\n\n\r-x\0\xff";

/// The longest list that is made longer, and the longest memory that is lent by its length.
const LONGEST: usize = 5_000;

fn number(rng: &mut Rng, n: u64) -> u64 {
    match rng.below(5) {
        0 => n.wrapping_add(1),
        1 => n.wrapping_sub(1),
        2 => rng.pick(NUMBERS),
        3 => rng.below(8) as u64,
        _ => n ^ (1 << rng.below(12)),
    }
}

fn real(rng: &mut Rng, x: f64) -> f64 {
    match rng.below(8) {
        0 => x.next_up(),
        1 => x.next_down(),
        2 => -x,
        3 => x * 2.0,
        4 => x / 2.0,
        5 => rng.unit(),
        6 => f64::from_bits(rng.bits()),
        _ => rng.pick(REALS),
    }
}

fn changed(rng: &mut Rng, held: Held) -> Held {
    match held {
        Held::Number(_) | Held::Absent if rng.once_in(20) => Held::Absent,
        Held::Number(n) => Held::Number(number(rng, n)),
        Held::Absent => Held::Number(rng.below(4) as u64),
        Held::Byte(b) if rng.once_in(3) => Held::Byte(b ^ (1 << rng.below(8))),
        Held::Byte(_) => Held::Byte(rng.pick(BYTES)),
        Held::Real(x) => Held::Real(real(rng, x)),
    }
}

/// Changes a list's length: some entries less at its end or inside, or one twice.
fn resize(rng: &mut Rng, leaf: &mut Leaf, length: usize) {
    let k = rng.below(length);
    match rng.below(4) {
        0 => leaf.cut(length - 1, length),
        1 => leaf.cut(k, length),
        2 => leaf.cut(k, k + 1),
        _ if length < LONGEST => leaf.double(k),
        _ => {}
    }
}

/// Changes one place.
fn change_leaf(rng: &mut Rng, leaf: &mut Leaf) {
    let length = leaf.list().unwrap_or(1);
    if length == 0 {
        return;
    }
    let (i, j) = (rng.below(length), rng.below(length));
    match leaf {
        Leaf::Room(n) => **n = (number(rng, **n as u64) as usize).min(LONGEST),
        _ if leaf.lent() => resize(rng, leaf, length),
        _ if leaf.list().is_some() && rng.once_in(4) => resize(rng, leaf, length),
        _ if leaf.list().is_some() && rng.once_in(6) => leaf.swap(i, j),
        _ => leaf.set(i, changed(rng, leaf.get(i))),
    }
}

/// Takes a part or a state out, where there is one.
fn shorter<C: Leaves>(rng: &mut Rng, case: &C) -> C {
    let (parts, states) = (case.parts(), case.states());
    if parts > 0 && rng.once_in(2) {
        let part = rng.below(parts);
        return case.without(part, part + 1);
    }
    match states {
        0 => case.clone(),
        _ => case.without_state(rng.below(states)),
    }
}

/// An input of the fuzzer.
pub trait Fuzzed: Leaves {
    /// A change that only this kind has.
    fn change(&mut self, _rng: &mut Rng) {}
}

/// The input with up to four changes, or with places of another one.
pub fn mutated<C: Fuzzed>(rng: &mut Rng, case: &C, other: &C) -> C {
    let mut case = match rng.below(8) {
        0 => shorter(rng, case),
        _ => case.clone(),
    };
    for _ in 0..1 + rng.below(4) {
        if rng.once_in(3) {
            case.change(rng);
        }
        let mut other = other.clone();
        let (mut leaves, others) = (case.leaves(), other.leaves());
        let k = rng.below(leaves.len());
        match rng.once_in(10) {
            true => leaves[k].copy(&others[k]),
            false => change_leaf(rng, &mut leaves[k]),
        }
    }
    case
}

/// A column with another number in it, two lines swapped, a line twice or left out.
impl Fuzzed for CardArgs {
    fn change(&mut self, rng: &mut Rng) {
        let mut lines: Vec<Vec<u8>> = self
            .card
            .split_inclusive(|&b| b == b'\n')
            .map(Vec::from)
            .collect();
        if lines.is_empty() {
            return;
        }
        let (i, j) = (rng.below(lines.len()), rng.below(lines.len()));
        match rng.below(6) {
            0 => lines.swap(i, j),
            1 => lines.insert(i, lines[j].clone()),
            2 => drop(lines.remove(i)),
            _ => {
                let columns = lines[i].len() / 6;
                let n = rng.pick(NUMBERS).min(999_999);
                let n = if rng.once_in(2) { n } else { n.min(4) };
                let at = 6 * rng.below(columns);
                if columns > 0 {
                    lines[i][at..at + 6].copy_from_slice(format!("{n:>6}").as_bytes());
                }
            }
        }
        self.card = lines.concat();
    }
}

/// What kind of answer a value is: of numbers how many bits they have, of floats their sign and about their size.
fn kind(value: &Value) -> u64 {
    match value {
        Value::Number(n) => u64::from(64 - n.leading_zeros()),
        Value::Absent => 100,
        Value::Real(x) if x.is_nan() => 101,
        Value::Real(x) => 200 + (x.to_bits() >> 57),
        _ => 102,
    }
}

/// Numbers that stand for what kind of answers these are: of each value its kind, with the refusal and the entry; and one
/// for all refusals together.
pub fn traits(fields: &[Field]) -> Vec<u64> {
    let mut all = 0;
    let mut list = Vec::new();
    for (i, field) in fields.iter().enumerate() {
        if let Value::Answer(refusal, values) = &field.value {
            let head = u64::from(*refusal) << 8 | i as u64;
            all = Rng::new(all ^ head).bits();
            let each = values.iter().enumerate();
            list.extend(each.map(|(k, v)| kind(v) << 32 | (k as u64) << 24 | head));
        }
    }
    list.push(all | 1 << 63);
    list
}

impl Fuzzed for ReadArgs {}
impl Fuzzed for RelationArgs {}
impl Fuzzed for UniformiseArgs {}
impl Fuzzed for NormaliseArgs {}
impl Fuzzed for BuildArgs {}
impl Fuzzed for FlowArgs {}
impl Fuzzed for TransportArgs {}
impl Fuzzed for DistanceArgs {}
impl Fuzzed for BisimArgs {}
