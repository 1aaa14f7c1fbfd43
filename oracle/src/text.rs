//! The text form of cases: a block of lines per case, ended by an empty line.
//!
//! The first line is `case KIND`; each other line is a name and its values. The order and the form of the lines are
//! fixed for each kind by [`shape`], so that a reader need not tell lists and numbers apart by looking.

use std::fmt::Write;

/// A value of a line.
#[derive(Debug, Clone, PartialEq)]
pub enum Value {
    Number(u64),
    /// Written `-`.
    Absent,
    /// Written as the 16 hex digits of its bits.
    Real(f64),
    Numbers(Vec<u64>),
    /// Written as numbers.
    Bytes(Vec<u8>),
    /// Written as the count and one word, two hex digits for each byte; no word where there are none.
    Hex(Vec<u8>),
    Reals(Vec<f64>),
    /// Refusal number (0: none), then as many values on every outcome.
    Answer(u32, Vec<Value>),
}

/// A line of a case after the first.
#[derive(Debug, Clone, PartialEq)]
pub struct Field {
    pub name: &'static str,
    pub value: Value,
}

/// A case: inputs, then answers, each answer followed by the lent lists as they are at the end.
#[derive(Debug, Clone, PartialEq)]
pub struct Case {
    pub kind: &'static str,
    pub fields: Vec<Field>,
}

/// What a line holds.
#[derive(Debug, Clone, Copy, PartialEq)]
pub enum Form {
    Number,
    /// A number, or absent.
    Maybe,
    Real,
    /// A float, or absent.
    MaybeReal,
    Numbers,
    Bytes,
    Hex,
    Reals,
    Answer(&'static [Form]),
}

use Form::{Answer, Bytes, Hex, Maybe, MaybeReal, Number, Numbers, Real, Reals};

type Lines = &'static [(&'static str, Form)];

/// The lines of a case, in parts that several kinds may have.
type Shape = &'static [Lines];

const REAL: Shape = &[&[
    ("x", Real),
    ("xs", Reals),
    ("is_valid", Answer(&[Number])),
    ("is_zero", Answer(&[Number])),
    ("sum", Answer(&[Real])),
]];

const INTERN: Shape = &[&[
    ("labels", Numbers),
    ("count", Number),
    ("value", Number),
    ("intern", Answer(&[Number, Number])),
    ("labels", Numbers),
]];

const LABEL: Shape = &[&[
    ("labels", Numbers),
    ("count", Number),
    ("value", Number),
    ("id", Number),
    ("get", Answer(&[Maybe])),
    ("resolve", Answer(&[Number])),
]];

/// The columns of a built model.
const COLUMNS: Lines = &[
    ("label_values", Numbers),
    ("offsets", Numbers),
    ("edge_labels", Numbers),
    ("edge_targets", Numbers),
    ("edge_weights", Reals),
];

const BUILD: Shape = &[
    &[
        ("states", Number),
        ("initial", Maybe),
        ("given", Number),
        ("sources", Numbers),
        ("labels", Numbers),
        ("targets", Numbers),
        ("weights", Reals),
    ],
    COLUMNS,
    &[("build", Answer(&[Number, Number]))],
    COLUMNS,
];

/// The counts of a built model and its initial state.
const COUNTS: Lines = &[
    ("states", Number),
    ("edges", Number),
    ("labels", Number),
    ("initial", Maybe),
];

const MODEL: Shape = &[
    COUNTS,
    COLUMNS,
    &[
        ("s", Number),
        ("id", Number),
        ("value", Number),
        ("model_refusal", Answer(&[])),
        ("num_states", Answer(&[Number])),
        ("num_transitions", Answer(&[Number])),
        ("num_labels", Answer(&[Number])),
        ("initial", Answer(&[Maybe])),
        ("successors", Answer(&[Number, Number])),
        ("label", Answer(&[Number])),
        ("label_id", Answer(&[Maybe])),
    ],
];

const NETWORK: Lines = &[
    ("nodes", Number),
    ("count", Number),
    ("heads", Numbers),
    ("caps", Reals),
    ("costs", Reals),
    ("starts", Numbers),
    ("list", Numbers),
];

/// A network, and what `max_flow` gives: flow, phases, pushes; then the capacities left.
const FLOW: Shape = &[
    NETWORK,
    &[
        ("source", Number),
        ("sink", Number),
        ("max_flow", Answer(&[Real, Number, Number])),
        ("caps", Reals),
    ],
];

/// A network, and how many links it has with one more; then the network.
const EDGE: Shape = &[
    NETWORK,
    &[
        ("from", Number),
        ("to", Number),
        ("capacity", Real),
        ("cost", Real),
        ("add_edge", Answer(&[Number])),
    ],
    &[
        ("heads", Numbers),
        ("caps", Reals),
        ("costs", Reals),
        ("starts", Numbers),
        ("list", Numbers),
    ],
];

/// How many nodes the new network has.
const NODES: Shape = &[&[("nodes", Number), ("new", Answer(&[Number]))]];

/// The columns of a plan.
const PLAN: Lines = &[
    ("plan_rows", Numbers),
    ("plan_columns", Numbers),
    ("plan_masses", Reals),
];

/// Masses, costs by row and the columns lent, and what `transport` gives: total, cells; then the columns.
const TRANSPORT: Shape = &[
    &[("a", Reals), ("b", Reals), ("costs", Reals)],
    PLAN,
    &[("transport", Answer(&[Real, Number]))],
    PLAN,
];

/// The left and the right model, classes and tolerances, the bytes lent and what the first of them hold; each answer
/// with these bytes afterwards.
const RELATION: Shape = &[
    COUNTS,
    COLUMNS,
    COUNTS,
    COLUMNS,
    &[
        ("left_classes", Numbers),
        ("right_classes", Numbers),
        ("epsilon", Real),
        ("rho", Real),
        ("room", Number),
        ("relation", Bytes),
        ("epsdelta", Answer(&[])),
        ("relation", Bytes),
        ("epsdelta_bisimilar", Answer(&[Number])),
        ("relation", Bytes),
        ("min_epsilon", Answer(&[MaybeReal])),
        ("relation", Bytes),
    ],
];

/// A relation's bytes, and whether it holds of a left and a right state.
const RELATED: Shape = &[&[
    ("left_states", Number),
    ("right_states", Number),
    ("room", Number),
    ("relation", Bytes),
    ("s", Number),
    ("t", Number),
    ("related", Answer(&[Number])),
]];

/// Two models, and the rate that covers both.
const RATE: Shape = &[
    COUNTS,
    COLUMNS,
    COUNTS,
    COLUMNS,
    &[("common_rate", Answer(&[Real]))],
];

/// The lists of a chain.
const CHAIN: Lines = &[
    ("chain_offsets", Numbers),
    ("chain_targets", Numbers),
    ("chain_probabilities", Reals),
    ("chain_observations", Reals),
];

/// A model, a rate, observations and the lists lent; how many entries the chain has, and the lists.
const UNIFORMISE: Shape = &[
    COUNTS,
    COLUMNS,
    &[("rate", Real), ("observations", Reals)],
    CHAIN,
    &[("uniformise", Answer(&[Number]))],
    CHAIN,
];

/// The counts of a chain and its initial state.
const CHAIN_COUNTS: Lines = &[("states", Number), ("entries", Number), ("initial", Number)];

/// Two chains; by how much the observations differ, and the observations of each.
const NORMALISE: Shape = &[
    CHAIN_COUNTS,
    CHAIN,
    CHAIN_COUNTS,
    CHAIN,
    &[
        ("normalise", Answer(&[Real])),
        ("left_observations", Reals),
        ("right_observations", Reals),
    ],
];

/// What a run takes beside chains or models: how long the lists lent to it are, all filled with marks.
const OPTIONS: Lines = &[
    ("gamma", Real),
    ("tolerance", Real),
    ("max_rounds", Number),
    ("top", Number),
    ("rooms", Numbers),
];

/// Value, bound, γ, pairs, contributions, rounds.
const GIVEN: Form = Answer(&[Real, Real, Real, Number, Number, Number]);

/// The contributions, and of each list lent whether it holds its marks (0), zeros (1) or anything else (2), the records
/// behind the contributions last.
const CONTRIBUTIONS: Lines = &[
    ("lefts", Numbers),
    ("rights", Numbers),
    ("gaps", Reals),
    ("occupancies", Reals),
    ("contributions", Reals),
    ("swept", Numbers),
];

/// Two chains and options, and what `distance` gives.
const DISTANCE: Shape = &[
    CHAIN_COUNTS,
    CHAIN,
    CHAIN_COUNTS,
    CHAIN,
    OPTIONS,
    &[("distance", GIVEN)],
    CONTRIBUTIONS,
];

/// Of a model the state that is asked for, the observations, and how long the lists lent for its chain are.
const SIDE: Lines = &[
    ("state", Number),
    ("observations", Reals),
    ("rooms", Numbers),
];

/// Two models and options, and what `bisim_distance` gives.
const BISIM_DISTANCE: Shape = &[
    COUNTS,
    COLUMNS,
    SIDE,
    COUNTS,
    COLUMNS,
    SIDE,
    OPTIONS,
    &[("bisim_distance", GIVEN)],
    CONTRIBUTIONS,
];

/// A card, the bytes lent and the byte that all of them hold; the length of the text, and the text.
const CARD: Shape = &[&[
    ("card", Hex),
    ("room", Number),
    ("fill", Number),
    ("report", Answer(&[Number])),
    ("out", Hex),
]];

/// All kinds with their lines.
pub const SHAPES: &[(&str, Shape)] = &[
    ("real", REAL),
    ("intern", INTERN),
    ("label", LABEL),
    ("build", BUILD),
    ("model", MODEL),
    ("flow", FLOW),
    ("edge", EDGE),
    ("nodes", NODES),
    ("transport", TRANSPORT),
    ("relation", RELATION),
    ("related", RELATED),
    ("rate", RATE),
    ("uniformise", UNIFORMISE),
    ("normalise", NORMALISE),
    ("distance", DISTANCE),
    ("bisim_distance", BISIM_DISTANCE),
    ("card", CARD),
];

/// The kind's own name and its lines.
pub fn shape(kind: &str) -> Option<(&'static str, Vec<(&'static str, Form)>)> {
    let (kind, parts) = SHAPES.iter().find(|s| s.0 == kind)?;
    Some((kind, parts.concat()))
}

/// The bits as written: every NaN is the one NaN.
pub fn bits(x: f64) -> u64 {
    if x.is_nan() {
        0x7ff8_0000_0000_0000
    } else {
        x.to_bits()
    }
}

/// Equal for the comparison: same bits, or both NaN.
pub fn same_real(a: f64, b: f64) -> bool {
    bits(a) == bits(b)
}

/// Equal for the comparison; floats by [`same_real`].
pub fn same(a: &Value, b: &Value) -> bool {
    match (a, b) {
        (Value::Real(x), Value::Real(y)) => same_real(*x, *y),
        (Value::Reals(x), Value::Reals(y)) => {
            x.len() == y.len() && x.iter().zip(y).all(|(&x, &y)| same_real(x, y))
        }
        (Value::Answer(r, x), Value::Answer(q, y)) => {
            r == q && x.len() == y.len() && x.iter().zip(y).all(|(x, y)| same(x, y))
        }
        _ => a == b,
    }
}

/// The length, and the numbers.
fn write_list(out: &mut String, list: &[impl std::fmt::Display]) -> std::fmt::Result {
    let head = write!(out, " {}", list.len());
    list.iter().fold(head, |ok, n| ok.and(write!(out, " {n}")))
}

/// The length, and the digits.
fn write_hex(out: &mut String, list: &[u8]) -> std::fmt::Result {
    let blank = if list.is_empty() { "" } else { " " };
    let head = write!(out, " {}{blank}", list.len());
    list.iter()
        .fold(head, |ok, b| ok.and(write!(out, "{b:02x}")))
}

fn write_value(out: &mut String, value: &Value) {
    let done = match value {
        Value::Number(n) => write!(out, " {n}"),
        Value::Absent => write!(out, " -"),
        Value::Real(x) => write!(out, " {:016x}", bits(*x)),
        Value::Numbers(list) => write_list(out, list),
        Value::Bytes(list) => write_list(out, list),
        Value::Hex(list) => write_hex(out, list),
        Value::Reals(list) => {
            let head = write!(out, " {}", list.len());
            list.iter()
                .fold(head, |ok, &x| ok.and(write!(out, " {:016x}", bits(x))))
        }
        Value::Answer(refusal, values) => {
            let head = write!(out, " {refusal}");
            values.iter().for_each(|v| write_value(out, v));
            head
        }
    };
    done.expect("a string takes all");
}

/// The case as text, its ending empty line included.
pub fn write_case(case: &Case) -> String {
    let mut out = format!("case {}\n", case.kind);
    for field in &case.fields {
        out.push_str(field.name);
        write_value(&mut out, &field.value);
        out.push('\n');
    }
    out.push('\n');
    out
}

type Words<'a> = std::str::Split<'a, char>;

fn number(words: &mut Words) -> Result<u64, String> {
    let word = words.next().ok_or("value missing")?;
    word.parse().map_err(|_| format!("no number: {word}"))
}

fn byte(words: &mut Words) -> Result<u8, String> {
    let n = number(words)?;
    n.try_into().map_err(|_| format!("no byte: {n}"))
}

/// A length, and so many values.
fn list<T>(
    words: &mut Words,
    value: fn(&mut Words) -> Result<T, String>,
) -> Result<Vec<T>, String> {
    let count = number(words)?;
    (0..count).map(|_| value(words)).collect()
}

fn real(words: &mut Words) -> Result<f64, String> {
    let word = words.next().ok_or("value missing")?;
    match u64::from_str_radix(word, 16) {
        Ok(bits) if word.len() == 16 => Ok(f64::from_bits(bits)),
        _ => Err(format!("no float: {word}")),
    }
}

/// A length, and so many bytes.
fn hex(words: &mut Words) -> Result<Vec<u8>, String> {
    let count = number(words)? as usize;
    let word = if count == 0 {
        ""
    } else {
        words.next().ok_or("value missing")?
    };
    let digits = word.bytes().all(|b| b.is_ascii_hexdigit());
    if word.len() != 2 * count || !digits {
        return Err(format!("not {count} bytes: {word}"));
    }
    let pair = |i: usize| u8::from_str_radix(&word[2 * i..2 * i + 2], 16);
    let bytes = (0..count).map(|i| pair(i).map_err(|_| format!("no byte in {word}")));
    bytes.collect()
}

/// True where the next word is `-`, which is then taken.
fn absent(words: &mut Words) -> bool {
    let here = words.clone().next() == Some("-");
    if here {
        words.next();
    }
    here
}

fn read_value(words: &mut Words, form: Form) -> Result<Value, String> {
    Ok(match form {
        Maybe | MaybeReal if absent(words) => Value::Absent,
        Number | Maybe => Value::Number(number(words)?),
        Real | MaybeReal => Value::Real(real(words)?),
        Numbers => Value::Numbers(list(words, number)?),
        Bytes => Value::Bytes(list(words, byte)?),
        Hex => Value::Hex(hex(words)?),
        Reals => Value::Reals(list(words, real)?),
        Answer(forms) => {
            let refusal = number(words)? as u32;
            let values = forms.iter().map(|&f| read_value(words, f));
            Value::Answer(refusal, values.collect::<Result<_, _>>()?)
        }
    })
}

fn read_field(line: &str, name: &'static str, form: Form) -> Result<Field, String> {
    let mut words = line.split(' ');
    if words.next() != Some(name) {
        return Err(format!("{name} expected: {line}"));
    }
    let value = read_value(&mut words, form)?;
    match words.next() {
        None => Ok(Field { name, value }),
        Some(word) => Err(format!("{name}: {word} is too much")),
    }
}

/// All cases of a text.
pub fn read_cases(text: &str) -> Result<Vec<Case>, String> {
    let mut lines = text.lines();
    let mut cases = Vec::new();
    while let Some(head) = lines.next() {
        let kind = head
            .strip_prefix("case ")
            .ok_or(format!("case expected: {head}"))?;
        let (kind, shape) = shape(kind).ok_or(format!("no such kind: {kind}"))?;
        let mut fields = Vec::new();
        for (name, form) in shape {
            let line = lines.next().ok_or("line missing")?;
            fields.push(read_field(line, name, form)?);
        }
        if lines.next() != Some("") {
            return Err(format!("empty line expected after a case of {kind}"));
        }
        cases.push(Case { kind, fields });
    }
    Ok(cases)
}

#[cfg(test)]
mod tests {
    use super::*;

    /// A value of the form, different for each `salt`.
    fn example(form: Form, salt: u64) -> Value {
        match form {
            Maybe | MaybeReal if salt.is_multiple_of(2) => Value::Absent,
            Number | Maybe => Value::Number(salt * 1_000_003),
            Real | MaybeReal => Value::Real(salt as f64 / 7.0),
            Numbers => Value::Numbers((0..salt % 4).collect()),
            Bytes => Value::Bytes((0..salt as u8 % 5).collect()),
            Hex => Value::Hex((0..salt as u8 % 5).map(|b| b * 60).collect()),
            Reals => Value::Reals((0..salt % 3).map(|i| -(i as f64) / 3.0).collect()),
            Answer(forms) => {
                let values = forms.iter().map(|&f| example(f, salt + 1)).collect();
                Value::Answer(salt as u32 % 20, values)
            }
        }
    }

    #[test]
    fn every_kind_survives_writing_and_reading() {
        let mut cases = Vec::new();
        for salt in 0..12 {
            for &(kind, shape) in SHAPES {
                let lines = shape.concat().into_iter().zip(salt..);
                let fields = lines.map(|((name, form), i)| Field {
                    name,
                    value: example(form, i),
                });
                cases.push(Case {
                    kind,
                    fields: fields.collect(),
                });
            }
        }
        let text: String = cases.iter().map(write_case).collect();
        assert_eq!(read_cases(&text).unwrap(), cases);
    }

    #[test]
    fn floats_are_bits_and_every_nan_is_one() {
        let other_nan = f64::from_bits(0xfff8_0000_0000_0001);
        let mut out = String::new();
        write_value(
            &mut out,
            &Value::Reals(vec![-0.0, other_nan, f64::INFINITY]),
        );
        assert_eq!(out, " 3 8000000000000000 7ff8000000000000 7ff0000000000000");
    }

    #[test]
    fn faults_are_found() {
        let good = "case intern\nlabels 1 2\ncount 1\nvalue 3\nintern 7 0 0\nlabels 1 2\n\n";
        assert_eq!(read_cases(good).unwrap().len(), 1);
        for (from, to) in [
            ("case intern", "case other"),
            ("labels 1 2\n\n", "labels 1 2\n"),
            ("labels 1 2\ncount", "labels 2 2\ncount"),
            ("labels 1 2\ncount", "labels 1 2 3\ncount"),
            ("labels 1 2\ncount", "labels 1 -\ncount"),
            ("count 1\nvalue 3", "value 3\ncount 1"),
            ("intern 7 0 0", "intern 7 0"),
        ] {
            let text = good.replace(from, to);
            assert!(text != good && read_cases(&text).is_err(), "{text}");
        }
        let card = "case card\ncard 1 ff\nroom 0\nfill 0\nreport 7 0\nout 0\n\n";
        assert_eq!(read_cases(card).unwrap().len(), 1);
        for word in ["f", "fff", "fg", "+f"] {
            assert!(read_cases(&card.replace("ff", word)).is_err(), "{word}");
        }
    }

    #[test]
    fn floats_are_equal_by_bits_and_nans_alike() {
        assert!(!same(&Value::Real(0.0), &Value::Real(-0.0)));
        assert!(same(
            &Value::Reals(vec![f64::NAN]),
            &Value::Reals(vec![-f64::NAN])
        ));
        assert!(!same(&Value::Real(1.0), &Value::Real(1.0 + f64::EPSILON)));
        assert!(!same(&Value::Number(0), &Value::Real(0.0)));
    }
}
