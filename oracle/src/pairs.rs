//! The answers of the two sides, set against each other.

use crate::text::{Field, Value, same, same_real};

/// Each answer line with the lent lists after it.
fn by_entry(fields: &[Field]) -> Vec<&[Field]> {
    let lists = fields.chunk_by(|_, next| !matches!(next.value, Value::Answer(..)));
    lists.collect()
}

/// The answers of both sides in turn; empty where one side has no more.
pub fn paired<'a>(expected: &'a [Field], got: &'a [Field]) -> Vec<(&'a [Field], &'a [Field])> {
    let (expected, got) = (by_entry(expected), by_entry(got));
    let turn = |list: &[&'a [Field]], i: usize| list.get(i).copied().unwrap_or_default();
    let most = expected.len().max(got.len());
    (0..most)
        .map(|i| (turn(&expected, i), turn(&got, i)))
        .collect()
}

/// As many lines, of the same names and values.
pub fn alike(a: &[Field], b: &[Field]) -> bool {
    let line = |(a, b): (&Field, &Field)| a.name == b.name && same(&a.value, &b.value);
    a.len() == b.len() && a.iter().zip(b).all(line)
}

/// The first line that differs, and of a list the place.
pub fn first_difference(a: &[Field], b: &[Field]) -> String {
    let mut lines = a.iter().zip(b);
    let line = lines.find(|(a, b)| a.name != b.name || !same(&a.value, &b.value));
    let Some((a, b)) = line else {
        return "the number of lines".into();
    };
    let place = match (&a.value, &b.value) {
        (Value::Numbers(x), Value::Numbers(y)) => x.iter().zip(y).position(|(x, y)| x != y),
        (Value::Bytes(x), Value::Bytes(y)) | (Value::Hex(x), Value::Hex(y)) => {
            x.iter().zip(y).position(|(x, y)| x != y)
        }
        (Value::Reals(x), Value::Reals(y)) => x.iter().zip(y).position(|(&x, &y)| !same_real(x, y)),
        _ => None,
    };
    place.map_or(a.name.into(), |i| format!("{} {i}", a.name))
}

#[cfg(test)]
mod tests {
    use super::*;
    use crate::answers::answer;
    use crate::args::numbers;

    fn two() -> Vec<Field> {
        vec![
            answer("intern", 0, vec![Value::Number(3)]),
            numbers("labels", &[7, 5]),
            answer("get", 4, vec![Value::Number(0)]),
        ]
    }

    /// Of each pair, whether it differs.
    fn differ(got: &[Field]) -> Vec<bool> {
        let expected = two();
        let pairs = paired(&expected, got);
        pairs.iter().map(|(a, b)| !alike(a, b)).collect()
    }

    #[test]
    fn the_same_answers_are_alike() {
        assert_eq!(differ(&two()), [false, false]);
    }

    #[test]
    fn missing_answers_differ() {
        assert_eq!(differ(&two()[..2]), [false, true]);
        assert_eq!(differ(&two()[..1]), [true, true]);
        assert_eq!(differ(&two()[2..]), [true, true]);
        assert_eq!(differ(&[]), [true, true]);
    }

    #[test]
    fn extra_answers_differ() {
        let mut got = two();
        got.push(answer("resolve", 0, Vec::new()));
        assert_eq!(differ(&got), [false, false, true]);
        got[2] = numbers("labels", &[7, 5]);
        assert_eq!(differ(&got), [true, true]);
    }

    #[test]
    fn misnamed_lines_differ() {
        for i in 0..3 {
            let mut got = two();
            got[i].name = "other";
            assert_eq!(differ(&got), [i < 2, i == 2]);
        }
    }

    #[test]
    fn the_first_difference_is_named() {
        let mut got = two();
        got[1] = numbers("labels", &[7, 6]);
        assert_eq!(first_difference(&two(), &got), "labels 1");
        got[0] = answer("intern", 7, vec![Value::Number(3)]);
        assert_eq!(first_difference(&two(), &got), "intern");
        assert_eq!(first_difference(&two(), &two()[..2]), "the number of lines");
    }
}
