//! The library's relations: bits in lent bytes.

use tanqesha::sys;

use super::{BEFORE, BEFORE_REAL, Ours, one, view};
use crate::answers::answer;
use crate::args::{RelatedArgs, RelationArgs, RunArgs, bytes};
use crate::text::{Field, Value};

/// `epsdelta` in these bytes.
pub fn epsdelta(a: &RelationArgs, relation: &mut [u8]) -> u32 {
    sys::epsdelta(
        &view(&a.left),
        &view(&a.right),
        &a.left_classes,
        &a.right_classes,
        a.epsilon,
        a.rho,
        relation,
    )
}

/// `epsdelta_bisimilar` in these bytes.
pub fn epsdelta_bisimilar(a: &RelationArgs, relation: &mut [u8], related: &mut u32) -> u32 {
    sys::epsdelta_bisimilar(
        &view(&a.left),
        &view(&a.right),
        &a.left_classes,
        &a.right_classes,
        a.epsilon,
        a.rho,
        relation,
        related,
    )
}

/// `min_epsilon` in these bytes.
pub fn min_epsilon(a: &RelationArgs, relation: &mut [u8], found: &mut u32, least: &mut f64) -> u32 {
    sys::min_epsilon(
        &view(&a.left),
        &view(&a.right),
        &a.left_classes,
        &a.right_classes,
        a.rho,
        relation,
        found,
        least,
    )
}

/// The answer of a call, and what it leaves in the lent bytes.
fn with_bytes(a: &RelationArgs, call: impl FnOnce(&mut [u8]) -> Field) -> [Field; 2] {
    let mut relation = a.relation.clone();
    let answer = call(&mut relation);
    [answer, bytes(&relation)]
}

/// `epsdelta`.
fn related_pairs(a: &RelationArgs) -> [Field; 2] {
    with_bytes(a, |relation| {
        answer("epsdelta", epsdelta(a, relation), Vec::new())
    })
}

/// `min_epsilon`, which leaves its float as it was where there is none.
fn least(a: &RelationArgs, relation: &mut [u8]) -> Field {
    let (mut found, mut epsilon) = (BEFORE, BEFORE_REAL);
    let refusal = min_epsilon(a, relation, &mut found, &mut epsilon);
    let value = match (refusal, found) {
        (0, 1) => Value::Real(epsilon),
        (0, 0) if epsilon == BEFORE_REAL => Value::Absent,
        (1.., BEFORE) => Value::Real(epsilon - BEFORE_REAL),
        _ => Value::Number(u64::MAX),
    };
    answer("min_epsilon", refusal, vec![value])
}

impl Ours for RelationArgs {
    fn ours(&self) -> Vec<Field> {
        let bisimilar = |relation: &mut [u8]| {
            one("epsdelta_bisimilar", |related| {
                epsdelta_bisimilar(self, relation, related)
            })
        };
        [
            related_pairs(self),
            with_bytes(self, bisimilar),
            with_bytes(self, |relation| least(self, relation)),
        ]
        .concat()
    }
}

impl Ours for RunArgs {
    fn ours(&self) -> Vec<Field> {
        related_pairs(&self.0).to_vec()
    }
}

impl Ours for RelatedArgs {
    fn ours(&self) -> Vec<Field> {
        let a = self;
        let call = |related: &mut u32| {
            sys::related(
                a.left_states,
                a.right_states,
                &a.relation,
                a.s,
                a.t,
                related,
            )
        };
        vec![one("related", call)]
    }
}
