//! The relation of two models: which states are alike.

use crate::{Model, Refusal, StateId, sys};

/// A relation over the states of two models, left states first, as [`epsdelta`] makes it. It is symmetric and holds each
/// state with itself; docs/CLAIM.md says what else is proved of it.
#[derive(Debug, Clone, PartialEq, Eq)]
pub struct Relation {
    left: usize,
    right: usize,
    bytes: Vec<u8>,
}

impl Relation {
    /// How many states of the left model.
    #[must_use]
    pub fn left_states(&self) -> usize {
        self.left
    }

    /// How many states of the right model.
    #[must_use]
    pub fn right_states(&self) -> usize {
        self.right
    }

    /// One bit for each ordered pair, lowest bit of a byte first: over T states together the pair (s, t) is bit
    /// s × T + t, and t counts from the left states on where it is of the right model.
    #[must_use]
    pub fn as_bytes(&self) -> &[u8] {
        &self.bytes
    }

    /// Whether left state s is alike to right state t.
    ///
    /// # Errors
    /// [`Refusal::OutOfRange`] where there is no such state.
    pub fn related(&self, s: StateId, t: StateId) -> Result<bool, Refusal> {
        let mut related = 0;
        let number = sys::related(self.left, self.right, &self.bytes, s.0, t.0, &mut related);
        Refusal::check(number)?;
        Ok(related != 0)
    }

    /// The left states with the right states that they are alike to, by left then right.
    #[must_use]
    pub fn pairs(&self) -> Pairs<'_> {
        Pairs {
            relation: self,
            next: 0,
        }
    }

    /// Whether bit n is set.
    fn bit(&self, n: usize) -> bool {
        self.bytes[n / 8] >> (n % 8) & 1 != 0
    }
}

impl<'a> IntoIterator for &'a Relation {
    type Item = (StateId, StateId);
    type IntoIter = Pairs<'a>;

    fn into_iter(self) -> Pairs<'a> {
        self.pairs()
    }
}

/// The related pairs of a left and a right state, by left then right; see [`Relation::pairs`].
#[derive(Debug, Clone)]
pub struct Pairs<'a> {
    relation: &'a Relation,
    /// The next pair to look at, by left then right.
    next: usize,
}

impl Iterator for Pairs<'_> {
    type Item = (StateId, StateId);

    fn next(&mut self) -> Option<Self::Item> {
        let (left, right) = (self.relation.left, self.relation.right);
        while self.next < left * right {
            let (s, t) = (self.next / right, self.next % right);
            self.next += 1;
            if self.relation.bit(s * (left + right) + left + t) {
                return Some((StateId(s as u32), StateId(t as u32)));
            }
        }
        None
    }
}

/// Bytes for a relation over the states of both models, which are at most 4,000.
fn room(left: &Model, right: &Model) -> Vec<u8> {
    let states = left.columns().states + right.columns().states;
    vec![0; (states * states).div_ceil(8)]
}

/// Which states of two models are alike. Alike states have equal classes, exit rates that differ at most by the factor
/// `rho`, and jumps that lead to alike states, of which at most the share `epsilon` may go astray.
///
/// ```
/// use tanqesha::{Model, Refusal, StateId, Transition, epsdelta};
///
/// let left = Model::build(2, None, &[Transition::new(0, 0, 1, 2.0)])?;
/// let right = Model::build(2, None, &[Transition::new(0, 0, 1, 4.0)])?;
/// let classes = [0, 1];
///
/// // twice the rate is alike at a factor of 2, and not at 1.5
/// let relation = epsdelta(&left, &right, &classes, &classes, 0.0, 2.0)?;
/// let pairs: Vec<_> = relation.pairs().collect();
/// assert_eq!(pairs, [(StateId(0), StateId(0)), (StateId(1), StateId(1))]);
/// let relation = epsdelta(&left, &right, &classes, &classes, 0.0, 1.5)?;
/// assert!(!relation.related(StateId(0), StateId(0))?);
/// # Ok::<(), Refusal>(())
/// ```
///
/// # Errors
/// [`Refusal::Store`] where a state has no class, [`Refusal::Tolerance`] or [`Refusal::StatesTogether`], the first that
/// applies.
pub fn epsdelta(
    left: &Model,
    right: &Model,
    left_classes: &[u32],
    right_classes: &[u32],
    epsilon: f64,
    rho: f64,
) -> Result<Relation, Refusal> {
    let mut bytes = room(left, right);
    Refusal::check(sys::epsdelta(
        &left.view(),
        &right.view(),
        left_classes,
        right_classes,
        epsilon,
        rho,
        &mut bytes,
    ))?;
    Ok(Relation {
        left: left.columns().states,
        right: right.columns().states,
        bytes,
    })
}

/// Whether the initial states of two models are alike.
///
/// ```
/// use tanqesha::{Model, Refusal, StateId, Transition, epsdelta_bisimilar};
///
/// let rates = |a, b| {
///     let transitions = [Transition::new(0, 7, 1, a), Transition::new(0, 7, 2, b)];
///     Model::build(3, Some(StateId(0)), &transitions)
/// };
/// let (left, right) = (rates(3.0, 1.0)?, rates(2.0, 2.0)?);
/// let classes = [0, 1, 2];
/// let alike = |epsilon| epsdelta_bisimilar(&left, &right, &classes, &classes, epsilon, 1.0);
/// assert!(alike(0.25)? && !alike(0.2)?);
/// # Ok::<(), Refusal>(())
/// ```
///
/// # Errors
/// As [`epsdelta`], and [`Refusal::NoInitialState`] before [`Refusal::Tolerance`].
pub fn epsdelta_bisimilar(
    left: &Model,
    right: &Model,
    left_classes: &[u32],
    right_classes: &[u32],
    epsilon: f64,
    rho: f64,
) -> Result<bool, Refusal> {
    let mut related = 0;
    Refusal::check(sys::epsdelta_bisimilar(
        &left.view(),
        &right.view(),
        left_classes,
        right_classes,
        epsilon,
        rho,
        &mut room(left, right),
        &mut related,
    ))?;
    Ok(related != 0)
}

/// An ε at which the initial states of two models are alike, found by halvings down to about 1e-4; none if they are not even at 1.
///
/// ```
/// use tanqesha::{Model, Refusal, StateId, Transition, min_epsilon};
///
/// let rates = |a, b| {
///     let transitions = [Transition::new(0, 7, 1, a), Transition::new(0, 7, 2, b)];
///     Model::build(3, Some(StateId(0)), &transitions)
/// };
/// let (left, right) = (rates(3.0, 1.0)?, rates(2.0, 2.0)?);
/// let least = |right_classes: &[u32]| min_epsilon(&left, &right, &[0, 1, 2], right_classes, 1.0);
/// assert_eq!(least(&[0, 1, 2])?, Some(0.25));
/// assert_eq!(least(&[9, 1, 2])?, None);
/// # Ok::<(), Refusal>(())
/// ```
///
/// # Errors
/// As [`epsdelta_bisimilar`].
pub fn min_epsilon(
    left: &Model,
    right: &Model,
    left_classes: &[u32],
    right_classes: &[u32],
    rho: f64,
) -> Result<Option<f64>, Refusal> {
    let (mut present, mut epsilon) = (0, 0.0);
    Refusal::check(sys::min_epsilon(
        &left.view(),
        &right.view(),
        left_classes,
        right_classes,
        rho,
        &mut room(left, right),
        &mut present,
        &mut epsilon,
    ))?;
    Ok((present != 0).then_some(epsilon))
}
