use std::hash::Hash;

// CHANGED: paths. LEFT OUT: `SignatureKey`, `signature`, `sparse`, used only by what is left out below.
use crate::bisim_core::ids::{Interner, LabelId, StateId};
use crate::bisim_core::semiring::Semiring;

/// One outgoing transition.
#[derive(Debug, Clone)]
pub struct Edge<W> {
    pub label: LabelId,
    pub target: StateId,
    pub weight: W,
}

/// Finite weighted labelled transition system, a coalgebra `X → FS(X, W)^L`.
///
/// Transitions are stored in compressed sparse row form, sorted by
/// `(source, label, target)`. Parallel transitions with the same source, label
/// and target are merged by adding their weights, so multiplicities are kept
/// (crucial for rates: PEPA's `(a,r).P + (a,r).P` has rate `2r`).
#[derive(Debug, Clone)]
pub struct Wlts<L, W> {
    // CHANGED: the fields are `pub(crate)`, so that a built model handed in is put together from its columns.
    pub(crate) labels: Interner<L>,
    pub(crate) offsets: Vec<u32>,
    pub(crate) edges: Vec<Edge<W>>,
    pub(crate) initial: Option<StateId>,
}

/// A plain labelled transition system.
pub type Lts<L> = Wlts<L, bool>;

impl<L: Eq + Hash + Clone, W: Semiring> Wlts<L, W> {
    pub fn num_states(&self) -> usize {
        self.offsets.len() - 1
    }

    pub fn num_transitions(&self) -> usize {
        self.edges.len()
    }

    pub fn initial(&self) -> Option<StateId> {
        self.initial
    }

    pub fn states(&self) -> impl Iterator<Item = StateId> + use<L, W> {
        (0..self.num_states() as u32).map(StateId)
    }

    pub fn successors(&self, s: StateId) -> &[Edge<W>] {
        let lo = self.offsets[s.index()] as usize;
        let hi = self.offsets[s.index() + 1] as usize;
        &self.edges[lo..hi]
    }

    pub fn label(&self, id: LabelId) -> &L {
        self.labels.resolve(id.0)
    }

    pub fn label_id(&self, label: &L) -> Option<LabelId> {
        self.labels.get(label).map(LabelId)
    }

    pub fn labels(&self) -> &[L] {
        self.labels.values()
    }

    /// Iterates all transitions as `(source, label, target, weight)`.
    pub fn transitions(&self) -> impl Iterator<Item = (StateId, &L, StateId, &W)> {
        self.states().flat_map(move |s| {
            self.successors(s)
                .iter()
                .map(move |e| (s, self.label(e.label), e.target, &e.weight))
        })
    }

    // LEFT OUT: `class_sums` (needs `sparse`, which can't be had).

    // LEFT OUT: `disjoint_union` (document 01 leaves it out).

    // LEFT OUT: `map_weights` (document 01 leaves generic weights out).

    // LEFT OUT: `quotient` (needs `Partition`, which can't be had).
}

// LEFT OUT: `Signature for Wlts` (document 01 leaves `Signature` out; `signature` can't be had).

/// Builder for [`Wlts`] over dense state ids.
#[derive(Debug, Clone)]
pub struct WltsBuilder<L, W> {
    labels: Interner<L>,
    num_states: usize,
    raw: Vec<(StateId, LabelId, StateId, W)>,
    initial: Option<StateId>,
}

impl<L: Eq + Hash + Clone, W: Semiring> Default for WltsBuilder<L, W> {
    fn default() -> Self {
        Self {
            labels: Interner::new(),
            num_states: 0,
            raw: Vec::new(),
            initial: None,
        }
    }
}

impl<L: Eq + Hash + Clone, W: Semiring> WltsBuilder<L, W> {
    pub fn new() -> Self {
        Self::default()
    }

    pub fn add_state(&mut self) -> StateId {
        self.num_states += 1;
        StateId(self.num_states as u32 - 1)
    }

    pub fn ensure_states(&mut self, n: usize) {
        self.num_states = self.num_states.max(n);
    }

    pub fn set_initial(&mut self, s: StateId) {
        self.ensure_states(s.index() + 1);
        self.initial = Some(s);
    }

    /// Adds a transition. Parallel transitions (same source, label and
    /// target) are merged by [`Semiring::sum`] in [`build`](Self::build).
    ///
    /// # Panics
    /// If `weight` is not a valid weight ([`Semiring::is_valid`]), e.g. a
    /// NaN, infinite or negative rate.
    pub fn add_transition(&mut self, source: StateId, label: L, target: StateId, weight: W) {
        assert!(weight.is_valid(), "invalid transition weight {weight:?}");
        self.ensure_states(source.index().max(target.index()) + 1);
        let label = LabelId(self.labels.intern(label));
        self.raw.push((source, label, target, weight));
    }

    pub fn build(mut self) -> Wlts<L, W> {
        self.raw.sort_by_key(|&(s, l, t, _)| (s, l, t));
        let mut edges: Vec<Edge<W>> = Vec::with_capacity(self.raw.len());
        let mut offsets = vec![0u32; self.num_states + 1];
        for run in self.raw.chunk_by(|a, b| (a.0, a.1, a.2) == (b.0, b.1, b.2)) {
            let (s, label, target, _) = &run[0];
            let weight = match run {
                [(.., w)] => w.clone(),
                _ => W::sum(run.iter().map(|(.., w)| w)),
            };
            // Zero weights (given, or summing to zero) are not transitions.
            if weight.is_zero() {
                continue;
            }
            offsets[s.index() + 1] += 1;
            edges.push(Edge {
                label: *label,
                target: *target,
                weight,
            });
        }
        for i in 0..self.num_states {
            offsets[i + 1] += offsets[i];
        }
        Wlts {
            labels: self.labels,
            offsets,
            edges,
            initial: self.initial,
        }
    }
}

// LEFT OUT: `NamedBuilder` (state numbers are given; document 01 names only `build`).
