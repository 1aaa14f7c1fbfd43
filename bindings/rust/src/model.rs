//! Models: weighted labelled transition systems.

use std::ops::Range;

use crate::sys::{self, ModelView};
use crate::{LabelId, Refusal, StateId};

/// The most states that a model may have; more are refused whatever room there is.
const STATES: usize = 2_000;
/// The most transitions.
const TRANSITIONS: usize = 4_096;

/// A transition that a model is built of: from a state, with a label value, to a state, with a rate.
#[derive(Debug, Clone, Copy, PartialEq)]
pub struct Transition {
    /// Where it starts.
    pub source: StateId,
    /// Its label value.
    pub label: u32,
    /// Where it ends.
    pub target: StateId,
    /// Its rate: 0, or from 2^-40 to 2^40.
    pub weight: f64,
}

impl Transition {
    /// A transition between states of these numbers.
    #[must_use]
    pub fn new(source: u32, label: u32, target: u32, weight: f64) -> Self {
        Self {
            source: StateId(source),
            label,
            target: StateId(target),
            weight,
        }
    }
}

/// An edge of a built model: its weight is that of all transitions of its source, label and target together.
#[derive(Debug, Clone, Copy, PartialEq)]
pub struct Edge {
    /// Where it starts.
    pub source: StateId,
    /// The id of its label.
    pub label: LabelId,
    /// Where it ends.
    pub target: StateId,
    /// Its rate, above 0.
    pub weight: f64,
}

/// Counts, initial state and columns of a model, as they stand in memory. [`Model::from_columns`] checks them.
#[derive(Debug, Clone, Default, PartialEq)]
pub struct Columns {
    /// How many states.
    pub states: usize,
    /// How many edges.
    pub edges: usize,
    /// How many labels.
    pub labels: usize,
    /// The initial state, if there is one.
    pub initial: Option<StateId>,
    /// The value of each label, by its id.
    pub label_values: Vec<u32>,
    /// Where the edges of each state begin, and where the last ones end.
    pub offsets: Vec<u32>,
    /// The label id of each edge.
    pub edge_labels: Vec<u32>,
    /// The target of each edge.
    pub edge_targets: Vec<u32>,
    /// The weight of each edge.
    pub edge_weights: Vec<f64>,
}

impl Columns {
    pub(crate) fn view(&self) -> ModelView<'_> {
        let (present, start) = marked(self.initial);
        ModelView {
            states: self.states,
            edges: self.edges,
            labels: self.labels,
            present,
            start,
            label_values: &self.label_values,
            offsets: &self.offsets,
            edge_labels: &self.edge_labels,
            edge_targets: &self.edge_targets,
            edge_weights: &self.edge_weights,
        }
    }
}

/// An initial state as the library takes it.
fn marked(initial: Option<StateId>) -> (u32, u32) {
    initial.map_or((0, 0), |s| (1, s.0))
}

/// A model that the library accepts: edges by source, label id and target.
///
/// ```
/// use tanqesha::{LabelId, Model, Refusal, StateId, Transition};
///
/// // equal triples are joined, zero weights are dropped; labels get ids by first appearance
/// let model = Model::build(
///     3,
///     Some(StateId(0)),
///     &[
///         Transition::new(0, 70, 1, 3.0),
///         Transition::new(0, 50, 2, 1.0),
///         Transition::new(0, 70, 1, 0.5),
///         Transition::new(1, 90, 0, 0.0),
///     ],
/// )?;
/// assert_eq!((model.num_states(), model.num_transitions(), model.num_labels()), (3, 2, 3));
/// let row: Vec<_> = model.successors(StateId(0))?.map(|e| (e.label, e.target, e.weight)).collect();
/// assert_eq!(row, [(LabelId(0), StateId(1), 3.5), (LabelId(1), StateId(2), 1.0)]);
/// assert_eq!(model.label(LabelId(1))?, 50);
/// assert_eq!(model.successors(StateId(3)).err(), Some(Refusal::OutOfRange));
/// # Ok::<(), Refusal>(())
/// ```
#[derive(Debug, Clone, PartialEq)]
pub struct Model {
    columns: Columns,
}

impl Model {
    /// Builds the model of these transitions.
    ///
    /// # Errors
    /// [`Refusal::ModelSize`], [`Refusal::OutOfRange`], [`Refusal::Weight`] or [`Refusal::Targets`], the first that
    /// applies.
    pub fn build(
        states: usize,
        initial: Option<StateId>,
        transitions: &[Transition],
    ) -> Result<Self, Refusal> {
        let column = |of: fn(&Transition) -> u32| transitions.iter().map(of).collect::<Vec<_>>();
        let sources = column(|t| t.source.0);
        let labels = column(|t| t.label);
        let targets = column(|t| t.target.0);
        let weights: Vec<_> = transitions.iter().map(|t| t.weight).collect();
        let (present, start) = marked(initial);
        let mut c = Columns::room(states, initial, transitions.len());
        Refusal::check(sys::build(
            states,
            present,
            start,
            transitions.len(),
            &sources,
            &labels,
            &targets,
            &weights,
            &mut c.label_values,
            &mut c.offsets,
            &mut c.edge_labels,
            &mut c.edge_targets,
            &mut c.edge_weights,
            &mut c.edges,
            &mut c.labels,
        ))?;
        c.cut();
        Ok(Self { columns: c })
    }

    /// The model that these columns hold, if it is as built.
    ///
    /// # Errors
    /// [`Refusal::ModelSize`], [`Refusal::OutOfRange`], [`Refusal::Weight`] or [`Refusal::Targets`], the first that
    /// applies.
    pub fn from_columns(columns: Columns) -> Result<Self, Refusal> {
        Refusal::check(sys::model_refusal(&columns.view()))?;
        Ok(Self { columns })
    }

    /// Its counts, initial state and columns.
    #[must_use]
    pub fn columns(&self) -> &Columns {
        &self.columns
    }

    /// The same, owned.
    #[must_use]
    pub fn into_columns(self) -> Columns {
        self.columns
    }

    pub(crate) fn view(&self) -> ModelView<'_> {
        self.columns.view()
    }

    /// How many states. As every reader does, it checks the model afresh, which takes time for each edge.
    #[must_use]
    pub fn num_states(&self) -> usize {
        self.count(sys::num_states)
    }

    /// How many edges.
    #[must_use]
    pub fn num_transitions(&self) -> usize {
        self.count(sys::num_transitions)
    }

    /// How many labels.
    #[must_use]
    pub fn num_labels(&self) -> usize {
        self.count(sys::num_labels)
    }

    fn count(&self, reader: fn(&ModelView<'_>, &mut usize) -> u32) -> usize {
        let mut count = 0;
        accepted(reader(&self.view(), &mut count));
        count
    }

    /// The initial state, if there is one.
    #[must_use]
    pub fn initial(&self) -> Option<StateId> {
        let (mut found, mut state) = (0, 0);
        accepted(sys::initial(&self.view(), &mut found, &mut state));
        (found != 0).then_some(StateId(state))
    }

    /// The edges of a state, by label id and target.
    ///
    /// # Errors
    /// [`Refusal::OutOfRange`] where there is no such state.
    pub fn successors(&self, s: StateId) -> Result<impl Iterator<Item = Edge>, Refusal> {
        let (mut from, mut to) = (0, 0);
        Refusal::check(sys::successors(&self.view(), s.0, &mut from, &mut to))?;
        Ok(self.row(s, from..to))
    }

    /// All edges, by source, label id and target.
    pub fn edges(&self) -> impl Iterator<Item = Edge> {
        // columns may be longer than the counts
        let ends = self.columns.offsets.windows(2).take(self.columns.states);
        (0..).zip(ends).flat_map(|(s, ends)| {
            let row = ends[0] as usize..ends[1] as usize;
            self.row(StateId(s), row)
        })
    }

    /// The edges at these places, of the source s.
    fn row(&self, source: StateId, places: Range<usize>) -> impl Iterator<Item = Edge> {
        let c = &self.columns;
        places.map(move |e| Edge {
            source,
            label: LabelId(c.edge_labels[e]),
            target: StateId(c.edge_targets[e]),
            weight: c.edge_weights[e],
        })
    }

    /// The value of a label.
    ///
    /// # Errors
    /// [`Refusal::OutOfRange`] where there is no such label.
    pub fn label(&self, id: LabelId) -> Result<u32, Refusal> {
        let mut value = 0;
        Refusal::check(sys::label(&self.view(), id.0, &mut value))?;
        Ok(value)
    }

    /// The id of a label value, if it has one.
    #[must_use]
    pub fn label_id(&self, value: u32) -> Option<LabelId> {
        let (mut found, mut id) = (0, 0);
        accepted(sys::label_id(&self.view(), value, &mut found, &mut id));
        (found != 0).then_some(LabelId(id))
    }
}

/// Models are accepted, so that a call which checks nothing else can't refuse.
pub(crate) fn accepted(number: u32) {
    Refusal::check(number).expect("a model that was accepted");
}

impl Columns {
    /// Room for a model of so many states and transitions; no more than a model may have, since too many are refused
    /// before short stores.
    fn room(states: usize, initial: Option<StateId>, transitions: usize) -> Self {
        let room = transitions.min(TRANSITIONS);
        Self {
            states,
            edges: 0,
            labels: 0,
            initial,
            label_values: vec![0; room],
            offsets: vec![0; states.min(STATES) + 1],
            edge_labels: vec![0; room],
            edge_targets: vec![0; room],
            edge_weights: vec![0.0; room],
        }
    }

    /// Gives back the room that is not used.
    fn cut(&mut self) {
        self.label_values.truncate(self.labels);
        self.edge_labels.truncate(self.edges);
        self.edge_targets.truncate(self.edges);
        self.edge_weights.truncate(self.edges);
    }
}
