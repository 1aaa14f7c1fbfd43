//! The exported functions, one to one: a safe function over slices and references for each, with the order of its
//! parameters and its answer as they are. All `unsafe` code of this crate is in this module, in one macro.
//!
//! A function that can refuse returns the refusal's number, or 0 with its answer behind the references at its end. A
//! refusal leaves all lent memory and these references as they were, but for scratch, which is all zero after 16 to 19.

/// The number of links of a network, reverses included, that its memory has room for.
pub const LINKS: usize = 2_176;
/// The number of starts of node lists that its memory has room for: one more than there may be nodes.
pub const STARTS: usize = 67;
/// The bytes of the longest report of a card.
pub const REPORT: usize = 13_331;
/// The entries of each list of pairs that a distance needs.
pub const PAIRS: usize = 4_096;
/// The contribution records that a distance needs.
pub const RECORDS: usize = 64;

/// A built model: counts, initial state and columns, as the functions take them. Nothing is assumed of it.
#[derive(Debug, Clone, Copy)]
pub struct ModelView<'a> {
    /// How many states.
    pub states: usize,
    /// How many edges.
    pub edges: usize,
    /// How many labels.
    pub labels: usize,
    /// 0 if there is no initial state.
    pub present: u32,
    /// The initial state, if there is one.
    pub start: u32,
    /// The value of each label, by its id.
    pub label_values: &'a [u32],
    /// Where the edges of each state begin, and where the last ones end.
    pub offsets: &'a [u32],
    /// The label id of each edge.
    pub edge_labels: &'a [u32],
    /// The target of each edge.
    pub edge_targets: &'a [u32],
    /// The weight of each edge.
    pub edge_weights: &'a [f64],
}

/// A chain but for its observations, as the functions take it. Nothing is assumed of it.
#[derive(Debug, Clone, Copy)]
pub struct ChainView<'a> {
    /// How many states.
    pub states: usize,
    /// How many entries.
    pub entries: usize,
    /// The initial state.
    pub initial: u32,
    /// Where the entries of each state begin, and where the last ones end.
    pub offsets: &'a [u32],
    /// The target of each entry.
    pub targets: &'a [u32],
    /// The probability of each entry.
    pub probabilities: &'a [f64],
}

/// A link: the node that it leads to, the capacity left, and its cost for a unit.
#[repr(C)]
#[derive(Debug, Clone, Copy, PartialEq)]
pub struct Link {
    /// The node that it leads to.
    pub head: u32,
    /// The capacity left.
    pub cap: f64,
    /// The cost for a unit.
    pub cost: f64,
}

/// A pair of states, how far its observations are apart, the discounted time spent in it, and the product of the two.
#[repr(C)]
#[derive(Debug, Clone, Copy, PartialEq, Default)]
pub struct PairContribution {
    /// The left state.
    pub left: u32,
    /// The right state.
    pub right: u32,
    /// How far the observations are apart.
    pub gap: f64,
    /// The discounted time spent in the pair.
    pub occupancy: f64,
    /// The product of the two.
    pub contribution: f64,
}

/// A network in memory: links 2k and 2k + 1 are an added link and its reverse; the links that leave node u are
/// `list[starts[u]..starts[u + 1]]`.
#[repr(C)]
#[derive(Debug, Clone, PartialEq)]
pub struct FlowNetwork {
    /// The links, of which the first `count` are in use.
    pub links: [Link; LINKS],
    /// How many links are in use, reverses included.
    pub count: usize,
    /// How many nodes.
    pub nodes: usize,
    /// Where the list of each node starts, and where the last one ends.
    pub starts: [u32; STARTS],
    /// The lists of link numbers, node after node.
    pub list: [u32; LINKS],
}

impl FlowNetwork {
    /// Memory for a network: no nodes and no links.
    #[must_use]
    pub fn empty() -> Box<Self> {
        let link = Link {
            head: 0,
            cap: 0.0,
            cost: 0.0,
        };
        Box::new(Self {
            links: [link; LINKS],
            count: 0,
            nodes: 0,
            starts: [0; STARTS],
            list: [0; LINKS],
        })
    }
}

/// Declares exported functions, with a safe function for each. A parameter is a `model` or a `chain`, in place of its
/// counts, initial state and columns; a slice, `[T]` or `[mut T]`, in place of a pointer and a length; or as it is.
macro_rules! entries {
    ($($(#[$doc:meta])* fn $name:ident = $symbol:ident($($parameters:tt)*) -> $answer:ty;)*) => {
        $(entries!(@ ($(#[$doc])*) $name $symbol ($answer) [] [] [] $($parameters)*,);)*
    };
    // parameters of the declaration, those of the function, and what it passes
    (@ ($($doc:tt)*) $name:ident $symbol:ident ($answer:ty) [$($raw:tt)*] [$($own:tt)*] [$($pass:tt)*] $(,)?) => {
        $($doc)*
        #[inline]
        #[allow(clippy::too_many_arguments)]
        pub fn $name($($own)*) -> $answer {
            unsafe extern "C" {
                fn $symbol($($raw)*) -> $answer;
            }
            // SAFETY: the declaration is that of the exported function. Each pointer comes with the length of its own
            // slice; all memory is lent for the call alone, and what is written is borrowed apart from everything else.
            // The function takes any values: it is proved without a condition on them.
            unsafe { $symbol($($pass)*) }
        }
    };
    (@ $doc:tt $name:ident $symbol:ident $answer:tt [$($raw:tt)*] [$($own:tt)*] [$($pass:tt)*]
        $m:ident: model, $($rest:tt)*) => {
        entries!(@ $doc $name $symbol $answer
            [
                $($raw)*
                _: usize, _: usize, _: usize, _: u32, _: u32,
                _: *const u32, _: usize,
                _: *const u32, _: usize,
                _: *const u32, _: usize,
                _: *const u32, _: usize,
                _: *const f64, _: usize,
            ]
            [$($own)* $m: &ModelView<'_>,]
            [
                $($pass)*
                $m.states, $m.edges, $m.labels, $m.present, $m.start,
                $m.label_values.as_ptr(), $m.label_values.len(),
                $m.offsets.as_ptr(), $m.offsets.len(),
                $m.edge_labels.as_ptr(), $m.edge_labels.len(),
                $m.edge_targets.as_ptr(), $m.edge_targets.len(),
                $m.edge_weights.as_ptr(), $m.edge_weights.len(),
            ]
            $($rest)*);
    };
    (@ $doc:tt $name:ident $symbol:ident $answer:tt [$($raw:tt)*] [$($own:tt)*] [$($pass:tt)*]
        $c:ident: chain, $($rest:tt)*) => {
        entries!(@ $doc $name $symbol $answer
            [
                $($raw)*
                _: usize, _: usize, _: u32,
                _: *const u32, _: usize,
                _: *const u32, _: usize,
                _: *const f64, _: usize,
            ]
            [$($own)* $c: &ChainView<'_>,]
            [
                $($pass)*
                $c.states, $c.entries, $c.initial,
                $c.offsets.as_ptr(), $c.offsets.len(),
                $c.targets.as_ptr(), $c.targets.len(),
                $c.probabilities.as_ptr(), $c.probabilities.len(),
            ]
            $($rest)*);
    };
    (@ $doc:tt $name:ident $symbol:ident $answer:tt [$($raw:tt)*] [$($own:tt)*] [$($pass:tt)*]
        $x:ident: [mut $t:ty], $($rest:tt)*) => {
        entries!(@ $doc $name $symbol $answer
            [$($raw)* _: *mut $t, _: usize,]
            [$($own)* $x: &mut [$t],]
            [$($pass)* $x.as_mut_ptr(), $x.len(),]
            $($rest)*);
    };
    (@ $doc:tt $name:ident $symbol:ident $answer:tt [$($raw:tt)*] [$($own:tt)*] [$($pass:tt)*]
        $x:ident: [$t:ty], $($rest:tt)*) => {
        entries!(@ $doc $name $symbol $answer
            [$($raw)* _: *const $t, _: usize,]
            [$($own)* $x: &[$t],]
            [$($pass)* $x.as_ptr(), $x.len(),]
            $($rest)*);
    };
    (@ $doc:tt $name:ident $symbol:ident $answer:tt [$($raw:tt)*] [$($own:tt)*] [$($pass:tt)*]
        $x:ident: $t:ty, $($rest:tt)*) => {
        entries!(@ $doc $name $symbol $answer
            [$($raw)* _: $t,]
            [$($own)* $x: $t,]
            [$($pass)* $x,]
            $($rest)*);
    };
}

// models: numbers, labels and models
entries! {
    /// Whether x is finite and at least 0.
    fn is_valid = tanqesha_is_valid(x: f64) -> bool;
    /// Whether x is equal to 0.
    fn is_zero = tanqesha_is_zero(x: f64) -> bool;
    /// The sum, left to right from 0.
    fn sum = tanqesha_sum(items: [f64]) -> f64;
    /// The id of a label value, which is added if it is new. Refuses with 3, 4, 7.
    fn intern = tanqesha_intern(labels: [mut u32], count: usize, value: u32, id: &mut u32, total: &mut usize) -> u32;
    /// The id of a label value, if it has one. Refuses with 3, 4.
    fn get = tanqesha_get(labels: [u32], count: usize, value: u32, present: &mut u32, id: &mut u32) -> u32;
    /// The label value of an id. Refuses with 3, 4.
    fn resolve = tanqesha_resolve(labels: [u32], count: usize, id: u32, value: &mut u32) -> u32;
    /// Builds a model in the columns lent. Refuses with 3 to 7.
    fn build = tanqesha_build(
        states: usize, present: u32, start: u32, given: usize,
        sources: [u32], labels: [u32], targets: [u32], weights: [f64],
        label_values: [mut u32], offsets: [mut u32],
        edge_labels: [mut u32], edge_targets: [mut u32], edge_weights: [mut f64],
        edges: &mut usize, distinct: &mut usize
    ) -> u32;
    /// The number of the check that a model fails, 3 to 6; 0 if it is accepted.
    fn model_refusal = tanqesha_model_refusal(model: model) -> u32;
    /// How many states. Refuses with 3 to 6.
    fn num_states = tanqesha_num_states(model: model, count: &mut usize) -> u32;
    /// How many edges. Refuses with 3 to 6.
    fn num_transitions = tanqesha_num_transitions(model: model, count: &mut usize) -> u32;
    /// How many labels. Refuses with 3 to 6.
    fn num_labels = tanqesha_num_labels(model: model, count: &mut usize) -> u32;
    /// The initial state, if there is one. Refuses with 3 to 6.
    fn initial = tanqesha_initial(model: model, found: &mut u32, state: &mut u32) -> u32;
    /// The edges of state s: from where, and up to where. Refuses with 3 to 6.
    fn successors = tanqesha_successors(model: model, s: u32, from: &mut usize, to: &mut usize) -> u32;
    /// The value of a label id. Refuses with 3 to 6.
    fn label = tanqesha_label(model: model, id: u32, value: &mut u32) -> u32;
    /// The id of a label value, if it has one. Refuses with 3 to 6.
    fn label_id = tanqesha_label_id(model: model, value: u32, found: &mut u32, id: &mut u32) -> u32;
}

// networks
entries! {
    /// The maximum flow over rows of links, which keep the capacities left. Refuses with 15.
    fn max_flow_rows = tanqesha_max_flow_rows(
        heads: [u32], caps: [mut f64], costs: [f64], starts: [u32], list: [u32],
        nodes: usize, source: usize, sink: usize,
        flow: &mut f64, phases: &mut usize, pushes: &mut usize
    ) -> u32;
    /// 15 if a network in rows is refused, 0 if it is accepted.
    fn network_refusal = tanqesha_network_refusal(
        heads: [u32], caps: [f64], costs: [f64], starts: [u32], list: [u32],
        nodes: usize, source: usize, sink: usize
    ) -> u32;
    /// A network of so many nodes without links. Refuses with 15.
    fn new_network = tanqesha_new_network(nodes: usize, net: &mut FlowNetwork) -> u32;
    /// Adds a link and its reverse. Refuses with 15.
    fn add_edge = tanqesha_add_edge(net: &mut FlowNetwork, from: usize, to: usize, capacity: f64, cost: f64) -> u32;
    /// The maximum flow on a network, which keeps the capacities left. Refuses with 15.
    fn max_flow = tanqesha_max_flow(
        net: &mut FlowNetwork, source: usize, sink: usize,
        flow: &mut f64, phases: &mut usize, pushes: &mut usize
    ) -> u32;
}

// relations
entries! {
    /// The relation of two models, over the front of the bytes. Refuses with 3 to 7, 9, 10.
    fn epsdelta = tanqesha_epsdelta(
        left: model, right: model, left_classes: [u32], right_classes: [u32],
        epsilon: f64, rho: f64, relation: [mut u8]
    ) -> u32;
    /// Whether a relation holds left state s with right state t. Refuses with 3, 4, 7, 10.
    fn related = tanqesha_related(
        left_states: usize, right_states: usize, relation: [u8], s: u32, t: u32, related: &mut u32
    ) -> u32;
    /// Whether the initial states are related; the bytes are zero at the end. Refuses with 3 to 10.
    fn epsdelta_bisimilar = tanqesha_epsdelta_bisimilar(
        left: model, right: model, left_classes: [u32], right_classes: [u32],
        epsilon: f64, rho: f64, relation: [mut u8], related: &mut u32
    ) -> u32;
    /// An ε at which the initial states are related, found by halvings, if they are at 1; the bytes are zero at the end.
    /// Refuses with 3 to 10.
    fn min_epsilon = tanqesha_min_epsilon(
        left: model, right: model, left_classes: [u32], right_classes: [u32],
        rho: f64, relation: [mut u8], present: &mut u32, epsilon: &mut f64
    ) -> u32;
}

// cards: the report of a card
entries! {
    /// What is printed for the bytes of a card. Refuses with 7.
    fn report = tanqesha_report(card: [u8], out: [mut u8], written: &mut usize) -> u32;
}

// transports
entries! {
    /// A plan that moves masses a to masses b, over the front of three columns. Refuses with 7, 15, 16.
    fn transport = tanqesha_transport(
        a: [f64], b: [f64], costs: [f64],
        plan_rows: [mut u32], plan_columns: [mut u32], plan_masses: [mut f64],
        total: &mut f64, cells: &mut usize
    ) -> u32;
}

// model_chains: chains
entries! {
    /// The greatest exit rate of two models, or 1 if nothing moves. Refuses with 3 to 6.
    fn common_rate = tanqesha_common_rate(left: model, right: model, rate: &mut f64) -> u32;
    /// The chain of a model at a rate, over the front of four lists. Refuses with 3 to 8, 11, 12.
    fn uniformise = tanqesha_uniformise(
        model: model, rate: f64, observations: [f64],
        chain_offsets: [mut u32], chain_targets: [mut u32],
        chain_probabilities: [mut f64], chain_observations: [mut f64],
        entries: &mut usize
    ) -> u32;
    /// The observations of two chains mapped to 0 to 1 together. Refuses with 4, 7, 12, 13.
    fn normalise = tanqesha_normalise(
        left: chain, left_observations: [mut f64], right: chain, right_observations: [mut f64], scale: &mut f64
    ) -> u32;
}

// distances: of chains
entries! {
    /// The distance of two chains, with its contributions over the front of the records; the lists of pairs (`lefts`, `rights`,
    /// `index`) and the coupling store (`places`, `masses`) are zero at the end, but after 4 to 14, which leave all as it was.
    /// Refuses with 4, 7, 11 to 14, 16 to 19.
    fn distance = tanqesha_distance(
        left: chain, left_observations: [f64], right: chain, right_observations: [f64],
        gamma: f64, tolerance: f64, max_rounds: usize, top: usize,
        lefts: [mut u32], rights: [mut u32], index: [mut u64], places: [mut u32], masses: [mut f64],
        records: [mut PairContribution],
        value: &mut f64, error_bound: &mut f64, discount: &mut f64,
        pairs: &mut usize, listed: &mut usize, rounds: &mut usize
    ) -> u32;
}

// model_distances: of models
entries! {
    /// The distance of a state of each of two models, by their chains at the common rate and observations scaled together; the
    /// lists of the chains are zero at the end too, but after 3 to 14, which leave all as it was. Refuses with 3 to 8, 11, 12,
    /// 14, 16 to 19.
    fn bisim_distance = tanqesha_bisim_distance(
        left: model, left_state: u32, left_observations: [f64],
        left_chain_offsets: [mut u32], left_chain_targets: [mut u32],
        left_chain_probabilities: [mut f64], left_chain_observations: [mut f64],
        right: model, right_state: u32, right_observations: [f64],
        right_chain_offsets: [mut u32], right_chain_targets: [mut u32],
        right_chain_probabilities: [mut f64], right_chain_observations: [mut f64],
        gamma: f64, tolerance: f64, max_rounds: usize, top: usize,
        lefts: [mut u32], rights: [mut u32], index: [mut u64], places: [mut u32], masses: [mut f64],
        records: [mut PairContribution],
        value: &mut f64, error_bound: &mut f64, discount: &mut f64,
        pairs: &mut usize, listed: &mut usize, rounds: &mut usize
    ) -> u32;
}
