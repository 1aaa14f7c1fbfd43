//! The places of an input where a number, a float or a list stands, which the shrinker makes smaller and the fuzzer changes;
//! and the input without one of its states.

use super::{
    BisimArgs, BisimSide, BuildArgs, CardArgs, ChainArgs, ChainLists, ChainRooms, Columns,
    DistanceArgs, EdgeArgs, FlowArgs, Input, InternArgs, LabelArgs, ModelArgs, NetworkArgs,
    NodesArgs, NormaliseArgs, Options, RateArgs, ReadArgs, RealArgs, RelatedArgs, RelationArgs,
    Rooms, RowsArgs, RunArgs, TransportArgs, UniformiseArgs,
};

use crate::generate::network::list_links;
use crate::network::LINKS;

/// A place of an input.
#[derive(Debug)]
pub enum Leaf<'a> {
    Count(&'a mut usize),
    /// The length of memory that is lent.
    Room(&'a mut usize),
    Id(&'a mut u32),
    Maybe(&'a mut Option<u32>),
    Real(&'a mut f64),
    Ids(&'a mut Vec<u32>),
    Reals(&'a mut Vec<f64>),
    Bytes(&'a mut Vec<u8>),
    /// Lent lists: only their lengths are changed.
    LentIds(&'a mut Vec<u32>),
    LentReals(&'a mut Vec<f64>),
    LentBytes(&'a mut Vec<u8>),
}

/// What stands at a place.
#[derive(Debug, Clone, Copy, PartialEq)]
pub enum Held {
    Number(u64),
    Byte(u8),
    Absent,
    Real(f64),
}

/// The same expression for each kind of list; another one for single values.
macro_rules! for_lists {
    ($leaf:expr, $list:ident => $each:expr, $other:expr) => {
        match $leaf {
            Leaf::Ids($list) | Leaf::LentIds($list) => $each,
            Leaf::Reals($list) | Leaf::LentReals($list) => $each,
            Leaf::Bytes($list) | Leaf::LentBytes($list) => $each,
            _ => $other,
        }
    };
}

impl Leaf<'_> {
    pub fn lent(&self) -> bool {
        matches!(
            self,
            Leaf::LentIds(_) | Leaf::LentReals(_) | Leaf::LentBytes(_)
        )
    }

    /// How long the list is; none of a single value.
    pub fn list(&self) -> Option<usize> {
        for_lists!(self, list => Some(list.len()), None)
    }

    /// How many values can be changed.
    pub fn places(&self) -> usize {
        if self.lent() {
            return 0;
        }
        self.list().unwrap_or(1)
    }

    pub fn get(&self, k: usize) -> Held {
        match self {
            Leaf::Count(n) | Leaf::Room(n) => Held::Number(**n as u64),
            Leaf::Id(n) => Held::Number((**n).into()),
            Leaf::Maybe(n) => n.map_or(Held::Absent, |n| Held::Number(n.into())),
            Leaf::Real(x) => Held::Real(**x),
            Leaf::Ids(list) | Leaf::LentIds(list) => Held::Number(list[k].into()),
            Leaf::Reals(list) | Leaf::LentReals(list) => Held::Real(list[k]),
            Leaf::Bytes(list) | Leaf::LentBytes(list) => Held::Byte(list[k]),
        }
    }

    /// Puts a value there, of the kind that the place has; any other is left out.
    pub fn set(&mut self, k: usize, held: Held) {
        match (self, held) {
            (Leaf::Count(n) | Leaf::Room(n), Held::Number(value)) => **n = value as usize,
            (Leaf::Id(n), Held::Number(value)) => **n = value as u32,
            (Leaf::Maybe(n), Held::Number(value)) => **n = Some(value as u32),
            (Leaf::Maybe(n), Held::Absent) => **n = None,
            (Leaf::Real(x), Held::Real(value)) => **x = value,
            (Leaf::Ids(list), Held::Number(value)) => list[k] = value as u32,
            (Leaf::Reals(list), Held::Real(value)) => list[k] = value,
            (Leaf::Bytes(list), Held::Byte(value)) => list[k] = value,
            _ => {}
        }
    }

    /// Takes the entries `from..to` out of a list.
    pub fn cut(&mut self, from: usize, to: usize) {
        for_lists!(self, list => drop(list.drain(from..to)), {});
    }

    /// The entry once more, after itself.
    pub fn double(&mut self, k: usize) {
        for_lists!(self, list => list.insert(k, list[k]), {});
    }

    pub fn swap(&mut self, i: usize, j: usize) {
        for_lists!(self, list => list.swap(i, j), {});
    }

    /// What another input has there.
    pub fn copy(&mut self, other: &Leaf) {
        match (self, other) {
            (Leaf::Count(a), Leaf::Count(b)) | (Leaf::Room(a), Leaf::Room(b)) => **a = **b,
            (Leaf::Id(a), Leaf::Id(b)) => **a = **b,
            (Leaf::Maybe(a), Leaf::Maybe(b)) => **a = **b,
            (Leaf::Real(a), Leaf::Real(b)) => **a = **b,
            (Leaf::Ids(a), Leaf::Ids(b)) => a.clone_from(b),
            (Leaf::Reals(a), Leaf::Reals(b)) => a.clone_from(b),
            (Leaf::Bytes(a), Leaf::Bytes(b)) => a.clone_from(b),
            _ => {}
        }
    }
}

/// An input that can be made smaller and changed place by place.
pub trait Leaves: Input {
    fn leaves(&mut self) -> Vec<Leaf<'_>>;

    /// How many states or nodes it has that can be taken out.
    fn states(&self) -> usize {
        0
    }

    /// Without a state, what leaves it and what leads to it; the later ones move up.
    fn without_state(&self, _s: usize) -> Self {
        self.clone()
    }

    /// With a state made one with the state before it; the later ones move up.
    fn merged(&self, _s: usize) -> Option<Self> {
        None
    }

    /// Of other inputs that are shorter by a part, the k-th.
    fn other(&self, _k: usize) -> Option<Self> {
        None
    }
}

/// Takes out the entry, where there is one.
fn drop_at<T>(list: &mut Vec<T>, k: usize) {
    if k < list.len() {
        list.remove(k);
    }
}

/// Numbers of states after state s has become the one before it.
fn merge(list: &mut [u32], s: usize) {
    for n in list.iter_mut().filter(|n| **n as usize >= s) {
        *n -= 1;
    }
}

/// Numbers of states after state s is gone.
fn move_up(list: &mut [u32], s: usize) {
    for n in list.iter_mut().filter(|n| **n as usize > s) {
        *n -= 1;
    }
}

impl Columns {
    fn leaves(&mut self) -> Vec<Leaf<'_>> {
        vec![
            Leaf::Ids(&mut self.label_values),
            Leaf::Ids(&mut self.offsets),
            Leaf::Ids(&mut self.edge_labels),
            Leaf::Ids(&mut self.edge_targets),
            Leaf::Reals(&mut self.edge_weights),
        ]
    }

    fn lent(&mut self) -> Vec<Leaf<'_>> {
        vec![
            Leaf::LentIds(&mut self.label_values),
            Leaf::LentIds(&mut self.offsets),
            Leaf::LentIds(&mut self.edge_labels),
            Leaf::LentIds(&mut self.edge_targets),
            Leaf::LentReals(&mut self.edge_weights),
        ]
    }
}

impl ModelArgs {
    fn leaves(&mut self) -> Vec<Leaf<'_>> {
        let mut leaves = vec![
            Leaf::Count(&mut self.states),
            Leaf::Count(&mut self.edges),
            Leaf::Count(&mut self.labels),
            Leaf::Maybe(&mut self.initial),
        ];
        leaves.extend(self.columns.leaves());
        leaves
    }

    /// States whose offset is listed.
    fn listed_states(&self) -> usize {
        self.states.min(self.columns.offsets.len())
    }

    fn without_state(&self, s: usize) -> Self {
        let at = |k: usize| self.columns.offsets.get(k).map_or(0, |&o| o as usize);
        let own = at(s)..at(s + 1);
        let mut m = self.clone();
        for e in (0..self.listed()).rev() {
            if own.contains(&e) || self.columns.edge_targets[e] as usize == s {
                m = m.without(e, e + 1);
            }
        }
        m.states -= 1;
        drop_at(&mut m.columns.offsets, s);
        move_up(&mut m.columns.edge_targets, s);
        move_up(m.initial.as_mut_slice(), s);
        m
    }

    /// The edges of state s are those of the state before it too.
    fn merged(&self, s: usize) -> Self {
        let mut m = self.clone();
        m.states -= 1;
        drop_at(&mut m.columns.offsets, s);
        merge(&mut m.columns.edge_targets, s);
        merge(m.initial.as_mut_slice(), s);
        m
    }
}

impl ChainLists {
    fn leaves(&mut self) -> Vec<Leaf<'_>> {
        vec![
            Leaf::Ids(&mut self.offsets),
            Leaf::Ids(&mut self.targets),
            Leaf::Reals(&mut self.probabilities),
            Leaf::Reals(&mut self.observations),
        ]
    }

    fn lent(&mut self) -> Vec<Leaf<'_>> {
        vec![
            Leaf::LentIds(&mut self.offsets),
            Leaf::LentIds(&mut self.targets),
            Leaf::LentReals(&mut self.probabilities),
            Leaf::LentReals(&mut self.observations),
        ]
    }
}

impl ChainArgs {
    fn leaves(&mut self) -> Vec<Leaf<'_>> {
        let mut leaves = vec![
            Leaf::Count(&mut self.states),
            Leaf::Count(&mut self.entries),
            Leaf::Id(&mut self.initial),
        ];
        leaves.extend(self.lists.leaves());
        leaves
    }

    fn listed_states(&self) -> usize {
        self.states.min(self.lists.offsets.len())
    }

    fn without_state(&self, s: usize) -> Self {
        let at = |k: usize| self.lists.offsets.get(k).map_or(0, |&o| o as usize);
        let own = at(s)..at(s + 1);
        let mut c = self.clone();
        for e in (0..self.listed()).rev() {
            if own.contains(&e) || self.lists.targets[e] as usize == s {
                c = c.without(e, e + 1);
            }
        }
        c.states -= 1;
        drop_at(&mut c.lists.offsets, s);
        drop_at(&mut c.lists.observations, s);
        move_up(&mut c.lists.targets, s);
        move_up(std::slice::from_mut(&mut c.initial), s);
        c
    }

    /// What leads to state s leads to the state before it; the entries of s are left out.
    fn merged(&self, s: usize) -> Self {
        let at = |k: usize| self.lists.offsets.get(k).map_or(0, |&o| o as usize);
        let own = at(s)..at(s + 1);
        let mut c = self.clone();
        for e in (0..self.listed()).rev().filter(|e| own.contains(e)) {
            c = c.without(e, e + 1);
        }
        c.states -= 1;
        drop_at(&mut c.lists.offsets, s);
        drop_at(&mut c.lists.observations, s);
        merge(&mut c.lists.targets, s);
        merge(std::slice::from_mut(&mut c.initial), s);
        for e in (1..c.listed()).rev() {
            let starts = c.lists.offsets.contains(&(e as u32));
            if !starts && c.lists.targets[e] == c.lists.targets[e - 1] {
                c = c.joined(e - 1);
            }
        }
        c
    }

    /// Without entry k, whose probability goes to the one before it.
    fn joined(&self, k: usize) -> Self {
        let mut c = self.without(k + 1, k + 2);
        c.lists.probabilities[k] += self.lists.probabilities[k + 1];
        c
    }

    /// How many entries have one after them.
    fn joints(&self) -> usize {
        self.listed().saturating_sub(1)
    }
}

impl NetworkArgs {
    fn leaves(&mut self) -> Vec<Leaf<'_>> {
        vec![
            Leaf::Count(&mut self.nodes),
            Leaf::Count(&mut self.count),
            Leaf::Ids(&mut self.heads),
            Leaf::Reals(&mut self.caps),
            Leaf::Reals(&mut self.costs),
            Leaf::Ids(&mut self.starts),
            Leaf::Ids(&mut self.list),
        ]
    }

    fn without_node(&self, u: usize) -> Self {
        let mut n = self.clone();
        for k in (0..self.pairs()).rev() {
            if self.heads[2 * k..2 * k + 2].contains(&(u as u32)) {
                n = n.without(k, k + 1);
            }
        }
        n.nodes -= 1;
        drop_at(&mut n.starts, u);
        move_up(&mut n.heads, u);
        n
    }

    /// Node u is made one with the node before it; links between the two are left out, and the node lists made anew.
    fn merged(&self, u: usize) -> Option<Self> {
        if self.count > LINKS || self.count % 2 == 1 || self.nodes > LINKS {
            return None;
        }
        let mut n = self.clone();
        n.heads.resize(n.count, 0);
        n.caps.resize(n.count, 0.0);
        n.costs.resize(n.count, 0.0);
        merge(&mut n.heads, u);
        n.nodes -= 1;
        for k in (0..n.pairs()).rev() {
            if n.heads[2 * k] == n.heads[2 * k + 1] {
                n = n.without(k, k + 1);
            }
        }
        list_links(&mut n);
        Some(n)
    }
}

/// The number of a node after node u is gone.
fn moved_up(node: usize, u: usize) -> usize {
    node - usize::from(node > u)
}

impl Leaves for RealArgs {
    fn leaves(&mut self) -> Vec<Leaf<'_>> {
        vec![Leaf::Real(&mut self.x), Leaf::Reals(&mut self.xs)]
    }
}

impl Leaves for InternArgs {
    fn leaves(&mut self) -> Vec<Leaf<'_>> {
        vec![
            Leaf::Ids(&mut self.labels),
            Leaf::Count(&mut self.count),
            Leaf::Id(&mut self.value),
        ]
    }
}

impl Leaves for LabelArgs {
    fn leaves(&mut self) -> Vec<Leaf<'_>> {
        vec![
            Leaf::Ids(&mut self.labels),
            Leaf::Count(&mut self.count),
            Leaf::Id(&mut self.value),
            Leaf::Id(&mut self.id),
        ]
    }
}

impl Leaves for BuildArgs {
    fn leaves(&mut self) -> Vec<Leaf<'_>> {
        let mut leaves = vec![
            Leaf::Count(&mut self.states),
            Leaf::Maybe(&mut self.initial),
            Leaf::Count(&mut self.given),
            Leaf::Ids(&mut self.sources),
            Leaf::Ids(&mut self.labels),
            Leaf::Ids(&mut self.targets),
            Leaf::Reals(&mut self.weights),
        ];
        leaves.extend(self.stores.lent());
        leaves
    }

    fn states(&self) -> usize {
        self.states.min(5_000)
    }

    fn without_state(&self, s: usize) -> Self {
        let touches = |i: usize| {
            let ends = [self.sources.get(i), self.targets.get(i)];
            ends.into_iter().flatten().any(|&end| end as usize == s)
        };
        let mut a = self.clone();
        for i in (0..self.parts()).rev().filter(|&i| touches(i)) {
            a = a.without(i, i + 1);
        }
        a.states -= 1;
        move_up(&mut a.sources, s);
        move_up(&mut a.targets, s);
        move_up(a.initial.as_mut_slice(), s);
        a
    }

    fn merged(&self, s: usize) -> Option<Self> {
        let mut a = self.clone();
        a.states -= 1;
        merge(&mut a.sources, s);
        merge(&mut a.targets, s);
        merge(a.initial.as_mut_slice(), s);
        Some(a)
    }
}

impl Leaves for ReadArgs {
    fn leaves(&mut self) -> Vec<Leaf<'_>> {
        let mut leaves = self.model.leaves();
        leaves.push(Leaf::Id(&mut self.s));
        leaves.push(Leaf::Id(&mut self.id));
        leaves.push(Leaf::Id(&mut self.value));
        leaves
    }

    fn states(&self) -> usize {
        self.model.listed_states()
    }

    fn without_state(&self, s: usize) -> Self {
        let mut a = self.clone();
        a.model = self.model.without_state(s);
        move_up(std::slice::from_mut(&mut a.s), s);
        a
    }

    fn merged(&self, s: usize) -> Option<Self> {
        let mut a = self.clone();
        a.model = self.model.merged(s);
        merge(std::slice::from_mut(&mut a.s), s);
        Some(a)
    }

    /// Without an edge.
    fn other(&self, k: usize) -> Option<Self> {
        (k < self.model.listed()).then(|| Self {
            model: self.model.without(k, k + 1),
            ..*self
        })
    }
}

impl Leaves for FlowArgs {
    fn leaves(&mut self) -> Vec<Leaf<'_>> {
        let mut leaves = self.network.leaves();
        leaves.push(Leaf::Count(&mut self.source));
        leaves.push(Leaf::Count(&mut self.sink));
        leaves
    }

    fn states(&self) -> usize {
        self.network.nodes.min(100)
    }

    fn without_state(&self, u: usize) -> Self {
        Self {
            network: self.network.without_node(u),
            source: moved_up(self.source, u),
            sink: moved_up(self.sink, u),
        }
    }

    fn merged(&self, u: usize) -> Option<Self> {
        Some(Self {
            network: self.network.merged(u)?,
            source: moved_up(self.source, u - 1),
            sink: moved_up(self.sink, u - 1),
        })
    }
}

impl Leaves for EdgeArgs {
    fn leaves(&mut self) -> Vec<Leaf<'_>> {
        let mut leaves = self.network.leaves();
        leaves.push(Leaf::Count(&mut self.from));
        leaves.push(Leaf::Count(&mut self.to));
        leaves.push(Leaf::Real(&mut self.capacity));
        leaves.push(Leaf::Real(&mut self.cost));
        leaves
    }

    fn states(&self) -> usize {
        self.network.nodes.min(100)
    }

    fn without_state(&self, u: usize) -> Self {
        Self {
            network: self.network.without_node(u),
            from: moved_up(self.from, u),
            to: moved_up(self.to, u),
            ..*self
        }
    }

    fn merged(&self, u: usize) -> Option<Self> {
        Some(Self {
            network: self.network.merged(u)?,
            from: moved_up(self.from, u - 1),
            to: moved_up(self.to, u - 1),
            ..*self
        })
    }
}

/// An input of one part, with another kind of case.
macro_rules! as_kind {
    ($args:ident) => {
        impl Leaves for $args {
            fn leaves(&mut self) -> Vec<Leaf<'_>> {
                self.0.leaves()
            }

            fn states(&self) -> usize {
                self.0.states()
            }

            fn without_state(&self, s: usize) -> Self {
                Self(self.0.without_state(s))
            }

            fn merged(&self, s: usize) -> Option<Self> {
                self.0.merged(s).map(Self)
            }
        }
    };
}

as_kind!(RunArgs);

/// The rows must stay as long as there are links in use, so no list is changed by itself.
impl Leaves for RowsArgs {
    fn leaves(&mut self) -> Vec<Leaf<'_>> {
        let a = &mut self.0;
        vec![Leaf::Count(&mut a.source), Leaf::Count(&mut a.sink)]
    }

    fn states(&self) -> usize {
        self.0.states()
    }

    fn without_state(&self, u: usize) -> Self {
        Self(self.0.without_state(u))
    }

    fn merged(&self, u: usize) -> Option<Self> {
        self.0.merged(u).map(Self)
    }
}

impl Leaves for NodesArgs {
    fn leaves(&mut self) -> Vec<Leaf<'_>> {
        vec![Leaf::Count(&mut self.nodes)]
    }
}

impl Leaves for TransportArgs {
    fn leaves(&mut self) -> Vec<Leaf<'_>> {
        vec![
            Leaf::Reals(&mut self.a),
            Leaf::Reals(&mut self.b),
            Leaf::Reals(&mut self.costs),
            Leaf::LentIds(&mut self.plan_rows),
            Leaf::LentIds(&mut self.plan_columns),
            Leaf::LentReals(&mut self.plan_masses),
        ]
    }

    /// A mass is given to the first of its side.
    fn other(&self, k: usize) -> Option<Self> {
        let (m, n) = (self.a.len(), self.b.len());
        let left = m.saturating_sub(1);
        if k < left {
            let mut t = self.without(k + 1, k + 2);
            t.a[0] += self.a[k + 1];
            return Some(t);
        }
        let j = 1 + k - left;
        (j < n).then(|| {
            let mut t = self.without(m + j, m + j + 1);
            t.b[0] += self.b[j];
            t
        })
    }
}

impl Leaves for RateArgs {
    fn leaves(&mut self) -> Vec<Leaf<'_>> {
        let mut leaves = self.left.leaves();
        leaves.extend(self.right.leaves());
        leaves
    }

    fn states(&self) -> usize {
        self.left.listed_states() + self.right.listed_states()
    }

    fn without_state(&self, s: usize) -> Self {
        let left = self.left.listed_states();
        let mut a = self.clone();
        match s < left {
            true => a.left = self.left.without_state(s),
            false => a.right = self.right.without_state(s - left),
        }
        a
    }

    fn merged(&self, s: usize) -> Option<Self> {
        let left = self.left.listed_states();
        let mut a = self.clone();
        match s < left {
            true => a.left = self.left.merged(s),
            false if s > left => a.right = self.right.merged(s - left),
            false => return None,
        }
        Some(a)
    }
}

impl Leaves for UniformiseArgs {
    fn leaves(&mut self) -> Vec<Leaf<'_>> {
        let mut leaves = self.model.leaves();
        leaves.push(Leaf::Real(&mut self.rate));
        leaves.push(Leaf::Reals(&mut self.observations));
        leaves.extend(self.chain.lent());
        leaves
    }

    fn states(&self) -> usize {
        self.model.listed_states()
    }

    fn without_state(&self, s: usize) -> Self {
        let mut a = self.clone();
        a.model = self.model.without_state(s);
        drop_at(&mut a.observations, s);
        a
    }

    fn merged(&self, s: usize) -> Option<Self> {
        let mut a = self.clone();
        a.model = self.model.merged(s);
        drop_at(&mut a.observations, s);
        Some(a)
    }
}

/// The chains of an input: both sides in turn.
macro_rules! chains {
    () => {
        fn states(&self) -> usize {
            self.left.listed_states() + self.right.listed_states()
        }

        fn without_state(&self, s: usize) -> Self {
            let left = self.left.listed_states();
            let mut a = self.clone();
            match s < left {
                true => a.left = self.left.without_state(s),
                false => a.right = self.right.without_state(s - left),
            }
            a
        }

        fn merged(&self, s: usize) -> Option<Self> {
            let left = self.left.listed_states();
            let mut a = self.clone();
            match s < left {
                true => a.left = self.left.merged(s),
                false if s > left => a.right = self.right.merged(s - left),
                false => return None,
            }
            Some(a)
        }

        fn other(&self, k: usize) -> Option<Self> {
            let left = self.left.joints();
            let mut a = self.clone();
            match k < left {
                true => a.left = self.left.joined(k),
                false if k - left < self.right.joints() => a.right = self.right.joined(k - left),
                false => return None,
            }
            Some(a)
        }
    };
}

impl Leaves for NormaliseArgs {
    fn leaves(&mut self) -> Vec<Leaf<'_>> {
        let mut leaves = self.left.leaves();
        leaves.extend(self.right.leaves());
        leaves
    }

    chains!();
}

impl Options {
    fn leaves(&mut self) -> [Leaf<'_>; 4] {
        [
            Leaf::Real(&mut self.gamma),
            Leaf::Real(&mut self.tolerance),
            Leaf::Count(&mut self.max_rounds),
            Leaf::Count(&mut self.top),
        ]
    }
}

impl Rooms {
    fn leaves(&mut self) -> [Leaf<'_>; 6] {
        [
            &mut self.lefts,
            &mut self.rights,
            &mut self.index,
            &mut self.places,
            &mut self.masses,
            &mut self.records,
        ]
        .map(Leaf::Room)
    }
}

impl ChainRooms {
    fn leaves(&mut self) -> [Leaf<'_>; 4] {
        [
            &mut self.offsets,
            &mut self.targets,
            &mut self.probabilities,
            &mut self.observations,
        ]
        .map(Leaf::Room)
    }
}

impl Leaves for DistanceArgs {
    fn leaves(&mut self) -> Vec<Leaf<'_>> {
        let mut leaves = self.left.leaves();
        leaves.extend(self.right.leaves());
        leaves.extend(self.options.leaves());
        leaves.extend(self.rooms.leaves());
        leaves
    }

    chains!();
}

impl BisimSide {
    fn leaves(&mut self) -> Vec<Leaf<'_>> {
        let mut leaves = self.model.leaves();
        leaves.push(Leaf::Id(&mut self.state));
        leaves.push(Leaf::Reals(&mut self.observations));
        leaves.extend(self.rooms.leaves());
        leaves
    }

    fn without_state(&self, s: usize) -> Self {
        let mut side = self.clone();
        side.model = self.model.without_state(s);
        drop_at(&mut side.observations, s);
        move_up(std::slice::from_mut(&mut side.state), s);
        side
    }

    fn merged(&self, s: usize) -> Self {
        let mut side = self.clone();
        side.model = self.model.merged(s);
        drop_at(&mut side.observations, s);
        merge(std::slice::from_mut(&mut side.state), s);
        side
    }
}

impl Leaves for BisimArgs {
    fn leaves(&mut self) -> Vec<Leaf<'_>> {
        let mut leaves = self.left.leaves();
        leaves.extend(self.right.leaves());
        leaves.extend(self.options.leaves());
        leaves.extend(self.rooms.leaves());
        leaves
    }

    fn states(&self) -> usize {
        self.left.model.listed_states() + self.right.model.listed_states()
    }

    fn without_state(&self, s: usize) -> Self {
        let left = self.left.model.listed_states();
        let mut a = self.clone();
        match s < left {
            true => a.left = self.left.without_state(s),
            false => a.right = self.right.without_state(s - left),
        }
        a
    }

    fn merged(&self, s: usize) -> Option<Self> {
        let left = self.left.model.listed_states();
        let mut a = self.clone();
        match s < left {
            true => a.left = self.left.merged(s),
            false if s > left => a.right = self.right.merged(s - left),
            false => return None,
        }
        Some(a)
    }
}

impl Leaves for RelationArgs {
    fn leaves(&mut self) -> Vec<Leaf<'_>> {
        let mut leaves = self.left.leaves();
        leaves.extend(self.right.leaves());
        leaves.push(Leaf::Ids(&mut self.left_classes));
        leaves.push(Leaf::Ids(&mut self.right_classes));
        leaves.push(Leaf::Real(&mut self.epsilon));
        leaves.push(Leaf::Real(&mut self.rho));
        leaves.push(Leaf::LentBytes(&mut self.relation));
        leaves
    }

    fn states(&self) -> usize {
        self.left.listed_states() + self.right.listed_states()
    }

    fn without_state(&self, s: usize) -> Self {
        let left = self.left.listed_states();
        let mut a = self.clone();
        if s < left {
            a.left = self.left.without_state(s);
            drop_at(&mut a.left_classes, s);
        } else {
            a.right = self.right.without_state(s - left);
            drop_at(&mut a.right_classes, s - left);
        }
        a
    }

    fn merged(&self, s: usize) -> Option<Self> {
        let left = self.left.listed_states();
        let mut a = self.clone();
        if s < left {
            a.left = self.left.merged(s);
            drop_at(&mut a.left_classes, s);
        } else if s > left {
            a.right = self.right.merged(s - left);
            drop_at(&mut a.right_classes, s - left);
        } else {
            return None;
        }
        Some(a)
    }
}

impl Leaves for RelatedArgs {
    fn leaves(&mut self) -> Vec<Leaf<'_>> {
        vec![
            Leaf::Count(&mut self.left_states),
            Leaf::Count(&mut self.right_states),
            Leaf::LentBytes(&mut self.relation),
            Leaf::Id(&mut self.s),
            Leaf::Id(&mut self.t),
        ]
    }
}

/// The columns of a model's head line.
const HEAD: usize = 3;
const COLUMN: usize = 6;

impl CardArgs {
    fn with(&self, card: Vec<u8>) -> Self {
        let out = self.out.clone();
        Self { card, out }
    }

    /// Without a line, and with one less in a column of a line of three columns, so that what is counted there is fewer;
    /// none past the last such way.
    fn without_line(&self, k: usize) -> Result<Self, usize> {
        let lines = self.card.split_inclusive(|&b| b == b'\n');
        let mut lines: Vec<Vec<u8>> = lines.map(Vec::from).collect();
        let long = |line: &Vec<u8>| line.len() == HEAD * COLUMN + 1;
        let heads = (0..lines.len()).filter(|&i| long(&lines[i])).take(2);
        let heads: Vec<usize> = heads.collect();
        let ways = 1 + HEAD * heads.len();
        let (line, way) = (k / ways, k % ways);
        if line >= lines.len() {
            return Err(k - ways * lines.len());
        }
        if way > 0 {
            let (head, column) = (heads[(way - 1) / HEAD], (way - 1) % HEAD);
            let column = &mut lines[head][column * COLUMN..(column + 1) * COLUMN];
            let less = number(column).unwrap_or(0).saturating_sub(1);
            column.copy_from_slice(format!("{less:>6}").as_bytes());
        }
        lines.remove(line);
        Ok(self.with(lines.concat()))
    }

    /// The columns that hold a number, with smaller ones.
    fn smaller(&self) -> Vec<(usize, usize)> {
        let mut list = Vec::new();
        let mut at = 0;
        while at + COLUMN <= self.card.len() {
            if self.card[at] == b'\n' {
                at += 1;
                continue;
            }
            if let Some(n) = number(&self.card[at..at + COLUMN]) {
                let fewer = [0, n / 2, n.saturating_sub(1)];
                list.extend(fewer.into_iter().filter(|&m| m < n).map(|m| (at, m)));
            }
            at += COLUMN;
        }
        list
    }
}

/// The number in a column.
fn number(column: &[u8]) -> Option<usize> {
    str::from_utf8(column).ok()?.trim().parse().ok()
}

impl Leaves for CardArgs {
    fn leaves(&mut self) -> Vec<Leaf<'_>> {
        vec![Leaf::Bytes(&mut self.card), Leaf::LentBytes(&mut self.out)]
    }

    /// A line less, or a smaller number.
    fn other(&self, k: usize) -> Option<Self> {
        let k = match self.without_line(k) {
            Ok(card) => return Some(card),
            Err(k) => k,
        };
        let (at, n) = *self.smaller().get(k)?;
        let mut card = self.card.clone();
        card[at..at + COLUMN].copy_from_slice(format!("{n:>6}").as_bytes());
        Some(self.with(card))
    }
}
