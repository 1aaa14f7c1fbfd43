//! The arguments of `distance` and `bisim_distance`, and the memory that is lent to them.

use super::{ChainArgs, Input, ModelArgs, cut, moved, number, numbers, real, reals};
use crate::text::{Field, Value};

/// What both take beside two chains or two models.
#[derive(Debug, Clone, Copy)]
pub struct Options {
    pub gamma: f64,
    pub tolerance: f64,
    pub max_rounds: usize,
    pub top: usize,
}

/// How many entries are lent: three lists of pairs, both columns of the coupling store, the records.
#[derive(Debug, Clone, Copy)]
pub struct Rooms {
    pub lefts: usize,
    pub rights: usize,
    pub index: usize,
    pub places: usize,
    pub masses: usize,
    pub records: usize,
}

/// `distance` of two chains.
#[derive(Debug, Clone)]
pub struct DistanceArgs {
    pub left: ChainArgs,
    pub right: ChainArgs,
    pub options: Options,
    pub rooms: Rooms,
}

/// How many entries are lent for a chain that is made.
#[derive(Debug, Clone, Copy)]
pub struct ChainRooms {
    pub offsets: usize,
    pub targets: usize,
    pub probabilities: usize,
    pub observations: usize,
}

/// A model, the state that is asked for, the observations, and what is lent for its chain.
#[derive(Debug, Clone)]
pub struct BisimSide {
    pub model: ModelArgs,
    pub state: u32,
    pub observations: Vec<f64>,
    pub rooms: ChainRooms,
}

/// `bisim_distance` of two models.
#[derive(Debug, Clone)]
pub struct BisimArgs {
    pub left: BisimSide,
    pub right: BisimSide,
    pub options: Options,
    pub rooms: Rooms,
}

/// A contribution record, with numbers as the interface has them.
#[derive(Debug, Clone, Copy, PartialEq)]
pub struct Record {
    pub left: u32,
    pub right: u32,
    pub gap: f64,
    pub occupancy: f64,
    pub contribution: f64,
}

/// The memory of a run, filled with marks.
#[derive(Debug, Clone)]
pub struct Lent {
    pub lefts: Vec<u32>,
    pub rights: Vec<u32>,
    pub index: Vec<u64>,
    pub places: Vec<u32>,
    pub masses: Vec<f64>,
    pub records: Vec<Record>,
}

/// The marks of place k: no result has them there, and none is zero.
const MARK: u32 = 5_000;

fn mark(k: usize) -> u32 {
    MARK + k as u32
}

fn real_mark(k: usize) -> f64 {
    -1.0 - k as f64
}

fn record_mark(k: usize) -> Record {
    Record {
        left: mark(k),
        right: mark(k),
        gap: real_mark(k),
        occupancy: real_mark(k),
        contribution: real_mark(k),
    }
}

/// So many marked numbers.
pub fn marked(length: usize) -> Vec<u32> {
    (0..length).map(mark).collect()
}

/// So many marked floats.
pub fn real_marked(length: usize) -> Vec<f64> {
    (0..length).map(real_mark).collect()
}

/// As the text form has it: 0 where all entries are marks, 1 where all are zero, 2 otherwise.
fn state<T: Copy>(list: &[T], marks: impl Fn(usize, T) -> bool, zero: impl Fn(T) -> bool) -> u64 {
    if list.iter().enumerate().all(|(k, &x)| marks(k, x)) {
        0
    } else if list.iter().all(|&x| zero(x)) {
        1
    } else {
        2
    }
}

/// The state of numbers that were marked.
pub fn state_of(list: &[u32]) -> u64 {
    state(list, |k, x| x == mark(k), |x| x == 0)
}

/// The state of floats that were marked.
pub fn real_state_of(list: &[f64]) -> u64 {
    state(list, |k, x| x == real_mark(k), |x| x == 0.0)
}

impl Rooms {
    /// The memory before a call.
    pub fn lent(&self) -> Lent {
        Lent {
            lefts: marked(self.lefts),
            rights: marked(self.rights),
            index: marked(self.index).into_iter().map(u64::from).collect(),
            places: marked(self.places),
            masses: real_marked(self.masses),
            records: (0..self.records).map(record_mark).collect(),
        }
    }

    fn list(&self) -> [usize; 6] {
        [
            self.lefts,
            self.rights,
            self.index,
            self.places,
            self.masses,
            self.records,
        ]
    }

    /// The states of the scratch: zero where a call passes 1 to 15. Of no entries they are marks.
    pub fn scratch(&self, zero: bool) -> Vec<u64> {
        let lists = self.list();
        lists[..5].iter().map(|&n| swept(n, zero)).collect()
    }
}

/// The state of so many entries.
fn swept(length: usize, zero: bool) -> u64 {
    u64::from(zero && length > 0)
}

impl ChainRooms {
    fn list(&self) -> [usize; 4] {
        [
            self.offsets,
            self.targets,
            self.probabilities,
            self.observations,
        ]
    }

    /// The states of the four lists.
    pub fn scratch(&self, zero: bool) -> Vec<u64> {
        self.list().map(|n| swept(n, zero)).to_vec()
    }
}

impl Lent {
    /// The states of the scratch as a call left it.
    pub fn scratch(&self) -> Vec<u64> {
        vec![
            state_of(&self.lefts),
            state_of(&self.rights),
            state(&self.index, |k, x| x == mark(k).into(), |x| x == 0),
            state_of(&self.places),
            real_state_of(&self.masses),
        ]
    }

    /// The lines after an answer: the first so many records, and whether scratch and later records are as they were.
    pub fn fields(&self, contributions: usize, mut scratch: Vec<u64>) -> Vec<Field> {
        let count = contributions.min(self.records.len());
        let (front, rest) = self.records.split_at(count);
        let kept = |(k, r): (usize, &Record)| *r == record_mark(count + k);
        scratch.push(if rest.iter().enumerate().all(kept) {
            0
        } else {
            2
        });
        let number = |of: fn(&Record) -> u32| front.iter().map(of).collect::<Vec<_>>();
        let real = |of: fn(&Record) -> f64| front.iter().map(of).collect::<Vec<_>>();
        vec![
            numbers("lefts", &number(|r| r.left)),
            numbers("rights", &number(|r| r.right)),
            reals("gaps", &real(|r| r.gap)),
            reals("occupancies", &real(|r| r.occupancy)),
            reals("contributions", &real(|r| r.contribution)),
            Field {
                name: "swept",
                value: Value::Numbers(scratch),
            },
        ]
    }
}

impl Options {
    /// The four lines.
    fn fields(&self) -> [Field; 4] {
        [
            real("gamma", self.gamma),
            real("tolerance", self.tolerance),
            number("max_rounds", self.max_rounds as u64),
            number("top", self.top as u64),
        ]
    }
}

fn rooms(list: &[usize]) -> Field {
    Field {
        name: "rooms",
        value: Value::Numbers(list.iter().map(|&n| n as u64).collect()),
    }
}

impl ChainArgs {
    /// Entries that are listed.
    pub(super) fn listed(&self) -> usize {
        let l = &self.lists;
        let listed = l.targets.len().min(l.probabilities.len());
        listed.min(self.entries)
    }

    /// Without the entries `from..to`.
    pub(super) fn without(&self, from: usize, to: usize) -> Self {
        let l = &self.lists;
        let mut c = self.clone();
        c.entries -= to - from;
        c.lists.offsets = l.offsets.iter().map(|&o| moved(o, from, to)).collect();
        c.lists.targets = cut(&l.targets, from, to);
        c.lists.probabilities = cut(&l.probabilities, from, to);
        c
    }
}

impl Input for DistanceArgs {
    const KIND: &'static str = "distance";

    fn fields(&self) -> Vec<Field> {
        let mut fields = [self.left.fields(), self.right.fields()].concat();
        fields.extend(self.options.fields());
        fields.push(rooms(&self.rooms.list()));
        fields
    }

    /// The entries of both chains.
    fn parts(&self) -> usize {
        self.left.listed() + self.right.listed()
    }

    fn without(&self, from: usize, to: usize) -> Self {
        let left = self.left.listed();
        let right = |entry: usize| entry.saturating_sub(left);
        Self {
            left: self.left.without(from.min(left), to.min(left)),
            right: self.right.without(right(from), right(to)),
            ..self.clone()
        }
    }
}

impl BisimSide {
    fn fields(&self) -> Vec<Field> {
        let mut fields = self.model.fields();
        fields.push(number("state", self.state.into()));
        fields.push(reals("observations", &self.observations));
        fields.push(rooms(&self.rooms.list()));
        fields
    }
}

impl Input for BisimArgs {
    const KIND: &'static str = "bisim_distance";

    fn fields(&self) -> Vec<Field> {
        let mut fields = [self.left.fields(), self.right.fields()].concat();
        fields.extend(self.options.fields());
        fields.push(rooms(&self.rooms.list()));
        fields
    }

    /// The edges of both models.
    fn parts(&self) -> usize {
        self.left.model.listed() + self.right.model.listed()
    }

    fn without(&self, from: usize, to: usize) -> Self {
        let left = self.left.model.listed();
        let right = |edge: usize| edge.saturating_sub(left);
        let mut a = self.clone();
        a.left.model = self.left.model.without(from.min(left), to.min(left));
        a.right.model = self.right.model.without(right(from), right(to));
        a
    }
}
