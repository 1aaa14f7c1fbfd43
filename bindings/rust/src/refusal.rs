//! Why a call was turned back.

use std::fmt;

/// Why a call was turned back: a variant for each number of document 01's list of refusals. Its `Display` says what is
/// wrong and what to mend.
///
/// ```
/// use tanqesha::{Model, Refusal, StateId};
///
/// let refusal = Model::build(2, Some(StateId(2)), &[]).unwrap_err();
/// assert_eq!((refusal, refusal.number()), (Refusal::OutOfRange, 4));
/// println!("{refusal}");
/// ```
#[derive(Debug, Clone, Copy, PartialEq, Eq, Hash, PartialOrd, Ord)]
#[repr(u32)]
pub enum Refusal {
    /// 1: a card is not as laid out.
    CardLayout = 1,
    /// 2: a model of a card is too large.
    CardSize = 2,
    /// 3: a model is too large.
    ModelSize = 3,
    /// 4: a number is not below its count, or a model or chain is not as built.
    OutOfRange = 4,
    /// 5: a weight is out of range.
    Weight = 5,
    /// 6: a state has too many targets.
    Targets = 6,
    /// 7: a list or store is short.
    Store = 7,
    /// 8: an initial state is absent.
    NoInitialState = 8,
    /// 9: ε or ρ is out of range.
    Tolerance = 9,
    /// 10: both models together have too many states.
    StatesTogether = 10,
    /// 11: γ or a rate is out of range.
    DiscountOrRate = 11,
    /// 12: an observation is out of range.
    Observation = 12,
    /// 13: a chain is not one.
    Chain = 13,
    /// 14: `top` or `max_rounds` is too large.
    TopOrRounds = 14,
    /// 15: a network is too large or not as made, or masses or costs are out of range.
    NetworkOrMasses = 15,
    /// 16: masses have different totals.
    Totals = 16,
    /// 17: too many pairs are discovered.
    Pairs = 17,
    /// 18: the coupling store is short.
    CouplingStore = 18,
    /// 19: `occupancy` has not come to its end.
    Occupancy = 19,
}

impl Refusal {
    /// Every refusal, by number.
    pub const ALL: [Self; 19] = [
        Self::CardLayout,
        Self::CardSize,
        Self::ModelSize,
        Self::OutOfRange,
        Self::Weight,
        Self::Targets,
        Self::Store,
        Self::NoInitialState,
        Self::Tolerance,
        Self::StatesTogether,
        Self::DiscountOrRate,
        Self::Observation,
        Self::Chain,
        Self::TopOrRounds,
        Self::NetworkOrMasses,
        Self::Totals,
        Self::Pairs,
        Self::CouplingStore,
        Self::Occupancy,
    ];

    /// Its number in document 01's list.
    #[must_use]
    pub fn number(self) -> u32 {
        self as u32
    }

    /// The refusal of a number, if it has one.
    #[must_use]
    pub fn of_number(number: u32) -> Option<Self> {
        Self::ALL.into_iter().find(|r| r.number() == number)
    }

    /// What a function returned: nothing, or a refusal.
    ///
    /// # Panics
    /// If the number is none of the list, as when another library is linked.
    pub(crate) fn check(number: u32) -> Result<(), Self> {
        match (number, Self::of_number(number)) {
            (0, _) => Ok(()),
            (_, Some(refusal)) => Err(refusal),
            (_, None) => panic!("{number} is no refusal: another library is linked"),
        }
    }

    /// What is wrong.
    fn fault(self) -> &'static str {
        match self {
            Self::CardLayout => {
                "a line of the card is not as laid out or is missing, or bytes follow the last line"
            }
            Self::CardSize => "a model of the card has over 32 states or 200 transitions",
            Self::ModelSize => {
                "a model has over 2,000 states, 4,096 transitions or 256 distinct labels"
            }
            Self::OutOfRange => {
                "a state number or label id is not below its count, or a model or chain is not as built"
            }
            Self::Weight => {
                "a weight is neither zero nor from 2^-40 to 2^40 (2^52 in a built model)"
            }
            Self::Targets => "a state has over 31 distinct targets other than itself",
            Self::Store => "a list or store is short",
            Self::NoInitialState => "a model has no initial state",
            Self::Tolerance => {
                "epsilon is not a finite number from 0, or rho is not from 1 to 2^20"
            }
            Self::StatesTogether => "both models together have over 2,000 states",
            Self::DiscountOrRate => {
                "gamma is not above 0 and below 1, or the rate is not from 2^-40 to 2^64"
            }
            Self::Observation => {
                "an observation is outside -2^40 to 2^40, or in a distance of chains outside 0 to 1"
            }
            Self::Chain => {
                "a chain has no or over 2,000 states, or a row that is empty, has over 32 entries, \
                 targets that do not rise, or probabilities that are no such or do not add up to 1"
            }
            Self::TopOrRounds => "top is over 64, or max_rounds over 10,000",
            Self::NetworkOrMasses => {
                "a network has over 66 nodes or 1,088 added links, or a node, capacity, cost, source or \
                 sink that can't be used; or a side has over 32 masses, or a mass or cost is not from 0 to 2^40"
            }
            Self::Totals => {
                "the totals of the masses differ by over 1e-9 (of the first, if that is over 1)"
            }
            Self::Pairs => "the chains have over 4,096 pairs of states to look at",
            Self::CouplingStore => "the coupling store is shorter than the couplings of all pairs",
            Self::Occupancy => "the occupancy is not settled after 1,000,000 rounds",
        }
    }

    /// What to mend.
    fn remedy(self) -> &'static str {
        match self {
            Self::CardLayout => {
                "count the columns of six, the lines and the counts on the head lines"
            }
            Self::CardSize | Self::ModelSize => "make the model smaller",
            Self::OutOfRange => {
                "number states from 0, and hand in what was built or made, unchanged and whole"
            }
            Self::Weight => "choose another unit of time, or leave the transition out",
            Self::Targets => "join targets, or split the state",
            Self::Store => {
                "give an entry for each state, transition or cell, and lend as much room as is asked for"
            }
            Self::NoInitialState => "build the model with an initial state",
            Self::Tolerance => "give 0 as epsilon or 1 as rho for 'not at all'",
            Self::StatesTogether => "make one of the models smaller",
            Self::DiscountOrRate => {
                "choose gamma between 0 and 1, and a rate no less than the common rate"
            }
            Self::Observation => "scale the observations, or normalise both chains together",
            Self::Chain => {
                "make the chain of a model, at a rate no less than its greatest exit rate"
            }
            Self::TopOrRounds => "ask for fewer contributions or rounds",
            Self::NetworkOrMasses => {
                "make the network anew, with finite capacities from the source, which is not the sink; \
                 or scale the masses and costs"
            }
            Self::Totals => "scale one side, so that both have the same total",
            Self::Pairs => "make the chains smaller",
            Self::CouplingStore => "lend a longer store",
            Self::Occupancy => "choose gamma farther from 1",
        }
    }
}

impl fmt::Display for Refusal {
    fn fmt(&self, f: &mut fmt::Formatter<'_>) -> fmt::Result {
        let (number, fault, remedy) = (self.number(), self.fault(), self.remedy());
        write!(f, "refusal {number}: {fault}; {remedy}")
    }
}

impl std::error::Error for Refusal {}
