//! States and labels.

use crate::{Refusal, sys};

/// A state of a model or chain, numbered from 0.
#[derive(Debug, Clone, Copy, PartialEq, Eq, Hash, PartialOrd, Ord)]
pub struct StateId(pub u32);

/// A label, numbered by its first appearance.
#[derive(Debug, Clone, Copy, PartialEq, Eq, Hash, PartialOrd, Ord)]
pub struct LabelId(pub u32);

/// At most 256 label values, each with an id by its first appearance.
///
/// ```
/// use tanqesha::{LabelId, Labels, Refusal};
///
/// let mut labels = Labels::new();
/// assert_eq!(labels.intern(70)?, LabelId(0));
/// assert_eq!(labels.intern(50)?, LabelId(1));
/// assert_eq!(labels.intern(70)?, LabelId(0));
/// assert_eq!((labels.get(50), labels.get(51)), (Some(LabelId(1)), None));
/// assert_eq!(labels.resolve(LabelId(1))?, 50);
/// assert_eq!(labels.resolve(LabelId(2)), Err(Refusal::OutOfRange));
/// # Ok::<(), Refusal>(())
/// ```
#[derive(Debug, Clone, Default, PartialEq, Eq)]
pub struct Labels {
    values: Vec<u32>,
}

impl Labels {
    /// No labels.
    #[must_use]
    pub fn new() -> Self {
        Self::default()
    }

    /// These values, by their ids.
    ///
    /// # Errors
    /// [`Refusal::ModelSize`] where there are over 256, [`Refusal::OutOfRange`] where one is listed twice.
    pub fn from_values(values: Vec<u32>) -> Result<Self, Refusal> {
        let (mut present, mut id) = (0, 0);
        Refusal::check(sys::get(&values, values.len(), 0, &mut present, &mut id))?;
        Ok(Self { values })
    }

    /// The values, by their ids.
    #[must_use]
    pub fn values(&self) -> &[u32] {
        &self.values
    }

    /// The id of a value, which is added if it is new.
    ///
    /// # Errors
    /// [`Refusal::ModelSize`] where it would be the 257th.
    pub fn intern(&mut self, value: u32) -> Result<LabelId, Refusal> {
        let count = self.values.len();
        let (mut id, mut total) = (0, 0);
        self.values.push(0);
        let number = sys::intern(&mut self.values, count, value, &mut id, &mut total);
        self.values
            .truncate(if number == 0 { total } else { count });
        Refusal::check(number)?;
        Ok(LabelId(id))
    }

    /// The id of a value, if it has one.
    #[must_use]
    pub fn get(&self, value: u32) -> Option<LabelId> {
        let (mut present, mut id) = (0, 0);
        let number = sys::get(
            &self.values,
            self.values.len(),
            value,
            &mut present,
            &mut id,
        );
        Refusal::check(number).expect("labels that were accepted");
        (present != 0).then_some(LabelId(id))
    }

    /// The value of an id.
    ///
    /// # Errors
    /// [`Refusal::OutOfRange`] where the id is not below the number of labels.
    pub fn resolve(&self, id: LabelId) -> Result<u32, Refusal> {
        let mut value = 0;
        Refusal::check(sys::resolve(
            &self.values,
            self.values.len(),
            id.0,
            &mut value,
        ))?;
        Ok(value)
    }
}
