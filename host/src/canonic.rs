//! Canonic cosets.

use crate::call::{accepted, answer};
use crate::{CircleDomain, CirclePoint, CirclePointIndex, Coset, M31, Refusal};

/// A coset of log size 1 to 30 whose points, in another order, are a circle domain: the odd multiples of half the step.
///
/// ```
/// use taripomune::{CanonicCoset, Refusal};
///
/// let canonic = CanonicCoset::new(3)?;
/// let h = canonic.initial_index().value();
/// let domain = canonic.circle_domain();
/// assert!(domain.iter_indices().map(|index| index.value() / h).eq([1, 5, 9, 13, 15, 11, 7, 3]));
/// assert_eq!(CanonicCoset::new(31), Err(Refusal::LogSize));
/// # Ok::<(), Refusal>(())
/// ```
#[derive(Clone, Copy, Debug, PartialEq, Eq, Hash)]
pub struct CanonicCoset {
    coset: Coset,
}

impl CanonicCoset {
    /// The canonic coset of a log size.
    ///
    /// Refuses a log size outside 1 to 30 with 6.
    pub fn try_new(log_size: u32) -> Result<CanonicCoset, Refusal> {
        answer(call!(tari_canonic_coset_try_new(number log_size))).map(|coset| CanonicCoset { coset })
    }

    /// The canonic coset of a log size.
    ///
    /// Refuses a log size outside 1 to 30 with 6.
    pub fn new(log_size: u32) -> Result<CanonicCoset, Refusal> {
        answer(call!(tari_canonic_coset_new(number log_size))).map(|coset| CanonicCoset { coset })
    }

    /// This coset as a canonic one. Whether it is [`Coset::odds`] of its log size isn't looked at.
    ///
    /// Refuses a log size outside 1 to 30 with 6.
    pub fn from_coset(coset: Coset) -> Result<CanonicCoset, Refusal> {
        answer(call!(tari_canonic_coset_coset(coset coset))).map(|coset| CanonicCoset { coset })
    }

    /// The coset itself.
    pub fn coset(&self) -> Coset {
        accepted(call!(tari_canonic_coset_coset(coset self.coset)))
    }

    /// The half whose conjugate is the other half, by the log size alone.
    pub fn half_coset(&self) -> Coset {
        accepted(call!(tari_canonic_coset_half_coset(coset self.coset)))
    }

    /// The circle domain of the half coset.
    pub fn circle_domain(&self) -> CircleDomain {
        CircleDomain::new(accepted(call!(tari_canonic_coset_circle_domain(coset self.coset))))
    }

    /// The power of two that the size is.
    pub fn log_size(&self) -> u32 {
        accepted(call!(tari_canonic_coset_log_size(coset self.coset)))
    }

    /// How many points there are.
    pub fn size(&self) -> usize {
        accepted(call!(tari_canonic_coset_size(coset self.coset)))
    }

    /// The index of the first point.
    pub fn initial_index(&self) -> CirclePointIndex {
        accepted(call!(tari_canonic_coset_initial_index(coset self.coset)))
    }

    /// The index of the step.
    pub fn step_size(&self) -> CirclePointIndex {
        accepted(call!(tari_canonic_coset_step_size(coset self.coset)))
    }

    /// The point of the step.
    pub fn step(&self) -> CirclePoint<M31> {
        accepted(call!(tari_canonic_coset_step(coset self.coset)))
    }

    /// The index at a position, which runs round.
    pub fn index_at(&self, index: usize) -> CirclePointIndex {
        accepted(call!(tari_canonic_coset_index_at(coset self.coset, number index as u64)))
    }

    /// The point of the index at a position.
    pub fn at(&self, i: usize) -> CirclePoint<M31> {
        accepted(call!(tari_canonic_coset_at(coset self.coset, number i as u64)))
    }
}
