//! Point indices.

use crate::call::{Answer, accepted, answer};
use crate::{CirclePoint, M31, Refusal};
use std::ops::{Add, Mul, Neg, Sub};
use taripomune_sys::tari_index_reply;

/// The index k of the point k G, below 2^31: a number of its own, never a count or a position. Each point k G has one
/// index, so equal points have equal indices.
///
/// ```
/// use taripomune::{CirclePointIndex, M31_CIRCLE_GEN, Refusal};
///
/// let index = CirclePointIndex::new(6)?;
/// assert_eq!(index.to_point(), M31_CIRCLE_GEN.mul(6));
/// assert_eq!(index.half()? + CirclePointIndex::generator(), CirclePointIndex::new(4)?);
/// assert_eq!(CirclePointIndex::new(3)?.half(), Err(Refusal::Halving));
/// assert_eq!(CirclePointIndex::subgroup_gen(0)?.value(), 0);
/// assert_eq!(CirclePointIndex::new(1 << 31), Err(Refusal::Index));
/// # Ok::<(), Refusal>(())
/// ```
#[derive(Clone, Copy, Debug, PartialEq, Eq, Hash)]
pub struct CirclePointIndex(usize);

impl CirclePointIndex {
    /// The index of this number.
    ///
    /// Refuses a number from 2^31 on with 4.
    pub fn new(index: usize) -> Result<CirclePointIndex, Refusal> {
        // An index that is accepted is reduced.
        answer(call!(tari_index_reduce(number index as u64)))
    }

    /// A number known to be an index.
    pub(crate) const fn of_number(index: u64) -> CirclePointIndex {
        CirclePointIndex(index as usize)
    }

    /// Its number.
    pub const fn value(self) -> usize {
        self.0
    }

    /// 0.
    pub fn zero() -> CirclePointIndex {
        accepted(call!(tari_index_zero()))
    }

    /// 1, the index of G.
    pub fn generator() -> CirclePointIndex {
        accepted(call!(tari_index_generator()))
    }

    /// The index modulo 2^31, which is the index itself.
    pub fn reduce(self) -> CirclePointIndex {
        accepted(call!(tari_index_reduce(index self)))
    }

    /// 2^(31 - `log_size`) modulo 2^31, the index of a point of order 2^`log_size`; 0 for log size 0.
    ///
    /// Refuses a log size above 31 with 6.
    pub fn subgroup_gen(log_size: u32) -> Result<CirclePointIndex, Refusal> {
        answer(call!(tari_index_subgroup_gen(number log_size)))
    }

    /// G added as many times to zero.
    pub fn to_point(self) -> CirclePoint<M31> {
        accepted(call!(tari_index_to_point(index self)))
    }

    /// Half of it.
    ///
    /// Refuses an odd index with 5.
    pub fn half(self) -> Result<CirclePointIndex, Refusal> {
        answer(call!(tari_index_half(index self)))
    }
}

/// Modulo 2^31.
impl Add for CirclePointIndex {
    type Output = CirclePointIndex;

    fn add(self, rhs: CirclePointIndex) -> CirclePointIndex {
        accepted(call!(tari_index_add(index self, index rhs)))
    }
}

/// Modulo 2^31.
impl Sub for CirclePointIndex {
    type Output = CirclePointIndex;

    fn sub(self, rhs: CirclePointIndex) -> CirclePointIndex {
        accepted(call!(tari_index_sub(index self, index rhs)))
    }
}

/// Modulo 2^31.
impl Neg for CirclePointIndex {
    type Output = CirclePointIndex;

    fn neg(self) -> CirclePointIndex {
        accepted(call!(tari_index_neg(index self)))
    }
}

/// An index times a count, modulo 2^31.
impl Mul<usize> for CirclePointIndex {
    type Output = CirclePointIndex;

    fn mul(self, rhs: usize) -> CirclePointIndex {
        accepted(call!(tari_index_mul(index self, number rhs as u64)))
    }
}

impl Answer for CirclePointIndex {
    type Reply = tari_index_reply;

    fn of(reply: tari_index_reply) -> CirclePointIndex {
        CirclePointIndex::of_number(reply.index)
    }
}
