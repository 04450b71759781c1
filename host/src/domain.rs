//! Circle domains, and the iterator over their indices.

use crate::call::{Answer, accepted, answer};
use crate::{CirclePoint, CirclePointIndex, Coset, CosetIterator, M31, M31_CIRCLE_LOG_ORDER, Refusal};
use std::iter::FusedIterator;
use taripomune_sys::{tari_circle_domain_index_iterator_reply, tari_circle_domain_step_reply};

/// The largest log size of a canonic circle domain.
pub const MAX_CIRCLE_DOMAIN_LOG_SIZE: u32 = M31_CIRCLE_LOG_ORDER - 1;

/// The smallest log size of a canonic circle domain.
pub const MIN_CIRCLE_DOMAIN_LOG_SIZE: u32 = 1;

/// The points of a coset and then their conjugates, in the same order.
///
/// ```
/// use taripomune::{CanonicCoset, CircleDomain, Coset, Refusal};
///
/// let domain = CanonicCoset::new(4)?.circle_domain();
/// assert_eq!(domain, CircleDomain::new(Coset::half_odds(3)?));
/// assert_eq!((domain.size(), domain.is_canonic()), (16, true));
/// assert_eq!(domain.at(8), domain.at(0).conjugate());
/// let (part, shifts) = domain.split(1)?;
/// assert_eq!((part.size(), shifts.len()), (8, 2));
/// assert_eq!(domain.split(4), Err(Refusal::Doublings));
/// # Ok::<(), Refusal>(())
/// ```
#[derive(Clone, Copy, Debug, PartialEq, Eq, Hash)]
pub struct CircleDomain {
    half_coset: Coset,
}

impl CircleDomain {
    /// The domain of this half.
    pub fn new(half_coset: Coset) -> CircleDomain {
        CircleDomain { half_coset: accepted(call!(tari_circle_domain_new(coset half_coset))) }
    }

    /// The half that comes first.
    pub const fn half_coset(&self) -> Coset {
        self.half_coset
    }

    /// The indices of the half coset, then those of its conjugate.
    pub fn iter_indices(&self) -> CircleDomainIndexIterator {
        accepted(call!(tari_circle_domain_iter_indices(coset self.half_coset)))
    }

    /// How many points there are.
    pub fn size(&self) -> usize {
        accepted(call!(tari_circle_domain_size(coset self.half_coset)))
    }

    /// The power of two that the size is.
    pub fn log_size(&self) -> u32 {
        accepted(call!(tari_circle_domain_log_size(coset self.half_coset)))
    }

    /// The point of the index at a position.
    pub fn at(&self, i: usize) -> CirclePoint<M31> {
        accepted(call!(tari_circle_domain_at(coset self.half_coset, number i as u64)))
    }

    /// The index at a position: in the half coset, or from its size on in the conjugate.
    pub fn index_at(&self, i: usize) -> CirclePointIndex {
        accepted(call!(tari_circle_domain_index_at(coset self.half_coset, number i as u64)))
    }

    /// Whether 4 times the initial index, reduced, is the step; where the step is 0, whether the initial index is 2^29
    /// or 3 times 2^29. It is true of every canonic domain.
    pub fn is_canonic(&self) -> bool {
        accepted(call!(tari_circle_domain_is_canonic(coset self.half_coset)))
    }

    /// One of the 2^`log_parts` smaller domains that make this one up, and by how much each is shifted.
    ///
    /// Refuses more parts than the half coset has points with 7.
    pub fn split(&self, log_parts: u32) -> Result<(CircleDomain, Vec<CirclePointIndex>), Refusal> {
        let parts = if log_parts <= self.half_coset.log_size { 1 << log_parts } else { 0 };
        let mut words = vec![0_u32; parts];
        let shifts = words.as_mut_slice();
        let part = call_with_slices!(tari_circle_domain_split(coset self.half_coset, number log_parts, write shifts));
        let part = CircleDomain { half_coset: answer(part)? };
        Ok((part, words.into_iter().map(|word| CirclePointIndex::of_number(word.into())).collect()))
    }

    /// The domain of the half coset shifted.
    pub fn shift(&self, shift: CirclePointIndex) -> CircleDomain {
        CircleDomain { half_coset: accepted(call!(tari_circle_domain_shift(coset self.half_coset, index shift))) }
    }
}

/// The indices of a circle domain, one after the other.
///
/// ```
/// use taripomune::{CanonicCoset, Refusal};
///
/// let domain = CanonicCoset::new(2)?.circle_domain();
/// let mut indices = domain.iter_indices();
/// assert_eq!(indices.len(), 4);
/// assert!(indices.by_ref().eq((0..4).map(|i| domain.index_at(i))));
/// assert_eq!(indices.next(), None);
/// # Ok::<(), Refusal>(())
/// ```
#[derive(Clone, Debug, PartialEq, Eq, Hash)]
pub struct CircleDomainIndexIterator {
    first: CosetIterator,
    second: CosetIterator,
}

impl Iterator for CircleDomainIndexIterator {
    type Item = CirclePointIndex;

    fn next(&mut self) -> Option<CirclePointIndex> {
        let reply = call!(tari_circle_domain_index_iterator_next(iterator self.first, iterator self.second));
        let (index, after) = accepted(reply);
        *self = after;
        index
    }

    fn size_hint(&self) -> (usize, Option<usize>) {
        let remaining = self.first.remaining + self.second.remaining;
        (remaining, Some(remaining))
    }
}

impl ExactSizeIterator for CircleDomainIndexIterator {}

impl FusedIterator for CircleDomainIndexIterator {}

impl Answer for CircleDomainIndexIterator {
    type Reply = tari_circle_domain_index_iterator_reply;

    fn of(reply: tari_circle_domain_index_iterator_reply) -> CircleDomainIndexIterator {
        CircleDomainIndexIterator {
            first: CosetIterator::of_numbers(reply.first_cur, reply.first_step, reply.first_remaining),
            second: CosetIterator::of_numbers(reply.second_cur, reply.second_step, reply.second_remaining),
        }
    }
}

/// A step: the index, if any remained, and the iterator after it.
impl Answer for (Option<CirclePointIndex>, CircleDomainIndexIterator) {
    type Reply = tari_circle_domain_step_reply;

    fn of(reply: tari_circle_domain_step_reply) -> (Option<CirclePointIndex>, CircleDomainIndexIterator) {
        let index = (reply.done == 0).then_some(CirclePointIndex::of_number(reply.index));
        let first = CosetIterator::of_numbers(reply.first_cur, reply.first_step, reply.first_remaining);
        let second = CosetIterator::of_numbers(reply.second_cur, reply.second_step, reply.second_remaining);
        (index, CircleDomainIndexIterator { first, second })
    }
}
