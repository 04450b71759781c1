//! Cosets, and the iterator over their indices.

use crate::call::{Answer, accepted, answer};
use crate::{CirclePoint, CirclePointIndex, M31, Refusal};
use std::iter::FusedIterator;
use taripomune_sys::{tari_coset_iterator_reply, tari_coset_reply, tari_coset_step_reply};

/// 2^`log_size` points of the circle: the index and the point of the first one, and of the step between them. Each
/// point is that of its index.
///
/// ```
/// use taripomune::{Coset, Refusal};
///
/// let coset = Coset::odds(3)?;
/// assert_eq!(coset.size(), 8);
/// let h = coset.index_at(0).value();
/// assert!(coset.iter_indices().map(|index| index.value() / h).eq([1, 3, 5, 7, 9, 11, 13, 15]));
/// assert_eq!(coset.at(8), coset.initial());
/// assert!(Coset::odds(2)?.is_doubling_of(coset));
/// assert!(Coset::subgroup(0)?.is_doubling_of(Coset::subgroup(1)?));
/// assert_eq!(coset.repeated_double(4), Err(Refusal::Doublings));
/// assert_eq!(Coset::odds(31), Err(Refusal::LogSize));
/// # Ok::<(), Refusal>(())
/// ```
#[derive(Clone, Copy, Debug, PartialEq, Eq, Hash)]
pub struct Coset {
    pub(crate) initial_index: CirclePointIndex,
    pub(crate) initial: CirclePoint<M31>,
    pub(crate) step_size: CirclePointIndex,
    pub(crate) step: CirclePoint<M31>,
    pub(crate) log_size: u32,
}

impl Answer for Coset {
    type Reply = tari_coset_reply;

    fn of(reply: tari_coset_reply) -> Coset {
        Coset {
            initial_index: CirclePointIndex::of_number(reply.initial_index),
            initial: CirclePoint { x: M31::of_word(reply.initial_x), y: M31::of_word(reply.initial_y) },
            step_size: CirclePointIndex::of_number(reply.step_index),
            step: CirclePoint { x: M31::of_word(reply.step_x), y: M31::of_word(reply.step_y) },
            log_size: reply.log_size,
        }
    }
}

impl Coset {
    /// The coset of these fields, of which each point is that of its index. The log size needn't belong to the step.
    ///
    /// Refuses a log size above 31 with 6, and a point that isn't its index's with 14.
    pub fn from_fields(
        initial_index: CirclePointIndex,
        initial: CirclePoint<M31>,
        step_size: CirclePointIndex,
        step: CirclePoint<M31>,
        log_size: u32,
    ) -> Result<Coset, Refusal> {
        let coset = Coset { initial_index, initial, step_size, step, log_size };
        // A domain takes any coset for its half, and answers with it.
        answer(call!(tari_circle_domain_new(coset coset)))
    }

    /// The coset that begins with this index, of as many points.
    ///
    /// Refuses a log size above 31 with 6.
    pub fn new(initial_index: CirclePointIndex, log_size: u32) -> Result<Coset, Refusal> {
        answer(call!(tari_coset_new(index initial_index, number log_size)))
    }

    /// The points whose order divides 2^`log_size`.
    ///
    /// Refuses a log size above 31 with 6.
    pub fn subgroup(log_size: u32) -> Result<Coset, Refusal> {
        answer(call!(tari_coset_subgroup(number log_size)))
    }

    /// The odd multiples of half the step.
    ///
    /// Refuses a log size above 30 with 6.
    pub fn odds(log_size: u32) -> Result<Coset, Refusal> {
        answer(call!(tari_coset_odds(number log_size)))
    }

    /// Every other element of [`Coset::odds`] of twice the size.
    ///
    /// Refuses a log size above 29 with 6.
    pub fn half_odds(log_size: u32) -> Result<Coset, Refusal> {
        answer(call!(tari_coset_half_odds(number log_size)))
    }

    /// The index of the first point.
    pub const fn initial_index(&self) -> CirclePointIndex {
        self.initial_index
    }

    /// The first point.
    pub fn initial(&self) -> CirclePoint<M31> {
        accepted(call!(tari_coset_initial(coset self)))
    }

    /// The index of the step.
    pub const fn step_size(&self) -> CirclePointIndex {
        self.step_size
    }

    /// The point of the step.
    pub const fn step(&self) -> CirclePoint<M31> {
        self.step
    }

    /// How many points there are.
    pub fn size(&self) -> usize {
        accepted(call!(tari_coset_size(coset self)))
    }

    /// The power of two that the size is.
    pub fn log_size(&self) -> u32 {
        accepted(call!(tari_coset_log_size(coset self)))
    }

    /// The indices, from the first one on.
    pub fn iter_indices(&self) -> CosetIterator {
        accepted(call!(tari_coset_iter_indices(coset self)))
    }

    /// Half as many points, each doubled.
    ///
    /// Refuses log size 0 with 7.
    pub fn double(&self) -> Result<Coset, Refusal> {
        answer(call!(tari_coset_double(coset self)))
    }

    /// [`Coset::double`], so many times.
    ///
    /// Refuses more doublings than the log size with 7.
    pub fn repeated_double(&self, n_doubles: u32) -> Result<Coset, Refusal> {
        answer(call!(tari_coset_repeated_double(coset self, number n_doubles)))
    }

    /// Whether it is `other` doubled some number of times, field by field.
    pub fn is_doubling_of(&self, other: Coset) -> bool {
        accepted(call!(tari_coset_is_doubling_of(coset self, coset other)))
    }

    /// The index at a position, which runs round.
    pub fn index_at(&self, index: usize) -> CirclePointIndex {
        accepted(call!(tari_coset_index_at(coset self, number index as u64)))
    }

    /// The point of the index at a position.
    pub fn at(&self, index: usize) -> CirclePoint<M31> {
        accepted(call!(tari_coset_at(coset self, number index as u64)))
    }

    /// All indices further by `shift_size`.
    pub fn shift(&self, shift_size: CirclePointIndex) -> Coset {
        accepted(call!(tari_coset_shift(coset self, index shift_size)))
    }

    /// The negatives of all indices.
    pub fn conjugate(&self) -> Coset {
        accepted(call!(tari_coset_conjugate(coset self)))
    }
}

/// The indices of a coset, one after the other.
///
/// ```
/// use taripomune::{CirclePointIndex, CosetIterator, Refusal};
///
/// let [five, three] = [CirclePointIndex::new(5)?, CirclePointIndex::new(3)?];
/// let mut indices = CosetIterator::new(five, three, 2);
/// assert_eq!(indices.next(), Some(five));
/// assert_eq!(indices.len(), 1);
/// assert_eq!(indices.next(), Some(five + three));
/// assert_eq!(indices.next(), None);
/// # Ok::<(), Refusal>(())
/// ```
#[derive(Clone, Debug, PartialEq, Eq, Hash)]
pub struct CosetIterator {
    pub(crate) cur: CirclePointIndex,
    pub(crate) step: CirclePointIndex,
    pub(crate) remaining: usize,
}

impl CosetIterator {
    /// `cur`, then `step` further each time, `remaining` indices in all.
    pub const fn new(cur: CirclePointIndex, step: CirclePointIndex, remaining: usize) -> CosetIterator {
        CosetIterator { cur, step, remaining }
    }

    /// The iterator of these numbers of a reply.
    pub(crate) const fn of_numbers(cur: u64, step: u64, remaining: u64) -> CosetIterator {
        let (cur, step) = (CirclePointIndex::of_number(cur), CirclePointIndex::of_number(step));
        CosetIterator::new(cur, step, remaining as usize)
    }
}

impl Iterator for CosetIterator {
    type Item = CirclePointIndex;

    fn next(&mut self) -> Option<CirclePointIndex> {
        let (index, after) = accepted(call!(tari_coset_iterator_next(iterator self)));
        *self = after;
        index
    }

    fn size_hint(&self) -> (usize, Option<usize>) {
        (self.remaining, Some(self.remaining))
    }
}

impl ExactSizeIterator for CosetIterator {}

impl FusedIterator for CosetIterator {}

impl Answer for CosetIterator {
    type Reply = tari_coset_iterator_reply;

    fn of(reply: tari_coset_iterator_reply) -> CosetIterator {
        CosetIterator::of_numbers(reply.cur, reply.step, reply.remaining)
    }
}

/// A step: the index, if any remained, and the iterator after it.
impl Answer for (Option<CirclePointIndex>, CosetIterator) {
    type Reply = tari_coset_step_reply;

    fn of(reply: tari_coset_step_reply) -> (Option<CirclePointIndex>, CosetIterator) {
        let index = (reply.done == 0).then_some(CirclePointIndex::of_number(reply.index));
        (index, CosetIterator::of_numbers(reply.cur, reply.step, reply.remaining))
    }
}
