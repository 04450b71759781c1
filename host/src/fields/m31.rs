//! M31, the integers modulo P.

use super::operators::{impl_assignments, impl_field, impl_operator, impl_operators};
use super::{CM31, QM31};
use crate::Refusal;
use crate::call::{Answer, accepted, answer};
use std::fmt;
use taripomune_sys::tari_m31_reply;

/// 2^31 - 1.
pub const P: u32 = 2147483647;

/// P has so many bits.
pub const MODULUS_BITS: u32 = 31;

/// An element of M31 has so many bytes.
pub const N_BYTES_FELT: usize = 4;

/// An integer modulo P, as one word below P.
///
/// ```
/// use taripomune::{Field, M31, P, Refusal};
///
/// let a = M31::from_u32_unchecked(P - 1)?;
/// assert_eq!(a * a, M31::one());
/// assert_eq!(-M31::zero(), M31::zero());
/// assert_eq!(M31::from(2).inverse()?.word(), 1073741824);
/// assert_eq!(M31::from_u32_unchecked(P), Err(Refusal::Word(0)));
/// assert_eq!(M31::one().div(M31::zero()), Err(Refusal::Inverse(0)));
/// # Ok::<(), Refusal>(())
/// ```
#[derive(Clone, Copy, Debug, Default, PartialEq, Eq, Hash)]
#[repr(transparent)]
pub struct M31(u32);

/// M31, as the field below the extensions.
pub type BaseField = M31;

impl Answer for M31 {
    type Reply = tari_m31_reply;

    fn of(reply: tari_m31_reply) -> M31 {
        M31::of_word(reply.value)
    }
}

impl M31 {
    /// A word known to be below P.
    pub(crate) const fn of_word(word: u32) -> M31 {
        assert!(word < P);
        M31(word)
    }

    /// Its word.
    pub const fn word(self) -> u32 {
        self.0
    }

    /// `val` modulo P.
    ///
    /// Refuses a number from 2P on with 2.
    pub fn partial_reduce(val: u32) -> Result<M31, Refusal> {
        answer(call!(tari_m31_partial_reduce(number val)))
    }

    /// `val` modulo P.
    ///
    /// Refuses a number from P^2 on with 2.
    pub fn reduce(val: u64) -> Result<M31, Refusal> {
        answer(call!(tari_m31_reduce(number val)))
    }

    /// The element of this word. Unlike the function of this name in stwo it looks at the word.
    ///
    /// Refuses a word that isn't below P with 1.
    pub fn from_u32_unchecked(arg: u32) -> Result<M31, Refusal> {
        answer(call!(tari_m31_from_u32_unchecked(number arg)))
    }

    /// Its power P - 2, which is its inverse, or 0 for 0.
    pub fn pow2147483645(self) -> M31 {
        accepted(call!(tari_m31_pow2147483645(m31 self)))
    }

    /// Squares it `n` times.
    pub fn sqn(self, n: usize) -> M31 {
        accepted(call!(tari_m31_sqn(m31 self, number n as u64)))
    }

    /// Its product with the inverse of `rhs`.
    ///
    /// Refuses zero as `rhs` with 3.
    pub fn div_cm31(self, rhs: CM31) -> Result<CM31, Refusal> {
        answer(call!(tari_m31_div_cm31(m31 self, cm31 rhs)))
    }

    /// Its product with the inverse of `rhs`.
    ///
    /// Refuses zero as `rhs` with 3.
    pub fn div_qm31(self, rhs: QM31) -> Result<QM31, Refusal> {
        answer(call!(tari_m31_div_qm31(m31 self, qm31 rhs)))
    }
}

impl_field!(
    M31,
    m31,
    tari_m31_zero,
    tari_m31_one,
    tari_m31_is_zero,
    tari_m31_neg,
    tari_m31_add,
    tari_m31_sub,
    tari_m31_mul,
    tari_m31_square,
    tari_m31_pow,
    tari_m31_inverse,
    tari_m31_div,
    tari_m31_complex_conjugate
);
impl_operators!(M31, m31, CM31, cm31, CM31, tari_m31_add_cm31, tari_m31_sub_cm31, tari_m31_mul_cm31);
impl_operators!(M31, m31, QM31, qm31, QM31, tari_m31_add_qm31, tari_m31_sub_qm31, tari_m31_mul_qm31);

/// The number modulo P.
impl From<u32> for M31 {
    fn from(value: u32) -> M31 {
        accepted(call!(tari_m31_from_u32(number value)))
    }
}

/// The number modulo P.
impl From<i32> for M31 {
    fn from(value: i32) -> M31 {
        accepted(call!(tari_m31_from_i32(number value)))
    }
}

/// The number modulo P. Refuses a number from P^2 on with 2.
impl TryFrom<usize> for M31 {
    type Error = Refusal;

    fn try_from(value: usize) -> Result<M31, Refusal> {
        answer(call!(tari_m31_from_usize(number value as u64)))
    }
}

/// Refuses an element whose other part isn't zero with 12.
impl TryFrom<CM31> for M31 {
    type Error = Refusal;

    fn try_from(value: CM31) -> Result<M31, Refusal> {
        answer(call!(tari_cm31_try_into_m31(cm31 value)))
    }
}

/// Refuses an element one of whose other parts isn't zero with 12.
impl TryFrom<QM31> for M31 {
    type Error = Refusal;

    fn try_from(value: QM31) -> Result<M31, Refusal> {
        answer(call!(tari_qm31_try_into_m31(qm31 value)))
    }
}

/// Its word.
///
/// ```
/// use taripomune::{M31, P};
///
/// assert_eq!(u32::from(M31::from(-1)), P - 1);
/// ```
impl From<M31> for u32 {
    fn from(value: M31) -> u32 {
        value.word()
    }
}

impl fmt::Display for M31 {
    fn fmt(&self, f: &mut fmt::Formatter<'_>) -> fmt::Result {
        self.0.fmt(f)
    }
}

/// What a column of words holds: any `u32` words, or words known to be below P. It can't be implemented outside this
/// crate.
///
/// ```
/// use taripomune::{M31, Refusal, bit_reverse};
///
/// let (mut words, mut elements) = ([0, 1, 2, u32::MAX], [0, 1, 2, 3].map(M31::from));
/// bit_reverse(&mut words)?;
/// bit_reverse(&mut elements)?;
/// assert_eq!(words, [0, 2, 1, u32::MAX]);
/// assert_eq!(elements, [0, 2, 1, 3].map(M31::from));
/// # Ok::<(), Refusal>(())
/// ```
pub trait Word: Copy + sealed::Word {}

impl Word for u32 {}
impl Word for M31 {}

mod sealed {
    /// A type with the layout of a `u32`, whose values are exchanged or become words below P.
    pub trait Word {}

    impl Word for u32 {}
    impl Word for super::M31 {}
}
