//! QM31, the extension of CM31 by u.

use super::operators::{impl_assignments, impl_field, impl_operator, impl_operators};
use super::{CM31, M31, P2};
use crate::Refusal;
use crate::call::{Answer, accepted, answer};
use std::fmt;
use taripomune_sys::tari_qm31_reply;

/// How many elements QM31 has, P^4.
pub const P4: u128 = P2 as u128 * P2 as u128;

/// An element of QM31 is so many of M31.
pub const SECURE_EXTENSION_DEGREE: usize = 4;

/// The square of u, 2 + i.
pub const R: CM31 = CM31(M31::of_word(2), M31::of_word(1));

/// p + qu with u^2 = 2 + i, as p and q.
///
/// ```
/// use taripomune::{CM31, Field, M31, QM31, R, Refusal};
///
/// let u = QM31::from_u32_unchecked(0, 0, 1, 0)?;
/// assert_eq!(u * u, QM31(R, CM31::zero()));
/// assert_eq!(u.inverse()? * u, QM31::one());
/// assert_eq!(u.pow2147483645(), u.pow(2147483645));
/// assert_eq!(M31::try_from(u * M31::from(0)), Ok(M31::zero()));
/// assert_eq!(u.div(QM31::zero()), Err(Refusal::Inverse(0)));
/// # Ok::<(), Refusal>(())
/// ```
#[derive(Clone, Copy, Debug, Default, PartialEq, Eq, Hash)]
#[repr(C)]
pub struct QM31(pub CM31, pub CM31);

/// QM31, the field that challenges are drawn from.
pub type SecureField = QM31;

impl Answer for QM31 {
    type Reply = tari_qm31_reply;

    fn of(reply: tari_qm31_reply) -> QM31 {
        QM31::of_words([reply.a, reply.b, reply.c, reply.d])
    }
}

impl QM31 {
    /// Words known to be below P.
    pub(crate) const fn of_words([a, b, c, d]: [u32; 4]) -> QM31 {
        QM31(CM31(M31::of_word(a), M31::of_word(b)), CM31(M31::of_word(c), M31::of_word(d)))
    }

    /// The element of these words.
    ///
    /// Refuses a word that isn't below P with 1.
    pub fn from_u32_unchecked(a: u32, b: u32, c: u32, d: u32) -> Result<QM31, Refusal> {
        answer(call!(tari_qm31_from_u32_unchecked(number a, number b, number c, number d)))
    }

    /// (a + bi) + (c + di)u.
    pub fn from_m31(a: M31, b: M31, c: M31, d: M31) -> QM31 {
        accepted(call!(tari_qm31_from_m31(m31 a, m31 b, m31 c, m31 d)))
    }

    /// The element of these parts, in the order of `from_m31`.
    pub fn from_m31_array(array: [M31; SECURE_EXTENSION_DEGREE]) -> QM31 {
        let [a, b, c, d] = array;
        accepted(call!(tari_qm31_from_m31_array(m31 a, m31 b, m31 c, m31 d)))
    }

    /// Its parts, in the order of `from_m31`.
    pub fn to_m31_array(self) -> [M31; SECURE_EXTENSION_DEGREE] {
        let QM31(CM31(a, b), CM31(c, d)) = accepted(call!(tari_qm31_to_m31_array(qm31 self)));
        [a, b, c, d]
    }

    /// The value of a column of QM31 elements, from those of the four columns of their parts.
    pub fn from_partial_evals(evals: [QM31; SECURE_EXTENSION_DEGREE]) -> QM31 {
        let [a, b, c, d] = evals;
        accepted(call!(tari_qm31_from_partial_evals(qm31 a, qm31 b, qm31 c, qm31 d)))
    }

    /// Its power P - 2, 0 for 0. It is the inverse only of an element of M31.
    pub fn pow2147483645(self) -> QM31 {
        accepted(call!(tari_qm31_pow2147483645(qm31 self)))
    }

    /// Both parts times `rhs`.
    pub fn mul_cm31(self, rhs: CM31) -> QM31 {
        accepted(call!(tari_qm31_mul_cm31(qm31 self, cm31 rhs)))
    }

    /// All parts divided by `rhs`.
    ///
    /// Refuses zero as `rhs` with 3.
    pub fn div_m31(self, rhs: M31) -> Result<QM31, Refusal> {
        answer(call!(tari_qm31_div_m31(qm31 self, m31 rhs)))
    }
}

impl_field!(
    QM31,
    qm31,
    tari_qm31_zero,
    tari_qm31_one,
    tari_qm31_is_zero,
    tari_qm31_neg,
    tari_qm31_add,
    tari_qm31_sub,
    tari_qm31_mul,
    tari_qm31_square,
    tari_qm31_pow,
    tari_qm31_inverse,
    tari_qm31_div,
    tari_qm31_complex_conjugate
);
impl_operators!(QM31, qm31, M31, m31, QM31, tari_qm31_add_m31, tari_qm31_sub_m31, tari_qm31_mul_m31);
impl_assignments!(QM31, M31);

impl From<M31> for QM31 {
    fn from(x: M31) -> QM31 {
        accepted(call!(tari_qm31_from_base(m31 x)))
    }
}

/// The number modulo P.
impl From<u32> for QM31 {
    fn from(value: u32) -> QM31 {
        accepted(call!(tari_qm31_from_u32(number value)))
    }
}

/// The number modulo P.
impl From<i32> for QM31 {
    fn from(value: i32) -> QM31 {
        accepted(call!(tari_qm31_from_i32(number value)))
    }
}

/// The number modulo P. Refuses a number from P^2 on with 2.
impl TryFrom<usize> for QM31 {
    type Error = Refusal;

    fn try_from(value: usize) -> Result<QM31, Refusal> {
        answer(call!(tari_qm31_from_usize(number value as u64)))
    }
}

impl fmt::Display for QM31 {
    fn fmt(&self, f: &mut fmt::Formatter<'_>) -> fmt::Result {
        write!(f, "({}) + ({})u", self.0, self.1)
    }
}
