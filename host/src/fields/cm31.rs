//! CM31, the extension of M31 by i.

use super::operators::{impl_assignments, impl_field, impl_operator, impl_operators};
use super::{M31, P};
use crate::Refusal;
use crate::call::{Answer, accepted, answer};
use std::fmt;
use taripomune_sys::tari_cm31_reply;

/// How many elements CM31 has, P^2.
pub const P2: u64 = P as u64 * P as u64;

/// a + bi with i^2 = -1, as a and b.
///
/// ```
/// use taripomune::{CM31, Field, M31, P, Refusal};
///
/// let a = CM31::from_u32_unchecked(1, 2)?;
/// let b = CM31::from_u32_unchecked(3, 4)?;
/// assert_eq!(a * b, CM31::from_u32_unchecked(P - 5, 10)?);
/// assert_eq!(a * M31::from(3), a + a + a);
/// assert_eq!(a.inverse()? * a, CM31::one());
/// assert_eq!(a.pow2147483645() * a.square(), a.complex_conjugate());
/// assert_eq!(M31::try_from(a), Err(Refusal::Narrowing));
/// # Ok::<(), Refusal>(())
/// ```
#[derive(Clone, Copy, Debug, Default, PartialEq, Eq, Hash)]
#[repr(C)]
pub struct CM31(pub M31, pub M31);

impl Answer for CM31 {
    type Reply = tari_cm31_reply;

    fn of(reply: tari_cm31_reply) -> CM31 {
        CM31(M31::of_word(reply.a), M31::of_word(reply.b))
    }
}

impl CM31 {
    /// The element of these words.
    ///
    /// Refuses a word that isn't below P with 1.
    pub fn from_u32_unchecked(a: u32, b: u32) -> Result<CM31, Refusal> {
        answer(call!(tari_cm31_from_u32_unchecked(number a, number b)))
    }

    /// a + bi.
    pub fn from_m31(a: M31, b: M31) -> CM31 {
        accepted(call!(tari_cm31_from_m31(m31 a, m31 b)))
    }

    /// Its power P - 2, 0 for 0. It is the inverse only of an element of M31: the power P is `complex_conjugate`.
    pub fn pow2147483645(self) -> CM31 {
        accepted(call!(tari_cm31_pow2147483645(cm31 self)))
    }

    /// Both parts divided by `rhs`.
    ///
    /// Refuses zero as `rhs` with 3.
    pub fn div_m31(self, rhs: M31) -> Result<CM31, Refusal> {
        answer(call!(tari_cm31_div_m31(cm31 self, m31 rhs)))
    }
}

impl_field!(
    CM31,
    cm31,
    tari_cm31_zero,
    tari_cm31_one,
    tari_cm31_is_zero,
    tari_cm31_neg,
    tari_cm31_add,
    tari_cm31_sub,
    tari_cm31_mul,
    tari_cm31_square,
    tari_cm31_pow,
    tari_cm31_inverse,
    tari_cm31_div,
    tari_cm31_complex_conjugate
);
impl_operators!(CM31, cm31, M31, m31, CM31, tari_cm31_add_m31, tari_cm31_sub_m31, tari_cm31_mul_m31);
impl_assignments!(CM31, M31);

impl From<M31> for CM31 {
    fn from(x: M31) -> CM31 {
        accepted(call!(tari_cm31_from_base(m31 x)))
    }
}

impl fmt::Display for CM31 {
    fn fmt(&self, f: &mut fmt::Formatter<'_>) -> fmt::Result {
        write!(f, "{} + {}i", self.0, self.1)
    }
}
