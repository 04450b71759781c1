//! The three fields, and batch inversion over them.

mod batch;
mod cm31;
mod m31;
mod operators;
mod qm31;

pub use batch::{BatchCounts, batch_inverse, batch_inverse_chunked, batch_inverse_in_place};
pub use cm31::{CM31, P2};
pub use m31::{BaseField, M31, MODULUS_BITS, N_BYTES_FELT, P, Word};
pub use qm31::{P4, QM31, R, SECURE_EXTENSION_DEGREE, SecureField};

use crate::Refusal;
use std::fmt::{Debug, Display};
use std::hash::Hash;
use std::iter::{Product, Sum};
use std::ops::{Add, AddAssign, Mul, MulAssign, Neg, Sub, SubAssign};

/// What the three fields share. It can't be implemented outside this crate.
///
/// ```
/// use taripomune::{Field, M31, QM31, Refusal};
///
/// fn norm<F: Field>(a: F, b: F) -> F {
///     a.square() + b.square()
/// }
///
/// assert_eq!(norm(M31::from(3), M31::from(4)), M31::from(25));
/// assert_eq!(norm(QM31::from(3), QM31::from(4)), QM31::from(25));
/// assert_eq!(QM31::zero().inverse(), Err(Refusal::Inverse(0)));
/// ```
pub trait Field:
    Copy
    + Debug
    + Display
    + Default
    + Eq
    + Hash
    + Send
    + Sync
    + Neg<Output = Self>
    + Add<Output = Self>
    + Sub<Output = Self>
    + Mul<Output = Self>
    + AddAssign
    + SubAssign
    + MulAssign
    + Sum
    + for<'a> Sum<&'a Self>
    + Product
    + for<'a> Product<&'a Self>
    + From<M31>
    + batch::Batch
{
    /// 0.
    fn zero() -> Self;

    /// 1.
    fn one() -> Self;

    /// Whether it is 0.
    fn is_zero(&self) -> bool;

    /// Its product with itself.
    fn square(&self) -> Self;

    /// Its power; 0 to the power 0 is 1.
    fn pow(&self, exp: u128) -> Self;

    /// The element whose product with it is 1.
    ///
    /// Refuses zero with 3.
    fn inverse(&self) -> Result<Self, Refusal>;

    /// Its product with the inverse of `rhs`.
    ///
    /// Refuses zero as `rhs` with 3.
    fn div(self, rhs: Self) -> Result<Self, Refusal>;

    /// a + bi becomes a - bi, p + qu becomes p - qu; an element of M31 stays.
    fn complex_conjugate(&self) -> Self;
}
