//! M31: `fields/m31.rs`.

use crate::entry::{entry, words, Entry};
use crate::kinds::{ANY_I32, ANY_U32, BELOW_2P, BELOW_P_SQUARED, DIVISOR, EXPONENT, SQUARINGS, WORD};
use num_traits::{One, Zero};
use stwo::core::fields::m31::{pow2147483645, M31};
use stwo::core::fields::{ComplexConjugate, FieldExpOps};

pub const ENTRIES: &[Entry] = &[
    entry("m31_partial_reduce", &[BELOW_2P], |a| words(M31::partial_reduce(a.take()))),
    entry("m31_reduce", &[BELOW_P_SQUARED], |a| words(M31::reduce(a.take()))),
    entry("m31_from_u32_unchecked", &[WORD], |a| words(M31::from_u32_unchecked(a.take()))),
    entry("m31_from_usize", &[BELOW_P_SQUARED], |a| words(M31::from(a.take::<usize>()))),
    entry("m31_from_u32", &[ANY_U32], |a| words(M31::from(a.take::<u32>()))),
    entry("m31_from_i32", &[ANY_I32], |a| words(M31::from(a.take::<i32>()))),
    entry("m31_zero", &[], |_| words(M31::zero())),
    entry("m31_one", &[], |_| words(M31::one())),
    entry("m31_is_zero", &[WORD], |a| vec![a.m31().is_zero().into()]),
    entry("m31_add", &[WORD, WORD], |a| words(a.m31() + a.m31())),
    entry("m31_sub", &[WORD, WORD], |a| words(a.m31() - a.m31())),
    entry("m31_neg", &[WORD], |a| words(-a.m31())),
    entry("m31_mul", &[WORD, WORD], |a| words(a.m31() * a.m31())),
    entry("m31_square", &[WORD], |a| words(a.m31().square())),
    entry("m31_pow", &[WORD, EXPONENT], |a| words(a.m31().pow(a.u128()))),
    entry("m31_pow2147483645", &[WORD], |a| words(pow2147483645(a.m31()))),
    entry("m31_sqn", &[WORD, SQUARINGS], |a| words(sqn(a.m31(), a.take()))),
    entry("m31_inverse", &[DIVISOR], |a| words(a.m31().inverse())),
    entry("m31_div", &[WORD, DIVISOR], |a| words(a.m31() / a.m31())),
    entry("m31_complex_conjugate", &[WORD], |a| words(a.m31().complex_conjugate())),
];

/// The Rust's own `sqn` is private, its count a constant: here its squarings are made one by one. From n = 1 on the
/// power v^(2^n) depends on n modulo 30 alone, 2^31 being 2 modulo P - 1, so many squarings become one call of `pow`.
fn sqn(v: M31, n: u64) -> M31 {
    if n <= 200 {
        return (0..n).fold(v, |v, _| v.square());
    }
    v.pow(1 << (1 + (n - 1) % 30))
}
