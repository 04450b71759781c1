//! QM31: `fields/qm31.rs`, and its operations with M31 and CM31.

use crate::entry::{entry, words, Entry};
use crate::kinds::{ANY_I32, ANY_U32, BELOW_P_SQUARED, DIVISOR, EXTENSION_EXPONENT, PAIR, WORD};
use crate::kinds::{QUAD, QUAD_DIVISOR, QUAD_NARROWED};
use num_traits::{One, Zero};
use stwo::core::fields::m31::{pow2147483645, M31};
use stwo::core::fields::qm31::QM31;
use stwo::core::fields::{ComplexConjugate, FieldExpOps};

pub const ENTRIES: &[Entry] = &[
    entry("qm31_zero", &[], |_| words(QM31::zero())),
    entry("qm31_one", &[], |_| words(QM31::one())),
    entry("qm31_is_zero", &[QUAD], |a| vec![a.qm31().is_zero().into()]),
    entry("qm31_from_u32_unchecked", &[WORD; 4], |a| {
        words(QM31::from_u32_unchecked(a.take(), a.take(), a.take(), a.take()))
    }),
    entry("qm31_from_m31", &[WORD; 4], |a| words(QM31::from_m31(a.m31(), a.m31(), a.m31(), a.m31()))),
    entry("qm31_from_m31_array", &[WORD; 4], |a| words(QM31::from_m31_array([(); 4].map(|_| a.m31())))),
    entry("qm31_to_m31_array", &[QUAD], |a| a.qm31().to_m31_array().into_iter().flat_map(words).collect()),
    entry("qm31_from_base", &[WORD], |a| words(QM31::from(a.m31()))),
    entry("qm31_from_usize", &[BELOW_P_SQUARED], |a| words(QM31::from(a.take::<usize>()))),
    entry("qm31_from_u32", &[ANY_U32], |a| words(QM31::from(a.take::<u32>()))),
    entry("qm31_from_i32", &[ANY_I32], |a| words(QM31::from(a.take::<i32>()))),
    entry("qm31_from_partial_evals", &[QUAD; 4], |a| words(QM31::from_partial_evals([(); 4].map(|_| a.qm31())))),
    entry("qm31_add", &[QUAD, QUAD], |a| words(a.qm31() + a.qm31())),
    entry("qm31_sub", &[QUAD, QUAD], |a| words(a.qm31() - a.qm31())),
    entry("qm31_neg", &[QUAD], |a| words(-a.qm31())),
    entry("qm31_mul", &[QUAD, QUAD], |a| words(a.qm31() * a.qm31())),
    entry("qm31_mul_cm31", &[QUAD, PAIR], |a| words(a.qm31().mul_cm31(a.cm31()))),
    entry("qm31_square", &[QUAD], |a| words(a.qm31().square())),
    entry("qm31_pow", &[QUAD, EXTENSION_EXPONENT], |a| words(a.qm31().pow(a.u128()))),
    entry("qm31_pow2147483645", &[QUAD], |a| words(pow2147483645(a.qm31()))),
    entry("qm31_inverse", &[QUAD_DIVISOR], |a| words(a.qm31().inverse())),
    entry("qm31_div", &[QUAD, QUAD_DIVISOR], |a| words(a.qm31() / a.qm31())),
    entry("qm31_complex_conjugate", &[QUAD], |a| words(a.qm31().complex_conjugate())),
    entry("qm31_try_into_m31", &[QUAD_NARROWED], |a| words::<M31>(a.qm31().try_into().unwrap())),
    entry("qm31_add_m31", &[QUAD, WORD], |a| words(a.qm31() + a.m31())),
    entry("qm31_sub_m31", &[QUAD, WORD], |a| words(a.qm31() - a.m31())),
    entry("qm31_mul_m31", &[QUAD, WORD], |a| words(a.qm31() * a.m31())),
    entry("qm31_div_m31", &[QUAD, DIVISOR], |a| words(a.qm31() / a.m31())),
    entry("m31_add_qm31", &[WORD, QUAD], |a| words(a.m31() + a.qm31())),
    entry("m31_sub_qm31", &[WORD, QUAD], |a| words(a.m31() - a.qm31())),
    entry("m31_mul_qm31", &[WORD, QUAD], |a| words(a.m31() * a.qm31())),
    entry("m31_div_qm31", &[WORD, QUAD_DIVISOR], |a| words(a.m31() / a.qm31())),
];
