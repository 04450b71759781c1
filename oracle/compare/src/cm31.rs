//! CM31: `fields/cm31.rs`, and its operations with M31.

use crate::entry::{entry, words, Entry};
use crate::kinds::{DIVISOR, EXTENSION_EXPONENT, PAIR, PAIR_DIVISOR, PAIR_NARROWED, WORD};
use num_traits::{One, Zero};
use stwo::core::fields::cm31::CM31;
use stwo::core::fields::m31::{pow2147483645, M31};
use stwo::core::fields::{ComplexConjugate, FieldExpOps};

pub const ENTRIES: &[Entry] = &[
    entry("cm31_zero", &[], |_| words(CM31::zero())),
    entry("cm31_one", &[], |_| words(CM31::one())),
    entry("cm31_is_zero", &[PAIR], |a| vec![a.cm31().is_zero().into()]),
    entry("cm31_from_u32_unchecked", &[WORD, WORD], |a| words(CM31::from_u32_unchecked(a.take(), a.take()))),
    entry("cm31_from_m31", &[WORD, WORD], |a| words(CM31::from_m31(a.m31(), a.m31()))),
    entry("cm31_from_base", &[WORD], |a| words(CM31::from(a.m31()))),
    entry("cm31_add", &[PAIR, PAIR], |a| words(a.cm31() + a.cm31())),
    entry("cm31_sub", &[PAIR, PAIR], |a| words(a.cm31() - a.cm31())),
    entry("cm31_neg", &[PAIR], |a| words(-a.cm31())),
    entry("cm31_mul", &[PAIR, PAIR], |a| words(a.cm31() * a.cm31())),
    entry("cm31_square", &[PAIR], |a| words(a.cm31().square())),
    entry("cm31_pow", &[PAIR, EXTENSION_EXPONENT], |a| words(a.cm31().pow(a.u128()))),
    entry("cm31_pow2147483645", &[PAIR], |a| words(pow2147483645(a.cm31()))),
    entry("cm31_inverse", &[PAIR_DIVISOR], |a| words(a.cm31().inverse())),
    entry("cm31_div", &[PAIR, PAIR_DIVISOR], |a| words(a.cm31() / a.cm31())),
    entry("cm31_complex_conjugate", &[PAIR], |a| words(a.cm31().complex_conjugate())),
    entry("cm31_try_into_m31", &[PAIR_NARROWED], |a| words::<M31>(a.cm31().try_into().unwrap())),
    entry("cm31_add_m31", &[PAIR, WORD], |a| words(a.cm31() + a.m31())),
    entry("cm31_sub_m31", &[PAIR, WORD], |a| words(a.cm31() - a.m31())),
    entry("cm31_mul_m31", &[PAIR, WORD], |a| words(a.cm31() * a.m31())),
    entry("cm31_div_m31", &[PAIR, DIVISOR], |a| words(a.cm31() / a.m31())),
    entry("m31_add_cm31", &[WORD, PAIR], |a| words(a.m31() + a.cm31())),
    entry("m31_sub_cm31", &[WORD, PAIR], |a| words(a.m31() - a.cm31())),
    entry("m31_mul_cm31", &[WORD, PAIR], |a| words(a.m31() * a.cm31())),
    entry("m31_div_cm31", &[WORD, PAIR_DIVISOR], |a| words(a.m31() / a.cm31())),
];
