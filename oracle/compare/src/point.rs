//! Points over M31: `circle.rs`.

use crate::circle_kinds::{DOUBLINGS, POINT, POINT_ON_CIRCLE, SCALAR, SIGNED_SCALAR};
use crate::entry::{coordinates, entry, words, Entry};
use crate::kinds::WORD;
use stwo::core::circle::CirclePoint;
use stwo::core::fields::m31::M31;
use stwo::core::fields::qm31::QM31;
use stwo::core::fields::ComplexConjugate;

pub const ENTRIES: &[Entry] = &[
    entry("point_zero", &[], |_| coordinates(CirclePoint::<M31>::zero())),
    entry("point_add", &[POINT, POINT], |a| coordinates(a.point() + a.point())),
    entry("point_sub", &[POINT, POINT], |a| coordinates(a.point() - a.point())),
    entry("point_neg", &[POINT], |a| coordinates(-a.point())),
    entry("point_double", &[POINT], |a| coordinates(a.point().double())),
    entry("point_double_x", &[WORD], |a| words(CirclePoint::double_x(a.m31()))),
    entry("point_mul", &[POINT, SCALAR], |a| coordinates(a.point().mul(a.u128()))),
    entry("point_mul_signed", &[POINT, SIGNED_SCALAR], |a| coordinates(a.point().mul_signed(a.take()))),
    entry("point_repeated_double", &[POINT, DOUBLINGS], |a| coordinates(a.point().repeated_double(a.take()))),
    entry("point_conjugate", &[POINT], |a| coordinates(a.point().conjugate())),
    entry("point_antipode", &[POINT], |a| coordinates(a.point().antipode())),
    entry("point_complex_conjugate", &[POINT], |a| coordinates(a.point().complex_conjugate())),
    entry("point_into_ef", &[POINT], |a| coordinates(a.point().into_ef::<QM31>())),
    entry("point_log_order", &[POINT_ON_CIRCLE], |a| vec![a.point().log_order().into()]),
];
