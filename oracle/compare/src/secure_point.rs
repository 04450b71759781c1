//! Points over QM31: `circle.rs`.

use crate::circle_kinds::{SCALAR, SECURE_DOUBLINGS, SECURE_INDEX, SECURE_POINT, SIGNED_SCALAR};
use crate::entry::{coordinates, entry, words, Entry};
use crate::kinds::QUAD;
use stwo::core::circle::CirclePoint;
use stwo::core::fields::qm31::QM31;
use stwo::core::fields::ComplexConjugate;

pub const ENTRIES: &[Entry] = &[
    entry("secure_point_zero", &[], |_| coordinates(CirclePoint::<QM31>::zero())),
    entry("secure_point_add", &[SECURE_POINT, SECURE_POINT], |a| coordinates(a.secure_point() + a.secure_point())),
    entry("secure_point_sub", &[SECURE_POINT, SECURE_POINT], |a| coordinates(a.secure_point() - a.secure_point())),
    entry("secure_point_neg", &[SECURE_POINT], |a| coordinates(-a.secure_point())),
    entry("secure_point_double", &[SECURE_POINT], |a| coordinates(a.secure_point().double())),
    entry("secure_point_double_x", &[QUAD], |a| words(CirclePoint::double_x(a.qm31()))),
    entry("secure_point_mul", &[SECURE_POINT, SCALAR], |a| coordinates(a.secure_point().mul(a.u128()))),
    entry("secure_point_mul_signed", &[SECURE_POINT, SIGNED_SCALAR], |a| {
        coordinates(a.secure_point().mul_signed(a.take()))
    }),
    entry("secure_point_repeated_double", &[SECURE_POINT, SECURE_DOUBLINGS], |a| {
        coordinates(a.secure_point().repeated_double(a.take()))
    }),
    entry("secure_point_conjugate", &[SECURE_POINT], |a| coordinates(a.secure_point().conjugate())),
    entry("secure_point_antipode", &[SECURE_POINT], |a| coordinates(a.secure_point().antipode())),
    entry("secure_point_complex_conjugate", &[SECURE_POINT], |a| coordinates(a.secure_point().complex_conjugate())),
    entry("secure_point_get_point", &[SECURE_INDEX], |a| coordinates(CirclePoint::get_point(a.u128()))),
];
