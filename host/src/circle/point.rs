//! Points over M31 and QM31.

use crate::call::{Answer, accepted, answer};
use crate::{Field, M31, P4, QM31, Refusal};
use std::ops::{Add, Neg, Sub};
use taripomune_sys::{tari_point_reply, tari_secure_point_reply};

/// (x, y) over M31 or QM31, with (x, y) + (z, w) = (xz - yw, xw + yz). It needn't lie on the circle x^2 + y^2 = 1.
///
/// ```
/// use taripomune::{CirclePoint, M31, M31_CIRCLE_GEN, Refusal};
///
/// let g = M31_CIRCLE_GEN;
/// assert_eq!(g + g, CirclePoint { x: M31::from(7), y: M31::from(777079998) });
/// assert_eq!(g.mul(1 << 31), CirclePoint::zero());
/// assert_eq!(g.log_order(), Ok(31));
/// assert_eq!(CirclePoint { x: M31::from(1), y: M31::from(5) }.log_order(), Err(Refusal::Circle));
/// assert_eq!(g.mul_signed(isize::MIN), Err(Refusal::Scalar));
/// ```
#[derive(Clone, Copy, Debug, PartialEq, Eq, Hash)]
pub struct CirclePoint<F> {
    /// The first coordinate.
    pub x: F,
    /// The second coordinate.
    pub y: F,
}

/// G, which has the index 1; its multiples are all points of the circle over M31.
pub const M31_CIRCLE_GEN: CirclePoint<M31> = CirclePoint { x: M31::of_word(2), y: M31::of_word(1268011823) };

/// G has the order 2^31.
pub const M31_CIRCLE_LOG_ORDER: u32 = 31;

/// The point that `get_point` multiplies.
pub const SECURE_FIELD_CIRCLE_GEN: CirclePoint<QM31> = CirclePoint {
    x: QM31::of_words([1, 0, 478637715, 513582971]),
    y: QM31::of_words([992285211, 649143431, 740191619, 1186584352]),
};

/// `get_point` takes indices below this.
pub const SECURE_FIELD_CIRCLE_ORDER: u128 = P4 - 1;

/// The fields that points are over, M31 and QM31. It can't be implemented outside this crate.
///
/// ```
/// use taripomune::{CircleField, CirclePoint, M31_CIRCLE_GEN, SECURE_FIELD_CIRCLE_GEN};
///
/// fn doubles_its_x<F: CircleField>(point: CirclePoint<F>) -> bool {
///     point.double().x == CirclePoint::double_x(point.x)
/// }
///
/// assert!(doubles_its_x(M31_CIRCLE_GEN));
/// assert!(doubles_its_x(SECURE_FIELD_CIRCLE_GEN));
/// ```
pub trait CircleField: Field + Points {}

impl CircleField for M31 {}
impl CircleField for QM31 {}

/// The functions of the points over a field.
pub trait Points: Sized {
    fn zero_point() -> CirclePoint<Self>;
    fn add_points(a: CirclePoint<Self>, b: CirclePoint<Self>) -> CirclePoint<Self>;
    fn sub_points(a: CirclePoint<Self>, b: CirclePoint<Self>) -> CirclePoint<Self>;
    fn neg_point(point: CirclePoint<Self>) -> CirclePoint<Self>;
    fn double_point(point: CirclePoint<Self>) -> CirclePoint<Self>;
    fn double_x_of(x: Self) -> Self;
    fn mul_point(point: CirclePoint<Self>, scalar: u128) -> CirclePoint<Self>;
    fn mul_point_signed(point: CirclePoint<Self>, off: i64) -> Result<CirclePoint<Self>, Refusal>;
    fn repeated_double_point(point: CirclePoint<Self>, n: u32) -> CirclePoint<Self>;
    fn conjugate_point(point: CirclePoint<Self>) -> CirclePoint<Self>;
    fn antipode_point(point: CirclePoint<Self>) -> CirclePoint<Self>;
    fn complex_conjugate_point(point: CirclePoint<Self>) -> CirclePoint<Self>;
}

macro_rules! impl_points {
    ($field:ident, $element:ident, $kind:ident, $zero:ident, $add:ident, $sub:ident, $neg:ident, $double:ident,
        $double_x:ident, $mul:ident, $mul_signed:ident, $repeated_double:ident, $conjugate:ident, $antipode:ident,
        $complex_conjugate:ident) => {
        impl Points for $field {
            fn zero_point() -> CirclePoint<$field> {
                accepted(call!($zero()))
            }

            fn add_points(a: CirclePoint<$field>, b: CirclePoint<$field>) -> CirclePoint<$field> {
                accepted(call!($add($kind a, $kind b)))
            }

            fn sub_points(a: CirclePoint<$field>, b: CirclePoint<$field>) -> CirclePoint<$field> {
                accepted(call!($sub($kind a, $kind b)))
            }

            fn neg_point(point: CirclePoint<$field>) -> CirclePoint<$field> {
                accepted(call!($neg($kind point)))
            }

            fn double_point(point: CirclePoint<$field>) -> CirclePoint<$field> {
                accepted(call!($double($kind point)))
            }

            fn double_x_of(x: $field) -> $field {
                accepted(call!($double_x($element x)))
            }

            fn mul_point(point: CirclePoint<$field>, scalar: u128) -> CirclePoint<$field> {
                accepted(call!($mul($kind point, wide scalar)))
            }

            fn mul_point_signed(point: CirclePoint<$field>, off: i64) -> Result<CirclePoint<$field>, Refusal> {
                answer(call!($mul_signed($kind point, number off)))
            }

            fn repeated_double_point(point: CirclePoint<$field>, n: u32) -> CirclePoint<$field> {
                accepted(call!($repeated_double($kind point, number n)))
            }

            fn conjugate_point(point: CirclePoint<$field>) -> CirclePoint<$field> {
                accepted(call!($conjugate($kind point)))
            }

            fn antipode_point(point: CirclePoint<$field>) -> CirclePoint<$field> {
                accepted(call!($antipode($kind point)))
            }

            fn complex_conjugate_point(point: CirclePoint<$field>) -> CirclePoint<$field> {
                accepted(call!($complex_conjugate($kind point)))
            }
        }
    };
}

impl_points!(
    M31,
    m31,
    point,
    tari_point_zero,
    tari_point_add,
    tari_point_sub,
    tari_point_neg,
    tari_point_double,
    tari_point_double_x,
    tari_point_mul,
    tari_point_mul_signed,
    tari_point_repeated_double,
    tari_point_conjugate,
    tari_point_antipode,
    tari_point_complex_conjugate
);
impl_points!(
    QM31,
    qm31,
    secure_point,
    tari_secure_point_zero,
    tari_secure_point_add,
    tari_secure_point_sub,
    tari_secure_point_neg,
    tari_secure_point_double,
    tari_secure_point_double_x,
    tari_secure_point_mul,
    tari_secure_point_mul_signed,
    tari_secure_point_repeated_double,
    tari_secure_point_conjugate,
    tari_secure_point_antipode,
    tari_secure_point_complex_conjugate
);

impl<F: CircleField> CirclePoint<F> {
    /// (1, 0).
    pub fn zero() -> CirclePoint<F> {
        F::zero_point()
    }

    /// Its sum with itself.
    pub fn double(&self) -> CirclePoint<F> {
        F::double_point(*self)
    }

    /// 2x^2 - 1, the x of a point of the circle doubled.
    pub fn double_x(x: F) -> F {
        F::double_x_of(x)
    }

    /// Adds the point `scalar` times to zero.
    pub fn mul(&self, scalar: u128) -> CirclePoint<F> {
        F::mul_point(*self, scalar)
    }

    /// Adds the point `off` times to zero, or its conjugate -`off` times where `off` is negative.
    ///
    /// Refuses -2^63 with 11.
    pub fn mul_signed(&self, off: isize) -> Result<CirclePoint<F>, Refusal> {
        F::mul_point_signed(*self, off as i64)
    }

    /// Doubles it `n` times, one after the other: the largest counts take seconds or minutes.
    pub fn repeated_double(&self, n: u32) -> CirclePoint<F> {
        F::repeated_double_point(*self, n)
    }

    /// (x, -y).
    pub fn conjugate(&self) -> CirclePoint<F> {
        F::conjugate_point(*self)
    }

    /// (-x, -y).
    pub fn antipode(&self) -> CirclePoint<F> {
        F::antipode_point(*self)
    }

    /// The complex conjugates of x and y.
    pub fn complex_conjugate(&self) -> CirclePoint<F> {
        F::complex_conjugate_point(*self)
    }
}

impl CirclePoint<M31> {
    /// The least count of doublings that reach zero, at most 31.
    ///
    /// Refuses a point off the circle with 10.
    pub fn log_order(&self) -> Result<u32, Refusal> {
        answer(call!(tari_point_log_order(point self)))
    }

    /// The same point over QM31.
    pub fn into_ef(self) -> CirclePoint<QM31> {
        accepted(call!(tari_point_into_ef(point self)))
    }
}

impl CirclePoint<QM31> {
    /// `SECURE_FIELD_CIRCLE_GEN` added `index` times to zero.
    ///
    /// Refuses an index from P^4 - 1 on with 11.
    pub fn get_point(index: u128) -> Result<CirclePoint<QM31>, Refusal> {
        answer(call!(tari_secure_point_get_point(wide index)))
    }
}

/// [`CirclePoint::zero`], which lies on the circle.
///
/// ```
/// use taripomune::{CirclePoint, M31, M31_CIRCLE_GEN};
///
/// let point = CirclePoint::<M31>::default();
/// assert_eq!(point, CirclePoint { x: M31::from(1), y: M31::from(0) });
/// assert_eq!(point.log_order(), Ok(0));
/// assert_eq!(point + M31_CIRCLE_GEN, M31_CIRCLE_GEN);
/// ```
impl<F: CircleField> Default for CirclePoint<F> {
    fn default() -> CirclePoint<F> {
        CirclePoint::zero()
    }
}

impl<F: CircleField> Add for CirclePoint<F> {
    type Output = CirclePoint<F>;

    fn add(self, rhs: CirclePoint<F>) -> CirclePoint<F> {
        F::add_points(self, rhs)
    }
}

impl<F: CircleField> Sub for CirclePoint<F> {
    type Output = CirclePoint<F>;

    fn sub(self, rhs: CirclePoint<F>) -> CirclePoint<F> {
        F::sub_points(self, rhs)
    }
}

impl<F: CircleField> Neg for CirclePoint<F> {
    type Output = CirclePoint<F>;

    fn neg(self) -> CirclePoint<F> {
        F::neg_point(self)
    }
}

impl Answer for CirclePoint<M31> {
    type Reply = tari_point_reply;

    fn of(reply: tari_point_reply) -> CirclePoint<M31> {
        CirclePoint { x: M31::of_word(reply.x), y: M31::of_word(reply.y) }
    }
}

impl Answer for CirclePoint<QM31> {
    type Reply = tari_secure_point_reply;

    fn of(reply: tari_secure_point_reply) -> CirclePoint<QM31> {
        CirclePoint {
            x: QM31::of_words([reply.x0, reply.x1, reply.x2, reply.x3]),
            y: QM31::of_words([reply.y0, reply.y1, reply.y2, reply.y3]),
        }
    }
}
