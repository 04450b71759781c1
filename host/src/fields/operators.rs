//! Operators and the functions of `Field`, by way of the C interface.

/// Implements `Field` for a type with its functions of the C interface, and the operators of the field itself.
macro_rules! impl_field {
    ($field:ident, $kind:ident, $zero:ident, $one:ident, $is_zero:ident, $neg:ident, $add:ident, $sub:ident, $mul:ident,
        $square:ident, $pow:ident, $inverse:ident, $div:ident, $complex_conjugate:ident) => {
        impl $crate::Field for $field {
            fn zero() -> $field {
                $crate::call::accepted(call!($zero()))
            }

            fn one() -> $field {
                $crate::call::accepted(call!($one()))
            }

            fn is_zero(&self) -> bool {
                $crate::call::accepted(call!($is_zero($kind self)))
            }

            fn square(&self) -> $field {
                $crate::call::accepted(call!($square($kind self)))
            }

            fn pow(&self, exp: u128) -> $field {
                $crate::call::accepted(call!($pow($kind self, wide exp)))
            }

            fn inverse(&self) -> Result<$field, $crate::Refusal> {
                $crate::call::answer(call!($inverse($kind self)))
            }

            fn div(self, rhs: $field) -> Result<$field, $crate::Refusal> {
                $crate::call::answer(call!($div($kind self, $kind rhs)))
            }

            fn complex_conjugate(&self) -> $field {
                $crate::call::accepted(call!($complex_conjugate($kind self)))
            }
        }

        impl std::ops::Neg for $field {
            type Output = $field;

            fn neg(self) -> $field {
                $crate::call::accepted(call!($neg($kind self)))
            }
        }

        impl_operators!($field, $kind, $field, $kind, $field, $add, $sub, $mul);
        impl_assignments!($field, $field);

        impl std::iter::Sum for $field {
            fn sum<I: Iterator<Item = $field>>(iter: I) -> $field {
                iter.fold(<$field as $crate::Field>::zero(), |a, b| a + b)
            }
        }

        impl<'a> std::iter::Sum<&'a $field> for $field {
            fn sum<I: Iterator<Item = &'a $field>>(iter: I) -> $field {
                iter.copied().sum()
            }
        }

        impl std::iter::Product for $field {
            fn product<I: Iterator<Item = $field>>(iter: I) -> $field {
                iter.fold(<$field as $crate::Field>::one(), |a, b| a * b)
            }
        }

        impl<'a> std::iter::Product<&'a $field> for $field {
            fn product<I: Iterator<Item = &'a $field>>(iter: I) -> $field {
                iter.copied().product()
            }
        }
    };
}

/// `+`, `-` and `*` between two types, with their functions of the C interface.
macro_rules! impl_operators {
    ($left:ident, $left_kind:ident, $right:ident, $right_kind:ident, $output:ident, $add:ident, $sub:ident, $mul:ident) => {
        impl_operator!(Add, add, $left, $left_kind, $right, $right_kind, $output, $add);
        impl_operator!(Sub, sub, $left, $left_kind, $right, $right_kind, $output, $sub);
        impl_operator!(Mul, mul, $left, $left_kind, $right, $right_kind, $output, $mul);
    };
}

macro_rules! impl_operator {
    ($trait:ident, $method:ident, $left:ident, $left_kind:ident, $right:ident, $right_kind:ident, $output:ident,
        $function:ident) => {
        impl std::ops::$trait<$right> for $left {
            type Output = $output;

            fn $method(self, rhs: $right) -> $output {
                $crate::call::accepted(call!($function($left_kind self, $right_kind rhs)))
            }
        }
    };
}

/// `+=`, `-=` and `*=`.
macro_rules! impl_assignments {
    ($left:ident, $right:ident) => {
        impl std::ops::AddAssign<$right> for $left {
            fn add_assign(&mut self, rhs: $right) {
                *self = *self + rhs;
            }
        }

        impl std::ops::SubAssign<$right> for $left {
            fn sub_assign(&mut self, rhs: $right) {
                *self = *self - rhs;
            }
        }

        impl std::ops::MulAssign<$right> for $left {
            fn mul_assign(&mut self, rhs: $right) {
                *self = *self * rhs;
            }
        }
    };
}

pub(super) use {impl_assignments, impl_field, impl_operator, impl_operators};
