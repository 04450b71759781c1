//! Stands in for num_traits: the shapes of the traits that the sources name.

use std::ops::{Add, AddAssign, Div, DivAssign, Mul, MulAssign, Rem, RemAssign, Sub, SubAssign};

pub trait Zero: Sized + Add<Output = Self> {
    fn zero() -> Self;
    fn is_zero(&self) -> bool;
}

pub trait One: Sized + Mul<Output = Self> {
    fn one() -> Self;
}

pub trait NumOps<R = Self>:
    Add<R, Output = Self> + Sub<R, Output = Self> + Mul<R, Output = Self> + Div<R, Output = Self> + Rem<R, Output = Self>
{
}
impl<R, T> NumOps<R> for T where
    T: Add<R, Output = T> + Sub<R, Output = T> + Mul<R, Output = T> + Div<R, Output = T> + Rem<R, Output = T>
{
}

pub trait NumAssignOps<R = Self>: AddAssign<R> + SubAssign<R> + MulAssign<R> + DivAssign<R> + RemAssign<R> {}
impl<R, T: AddAssign<R> + SubAssign<R> + MulAssign<R> + DivAssign<R> + RemAssign<R>> NumAssignOps<R> for T {}

pub trait Num: PartialEq + Zero + One + NumOps {
    type FromStrRadixErr;
    fn from_str_radix(str: &str, radix: u32) -> Result<Self, Self::FromStrRadixErr>;
}

pub trait NumAssign: Num + NumAssignOps {}
impl<T: Num + NumAssignOps> NumAssign for T {}
