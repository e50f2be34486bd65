//! Ours. What hora's files use of the crate `num`, for f32, and no more.

use core::ops::{Div, Mul, Neg, Sub};

pub trait FromPrimitive: Sized {
    fn from_f32(n: f32) -> Option<Self>;
}

impl FromPrimitive for f32 {
    fn from_f32(n: f32) -> Option<f32> {
        Some(n)
    }
}

pub trait Float:
    Copy + Neg<Output = Self> + Sub<Output = Self> + Mul<Output = Self> + Div<Output = Self>
{
    /// The largest finite value.
    fn max_value() -> Self;
    fn is_nan(self) -> bool;
    fn is_infinite(self) -> bool;
    fn sqrt(self) -> Self;
}

impl Float for f32 {
    fn max_value() -> f32 {
        f32::MAX
    }

    fn is_nan(self) -> bool {
        f32::is_nan(self)
    }

    fn is_infinite(self) -> bool {
        f32::is_infinite(self)
    }

    fn sqrt(self) -> f32 {
        f32::sqrt(self)
    }
}
