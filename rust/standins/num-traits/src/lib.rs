//! The part of num-traits that lapjv 0.3.0 uses: `Float` over `Zero`.

use std::ops::{Add, Sub};

/// A number type with a zero.
pub trait Zero {
    fn zero() -> Self;
}

/// A float type.
pub trait Float: Zero + Copy + PartialOrd + Add<Output = Self> + Sub<Output = Self> {
    fn max_value() -> Self;
    fn epsilon() -> Self;
    fn abs(self) -> Self;
}

macro_rules! float {
    ($type:ident) => {
        impl Zero for $type {
            fn zero() -> Self {
                0.0
            }
        }

        impl Float for $type {
            #[inline(always)]
            fn max_value() -> Self {
                $type::MAX
            }
            #[inline(always)]
            fn epsilon() -> Self {
                $type::EPSILON
            }
            #[inline(always)]
            fn abs(self) -> Self {
                $type::abs(self)
            }
        }
    };
}

float!(f32);
float!(f64);
