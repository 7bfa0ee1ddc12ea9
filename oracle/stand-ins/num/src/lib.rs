//! Stands for the crate `num`: what `Rect<T>` asks of a float, given for f32 alone.
use std::ops::{Add, Div, Mul, Sub};

pub trait Float:
    Copy + PartialOrd + Add<Output = Self> + Sub<Output = Self> + Mul<Output = Self> + Div<Output = Self>
{
    fn from(whole: i32) -> Option<Self>;
    fn zero() -> Self;
    fn min(self, other: Self) -> Self;
    fn max(self, other: Self) -> Self;
}

impl Float for f32 {
    fn from(whole: i32) -> Option<f32> {
        Some(whole as f32)
    }
    fn zero() -> f32 {
        0.0
    }
    fn min(self, other: f32) -> f32 {
        f32::min(self, other)
    }
    fn max(self, other: f32) -> f32 {
        f32::max(self, other)
    }
}
