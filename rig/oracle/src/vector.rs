//! Stands in for the float trait, the 3-vector and the 2-vertex of honeycomb-core's geometry.

use std::fmt::Debug;
use std::ops::{Add, AddAssign, Div, Mul, Sub, SubAssign};

use num_traits::{NumCast, ToPrimitive, Zero};

/// What can be a coordinate.
pub trait CoordsFloat:
    Copy
    + Debug
    + Default
    + PartialOrd
    + Send
    + Sync
    + 'static
    + NumCast
    + ToPrimitive
    + Zero
    + Add<Output = Self>
    + AddAssign
    + Div<Output = Self>
    + Mul<Output = Self>
    + Sub<Output = Self>
    + SubAssign
{
}

impl CoordsFloat for f32 {}
impl CoordsFloat for f64 {}

/// A difference of two vertices.
#[derive(Debug, Clone, Copy, Default, PartialEq)]
pub struct Vector3<T: CoordsFloat>(pub T, pub T, pub T);

impl<T: CoordsFloat> Vector3<T> {
    /// x product plus y product, plus z product, each operation rounded once, as the scope has
    /// it. Rust never fuses a product and a sum by itself.
    pub fn dot(&self, other: &Self) -> T {
        self.0 * other.0 + self.1 * other.1 + self.2 * other.2
    }
}

/// Named by the text's conversion from two to three dimensions only.
#[derive(Debug, Clone, Copy, Default, PartialEq)]
pub struct Vertex2<T: CoordsFloat>(pub T, pub T);
