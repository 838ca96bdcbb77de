//! Stand-in for num-traits: the few conversions that the text names.

/// What turns into plain numbers, where it fits.
pub trait ToPrimitive {
    fn to_usize(&self) -> Option<usize>;
    fn to_f32(&self) -> Option<f32>;
    fn to_f64(&self) -> Option<f64>;
}

impl ToPrimitive for u32 {
    fn to_usize(&self) -> Option<usize> {
        usize::try_from(*self).ok()
    }
    fn to_f32(&self) -> Option<f32> {
        Some(*self as f32)
    }
    fn to_f64(&self) -> Option<f64> {
        Some((*self).into())
    }
}

macro_rules! of_float {
    ($t:ty) => {
        impl ToPrimitive for $t {
            fn to_usize(&self) -> Option<usize> {
                (*self > -1.0 && *self < usize::MAX as $t).then_some(*self as usize)
            }
            fn to_f32(&self) -> Option<f32> {
                Some(*self as f32)
            }
            fn to_f64(&self) -> Option<f64> {
                Some(*self as f64)
            }
        }

        impl NumCast for $t {
            fn from<N: ToPrimitive>(n: N) -> Option<Self> {
                n.to_f64().map(|x| x as $t)
            }
        }

        impl Zero for $t {
            fn zero() -> Self {
                0.0
            }
        }
    };
}

/// What can be made from any plain number.
pub trait NumCast: Sized {
    fn from<N: ToPrimitive>(n: N) -> Option<Self>;
}

/// What has a zero.
pub trait Zero {
    fn zero() -> Self;
}

of_float!(f32);
of_float!(f64);
