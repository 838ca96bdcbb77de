//! Stand-in for downcast-rs: from a trait object back to the type behind it.

use std::any::Any;

/// What can be asked for its type while it runs.
pub trait Downcast: Any {
    /// As a value of any type.
    fn as_any(&self) -> &dyn Any;
    /// As a mutable value of any type.
    fn as_any_mut(&mut self) -> &mut dyn Any;
}

impl<T: Any> Downcast for T {
    fn as_any(&self) -> &dyn Any {
        self
    }
    fn as_any_mut(&mut self) -> &mut dyn Any {
        self
    }
}

/// Gives a trait's objects `downcast_ref` and `downcast_mut`.
#[macro_export]
macro_rules! impl_downcast {
    ($name:ident) => {
        impl dyn $name {
            /// The value behind the object, if it has this type.
            pub fn downcast_ref<T: $name>(&self) -> Option<&T> {
                $crate::Downcast::as_any(self).downcast_ref::<T>()
            }
            /// The mutable value behind the object, if it has this type.
            pub fn downcast_mut<T: $name>(&mut self) -> Option<&mut T> {
                $crate::Downcast::as_any_mut(self).downcast_mut::<T>()
            }
        }
    };
}
