//! The kernels: the model, the published Rust, and the library behind the C names.
//!
//! Each answers the calls in groups: those on the rows alone, those with a plan, those on cells and those on
//! images; a group gives nothing for a call of another.

mod fence;
mod library;
mod model;
mod published;

pub use self::model::Model;
pub use library::Library;
pub use published::Published;
