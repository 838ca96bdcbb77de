//! Holds kernels against the model: answers, rows, plan, output, scratch and every place that a call
//! must leave alone.
//!
//! A kernel is anything that implements [`Kernel`]: the published Rust, the library behind the C names.

mod check;
mod kernel;
mod kernels;
pub mod maps;
mod random;
pub mod runs;

pub use check::{Comparison, Count, Finding};
pub use kernel::{Answer, Call, Cell, ENTRY_NUMBERS, Kernel, Loans, Orbit};
pub use kernels::{Library, Model, Published};
pub use random::Random;
