//! Bytes that are no image, or nearly one: the cases of the program `test_report_noise`, made once more, and
//! what it must print.

mod cases;
mod tally;

pub use cases::{KINDS, NAMES, Noise, case};
pub use tally::{Tally, lines};
