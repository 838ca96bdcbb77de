//! The runs: which maps, which calls, which loans.

mod answers;
mod bytes;
mod calls;
mod edges;
mod floats;
mod images;
mod largest;
mod lists;
mod loans;
mod refusals;
mod small;
mod walks;
mod writes;

pub use answers::{answers, listed, unused, wrong};
pub use bytes::bytes;
pub use edges::edges;
pub use floats::floats;
pub use images::{image_of, images, spoil_image};
pub use largest::largest;
pub use lists::lists;
pub use refusals::refusals;
pub use small::small;
pub use walks::walks;
pub use writes::writes;
