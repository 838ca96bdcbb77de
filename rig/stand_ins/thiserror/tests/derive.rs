//! The shapes that the published text derives on.

use thiserror::Error;

#[derive(Debug, Error, PartialEq, Eq)]
#[error("cannot reserve {0} darts")]
struct Reservation(pub usize);

/// With a doc comment in front, as in the text.
#[derive(Debug, Error, PartialEq, Eq)]
enum Inner {
    /// The base.
    #[error("cannot link {1} to {2}: b{0}({1}) != NULL")]
    Base(u8, u32, u32),
    #[error("no field of {1} is named")]
    Second(u8, u32),
}

#[derive(Debug, Error, PartialEq, Eq)]
enum Outer {
    #[error("inner: {0}")]
    Failed(#[from] Inner),
}

#[test]
fn texts_and_from() {
    assert_eq!(Reservation(3).to_string(), "cannot reserve 3 darts");
    assert_eq!(Inner::Base(1, 2, 3).to_string(), "cannot link 2 to 3: b1(2) != NULL");
    assert_eq!(Inner::Second(1, 2).to_string(), "no field of 2 is named");
    let outer = Outer::from(Inner::Base(1, 2, 3));
    assert_eq!(outer.to_string(), "inner: cannot link 2 to 3: b1(2) != NULL");
    let _: &dyn std::error::Error = &outer;
}
