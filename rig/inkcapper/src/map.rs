//! The calls on rows and flags alone, with answers as Rust has them: a dart, a yes or no, or a refusal.
//!
//! A map is its rows and its flags, of which one that is not 0 says that the dart is unused; such a dart has no
//! image. The reads ask for the rows alone.

use crate::answer::{Answer, Refusal};
use crate::slices;

/// The dart that a call answers.
fn dart(answer: Answer) -> Result<u32, Refusal> {
    answer.done().map(|(first, _)| first)
}

/// The image of dart `d` under beta `i`. No map test; dart 0 is allowed.
///
/// # Errors
///
/// Refusals 1, 4 and 5.
pub fn beta(rows: &[u32], i: u32, d: u32) -> Result<u32, Refusal> {
    dart(slices::beta(rows, i, d))
}

/// Whether dart `d` has no image under beta `i`. No map test; dart 0 is allowed.
///
/// # Errors
///
/// Refusals 1, 4 and 5.
pub fn is_i_free(rows: &[u32], i: u32, d: u32) -> Result<bool, Refusal> {
    dart(slices::is_i_free(rows, i, d)).map(|yes| yes != 0)
}

/// Whether dart `d` has no image at all. No map test; dart 0 is allowed.
///
/// # Errors
///
/// Refusals 1 and 4.
pub fn is_free(rows: &[u32], d: u32) -> Result<bool, Refusal> {
    dart(slices::is_free(rows, d)).map(|yes| yes != 0)
}

/// The map test alone.
///
/// # Errors
///
/// Refusals 1, 2 and 3.
pub fn check(rows: &[u32], flags: &[u8]) -> Result<(), Refusal> {
    dart(slices::check_map(rows, flags)).map(|_| ())
}

macro_rules! links {
    ($($(#[$doc:meta])* $name:ident;)*) => { $(
        $(#[$doc])*
        pub fn $name(rows: &mut [u32], flags: &[u8], ld: u32, rd: u32) -> Result<(), Refusal> {
            dart(slices::$name(rows, flags, ld, rd)).map(|_| ())
        }
    )* };
}

links! {
    /// Makes `rd` the beta 1 image of `ld` and `ld` the beta 0 image of `rd`.
    ///
    /// # Errors
    ///
    /// Refusals 1, 2, 3, 4, 6 and 7.
    one_link;
    /// Makes `ld` and `rd` each other's beta 2 image.
    ///
    /// # Errors
    ///
    /// Refusals 1, 2, 3, 4, 6 and 7.
    two_link;
    /// Makes the darts of the faces of `ld` and `rd` each other's beta 3 images, pair by pair.
    ///
    /// # Errors
    ///
    /// Refusals 1, 2, 3, 4, 6, 7 and 9.
    three_link;
}

macro_rules! unlinks {
    ($($(#[$doc:meta])* $name:ident;)*) => { $(
        $(#[$doc])*
        pub fn $name(rows: &mut [u32], flags: &[u8], ld: u32) -> Result<u32, Refusal> {
            dart(slices::$name(rows, flags, ld))
        }
    )* };
}

unlinks! {
    /// Takes the beta 1 image of `ld` away and gives it back.
    ///
    /// # Errors
    ///
    /// Refusals 1, 2, 3, 4 and 8.
    one_unlink;
    /// Takes the beta 2 image of `ld` away and gives it back.
    ///
    /// # Errors
    ///
    /// Refusals 1, 2, 3, 4 and 8.
    two_unlink;
    /// Takes the beta 3 images of the face of `ld` away and gives back that of `ld`.
    ///
    /// # Errors
    ///
    /// Refusals 1, 2, 3, 4, 8 and 9.
    three_unlink;
}
