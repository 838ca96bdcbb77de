//! The calls on slices: one function for each name of the C boundary, nothing added.
//!
//! Every slice may have any length; a length that does not do is a refusal and never undefined. Rust's
//! borrows keep the slices apart, which is the one duty that a C caller has to see to.

mod cells;
mod images;

pub use cells::*;
pub use images::*;

use crate::answer::Answer;
use crate::ffi;

/// Calls a C function with the place for its values and makes an answer of both.
fn ask(call: impl FnOnce(ffi::Values) -> u32) -> Answer {
    // every call writes all three; one left unwritten would show
    let mut values = [u64::MAX; 3];
    let number = call(&raw mut values);
    Answer::from_parts(number, values)
}

/// Image of dart `d` under beta `i`. No map test; dart 0 is allowed.
///
/// ```
/// # #[cfg(not(feature = "linked"))] extern crate c_names;
/// use inkcapper::{Answer, Refusal, slices};
/// let rows = [0, 0, 0, 0, 1, 1, 0, 0]; // dart 1 alone, closed by beta 1
/// assert_eq!(slices::beta(&rows, 1, 1), Answer::Done { first: 1, count: 0 });
/// assert_eq!(slices::beta(&rows, 1, 2), Answer::Refused(Refusal::BadDart { argument: 1 }));
/// ```
pub fn beta(rows: &[u32], i: u32, d: u32) -> Answer {
    // SAFETY: pointer and length of one live slice; the place for the values is live too.
    ask(|values| unsafe { ffi::inkcapper_beta(rows.as_ptr(), rows.len(), i, d, values) })
}

/// Whether dart `d` has no image under beta `i`. No map test; dart 0 is allowed.
pub fn is_i_free(rows: &[u32], i: u32, d: u32) -> Answer {
    // SAFETY: as in `beta`.
    ask(|values| unsafe { ffi::inkcapper_is_i_free(rows.as_ptr(), rows.len(), i, d, values) })
}

/// Whether dart `d` has no image at all. No map test; dart 0 is allowed.
pub fn is_free(rows: &[u32], d: u32) -> Answer {
    // SAFETY: as in `beta`.
    ask(|values| unsafe { ffi::inkcapper_is_free(rows.as_ptr(), rows.len(), d, values) })
}

/// The map test alone: whether rows and flags are a well-formed map.
///
/// ```
/// # #[cfg(not(feature = "linked"))] extern crate c_names;
/// use inkcapper::{Answer, Refusal, slices};
/// let refused = |beta| Answer::Refused(Refusal::NotAMap { beta, dart: 1 });
/// let rows = [0, 0, 0, 0, 1, 1, 0, 0];
/// assert_eq!(slices::check_map(&rows, &[0, 0]), Answer::Done { first: 0, count: 0 });
/// assert_eq!(slices::check_map(&rows, &[0, 1]), refused(4)); // an unused dart is free
/// assert_eq!(slices::check_map(&[0, 0, 0, 0, 1, 1, 1, 0], &[0, 1]), refused(2)); // beta 2 may not fix a dart
/// ```
pub fn check_map(rows: &[u32], flags: &[u8]) -> Answer {
    // SAFETY: pointers and lengths of live slices; the place for the values is live too.
    ask(|values| unsafe { ffi::inkcapper_check_map(rows.as_ptr(), rows.len(), flags.as_ptr(), flags.len(), values) })
}

macro_rules! links {
    ($($(#[$doc:meta])* $name:ident, $c:ident ($($dart:ident),*);)*) => { $(
        $(#[$doc])*
        pub fn $name(rows: &mut [u32], flags: &[u8], $($dart: u32),*) -> Answer {
            // SAFETY: pointers and lengths of live slices; the one written is held by nobody else.
            ask(|values| unsafe {
                ffi::$c(rows.as_mut_ptr(), rows.len(), flags.as_ptr(), flags.len(), $($dart,)* values)
            })
        }
    )* };
}

links! {
    /// Makes `rd` the beta 1 image of `ld` and `ld` the beta 0 image of `rd`.
    one_link, inkcapper_one_link (ld, rd);
    /// Makes `ld` and `rd` each other's beta 2 image.
    two_link, inkcapper_two_link (ld, rd);
    /// Makes the darts of the faces of `ld` and `rd` each other's beta 3 images, pair by pair.
    ///
    /// ```
    /// # #[cfg(not(feature = "linked"))] extern crate c_names;
    /// use inkcapper::{Answer, Refusal, slices};
    /// let (mut rows, flags) = ([0; 16], [0, 0, 0, 1]); // two free darts, and one that is unused
    /// let refused = slices::three_link(&mut rows, &flags, 1, 1);
    /// assert_eq!(refused, Answer::Refused(Refusal::NonFreeImage { i: 3, l: 1, r: 1 }));
    /// let refused = slices::three_link(&mut rows, &flags, 1, 3);
    /// assert_eq!(refused, Answer::Refused(Refusal::BadDart { argument: 2 }));
    /// assert_eq!(slices::three_link(&mut rows, &flags, 1, 2), Answer::Done { first: 0, count: 0 });
    /// assert_eq!(slices::beta(&rows, 3, 2), Answer::Done { first: 1, count: 0 });
    /// ```
    three_link, inkcapper_three_link (ld, rd);
    /// Takes the beta 1 image of `ld` away and answers it.
    one_unlink, inkcapper_one_unlink (ld);
    /// Takes the beta 2 image of `ld` away and answers it.
    two_unlink, inkcapper_two_unlink (ld);
    /// Takes the beta 3 images of the face of `ld` away and answers that of `ld`.
    three_unlink, inkcapper_three_unlink (ld);
}

macro_rules! sews {
    ($($(#[$doc:meta])* $name:ident, $c:ident ($($dart:ident),*);)*) => { $(
        $(#[$doc])*
        pub fn $name(
            rows: &mut [u32], marks: &mut [u8], queue: &mut [u32], flags: &[u8], plan: &mut [u32], $($dart: u32),*
        ) -> Answer {
            // SAFETY: pointers and lengths of live slices; those written are held by nobody else.
            ask(|values| unsafe {
                ffi::$c(
                    rows.as_mut_ptr(), rows.len(), marks.as_mut_ptr(), marks.len(), queue.as_mut_ptr(), queue.len(),
                    flags.as_ptr(), flags.len(), plan.as_mut_ptr(), plan.len(), $($dart,)* values,
                )
            })
        }
    )* };
}

sews! {
    /// 1-links `ld` to `rd`, and their beta 3 images the other way round, and plans the vertex merge.
    one_sew, inkcapper_one_sew (ld, rd);
    /// Undoes a 1-sew of `ld`, plans the vertex split and answers the dart it was sewn to.
    one_unsew, inkcapper_one_unsew (ld);
    /// Undoes a 2-sew of `ld`, plans edge and vertex splits and answers the dart it was sewn to.
    two_unsew, inkcapper_two_unsew (ld);
    /// 3-unlinks the face of `ld`, plans the splits and answers the dart it was sewn to.
    ///
    /// ```
    /// # #[cfg(not(feature = "linked"))] extern crate c_names;
    /// use inkcapper::{Answer, ENTRY_NUMBERS, slices};
    /// let (mut rows, flags) = ([0; 12], [0; 3]);
    /// slices::three_link(&mut rows, &flags, 1, 2);
    /// let (mut marks, mut queue, mut plan) = ([0; 3], [0; 3], [0; 4 * ENTRY_NUMBERS]);
    /// let answer = slices::three_unsew(&mut rows, &mut marks, &mut queue, &flags, &mut plan, 1);
    /// assert_eq!(answer, Answer::Done { first: 2, count: 4 });
    /// // a code, three identifiers, and the sizes of the left and the right cell
    /// assert_eq!(plan[..12], [13, 1, 2, 1, 1, 1, 12, 1, 2, 1, 1, 1]);
    /// assert_eq!(plan[12..], [11, 0, 2, 0, 0, 1, 11, 1, 0, 0, 1, 0]);
    /// ```
    three_unsew, inkcapper_three_unsew (ld);
}

/// 2-links `ld` and `rd` where they point against each other, and plans edge and vertex merges.
#[allow(clippy::too_many_arguments)]
pub fn two_sew(
    rows: &mut [u32],
    marks: &mut [u8],
    queue: &mut [u32],
    flags: &[u8],
    vertex_marks: &[u8],
    coordinates: &[f64],
    plan: &mut [u32],
    ld: u32,
    rd: u32,
) -> Answer {
    // SAFETY: pointers and lengths of live slices; those written are held by nobody else.
    ask(|values| unsafe {
        ffi::inkcapper_two_sew(
            rows.as_mut_ptr(),
            rows.len(),
            marks.as_mut_ptr(),
            marks.len(),
            queue.as_mut_ptr(),
            queue.len(),
            flags.as_ptr(),
            flags.len(),
            vertex_marks.as_ptr(),
            vertex_marks.len(),
            coordinates.as_ptr(),
            coordinates.len(),
            plan.as_mut_ptr(),
            plan.len(),
            ld,
            rd,
            values,
        )
    })
}

/// Makes the commands of a list one after another, three numbers each: operation, first dart, second dart
/// (scope: commands). [`Command`](crate::Command) has the operations.
///
/// To `output` go five numbers for each command: the number of its answer, three values, and how many entries
/// of the plan it wrote, straight behind those of the command before.
///
/// ```
/// # #[cfg(not(feature = "linked"))] extern crate c_names;
/// use inkcapper::{Answer, Refusal, slices};
/// let (mut rows, mut marks, mut queue, mut output, mut plan) = ([0; 12], [0; 3], [0; 3], [0; 15], [0; 24]);
/// let (flags, vertex_marks, coordinates) = ([0; 3], [0; 3], [0.0; 9]); // no dart unused, no point
/// let mut run = |list: &[u32]| {
///     let (rows, marks, queue, output, plan) = (&mut rows, &mut marks, &mut queue, &mut output, &mut plan);
///     slices::commands(rows, marks, queue, output, &flags, &vertex_marks, &coordinates, plan, list)
/// };
/// assert_eq!(run(&[3, 1]), Answer::Refused(Refusal::BadCommand { operation: 0 }));
/// // a 3-link, the same again, a 3-unsew, whose second dart is not looked at
/// assert_eq!(run(&[3, 1, 2, 3, 1, 2, 11, 1, 99]), Answer::Done { first: 0, count: 4 });
/// assert_eq!(output, [0, 0, 0, 0, 0, 6, 3, 1, 2, 0, 0, 2, 0, 0, 4]);
/// assert_eq!(plan[..12], [13, 1, 2, 1, 1, 1, 12, 1, 2, 1, 1, 1]);
/// assert_eq!(plan[12..], [11, 0, 2, 0, 0, 1, 11, 1, 0, 0, 1, 0]);
/// ```
#[allow(clippy::too_many_arguments)]
pub fn commands(
    rows: &mut [u32],
    marks: &mut [u8],
    queue: &mut [u32],
    output: &mut [u32],
    flags: &[u8],
    vertex_marks: &[u8],
    coordinates: &[f64],
    plan: &mut [u32],
    commands: &[u32],
) -> Answer {
    // SAFETY: pointers and lengths of live slices; those written are held by nobody else.
    ask(|values| unsafe {
        ffi::inkcapper_commands(
            rows.as_mut_ptr(),
            rows.len(),
            marks.as_mut_ptr(),
            marks.len(),
            queue.as_mut_ptr(),
            queue.len(),
            output.as_mut_ptr(),
            output.len(),
            flags.as_ptr(),
            flags.len(),
            vertex_marks.as_ptr(),
            vertex_marks.len(),
            coordinates.as_ptr(),
            coordinates.len(),
            plan.as_mut_ptr(),
            plan.len(),
            commands.as_ptr(),
            commands.len(),
            values,
        )
    })
}
