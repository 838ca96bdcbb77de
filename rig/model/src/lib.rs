//! The scope (docs/SCOPE.md) written down once more: every call, plainly, from its prose.
//!
//! This is what a kernel is held against where the published Rust has no say: refusals 1 to 5 and 11 to
//! 14, sizes of cells, what becomes of each loan, reader and writer of images, and the report. Where the Rust has a say
//! the two are held against each other. So this text knows nothing of the Rust's, and takes the short way
//! everywhere: it works on a copy and puts the copy back when all went well, which makes true by its shape
//! that a refusal changes nothing.
//!
//! Parameters stand in the order of the C boundary: rows, loans by number, plan or bytes, lists of numbers,
//! numbers.
//!
//! ```
//! // a closed triangle 1, 2, 3: rows hold beta 0, 1, 2, 3 of each dart
//! let mut rows = [0, 0, 0, 0, 3, 2, 0, 0, 1, 3, 0, 0, 2, 1, 0, 0];
//! let flags = [0; 4]; // and no dart is unused
//! assert_eq!(model::beta(&rows, 1, 3), (0, [1, 0, 0]));
//! let (mut marks, mut output) = ([9; 4], [9; 4]);
//! let answer = model::orbit(model::Orbit::Face, &rows, &mut marks, &mut output, &flags, 2);
//! assert_eq!((answer, output), ((0, [0, 3, 0]), [2, 3, 1, 9]));
//! assert_eq!(model::three_link(&mut rows, &flags, 1, 1), (7, [3, 1, 1]));
//! assert_eq!(model::check_map(&rows, &[0, 0, 1, 0]), (3, [4, 2, 0])); // an unused dart that is linked
//! ```

mod cells;
mod commands;
mod image;
mod links;
pub mod noise;
mod sews;

pub use cells::{Cell, Orbit, identifier, list, orbit};
pub use commands::commands;
pub use image::{REPORT_BYTES, REPORT_DARTS, case_reports, read_image, report, write_image};
pub use links::{
    one_link, one_unlink, three_link, three_link_core, three_unlink, three_unlink_core, two_link, two_unlink,
};
pub use sews::{one_sew, one_unsew, three_unsew, two_sew, two_unsew};

/// An answer's number and its three values, 0 where absent (scope: numbers).
pub type Answer = (u32, [u64; 3]);

/// The most darts that a map may have, the null dart counted.
pub const MOST_DARTS: usize = 1_048_576;

/// How many numbers an entry of a plan has (scope: plan).
pub const ENTRY_NUMBERS: usize = 6;

/// A step that may end the call with a refusal.
pub(crate) type Step<T> = Result<T, Answer>;

/// Done: the dart or yes/no answered, then the count written or the size of a cell.
pub(crate) fn done(first: u32, count: usize) -> Answer {
    (0, [u64::from(first), count as u64, 0])
}

/// A refusal with its values.
pub(crate) fn refused<T>(number: u32, values: &[u64]) -> Step<T> {
    let mut three = [0; 3];
    three[..values.len()].copy_from_slice(values);
    Err((number, three))
}

/// The answer of a call, done or refused.
pub(crate) fn answer(step: Step<Answer>) -> Answer {
    match step {
        Ok(answer) | Err(answer) => answer,
    }
}

/// Image of `d` under beta `i`.
pub(crate) fn image(rows: &[u32], i: usize, d: u32) -> u32 {
    rows[4 * d as usize + i]
}

/// Refusal 1: row length is 0, no multiple of 4, or n too large. Else n.
pub(crate) fn size(rows: &[u32]) -> Step<usize> {
    let n = rows.len() / 4;
    if rows.is_empty() || !rows.len().is_multiple_of(4) || n > MOST_DARTS {
        return refused(1, &[rows.len() as u64]);
    }
    Ok(n)
}

/// Refusal 2: a loan is below its size. Loans as number, length, size needed, in their order.
pub(crate) fn loans(held: &[(u64, usize, usize)]) -> Step<()> {
    match held.iter().find(|(_, length, needed)| length < needed) {
        Some(&(which, _, _)) => refused(2, &[which]),
        None => Ok(()),
    }
}

/// Whether the image of `d` under beta `i` breaks a rule: not below n; non-null in row 0; not led back; under
/// beta 2 or 3 the dart itself. A null image breaks none.
fn breaks(rows: &[u32], i: usize, d: u32) -> bool {
    let to = image(rows, i, d);
    if to == 0 {
        return false;
    }
    if to as usize >= rows.len() / 4 || d == 0 {
        return true;
    }
    let back = match i {
        0 => image(rows, 1, to),
        1 => image(rows, 0, to),
        _ => image(rows, i, to),
    };
    back != d || (i >= 2 && to == d)
}

/// The least dart, then least beta, whose image breaks a rule, as beta and dart. Behind a dart's own four images
/// it is asked whether it is unused and yet linked, which is said as beta 4; dart 0 is not asked.
pub fn first_breach(rows: &[u32], flags: &[u8]) -> Option<(u32, u32)> {
    for d in 0..(rows.len() / 4) as u32 {
        if let Some(i) = (0..4).find(|&i| breaks(rows, i, d)) {
            return Some((i as u32, d));
        }
        if d > 0 && flags[d as usize] != 0 && (0..4).any(|i| image(rows, i, d) != 0) {
            return Some((4, d));
        }
    }
    None
}

/// Refusal 3: rows and flags are no map.
pub(crate) fn map(rows: &[u32], flags: &[u8]) -> Step<()> {
    match first_breach(rows, flags) {
        Some((i, d)) => refused(3, &[u64::from(i), u64::from(d)]),
        None => Ok(()),
    }
}

/// The map test as a call of its own: refusals 1, 2 and 3.
pub fn check_map(rows: &[u32], flags: &[u8]) -> Answer {
    answer((|| {
        loans(&[(4, flags.len(), size(rows)?)])?;
        map(rows, flags)?;
        Ok(done(0, 0))
    })())
}

/// Refusal 4 where dart 0 is allowed: a dart not below n, named by its place among the darts.
pub(crate) fn darts(n: usize, arguments: &[u32]) -> Step<()> {
    match arguments.iter().position(|&d| d as usize >= n) {
        Some(at) => refused(4, &[at as u64 + 1]),
        None => Ok(()),
    }
}

/// Refusal 4 where dart 0 and unused darts are refused too.
pub(crate) fn used_darts(n: usize, flags: &[u8], arguments: &[u32]) -> Step<()> {
    match arguments.iter().position(|&d| d == 0 || d as usize >= n || flags[d as usize] != 0) {
        Some(at) => refused(4, &[at as u64 + 1]),
        None => Ok(()),
    }
}

/// Refusal 5: a beta number above 3.
pub(crate) fn beta_number(i: u32) -> Step<usize> {
    if i > 3 { refused(5, &[u64::from(i)]) } else { Ok(i as usize) }
}

/// Image of dart `d` under beta `i`. No map test.
pub fn beta(rows: &[u32], i: u32, d: u32) -> Answer {
    answer((|| {
        darts(size(rows)?, &[d])?;
        Ok(done(image(rows, beta_number(i)?, d), 0))
    })())
}

/// Whether dart `d` has no image under beta `i`. No map test.
pub fn is_i_free(rows: &[u32], i: u32, d: u32) -> Answer {
    answer((|| {
        darts(size(rows)?, &[d])?;
        Ok(done(u32::from(image(rows, beta_number(i)?, d) == 0), 0))
    })())
}

/// Whether dart `d` has no image at all. No map test.
pub fn is_free(rows: &[u32], d: u32) -> Answer {
    answer((|| {
        darts(size(rows)?, &[d])?;
        Ok(done(u32::from((0..4).all(|i| image(rows, i, d) == 0)), 0))
    })())
}
