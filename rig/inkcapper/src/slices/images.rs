//! The reader and the writer.

use super::ask;
use crate::answer::Answer;
use crate::ffi;

/// Reads a stored image of form 1.
pub fn read_image(
    bytes: &[u8],
    flags: &mut [u8],
    vertex_marks: &mut [u8],
    coordinates: &mut [f64],
    rows: &mut [u32],
) -> Answer {
    // SAFETY: pointers and lengths of live slices; those written are held by nobody else.
    ask(|values| unsafe {
        ffi::inkcapper_read_image(
            bytes.as_ptr(),
            bytes.len(),
            flags.as_mut_ptr(),
            flags.len(),
            vertex_marks.as_mut_ptr(),
            vertex_marks.len(),
            coordinates.as_mut_ptr(),
            coordinates.len(),
            rows.as_mut_ptr(),
            rows.len(),
            values,
        )
    })
}

/// Writes a stored image of form 1 from the start of `bytes` and no further.
///
/// ```
/// # #[cfg(not(feature = "linked"))] extern crate c_names;
/// use inkcapper::{Answer, Refusal, slices};
/// let triangle = [0, 0, 0, 0, 3, 2, 0, 0, 1, 3, 0, 0, 2, 1, 0, 0];
/// let (flags, vertex_marks, coordinates) = ([0; 4], [0; 4], [0.0; 12]); // no dart unused, no point
/// let write = |bytes: &mut [u8]| slices::write_image(&triangle, &flags, &vertex_marks, &coordinates, bytes);
/// assert_eq!(write(&mut [0; 95]), Answer::Refused(Refusal::ImageRoom { bytes: 96 }));
/// let mut bytes = [7; 100];
/// assert_eq!(write(&mut bytes), Answer::Done { first: 0, count: 96 });
/// assert_eq!(bytes[..12], [1, 0, 0, 0, 96, 0, 0, 0, 4, 0, 0, 0]); // form 1, 96 bytes, 4 darts
/// assert_eq!(bytes[96..], [7; 4]);
/// ```
pub fn write_image(rows: &[u32], flags: &[u8], vertex_marks: &[u8], coordinates: &[f64], bytes: &mut [u8]) -> Answer {
    // SAFETY: pointers and lengths of live slices; the one written is held by nobody else.
    ask(|values| unsafe {
        ffi::inkcapper_write_image(
            rows.as_ptr(),
            rows.len(),
            flags.as_ptr(),
            flags.len(),
            vertex_marks.as_ptr(),
            vertex_marks.len(),
            coordinates.as_ptr(),
            coordinates.len(),
            bytes.as_mut_ptr(),
            bytes.len(),
            values,
        )
    })
}
