//! Stored images, read into loans of their size and written into bytes of theirs.

use crate::answer::Refusal;
use crate::loans::{MOST_DARTS, Vertices, written};
use crate::slices;

/// What an image holds.
#[derive(Debug, Clone, PartialEq)]
pub struct Image {
    /// The four images of each dart, dart after dart (scope: rows).
    pub rows: Vec<u32>,
    /// 1 where the dart is unused, and so has no image; the writer takes any number but 0 for 1.
    pub flags: Vec<u8>,
    /// 1 where the slot holds a point; the writer takes any number but 0 for 1.
    pub vertex_marks: Vec<u8>,
    /// Three coordinates a slot.
    pub coordinates: Vec<f64>,
}

/// Reads a stored image of form 1 into loans of its size (scope: reader).
///
/// ```
/// # #[cfg(not(feature = "linked"))] extern crate c_names;
/// use inkcapper::{Refusal, read_image};
/// let header = [1u32, 45, 1, 28, 44, 0, 45]; // the null dart alone
/// let mut bytes: Vec<u8> = header.iter().flat_map(|word| word.to_le_bytes()).collect();
/// bytes.extend([0; 17]);
/// assert_eq!(read_image(&bytes)?.rows, [0; 4]);
/// assert_eq!(read_image(&bytes[1..]), Err(Refusal::BadImage { part: 0 }));
/// # Ok::<(), Refusal>(())
/// ```
///
/// # Errors
///
/// Refusals 12 and 3.
pub fn read_image(bytes: &[u8]) -> Result<Image, Refusal> {
    // Word 2 says how many darts; an image of n darts has at least 17n bytes, so that a word that lies
    // cannot make us lend more than the image's own size asks for.
    let word = bytes.get(8..12).and_then(|w| <[u8; 4]>::try_from(w).ok()).map_or(0, u32::from_le_bytes);
    let n = (word as usize).min(bytes.len() / 17);
    let mut image =
        Image { rows: vec![0; 4 * n], flags: vec![0; n], vertex_marks: vec![0; n], coordinates: vec![0.0; 3 * n] };
    slices::read_image(bytes, &mut image.flags, &mut image.vertex_marks, &mut image.coordinates, &mut image.rows)
        .done()?;
    Ok(image)
}

/// Writes a stored image of form 1 (scope: writer). What [`read_image`] read is written as it was.
///
/// ```
/// # #[cfg(not(feature = "linked"))] extern crate c_names;
/// use inkcapper::{Image, Refusal, map, read_image, write_image};
/// let mut image = Image { rows: vec![0; 12], flags: vec![0; 3], vertex_marks: vec![0; 3], coordinates: vec![0.0; 9] };
/// map::one_link(&mut image.rows, &image.flags, 1, 2)?;
/// image.vertex_marks[2] = 1;
/// image.coordinates[6..].copy_from_slice(&[1.0, -0.0, 2.5]);
/// let bytes = write_image(&image)?;
/// assert_eq!(bytes.len(), 28 + 17 * 3 + 28);
/// assert_eq!(read_image(&bytes)?, image);
///
/// image.coordinates[7] = f64::INFINITY;
/// assert_eq!(write_image(&image), Err(Refusal::BadImage { part: 8 }));
/// image.flags[1] = 1; // an unused dart that is linked
/// assert_eq!(write_image(&image), Err(Refusal::NotAMap { beta: 4, dart: 1 }));
/// # Ok::<(), Refusal>(())
/// ```
///
/// # Errors
///
/// Refusals 1, 2 and 3, and 12 for a flag of dart 0, or a NaN or an infinity in a point.
pub fn write_image(image: &Image) -> Result<Vec<u8>, Refusal> {
    write_map(&image.rows, &image.flags, Vertices { marks: &image.vertex_marks, coordinates: &image.coordinates })
}

/// The same for a map that is held in slices, with its flags and its points.
///
/// # Errors
///
/// As [`write_image`].
pub fn write_map(rows: &[u32], flags: &[u8], vertices: Vertices<'_>) -> Result<Vec<u8>, Refusal> {
    // lengths that do not do are left to the call's refusal, which comes before that of the room
    let n = (rows.len() / 4).min(MOST_DARTS);
    let points = vertices.marks.iter().take(n).skip(1).filter(|&&mark| mark != 0).count();
    let mut bytes = vec![0; 28 + 17 * n + 28 * points];
    let answer = slices::write_image(rows, flags, vertices.marks, vertices.coordinates, &mut bytes);
    let (first, count) = answer.done()?;
    let length = written(&bytes, first, count, 1)?.len();
    bytes.truncate(length);
    Ok(bytes)
}
