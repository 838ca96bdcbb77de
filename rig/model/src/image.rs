//! The stored image, form 1, and the report over it.

use std::fmt::Write;

use crate::cells::{Cell, list_of};
use crate::{Answer, MOST_DARTS, Step, answer, done, loans, map, refused, size};

/// The most bytes of an image that the report program holds.
pub const REPORT_BYTES: usize = 46_080;
/// The most darts of an image that the report program takes.
pub const REPORT_DARTS: usize = 1_024;

/// The little-endian word at a place.
fn word(bytes: &[u8], at: usize) -> u32 {
    u32::from_le_bytes([bytes[at], bytes[at + 1], bytes[at + 2], bytes[at + 3]])
}

/// The header's n and v, or BadImage with the first wrong word.
fn header(bytes: &[u8], most: usize) -> Step<(usize, usize)> {
    let wrong = |which: u64| refused(12, &[which]);
    if bytes.len() >= 4 && word(bytes, 0) != 1 {
        return wrong(0);
    }
    if bytes.len() < 28 || word(bytes, 4) as usize != bytes.len() {
        return wrong(1);
    }
    let n = word(bytes, 8) as usize;
    if n < 1 || n > most {
        return wrong(2);
    }
    if word(bytes, 12) != 28 {
        return wrong(3);
    }
    if word(bytes, 16) as usize != 28 + 16 * n {
        return wrong(4);
    }
    let v = word(bytes, 20) as usize;
    if v > n - 1 || 28 + 17 * n + 28 * v != bytes.len() {
        return wrong(5);
    }
    if word(bytes, 24) as usize != 28 + 17 * n {
        return wrong(6);
    }
    Ok((n, v))
}

/// What an image holds: rows, flags, and its vertices by dart.
struct Image {
    rows: Vec<u32>,
    flags: Vec<u8>,
    vertices: Vec<(usize, [f64; 3])>,
}

/// The blocks behind a right header: flags (BadImage 7), vertices (BadImage 8), rows with the flags (NotAMap).
fn blocks(bytes: &[u8], n: usize, v: usize) -> Step<Image> {
    let flags = bytes[28 + 16 * n..28 + 17 * n].to_vec();
    if flags[0] != 0 || flags.iter().any(|&flag| flag > 1) {
        return refused(12, &[7]);
    }
    let mut vertices = Vec::new();
    let mut before = 0;
    for record in bytes[28 + 17 * n..].chunks_exact(28).take(v) {
        let dart = word(record, 0) as usize;
        let point: [f64; 3] = std::array::from_fn(|k| {
            f64::from_bits(u64::from(word(record, 4 + 8 * k)) | u64::from(word(record, 8 + 8 * k)) << 32)
        });
        // strictly above the one before, from 1 up, and below n
        if dart <= before || dart >= n || !point.iter().all(|x| x.is_finite()) {
            return refused(12, &[8]);
        }
        before = dart;
        vertices.push((dart, point));
    }
    let rows: Vec<u32> = (0..4 * n).map(|place| word(bytes, 28 + 4 * place)).collect();
    map(&rows, &flags)?;
    Ok(Image { rows, flags, vertices })
}

/// Reads an image of form 1: n darts' rows, flags, vertex marks and coordinates and no more.
pub fn read_image(
    bytes: &[u8],
    flags: &mut [u8],
    vertex_marks: &mut [u8],
    coordinates: &mut [f64],
    rows: &mut [u32],
) -> Answer {
    answer((|| {
        let (n, v) = header(bytes, MOST_DARTS)?;
        loans(&[
            (4, flags.len(), n),
            (5, vertex_marks.len(), n),
            (6, coordinates.len(), 3 * n),
            (7, rows.len(), 4 * n),
        ])?;
        let image = blocks(bytes, n, v)?;
        rows[..4 * n].copy_from_slice(&image.rows);
        flags[..n].copy_from_slice(&image.flags);
        vertex_marks[..n].fill(0);
        coordinates[..3 * n].fill(0.0);
        for (dart, point) in image.vertices {
            vertex_marks[dart] = 1;
            coordinates[3 * dart..3 * dart + 3].copy_from_slice(&point);
        }
        Ok(done(0, n))
    })())
}

/// The image of a map, its flags and its points.
fn stored(rows: &[u32], flags: &[u8], points: &[(usize, &[f64])]) -> Vec<u8> {
    let (n, v) = (rows.len() / 4, points.len());
    let header = [1, 28 + 17 * n + 28 * v, n, 28, 28 + 16 * n, v, 28 + 17 * n];
    let mut bytes: Vec<u8> = header.iter().flat_map(|&word| (word as u32).to_le_bytes()).collect();
    bytes.extend(rows.iter().flat_map(|image| image.to_le_bytes()));
    bytes.extend(flags.iter().map(|&flag| u8::from(flag != 0)));
    for (dart, point) in points {
        bytes.extend((*dart as u32).to_le_bytes());
        bytes.extend(point.iter().flat_map(|x| x.to_bits().to_le_bytes()));
    }
    bytes
}

/// Writes an image of form 1 from the start of `bytes` and no further.
///
/// ```
/// let (rows, flags, marks, coordinates) = ([0; 8], [0, 7], [1, 1], [0.5; 6]); // dart 1 unused, at a point
/// let write = |bytes: &mut [u8]| model::write_image(&rows, &flags, &marks, &coordinates, bytes);
/// assert_eq!(write(&mut [0; 89]), (14, [90, 0, 0]));
/// let mut bytes = [9; 91];
/// assert_eq!(write(&mut bytes), (0, [0, 90, 0]));
/// assert_eq!(bytes[60..66], [0, 1, 1, 0, 0, 0]); // the flags, and the dart of the only record
/// assert_eq!(bytes[90], 9);
/// ```
pub fn write_image(rows: &[u32], flags: &[u8], vertex_marks: &[u8], coordinates: &[f64], bytes: &mut [u8]) -> Answer {
    answer((|| {
        let n = size(rows)?;
        loans(&[(4, flags.len(), n), (5, vertex_marks.len(), n), (6, coordinates.len(), 3 * n)])?;
        map(rows, flags)?;
        if flags[0] != 0 {
            return refused(12, &[7]);
        }
        let defined = (1..n).filter(|&slot| vertex_marks[slot] != 0);
        let points: Vec<(usize, &[f64])> = defined.map(|slot| (slot, &coordinates[3 * slot..3 * slot + 3])).collect();
        if points.iter().any(|(_, point)| !point.iter().all(|x| x.is_finite())) {
            return refused(12, &[8]);
        }
        let image = stored(rows, &flags[..n], &points);
        if bytes.len() < image.len() {
            return refused(14, &[image.len() as u64]);
        }
        bytes[..image.len()].copy_from_slice(&image);
        Ok(done(0, image.len()))
    })())
}

/// What the report program prints for this standard input.
///
/// ```
/// assert_eq!(model::report(&[0; 46_081]), "refused 12 2 0 0\n");
/// assert_eq!(model::report(&[]), "refused 12 1 0 0\n");
/// ```
pub fn report(input: &[u8]) -> String {
    let lines = (|| {
        if input.len() > REPORT_BYTES {
            return refused(12, &[2]);
        }
        let (n, v) = header(input, REPORT_DARTS)?;
        let Image { rows, flags, .. } = blocks(input, n, v)?;
        let used = flags[1..].iter().filter(|&&flag| flag == 0).count();
        let mut lines = format!("darts {n} used {used}\n");
        let classes =
            [("vertices", Cell::Vertex), ("edges", Cell::Edge), ("faces", Cell::Face), ("volumes", Cell::Volume)];
        for (name, cell) in classes {
            let list = list_of(&rows, cell, &flags);
            let _ = write!(lines, "{name} {}:", list.len());
            list.iter().for_each(|id| {
                let _ = write!(lines, " {id}");
            });
            lines.push('\n');
        }
        Ok(lines)
    })();
    match lines {
        Ok(lines) => lines,
        Err((number, [a, b, c])) => format!("refused {number} {a} {b} {c}\n"),
    }
}

/// What the program `test_report_cases` must print for its standard input: cases, each a length in four
/// little-endian bytes and then as many bytes, or all that are left.
pub fn case_reports(input: &[u8]) -> String {
    let mut text = String::new();
    let mut rest = input;
    let mut number = 0;
    while rest.len() >= 4 {
        let length = word(rest, 0) as usize;
        let (case, behind) = rest[4..].split_at(length.min(rest.len() - 4));
        number += 1;
        let _ = write!(text, "case {number}\n{}", report(case));
        rest = behind;
    }
    text
}
