//! Stored images, right and with faults.

use super::calls::any_number;
use super::loans::resize;
use crate::check::Comparison;
use crate::kernel::{Call, Loans};
use crate::maps;
use crate::random::Random;

/// A stored image, form 1, of these rows; some of the free darts are unused.
pub fn image_of(random: &mut Random, rows: &[u32]) -> Vec<u8> {
    let n = rows.len() / 4;
    let mut vertices: Vec<usize> = (1..n).filter(|_| random.percent(40)).collect();
    vertices.dedup();
    let total = 28 + 17 * n + 28 * vertices.len();
    let header = [1, total, n, 28, 28 + 16 * n, vertices.len(), 28 + 17 * n];
    let mut bytes: Vec<u8> = header.iter().flat_map(|&word| (word as u32).to_le_bytes()).collect();
    bytes.extend(rows.iter().flat_map(|word| word.to_le_bytes()));
    bytes.extend((0..n).map(|d| u8::from(d > 0 && maps::is_free(rows, d) && random.percent(40))));
    for dart in vertices {
        bytes.extend((dart as u32).to_le_bytes());
        for _ in 0..3 {
            let x = random.coordinate();
            let x = if x.is_finite() { x } else { -0.0 };
            bytes.extend(x.to_bits().to_le_bytes());
        }
    }
    bytes
}

/// Sets a word where it lies within the bytes.
fn put(bytes: &mut [u8], at: usize, word: u32) {
    if let Some(place) = bytes.get_mut(at..at + 4) {
        place.copy_from_slice(&word.to_le_bytes());
    }
}

/// One fault of the header: a word changed to another, or by a little.
fn spoil_header(random: &mut Random, bytes: &mut [u8], n: usize) {
    let at = 4 * random.below(7);
    if random.percent(50) {
        let word = *random.pick(&[0, 1, 2, 28, n as u32, bytes.len() as u32, 1_048_577, u32::MAX]);
        put(bytes, at, word);
    } else if let Some(place) = bytes.get_mut(at) {
        *place = place.wrapping_add(*random.pick(&[1, 255, 4, 17, 28]));
    }
}

/// One fault of the vertices: a dart, or a coordinate.
fn spoil_vertex(random: &mut Random, bytes: &mut [u8], n: usize) {
    let records = bytes.len().saturating_sub(28 + 17 * n) / 28;
    if records == 0 {
        return;
    }
    let at = 28 + 17 * n + 28 * random.below(records);
    if random.percent(50) {
        put(bytes, at, any_number(random, n));
        return;
    }
    let x = *random.pick(&[f64::NAN, f64::INFINITY, f64::NEG_INFINITY, f64::MAX, -0.0, 5e-324]);
    let at = at + 4 + 8 * random.below(3);
    bytes[at..at + 8].copy_from_slice(&x.to_bits().to_le_bytes());
}

/// An image with this many faults.
pub fn spoil_image(random: &mut Random, bytes: &mut Vec<u8>, n: usize, faults: usize) {
    for _ in 0..faults {
        let length = bytes.len();
        match random.below(10) {
            0 | 1 => spoil_header(random, bytes, n),
            2 => bytes.truncate(*random.pick(&[0, 3, 4, 27, 28, length.saturating_sub(1)])),
            3 => bytes.push(0),
            4 => put(bytes, 28 + 4 * random.below(4 * n), any_number(random, n)),
            5 | 8 => {
                if let Some(flag) = bytes.get_mut(28 + 16 * n + random.below(n)) {
                    *flag = *random.pick(&[0, 1, 1, 1, 2, 255]);
                }
            }
            6 | 7 => spoil_vertex(random, bytes, n),
            _ if bytes.is_empty() => {}
            _ => {
                let at = random.below(bytes.len());
                bytes[at] ^= 1 << random.below(8);
            }
        }
    }
}

/// Loans for the reader of an image of `n` darts, filled with what a refusal must leave.
pub(super) fn reader_loans(n: usize) -> Loans {
    let mut loans = Loans::around(vec![0xBAD0_BAD0; 4 * n + 2]);
    loans.flags = vec![0x5A; n + 1];
    loans.vertex_marks = vec![0x5A; n + 2];
    loans.coordinates = vec![f64::NAN; 3 * n + 2];
    loans
}

/// Makes one of the reader's loans another length.
pub(super) fn resize_one(random: &mut Random, loans: &mut Loans) {
    match random.below(4) {
        0 => resize(random, &mut loans.flags, 7),
        1 => resize(random, &mut loans.vertex_marks, 7),
        2 => resize(random, &mut loans.coordinates, 7.5),
        _ => resize(random, &mut loans.rows, 7),
    }
}

/// Stored images, right and wrong, into loans that fit and that don't.
pub fn images(comparison: &mut Comparison, rounds: usize, seed: u64) {
    let mut random = Random::new(seed);
    for round in 0..rounds {
        comparison.maps += 1;
        let n = if round % 16 == 0 { 1 + random.below(200) } else { 1 + random.below(7) };
        let mut rows = if random.percent(50) { maps::wild(&mut random, n) } else { maps::faces(&mut random, n) };
        if random.percent(30) && n > 1 {
            maps::set_free(&mut rows, 1 + random.below(n - 1));
        }
        let mut loans = reader_loans(n);
        loans.bytes = image_of(&mut random, &rows);
        let faults = *random.pick(&[0, 1, 1, 1, 2]);
        spoil_image(&mut random, &mut loans.bytes, n, faults);
        if random.percent(25) {
            resize_one(&mut random, &mut loans);
        }
        comparison.check(&Call::ReadImage, &loans);
    }
}
