//! Stored images written: all small maps, random ones, and there and back.

use super::calls::any_number;
use super::images::{image_of, reader_loans};
use super::loans::{fill_vertices, resize, spoil_flag, take_out, yes};
use crate::check::Comparison;
use crate::kernel::{Call, Loans};
use crate::maps;
use crate::random::Random;

/// The bits of a coordinate's exponent; all of them in a NaN or an infinity, none below the normal numbers.
const EXPONENT: u64 = 0x7FF0_0000_0000_0000;
const SIGN: u64 = 1 << 63;

/// A NaN or an infinity, of either sign; a NaN with any payload.
fn no_number(random: &mut Random) -> f64 {
    let bits = random.word();
    f64::from_bits(EXPONENT | if random.percent(50) { bits } else { bits & SIGN })
}

/// Coordinates as elsewhere, some of them with any bits, some below the normal numbers, some no numbers.
fn fill_coordinates(random: &mut Random, loans: &mut Loans) {
    fill_vertices(random, loans, 0);
    for x in &mut loans.coordinates {
        match random.below(32) {
            0 => *x = no_number(random),
            1 | 2 => *x = f64::from_bits(random.word() & !EXPONENT),
            3..8 => *x = f64::from_bits(random.word()),
            _ => {}
        }
    }
}

/// The slots from 1 to n - 1 that hold a point.
fn points(loans: &Loans) -> Vec<usize> {
    let n = loans.rows.len() / 4;
    (1..n.min(loans.vertex_marks.len())).filter(|&slot| loans.vertex_marks[slot] != 0).collect()
}

/// Makes every point finite. All other coordinates stay: nobody looks at them.
fn make_finite(loans: &mut Loans) {
    for slot in points(loans) {
        for x in loans.coordinates.iter_mut().skip(3 * slot).take(3).filter(|x| !x.is_finite()) {
            *x = -0.0;
        }
    }
}

/// Lends so many bytes, with anything in them, so that one left standing or written too far shows.
fn lend_bytes(random: &mut Random, loans: &mut Loans, room: usize) {
    loans.bytes.clear();
    while loans.bytes.len() < room {
        loans.bytes.extend(random.word().to_le_bytes());
    }
    loans.bytes.truncate(room);
}

/// The writer with the rooms around the size of the image: much more, one byte more, just enough, one too
/// few, none.
fn with_rooms(comparison: &mut Comparison, random: &mut Random, loans: &mut Loans) {
    let size = 28 + 17 * (loans.rows.len() / 4) + 28 * points(loans).len();
    lend_bytes(random, loans, size + 300);
    for room in [size + 300, size + 1, size, size - 1, 0] {
        loans.bytes.truncate(room);
        comparison.check(&Call::WriteImage, loans);
    }
}

/// All maps of `k` real darts with every choice of unused darts, linked ones among them, and of slots that hold a
/// point, dart 0 and slot 0 among them, and any coordinates; more of these where every unused dart is free.
fn small(comparison: &mut Comparison, random: &mut Random, k: usize) {
    let n = k + 1;
    let mut loans = Loans::around(vec![0; 4 * n]);
    maps::all_of(k, |rows| {
        comparison.maps += 1;
        loans.rows.copy_from_slice(rows);
        for choice in 0..1usize << (2 * n) {
            let is_map = (1..n).all(|d| choice >> d & 1 == 0 || maps::is_free(rows, d));
            for _ in 0..if is_map { 6 } else { 1 } {
                fill_coordinates(random, &mut loans);
                for d in 0..n {
                    loans.flags[d] = yes(random, 100 * (choice >> d & 1));
                    loans.vertex_marks[d] = yes(random, 100 * (choice >> (n + d) & 1));
                }
                if random.percent(75) {
                    make_finite(&mut loans);
                }
                with_rooms(comparison, random, &mut loans);
            }
        }
    });
}

/// A random map, of which some darts may be unused, with loans that do: as long as they have to be or a little
/// longer, with anything behind.
fn random_loans(random: &mut Random, n: usize) -> Loans {
    // faces are linked one by one, which would take long on a large map
    let rows = if n > 60 || random.percent(50) { maps::wild(random, n) } else { maps::faces(random, n) };
    let mut loans = Loans::around(rows);
    let (unused, defined) = (*random.pick(&[0, 20, 100]), *random.pick(&[0, 30, 90, 100]));
    loans.coordinates.resize(3 * n + random.below(4), 0.0);
    fill_coordinates(random, &mut loans);
    loans.flags.resize(n + random.below(4), 0);
    take_out(random, &mut loans, unused);
    loans.flags[0] = 0;
    loans.vertex_marks = (0..n + random.below(4)).map(|_| yes(random, defined)).collect();
    make_finite(&mut loans);
    loans
}

/// One fault: a size, an image of a dart, the flag of dart 0 or any, a coordinate.
fn spoil(random: &mut Random, loans: &mut Loans) {
    match random.below(10) {
        0 => resize(random, &mut loans.rows, 0),
        1 => resize(random, &mut loans.flags, 1),
        2 => resize(random, &mut loans.vertex_marks, 1),
        3 => resize(random, &mut loans.coordinates, f64::NAN),
        4 | 5 if !loans.rows.is_empty() => {
            let (place, n) = (random.below(loans.rows.len()), loans.rows.len() / 4);
            loans.rows[place] = any_number(random, n);
        }
        6 if !loans.flags.is_empty() => loans.flags[0] = yes(random, 100),
        7 => spoil_flag(random, loans),
        _ if !loans.coordinates.is_empty() => {
            let place = random.below(loans.coordinates.len());
            loans.coordinates[place] = no_number(random);
        }
        _ => {}
    }
}

/// Reads an image and writes what was read, which must give the same bytes. The kernels are held against the
/// model at each step, so that what holds of the model's loans holds of theirs. Gives what was read.
fn and_back(comparison: &mut Comparison, random: &mut Random, image: &[u8], n: usize) -> Loans {
    let mut loans = reader_loans(n);
    loans.bytes = image.to_vec();
    let (answer, read) = comparison.check(&Call::ReadImage, &loans);
    assert_eq!(answer, (0, [0, n as u64, 0]), "the model does not read an image");
    let mut read = read.clone();
    read.rows.truncate(4 * n);
    lend_bytes(random, &mut read, image.len());
    let (_, written) = comparison.check(&Call::WriteImage, &read);
    assert_eq!(written.bytes, image, "the model does not write what it read");
    read
}

/// Writes an image and reads it: the same rows, flags and points. Then back again.
fn there_and_back(comparison: &mut Comparison, random: &mut Random, n: usize) {
    let mut loans = random_loans(random, n);
    lend_bytes(random, &mut loans, 28 + 45 * n);
    let (answer, written) = comparison.check(&Call::WriteImage, &loans);
    assert_eq!(answer.0, 0, "the model does not write a map");
    let image = written.bytes[..answer.1[1] as usize].to_vec();
    let read = and_back(comparison, random, &image, n);
    let bits = |of: &Loans, slot: usize| [0, 1, 2].map(|k| of.coordinates[3 * slot + k].to_bits());
    let same = loans.rows == read.rows
        && (0..n).all(|d| read.flags[d] == u8::from(loans.flags[d] != 0))
        && (1..n).all(|slot| read.vertex_marks[slot] == u8::from(loans.vertex_marks[slot] != 0))
        && points(&loans).iter().all(|&slot| bits(&loans, slot) == bits(&read, slot));
    assert!(same, "the model does not read what it wrote");
}

/// The writer: all maps of up to `most` real darts with all flags and slots; then random ones, some of some
/// thousand darts, right and wrong, with rooms around the size of the image, and there and back.
pub fn writes(comparison: &mut Comparison, most: usize, rounds: usize, seed: u64) {
    let mut random = Random::new(seed);
    for k in 0..=most {
        small(comparison, &mut random, k);
    }
    for round in 0..rounds {
        comparison.maps += 1;
        let n = if round % 512 == 0 { 1000 + random.below(3000) } else { 1 + random.below([4, 8, 60][round % 3]) };
        let mut loans = random_loans(&mut random, n);
        for _ in 0..*random.pick(&[0, 1, 1, 2]) {
            spoil(&mut random, &mut loans);
        }
        with_rooms(comparison, &mut random, &mut loans);
        there_and_back(comparison, &mut random, n);
        // an image that was put together elsewhere
        let rows = maps::wild(&mut random, n);
        let image = image_of(&mut random, &rows);
        and_back(comparison, &mut random, &image, n);
    }
}
