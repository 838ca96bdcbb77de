//! The largest maps.

use super::calls::CELLS;
use super::images::reader_loans;
use super::loans::take_out;
use crate::check::Comparison;
use crate::kernel::{Call, Cell, ENTRY_NUMBERS, Loans, Orbit};
use crate::maps;
use crate::random::Random;

/// The largest map, one dart more, lengths that are no rows, long faces, whole grids and the largest images. The
/// last dart is used, then unused.
pub fn largest(comparison: &mut Comparison) {
    for (length, flag) in [(4_194_304, 0), (4_194_304, 255), (4_194_308, 0), (4_194_305, 0), (4_194_303, 0)] {
        comparison.maps += 1;
        let mut loans = Loans::around(vec![0; length]);
        loans.plan.truncate(4 * ENTRY_NUMBERS);
        let last = (length / 4 - 1) as u32;
        (loans.flags[0], loans.flags[last as usize]) = (0, flag);
        loans.commands = vec![2, 1, last, 6, last + 1, 0, 5, last, 2, 9, last, last, 10, last, 0, 4, last, 1];
        for call in [
            Call::CheckMap,
            Call::Beta { i: 3, d: last },
            Call::IsFree { d: last + 1 },
            Call::TwoLink { ld: 1, rd: last },
            Call::OneSew { ld: last, rd: 1 },
            Call::TwoSew { ld: last, rd: 1 },
            Call::Identifier { cell: Cell::Face, d: last },
            Call::Orbit { orbit: Orbit::Volume, d: last },
            Call::WriteImage,
            Call::Commands,
        ] {
            comparison.check(&call, &loans);
        }
        loans.flags.truncate(last as usize);
        comparison.check(&Call::CheckMap, &loans);
    }
    rings(comparison);
    grids(comparison);
    stored(comparison);
}

/// The last place of all that breaks a rule; then its dart unused too, where the image comes first, and the flag
/// alone.
fn last_place(comparison: &mut Comparison, loans: &mut Loans) {
    let last = loans.rows.len() - 1;
    for (image, flag) in [(1, 0), (1, 1), (0, 1)] {
        (loans.rows[last], loans.flags[last / 4]) = (image, flag);
        comparison.check(&Call::CheckMap, loans);
        comparison.check(&Call::TwoLink { ld: 1, rd: 3 }, loans);
    }
    loans.flags[last / 4] = 0;
}

/// Two closed faces of half a million darts each: long walks, deep searches.
fn rings(comparison: &mut Comparison) {
    let half = 524_287u32;
    let mut rows = vec![0; 4 * (2 * half as usize + 1)];
    for first in [1, half + 1] {
        for k in 0..half {
            let (l, r) = (first + k, first + (k + 1) % half);
            rows[4 * l as usize + 1] = r;
            rows[4 * r as usize] = l;
        }
    }
    comparison.maps += 1;
    let mut loans = Loans::around(rows);
    loans.plan.truncate(4 * ENTRY_NUMBERS);
    for call in [Call::Identifier { cell: Cell::Face, d: half }, Call::Orbit { orbit: Orbit::Face, d: 3 }] {
        comparison.check(&call, &loans);
    }
    last_place(comparison, &mut loans);
    // glued, a pair of it unlinked and sewn beside, unglued from another dart
    loans.commands = vec![3, 7, half + 9, 6, half, 0, 1, half, 1, 3, 9, half + 11, 4, half, 1, 8, 1, 0, 8, half, 1];
    comparison.check(&Call::Commands, &loans);
    let (_, glued) = comparison.check(&Call::ThreeLink { ld: 7, rd: half + 9 }, &loans);
    loans.rows.clone_from(&glued.rows);
    for call in [
        Call::CheckMap,
        Call::Identifier { cell: Cell::Face, d: 2 * half },
        Call::Identifier { cell: Cell::Volume, d: 2 * half },
        Call::Identifier { cell: Cell::Vertex, d: 2 * half },
        Call::Orbit { orbit: Orbit::Face, d: half },
        Call::Orbit { orbit: Orbit::Custom(vec![3, 0]), d: half },
        Call::ThreeLink { ld: 8, rd: half + 9 },
        Call::ThreeUnlink { ld: 1 },
        Call::ThreeUnlink { ld: half + 1 },
    ] {
        comparison.check(&call, &loans);
    }
}

/// Grids of cubes of some thousand darts, whole and with parts unglued, listed class by class; then with darts
/// taken out.
fn grids(comparison: &mut Comparison) {
    let mut random = Random::new(9);
    for (size, cuts) in [([12, 12, 6], 0), ([12, 12, 6], 300), ([9, 4, 8], 4000)] {
        comparison.maps += 1;
        let (mut rows, marks, coordinates) = maps::cubes(size);
        let n = rows.len() / 4;
        let used = vec![0; n];
        for _ in 0..cuts {
            let ld = 1 + random.below(n - 1) as u32;
            match random.below(4) {
                0 => model::one_unlink(&mut rows, &used, ld),
                1 => model::two_unlink(&mut rows, &used, ld),
                _ => model::three_unlink(&mut rows, &used, ld),
            };
        }
        let mut loans = Loans::around(rows);
        loans.vertex_marks[..n].copy_from_slice(&marks);
        loans.coordinates[..3 * n].copy_from_slice(&coordinates);
        comparison.check(&Call::CheckMap, &loans);
        for out in [0, 10] {
            take_out(&mut random, &mut loans, out);
            for cell in CELLS {
                comparison.check(&Call::List { cell }, &loans);
            }
        }
    }
}

/// The largest map as an image, with no point and with one in every slot but 0, into one byte too few and just
/// enough; then read.
fn stored(comparison: &mut Comparison) {
    let n = 1_048_576;
    let mut loans = Loans::around(vec![0; 4 * n]);
    loans.plan.truncate(4 * ENTRY_NUMBERS);
    loans.flags[0] = 0;
    for l in 1..n {
        let r = 1 + l % (n - 1);
        loans.rows[4 * l + 1] = r as u32;
        loans.rows[4 * r] = l as u32;
    }
    for points in [0, n - 1] {
        comparison.maps += 1;
        loans.vertex_marks.fill(u8::from(points > 0));
        loans.bytes = vec![0xA5; 28 + 17 * n + 28 * points - 1];
        comparison.check(&Call::WriteImage, &loans);
        loans.bytes.push(0xA5);
        let (_, after) = comparison.check(&Call::WriteImage, &loans);
        let mut back = reader_loans(n);
        back.plan.truncate(4 * ENTRY_NUMBERS);
        back.bytes.clone_from(&after.bytes);
        comparison.check(&Call::ReadImage, &back);
    }
}
