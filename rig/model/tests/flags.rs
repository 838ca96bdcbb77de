//! The flags as part of the map: what is refused because of them, in which order, and what is not.

mod common;

use model::{Answer, Cell, Orbit};

use common::rows;

/// Every call that tests the map, on the darts 1 and 2, with loans for as many darts as there are rows.
fn every_call(rows: &[u32], flags: &[u8]) -> Vec<(&'static str, Answer)> {
    let n = rows.len() / 4;
    let (marks, queue, output, plan) = (&mut vec![0; n], &mut vec![0; n], &mut vec![0; n], &mut vec![0; 64]);
    let (points, at, bytes) = (&vec![0; n], &vec![0.0; 3 * n], &mut vec![0; 28 + 17 * n]);
    let copy = || rows.to_vec();
    vec![
        ("check_map", model::check_map(rows, flags)),
        ("one_link", model::one_link(&mut copy(), flags, 1, 2)),
        ("two_link", model::two_link(&mut copy(), flags, 1, 2)),
        ("three_link", model::three_link(&mut copy(), flags, 1, 2)),
        ("one_unlink", model::one_unlink(&mut copy(), flags, 1)),
        ("two_unlink", model::two_unlink(&mut copy(), flags, 1)),
        ("three_unlink", model::three_unlink(&mut copy(), flags, 1)),
        ("one_sew", model::one_sew(&mut copy(), marks, queue, flags, plan, 1, 2)),
        ("one_unsew", model::one_unsew(&mut copy(), marks, queue, flags, plan, 1)),
        ("two_sew", model::two_sew(&mut copy(), marks, queue, flags, points, at, plan, 1, 2)),
        ("two_unsew", model::two_unsew(&mut copy(), marks, queue, flags, plan, 1)),
        ("three_unsew", model::three_unsew(&mut copy(), marks, queue, flags, plan, 1)),
        ("vertex_id", model::identifier(Cell::Vertex, rows, marks, queue, flags, 1)),
        ("face_id", model::identifier(Cell::Face, rows, marks, queue, flags, 1)),
        ("orbit_volume", model::orbit(Orbit::Volume, rows, marks, output, flags, 1)),
        ("orbit_custom", model::orbit(Orbit::Custom(&[2]), rows, marks, output, flags, 1)),
        ("list_edges", model::list(Cell::Edge, rows, marks, queue, output, flags)),
        ("commands", model::commands(&mut copy(), marks, queue, output, flags, points, at, plan, &[])),
        ("write_image", model::write_image(rows, flags, points, at, bytes)),
    ]
}

/// Whether every call that tests the map gives this refusal.
fn all_refuse(rows: &[u32], flags: &[u8], refusal: Answer) {
    for (name, answer) in every_call(rows, flags) {
        assert_eq!(answer, refusal, "{name} on {rows:?} with {flags:?}");
    }
}

#[test]
fn an_unused_dart_is_free() {
    let linked = rows(4, &[(1, 1, 2), (1, 2, 1)]);
    all_refuse(&linked, &[0, 1, 0, 0], (3, [4, 1, 0]));
    all_refuse(&linked, &[0, 0, 255, 0], (3, [4, 2, 0]));
    all_refuse(&linked, &[0, 2, 2, 2, 9], (3, [4, 1, 0]));
    // one image is enough, whichever it is
    for i in [1, 2, 3] {
        all_refuse(&rows(4, &[(i, 2, 3)]), &[0, 0, 0, 1], (3, [4, 3, 0]));
        all_refuse(&rows(4, &[(i, 3, 2)]), &[0, 0, 0, 1], (3, [4, 3, 0]));
    }
    // free ones may be unused, and no more flags are read than there are darts
    for flags in [&[0, 0, 0, 1][..], &[0, 0, 0, 128, 1, 1]] {
        assert_eq!(model::check_map(&linked, flags), (0, [0; 3]));
    }
}

/// Of one dart its own four images come first, then its flag; then the next dart.
#[test]
fn the_first_breach() {
    // dart 1 is linked and unused; dart 2 has a beta 3 that does not lead back
    let mut broken = rows(4, &[(2, 1, 3)]);
    broken[4 * 2 + 3] = 3;
    all_refuse(&broken, &[0, 1, 0, 0], (3, [4, 1, 0]));
    all_refuse(&broken, &[0, 0, 1, 1], (3, [3, 2, 0]));
    broken[4 + 3] = 2;
    all_refuse(&broken, &[0, 1, 0, 0], (3, [3, 1, 0]));
    broken[0] = 1;
    all_refuse(&broken, &[1, 1, 0, 0], (3, [0, 0, 0]));
}

#[test]
fn the_flag_of_dart_0_is_not_looked_at() {
    for (name, answer) in every_call(&rows(4, &[(1, 1, 2)]), &[7, 0, 0, 0]) {
        match name {
            "write_image" => assert_eq!(answer, (12, [7, 0, 0])),
            _ => assert!(!(1..=4).contains(&answer.0), "{name}"),
        }
    }
    let (marks, queue) = (&mut [0; 2], &mut [0; 2]);
    assert_eq!(model::identifier(Cell::Volume, &[0; 8], marks, queue, &[1, 0], 0), (0, [0; 3]));
}

#[test]
fn short_flags() {
    let mut broken = rows(4, &[]);
    broken[5] = 9;
    for flags in [&[][..], &[0; 3]] {
        all_refuse(&broken, flags, (2, [4, 0, 0]));
    }
    broken.pop();
    all_refuse(&broken, &[], (1, [15, 0, 0]));
    // in the order of the loans
    let (marks, queue) = (&mut [0; 4], &mut [0; 4]);
    let sew = |queue: &mut [u32], points: &[u8]| {
        model::two_sew(&mut [0; 16], &mut [0; 4], queue, &[0; 3], points, &[0.0; 12], &mut [], 1, 2)
    };
    assert_eq!((sew(&mut [0; 3], &[0; 3]), sew(queue, &[0; 3])), ((2, [2, 0, 0]), (2, [4, 0, 0])));
    let orbit = model::orbit(Orbit::Edge, &[0; 16], marks, &mut [0; 3], &[0; 3], 1);
    assert_eq!(orbit, (2, [3, 0, 0]));
}

/// Where dart 0 is refused an unused dart is too, and the first bad argument decides, whichever way it is bad.
#[test]
fn unused_arguments() {
    let (bare, flags) = (vec![0; 20], [0, 0, 1, 9, 0]);
    let (marks, queue, plan) = (&mut [0; 5], &mut [0; 5], &mut [0; 24]);
    for (ld, rd, which) in [(1, 2, 2), (2, 1, 1), (2, 0, 1), (0, 2, 1), (5, 2, 1), (3, 5, 1), (1, 3, 2), (2, 2, 1)] {
        let refusal = (4, [which, 0, 0]);
        assert_eq!(model::one_link(&mut bare.clone(), &flags, ld, rd), refusal);
        assert_eq!(model::two_link(&mut bare.clone(), &flags, ld, rd), refusal);
        assert_eq!(model::three_link(&mut bare.clone(), &flags, ld, rd), refusal);
        assert_eq!(model::one_sew(&mut bare.clone(), marks, queue, &flags, plan, ld, rd), refusal);
        let two_sew = model::two_sew(&mut bare.clone(), marks, queue, &flags, &[1; 5], &[0.0; 15], plan, ld, rd);
        assert_eq!(two_sew, refusal);
    }
    assert_eq!(model::two_unlink(&mut bare.clone(), &flags, 2), (4, [1, 0, 0]));
    assert_eq!(model::three_unsew(&mut bare.clone(), marks, queue, &flags, plan, 3), (4, [1, 0, 0]));
    assert_eq!(model::two_unlink(&mut bare.clone(), &flags, 1), (8, [2, 1, 0]));
}

#[test]
fn an_unused_dart_stands_alone() {
    let (bare, flags) = (rows(4, &[(3, 1, 3)]), [0, 0, 1, 0]);
    let (marks, queue, output) = (&mut [0; 4], &mut [0; 4], &mut [9; 4]);
    for cell in [Cell::Vertex, Cell::Edge, Cell::Face, Cell::Volume] {
        let size = u64::from(cell != Cell::Face);
        assert_eq!(model::identifier(cell, &bare, marks, queue, &flags, 2), (0, [2, size, 0]));
    }
    for orbit in [Orbit::Vertex, Orbit::Edge, Orbit::Face, Orbit::VolumeLinear, Orbit::Custom(&[3, 2, 1, 0])] {
        assert_eq!(model::orbit(orbit, &bare, marks, output, &flags, 2), (0, [0, 1, 0]));
        assert_eq!(output, &[2, 9, 9, 9]);
    }
    assert_eq!(model::list(Cell::Edge, &bare, marks, queue, output, &flags), (0, [0, 1, 0]));
    assert_eq!(output, &[1, 9, 9, 9]);
}

/// The reader's map test has the image's own flags, and comes behind 12 (7) and 12 (8).
#[test]
fn stored_flags() {
    let read = |rows: &[u32], flags: &[u8], dart: u32| {
        let n = flags.len();
        let header = [1, 28 + 17 * n + 28, n, 28, 28 + 16 * n, 1, 28 + 17 * n];
        let mut bytes: Vec<u8> = header.iter().flat_map(|&word| (word as u32).to_le_bytes()).collect();
        bytes.extend(rows.iter().flat_map(|image| image.to_le_bytes()));
        bytes.extend(flags);
        bytes.extend(dart.to_le_bytes());
        bytes.extend([0; 24]);
        // what the loans hold before is nothing to the reader
        model::read_image(&bytes, &mut vec![1; n], &mut vec![1; n], &mut vec![0.5; 3 * n], &mut vec![1; 4 * n])
    };
    let linked = rows(4, &[(2, 1, 2)]);
    assert_eq!(read(&linked, &[0, 0, 1, 2], 0), (12, [7, 0, 0]));
    assert_eq!(read(&linked, &[0, 0, 1, 0], 0), (12, [8, 0, 0]));
    assert_eq!(read(&linked, &[0, 0, 1, 0], 1), (3, [4, 2, 0]));
    assert_eq!(read(&linked, &[0, 0, 0, 1], 1), (0, [0, 4, 0]));
}
