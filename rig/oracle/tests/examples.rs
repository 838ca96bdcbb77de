//! The worked examples (scope: examples) through the text itself: the oracle is put together rightly.

use oracle::{Cell, Oracle, Orbit};

/// A map of `n` darts with these images, each as beta, dart, image; the way back is set too.
fn map(n: usize, links: &[(usize, u32, u32)]) -> Oracle {
    let mut rows = vec![0; 4 * n];
    for &(i, l, r) in links {
        rows[4 * l as usize + i] = r;
        rows[4 * r as usize + if i == 1 { 0 } else { i }] = l;
    }
    let mut oracle = Oracle::new(n);
    oracle.put_rows(&rows);
    oracle
}

fn rows(oracle: &Oracle) -> Vec<u32> {
    let mut rows = Vec::new();
    oracle.take_rows(&mut rows);
    rows
}

const LOOPS: [(usize, u32, u32); 7] = [(1, 1, 2), (1, 2, 3), (1, 3, 1), (1, 4, 5), (1, 5, 6), (1, 6, 7), (1, 7, 4)];

#[test]
fn links_and_refusals_roll_back() {
    assert_eq!(map(2, &[]).three_link(1, 1), (7, [3, 1, 1]));
    let mut loops = map(8, &LOOPS);
    let start = rows(&loops);
    assert_eq!(loops.three_link(4, 1), (7, [3, 7, 1]));
    assert_eq!(rows(&loops), start);
    assert_eq!(loops.three_link(1, 4), (0, [0, 0, 0]));
    assert_eq!([1, 2, 3, 5].map(|d| loops.beta(3, d).1[0]), [4, 7, 6, 0]);
    let linked = rows(&loops);
    assert_eq!(loops.three_unlink(4), (9, [4, 1, 0]));
    assert_eq!(rows(&loops), linked);
    assert_eq!(loops.three_unlink(1), (0, [4, 0, 0]));
    assert_eq!(rows(&loops), start);
}

#[test]
fn plans() {
    let mut pair = map(3, &[(3, 1, 2)]);
    let (answer, plan) = pair.three_unsew(1);
    assert_eq!(answer, (0, [2, 4, 0]));
    assert_eq!(plan, [[13, 1, 2, 1], [12, 1, 2, 1], [11, 0, 2, 0], [11, 1, 0, 0]]);

    let mut strips = map(5, &[(1, 1, 2), (1, 3, 4)]);
    let points = [0., 0., 0., 0., 0., 0., 1., 0., 0., 1., 0., 0., 0., 0., 0.];
    strips.put_vertices(&[0, 1, 1, 1, 1], &points);
    let (answer, plan) = strips.two_sew(1, 3);
    assert_eq!(answer, (0, [0, 3, 0]));
    assert_eq!(plan, [[2, 1, 1, 3], [1, 1, 1, 4], [1, 2, 2, 3]]);
}

#[test]
fn cells() {
    let loops = map(8, &LOOPS);
    assert_eq!(loops.orbit(Orbit::Face, 2), ((0, [0, 3, 0]), vec![2, 3, 1]));
    assert_eq!(loops.orbit(Orbit::Custom(&[]), 0), ((0, [0, 1, 0]), vec![0]));
    assert_eq!(loops.list(Cell::Face), ((0, [0, 2, 0]), vec![1, 4]));
    // an open pair: the walk from 2 takes no minimum over the dart it goes back to
    assert_eq!(map(3, &[(1, 1, 2)]).identifier(Cell::Face, 2), (0, [2, 0, 0]));
}

#[test]
fn the_text_is_all_there() {
    assert_eq!(oracle::TEXT.len(), 16);
}
