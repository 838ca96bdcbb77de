//! The worked examples (scope: examples), and the triangle's report, through the model.

use model::Answer;

/// Rows of `n` darts, null dart counted, with these beta 1 chains; `true` closes a chain.
fn rows(n: usize, chains: &[(&[u32], bool)]) -> Vec<u32> {
    let mut rows = vec![0; 4 * n];
    let mut join = |l: u32, r: u32| {
        rows[4 * l as usize + 1] = r;
        rows[4 * r as usize] = l;
    };
    for &(chain, closed) in chains {
        chain.windows(2).for_each(|pair| join(pair[0], pair[1]));
        if closed {
            join(chain[chain.len() - 1], chain[0]);
        }
    }
    rows
}

fn beta(rows: &[u32], i: usize, d: usize) -> u32 {
    rows[4 * d + i]
}

const DONE: Answer = (0, [0, 0, 0]);

/// No dart is unused; more flags than any map here has darts.
const USED: [u8; 9] = [0; 9];

#[test]
fn links() {
    assert_eq!(model::three_link(&mut rows(2, &[]), &USED, 1, 1), (7, [3, 1, 1]));

    let start = rows(8, &[(&[1, 2, 3], true), (&[4, 5, 6, 7], true)]);
    let mut linked = start.clone();
    assert_eq!(model::three_link(&mut linked, &USED, 1, 4), DONE);
    assert_eq!([1, 2, 3, 5].map(|d| beta(&linked, 3, d)), [4, 7, 6, 0]);
    let before = linked.clone();
    assert_eq!(model::three_unlink(&mut linked, &USED, 4), (9, [4, 1, 0]));
    assert_eq!(linked, before);
    assert_eq!(model::three_unlink(&mut linked, &USED, 1), (0, [4, 0, 0]));
    assert_eq!(linked, start);
    assert_eq!(model::three_link(&mut linked, &USED, 4, 1), (7, [3, 7, 1]));

    assert_eq!(model::three_link(&mut rows(5, &[(&[1, 2, 3, 4], true)]), &USED, 1, 2), (6, [3, 2, 1]));
    let mut open = rows(6, &[(&[1, 2], false), (&[3, 4, 5], false)]);
    assert_eq!(model::three_link(&mut open.clone(), &USED, 5, 1), (9, [5, 1, 0]));
    assert_eq!(model::three_link(&mut open, &USED, 1, 4), DONE);
    assert_eq!([1, 2, 5].map(|d| beta(&open, 3, d)), [4, 3, 0]);
}

#[test]
fn faces() {
    let open = rows(3, &[(&[1, 2], false)]);
    let face = |d| model::identifier(model::Cell::Face, &open, &mut [7; 3], &mut [7; 3], &USED, d);
    assert_eq!((face(2), face(1)), ((0, [2, 0, 0]), (0, [1, 0, 0])));
}

#[test]
fn three_unsew() {
    let mut linked = rows(3, &[]);
    assert_eq!(model::three_link(&mut linked, &USED, 1, 2), DONE);
    let mut plan = [9; 23];
    let mut short = linked.clone();
    let answer = model::three_unsew(&mut short, &mut [7; 3], &mut [7; 3], &USED, &mut plan, 1);
    assert_eq!((answer, plan, &short), ((11, [4, 0, 0]), [9; 23], &linked));
    let mut plan = [9; 29];
    let answer = model::three_unsew(&mut linked, &mut [7; 3], &mut [7; 3], &USED, &mut plan, 1);
    assert_eq!(answer, (0, [2, 4, 0]));
    assert_eq!(plan[..12], [13, 1, 2, 1, 1, 1, 12, 1, 2, 1, 1, 1]);
    assert_eq!(plan[12..], [11, 0, 2, 0, 0, 1, 11, 1, 0, 0, 1, 0, 9, 9, 9, 9, 9]);
}

#[test]
fn two_sew() {
    let start = rows(5, &[(&[1, 2], false), (&[3, 4], false)]);
    let o = [0.0; 3];
    let x = [1.0, 0.0, 0.0];
    let sew = |points: [[f64; 3]; 4]| {
        let coordinates: Vec<f64> = [o].iter().chain(&points).flatten().copied().collect();
        let (mut rows, mut plan) = (start.clone(), [9; 18]);
        let answer =
            model::two_sew(&mut rows, &mut [7; 5], &mut [7; 5], &USED, &[0, 1, 1, 1, 1], &coordinates, &mut plan, 1, 3);
        (answer, plan)
    };
    assert_eq!(sew([o, x, x, o]), ((0, [0, 3, 0]), [2, 1, 1, 3, 1, 1, 1, 1, 1, 4, 1, 1, 1, 2, 2, 3, 1, 1]));
    assert_eq!(sew([o, x, o, [0.0, 1.0, 0.0]]), ((10, [2, 1, 3]), [9; 18]));
}

#[test]
fn triangle_report() {
    let mut bytes: Vec<u8> = [1u32, 96, 4, 28, 92, 0, 96].iter().flat_map(|w| w.to_le_bytes()).collect();
    bytes.extend(rows(4, &[(&[1, 2, 3], true)]).iter().flat_map(|w| w.to_le_bytes()));
    bytes.extend([0; 4]);
    assert_eq!(model::report(&bytes), "darts 4 used 3\nvertices 3: 1 2 3\nedges 3: 1 2 3\nfaces 1: 1\nvolumes 1: 1\n");
}

/// The readings of the design that name a map and an answer.
#[test]
fn settled_readings() {
    let with = |n: usize, links: &[(usize, u32, u32)]| {
        let mut rows = vec![0; 4 * n];
        for &(i, l, r) in links {
            rows[4 * l as usize + i] = r;
            rows[4 * r as usize + if i == 1 { 0 } else { i }] = l;
        }
        rows
    };
    // walks read the rows as written so far
    assert_eq!(model::three_link(&mut with(3, &[(1, 1, 2)]), &USED, 1, 2), (6, [3, 2, 1]));
    let both = with(3, &[(1, 1, 2), (3, 1, 2)]);
    assert_eq!(model::three_unlink(&mut both.clone(), &USED, 1), (9, [1, 2, 0]));
    let (marks, queue, plan) = (&mut [0; 3], &mut [0; 3], &mut [0; 60]);
    assert_eq!(model::three_unsew(&mut both.clone(), marks, queue, &USED, plan, 1), (9, [1, 2, 0]));
    assert_eq!(model::one_unsew(&mut both.clone(), marks, queue, &USED, plan, 1), (9, [1, 2, 0]));
    let across = with(3, &[(3, 1, 2)]);
    assert_eq!(model::one_sew(&mut across.clone(), marks, queue, &USED, plan, 1, 2), (6, [1, 1, 2]));
    assert_eq!(model::three_link(&mut with(5, &[(1, 4, 1)]), &USED, 1, 2), (9, [1, 2, 0]));
    // face_id
    let face = |rows: &[u32], d| {
        let n = rows.len() / 4;
        model::identifier(model::Cell::Face, rows, &mut vec![0; n], &mut vec![0; n], &USED, d).1[0]
    };
    assert_eq!(face(&with(4, &[(1, 3, 2), (1, 2, 1), (3, 2, 3)]), 3), 1);
    assert_eq!(face(&with(3, &[(1, 1, 2)]), 2), 2);
    assert_eq!(face(&with(5, &[(1, 3, 2), (1, 2, 1), (1, 4, 4), (3, 3, 4)]), 4), 1);
    assert_eq!(face(&with(5, &[(1, 1, 2), (1, 2, 3), (1, 4, 4), (3, 3, 4)]), 4), 1);
    // a 3-unsew's face split, and a plan that names a merged vertex
    let (marks, queue) = (&mut [0; 4], &mut [0; 4]);
    let mut plan = [0; 60];
    let answer = model::three_unsew(&mut with(4, &[(1, 3, 1), (3, 2, 3)]), marks, queue, &USED, &mut plan, 2);
    assert_eq!((answer.0, &plan[..6]), (0, &[13, 2, 3, 2, 1, 1][..]));
    let mut plan = [0; 18];
    let mut rows = with(4, &[(1, 3, 2), (3, 1, 2)]);
    let answer = model::two_sew(&mut rows, marks, queue, &USED, &[0; 4], &[0.0; 12], &mut plan, 1, 3);
    assert_eq!((answer, plan), ((0, [0, 3, 0]), [2, 1, 1, 3, 2, 1, 1, 1, 1, 2, 1, 1, 1, 2, 2, 3, 1, 1]));
}
