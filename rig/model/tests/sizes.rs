//! Sizes of cells: beside identifiers, and in the entries of plans; and the room that these take.

mod common;

use model::{Answer, Cell, ENTRY_NUMBERS};

use common::rows;

/// No dart is unused; more flags than any map here has darts.
const USED: [u8; 25] = [0; 25];

/// The name and the size of a cell.
fn cell(cell: Cell, rows: &[u32], d: u32) -> (u64, u64) {
    let n = rows.len() / 4;
    let (number, [name, size, third]) = model::identifier(cell, rows, &mut vec![7; n], &mut vec![7; n], &USED, d);
    assert_eq!((number, third), (0, 0));
    (name, size)
}

/// What a sew or unsew is lent beside its darts, and what it leaves of rows and plan.
struct Lent {
    rows: Vec<u32>,
    plan: Vec<u32>,
}

impl Lent {
    /// Rows, and a plan of so many words.
    fn of(rows: &[u32], words: usize) -> Self {
        Self { rows: rows.to_vec(), plan: vec![9; words] }
    }

    /// Ample room.
    fn ample(rows: &[u32]) -> Self {
        Self::of(rows, 200)
    }

    fn one_sew(&mut self, ld: u32, rd: u32) -> Answer {
        let n = self.rows.len() / 4;
        model::one_sew(&mut self.rows, &mut vec![0; n], &mut vec![0; n], &USED, &mut self.plan, ld, rd)
    }

    fn two_sew(&mut self, ld: u32, rd: u32) -> Answer {
        let n = self.rows.len() / 4;
        let (marks, queue) = (&mut vec![0; n], &mut vec![0; n]);
        let (points, at) = (vec![0; n], vec![0.0; 3 * n]);
        model::two_sew(&mut self.rows, marks, queue, &USED, &points, &at, &mut self.plan, ld, rd)
    }

    fn unsew(&mut self, i: usize, ld: u32) -> Answer {
        let n = self.rows.len() / 4;
        let call = [model::one_unsew, model::two_unsew, model::three_unsew][i - 1];
        call(&mut self.rows, &mut vec![0; n], &mut vec![0; n], &USED, &mut self.plan, ld)
    }

    /// The entries of a plan of which so many were written, and the words behind them as they were.
    fn entries(&self, count: u64) -> Vec<[u32; ENTRY_NUMBERS]> {
        let (written, behind) = self.plan.split_at(ENTRY_NUMBERS * count as usize);
        assert!(behind.iter().all(|&word| word == 9));
        written.chunks_exact(ENTRY_NUMBERS).map(|entry| entry.try_into().unwrap()).collect()
    }
}

/// A cube: faces of four darts each, 1 to 4, 5 to 8 and so on.
fn cube() -> Vec<u32> {
    let mut links = Vec::new();
    for first in (1..25).step_by(4) {
        links.extend((0..4).map(|k| (1, first + k, first + (k + 1) % 4)));
    }
    // the bottom's four sides, from side to side, and the top
    for k in 0..4 {
        let side = 5 + 4 * k;
        links.extend([(2, 1 + k, side), (2, side + 3, 5 + 4 * ((k + 1) % 4) + 1), (2, side + 2, 24 - k)]);
    }
    rows(25, &links)
}

#[test]
fn sizes_of_a_cube() {
    let rows = cube();
    assert_eq!(model::first_breach(&rows, &USED), None);
    let all = |class: Cell, wanted: u64| (1..25).all(|d| cell(class, &rows, d).1 == wanted);
    // three faces at a corner, two along an edge, 24 darts in all; the darts of a face are not counted
    assert!(all(Cell::Vertex, 3) && all(Cell::Edge, 2) && all(Cell::Volume, 24) && all(Cell::Face, 0));
}

#[test]
fn sizes_of_the_null_dart_and_of_one_alone() {
    let rows = rows(3, &[(1, 1, 1)]);
    for class in [Cell::Vertex, Cell::Edge, Cell::Volume] {
        assert_eq!([0, 1, 2].map(|d| cell(class, &rows, d)), [(0, 0), (1, 1), (2, 1)]);
    }
    assert_eq!([0, 1, 2].map(|d| cell(Cell::Face, &rows, d)), [(0, 0), (1, 0), (2, 0)]);
}

#[test]
fn every_dart_of_a_cell_says_the_same() {
    // an edge of five darts, 4 2 5 1 3, of which a volume has 4 and 2, and 6 before 2
    let rows = rows(7, &[(2, 4, 2), (3, 2, 5), (2, 5, 1), (3, 1, 3), (1, 6, 2)]);
    assert!([1, 2, 3, 4, 5].iter().all(|&d| cell(Cell::Edge, &rows, d) == (1, 5)));
    assert_eq!(cell(Cell::Edge, &rows, 6), (6, 1));
    assert!([2, 4, 6].iter().all(|&d| cell(Cell::Volume, &rows, d) == (2, 3)));
}

/// Where a merge is planned its sizes are of the cells before, and of a split of those after.
#[test]
fn a_merge_before_and_a_split_after() {
    let start = rows(7, &[(1, 1, 2), (1, 3, 4), (1, 5, 6)]);
    let mut lent = Lent::ample(&start);
    assert_eq!(lent.two_sew(1, 3), (0, [0, 3, 0]));
    assert_eq!(lent.entries(3), [[2, 1, 1, 3, 1, 1], [1, 1, 1, 4, 1, 1], [1, 2, 2, 3, 1, 1]]);
    let sewn = lent.rows;
    assert_eq!((cell(Cell::Edge, &sewn, 3), cell(Cell::Vertex, &sewn, 4)), ((1, 2), (1, 2)));
    // the far end of 5 is 6, which is alone; the vertex of 2 has grown to two darts
    let mut lent = Lent::ample(&sewn);
    assert_eq!(lent.two_sew(5, 2), (0, [0, 2, 0]));
    assert_eq!(lent.entries(2), [[2, 2, 5, 2, 1, 1], [1, 2, 6, 2, 1, 2]]);
    assert_eq!(cell(Cell::Vertex, &lent.rows, 6), (2, 3));
    let mut lent = Lent::ample(&lent.rows);
    assert_eq!(lent.unsew(2, 5), (0, [2, 2, 0]));
    assert_eq!(lent.entries(2), [[12, 5, 2, 2, 1, 1], [11, 6, 2, 2, 1, 2]]);
    assert_eq!(lent.rows, sewn);
}

/// A vertex of two darts and one of three become one of five, and two again; left and right go by the darts lent.
#[test]
fn a_one_sew_of_unlike_vertices() {
    let start = rows(10, &[(2, 1, 9), (3, 9, 3), (1, 3, 4), (2, 5, 6), (1, 6, 7), (3, 5, 8), (1, 8, 2)]);
    assert_eq!([9, 5].map(|d| cell(Cell::Vertex, &start, d)), [(4, 2), (2, 3)]);
    let mut lent = Lent::ample(&start);
    assert_eq!(lent.one_sew(1, 5), (0, [0, 1, 0]));
    assert_eq!(lent.entries(1), [[1, 2, 4, 2, 2, 3]]);
    assert!([9, 4, 5, 7, 2].iter().all(|&d| cell(Cell::Vertex, &lent.rows, d) == (2, 5)));
    let mut lent = Lent::ample(&lent.rows);
    assert_eq!(lent.unsew(1, 1), (0, [5, 1, 0]));
    assert_eq!(lent.entries(1), [[11, 4, 2, 2, 2, 3]]);
    assert_eq!(lent.rows, start);
}

/// The two smallest maps on which a merge's sizes or its name do not say what is left.
#[test]
fn merges_that_share_a_cell() {
    let start = rows(4, &[(1, 3, 1), (3, 1, 2)]);
    let mut lent = Lent::ample(&start);
    assert_eq!(lent.two_sew(2, 3), (0, [0, 3, 0]));
    assert_eq!(lent.entries(3), [[2, 1, 1, 3, 2, 1], [1, 1, 2, 1, 1, 1], [1, 1, 1, 3, 1, 1]]);
    assert_eq!(cell(Cell::Vertex, &lent.rows, 1), (1, 3));

    let start = rows(4, &[(1, 3, 2), (3, 1, 2)]);
    let mut lent = Lent::ample(&start);
    assert_eq!(lent.two_sew(1, 3), (0, [0, 3, 0]));
    assert_eq!(lent.entries(3), [[2, 1, 1, 3, 2, 1], [1, 1, 1, 2, 1, 1], [1, 2, 2, 3, 1, 1]]);
    assert_eq!(cell(Cell::Vertex, &lent.rows, 2), (1, 3));
}

/// What is null at the far end of a pair has neither name nor darts.
#[test]
fn a_null_far_end() {
    // 2 has a far end by beta 2, and 1 has none
    let mut lent = Lent::ample(&rows(4, &[(3, 1, 2), (2, 2, 3)]));
    assert_eq!(lent.unsew(3, 1), (0, [2, 4, 0]));
    let wanted = [[13, 1, 2, 1, 1, 1], [12, 1, 2, 1, 1, 2], [11, 0, 2, 0, 0, 1], [11, 1, 3, 1, 1, 1]];
    assert_eq!(lent.entries(4), wanted);
    // and the other way round
    let mut lent = Lent::ample(&rows(4, &[(3, 1, 2), (2, 2, 3)]));
    assert_eq!(lent.unsew(3, 2), (0, [1, 4, 0]));
    let wanted = [[13, 2, 1, 1, 1, 1], [12, 2, 1, 1, 2, 1], [11, 3, 1, 1, 1, 1], [11, 2, 0, 0, 1, 0]];
    assert_eq!(lent.entries(4), wanted);
}

/// A face split says how many pairs were parted, which need not be all the darts of either side.
#[test]
fn a_face_split_counts_pairs() {
    // a triangle against a quad, and back from the triangle
    let loops = [(1, 1, 2), (1, 2, 3), (1, 3, 1), (1, 4, 5), (1, 5, 6), (1, 6, 7), (1, 7, 4)];
    let mut glued = rows(8, &loops);
    assert_eq!(model::three_link(&mut glued, &USED, 1, 4), (0, [0; 3]));
    let mut lent = Lent::ample(&glued);
    assert_eq!(lent.unsew(3, 1), (0, [4, 7, 0]));
    let entries = lent.entries(7);
    assert_eq!(entries[0], [13, 1, 4, 1, 3, 3]);
    // every edge and every vertex has one dart once the faces are apart
    assert!(entries[1..].iter().all(|entry| entry[4..] == [1, 1]));
    // chains 1 2 and 3 4 5 of which 5 stays free
    let mut glued = rows(6, &[(1, 1, 2), (1, 3, 4), (1, 4, 5)]);
    assert_eq!(model::three_link(&mut glued, &USED, 1, 4), (0, [0; 3]));
    let mut lent = Lent::ample(&glued);
    let (_, [_, count, _]) = lent.unsew(3, 1);
    assert_eq!(lent.entries(count)[0], [13, 1, 3, 1, 2, 2]);
}

/// The splits of a 3-unsew are of the rows in which every pair is parted, those of later pairs too.
#[test]
fn sizes_after_the_whole_unlink() {
    let mut glued = rows(5, &[(1, 1, 2), (1, 2, 1), (1, 3, 4), (1, 4, 3)]);
    assert_eq!(model::three_link(&mut glued, &USED, 1, 3), (0, [0; 3]));
    // each vertex has a dart of either side
    assert_eq!((cell(Cell::Vertex, &glued, 2), cell(Cell::Vertex, &glued, 1)), ((2, 2), (1, 2)));
    let mut lent = Lent::ample(&glued);
    assert_eq!(lent.unsew(3, 1), (0, [3, 5, 0]));
    assert!(lent.entries(5)[1..].iter().all(|entry| entry[4..] == [1, 1]));
}

/// Six numbers an entry: with one word less there is room for one entry less, and what is no whole entry is left.
#[test]
fn room_by_six() {
    let start = rows(3, &[(3, 1, 2)]);
    for words in 0..30 {
        let mut lent = Lent::of(&start, words);
        let answer = lent.unsew(3, 1);
        if words < 24 {
            assert_eq!((answer, &lent.rows), ((11, [4, 0, 0]), &start));
            assert!(lent.entries(0).is_empty());
        } else {
            assert_eq!((answer, lent.entries(4).len()), ((0, [2, 4, 0]), 4));
        }
    }
}

/// In a list entries of six stand one behind another, and the room of each command is what is left of the words.
#[test]
fn room_by_six_in_a_list() {
    // 2-link and 2-unsew, three times: an edge split each
    let list = [2, 1, 2, 10, 1, 0].repeat(3);
    for words in 0..20 {
        let (mut rows, mut output, mut plan) = (vec![0; 12], vec![0; 30], vec![9; words]);
        let (marks, queue) = (&mut vec![0; 3], &mut vec![0; 3]);
        let (points, at) = (vec![0; 3], vec![0.0; 9]);
        let answer = model::commands(&mut rows, marks, queue, &mut output, &USED, &points, &at, &mut plan, &list);
        let room = (words / 6).min(3);
        assert_eq!(answer, (0, [0, room as u64, 0]));
        let wanted = [[12, 1, 2, 1, 1, 1].repeat(room), vec![9; words - 6 * room]].concat();
        assert_eq!(plan, wanted);
    }
}
