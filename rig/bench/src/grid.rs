//! The maps that are measured.

/// A map and its vertices, as they are lent.
pub struct Grid {
    pub rows: Vec<u32>,
    pub vertex_marks: Vec<u8>,
    pub coordinates: Vec<f64>,
    /// Darts on inner faces, spread over the map: the arguments of single calls.
    pub probes: Vec<u32>,
}

/// Flags of so many darts, none of which is unused. They are written once, so that reading them is reading memory.
pub fn used(n: usize) -> Vec<u8> {
    let mut flags = vec![1; n];
    std::hint::black_box(&mut flags).fill(0);
    flags
}

/// How many there are, where the map has so many.
const PROBES: usize = 16;

/// How often a peer's short calls go through the probes in one run.
pub const ROUNDS: usize = 64;

// A cube's darts in the order in which CGAL's make_combinatorial_hexahedron makes them, so that both
// have the same map number by number: the start corner of each dart, four darts a face, anticlockwise
// from outside.
const FACES: [[[usize; 3]; 4]; 6] = [
    [[0, 0, 0], [0, 1, 0], [1, 1, 0], [1, 0, 0]],
    [[1, 0, 0], [1, 1, 0], [1, 1, 1], [1, 0, 1]],
    [[1, 0, 1], [1, 1, 1], [0, 1, 1], [0, 0, 1]],
    [[0, 0, 1], [0, 1, 1], [0, 1, 0], [0, 0, 0]],
    [[0, 0, 0], [1, 0, 0], [1, 0, 1], [0, 0, 1]],
    [[0, 1, 0], [0, 1, 1], [1, 1, 1], [1, 1, 0]],
];

/// `side`³ cubes with every 2- and 3-link, x fastest.
pub fn cubes(side: usize) -> Grid {
    let corner = |local: usize| FACES[local / 4][local % 4];
    let next = |local: usize| local / 4 * 4 + (local + 1) % 4;
    // the local dart that runs the other way between the same corners, moved by one cube along an axis
    let against = |local: usize, axis: Option<(usize, bool)>| {
        let moved = |c: [usize; 3]| match axis {
            None => Some(c),
            Some((a, true)) => (c[a] == 1).then(|| std::array::from_fn(|k| if k == a { 0 } else { c[k] })),
            Some((a, false)) => (c[a] == 0).then(|| std::array::from_fn(|k| if k == a { 1 } else { c[k] })),
        };
        let (from, to) = (moved(corner(next(local)))?, moved(corner(local))?);
        // of the two darts with these corners, the one whose face is the shared one
        (0..24).find(|&other| {
            corner(other) == from
                && corner(next(other)) == to
                && axis.is_none_or(|(a, up)| FACES[other / 4].iter().all(|c| c[a] == usize::from(!up)))
        })
    };
    // the axis across which a face lies, and whether upward
    let across = |local: usize| {
        let face = FACES[local / 4];
        let axis = (0..3).find(|&a| face.iter().all(|c| c[a] == face[0][a])).expect("a face is flat");
        (axis, face[0][axis] == 1)
    };
    let step = [1, side, side * side];
    let n = 1 + 24 * side * side * side;
    let (mut rows, mut coordinates) = (vec![0; 4], vec![0.0; 3]);
    rows.reserve_exact(4 * (n - 1));
    let partners: Vec<(usize, usize)> = (0..24)
        .map(|local| {
            let inside = against(local, None).expect("every edge has two faces");
            (inside, against(local, Some(across(local))).expect("cubes are alike"))
        })
        .collect();
    for cube in 0..side * side * side {
        let at = [cube % side, cube / side % side, cube / (side * side)];
        let dart = |cube: usize, local: usize| (1 + 24 * cube + local) as u32;
        for (local, &(inside, beyond)) in partners.iter().enumerate() {
            let (axis, up) = across(local);
            let neighbour = match up {
                true if at[axis] + 1 < side => Some(cube + step[axis]),
                false if at[axis] > 0 => Some(cube - step[axis]),
                _ => None,
            };
            let before = local / 4 * 4 + (local + 3) % 4;
            rows.extend([dart(cube, before), dart(cube, next(local)), dart(cube, inside)]);
            rows.push(neighbour.map_or(0, |neighbour| dart(neighbour, beyond)));
            coordinates.extend((0..3).map(|k| (at[k] + corner(local)[k]) as f64));
        }
    }
    let probes = (0..PROBES).map(|at| {
        let cube = at * side * side * side / PROBES;
        // one that has a cube to its right, so that its fifth dart is 3-linked
        let cube = if cube % side + 1 == side { cube.saturating_sub(1) } else { cube };
        (24 * cube + 5) as u32
    });
    let mut probes: Vec<u32> = probes.collect();
    probes.dedup(); // a small grid has fewer
    let mut vertex_marks = vec![1; n];
    vertex_marks[0] = 0;
    Grid { rows, vertex_marks, coordinates, probes }
}

/// One closed face of `darts` darts and nothing else: one face and one volume, the longest walk. It has
/// no points and no probes.
pub fn ring(darts: u32) -> Grid {
    let mut rows = vec![0; 4];
    for d in 1..=darts {
        rows.extend([if d == 1 { darts } else { d - 1 }, if d == darts { 1 } else { d + 1 }, 0, 0]);
    }
    let n = darts as usize + 1;
    Grid { rows, vertex_marks: vec![0; n], coordinates: vec![0.0; 3 * n], probes: Vec::new() }
}

/// The same darts and edges, with every dart a face of its own: beta 0 and beta 1 lead back to it. A vertex then has
/// the darts of its edge and no others. There are no points.
pub fn lone_faces(grid: &Grid) -> Grid {
    let n = grid.vertex_marks.len();
    let mut rows = grid.rows.clone();
    for (d, images) in rows.chunks_exact_mut(4).enumerate() {
        images[..2].fill(d as u32);
    }
    Grid { rows, vertex_marks: vec![0; n], coordinates: vec![0.0; 3 * n], probes: Vec::new() }
}

/// FNV-1a over words, as cgal/cells.cpp has it.
pub fn fnv1a(words: &[u32]) -> u64 {
    words.iter().fold(0xcbf2_9ce4_8422_2325, |h, &word| (h ^ u64::from(word)).wrapping_mul(0x0000_0100_0000_01b3))
}

#[cfg(test)]
mod tests {
    use super::*;
    use inkcapper::{Cell, Loans, slices};

    #[cfg(not(feature = "linked"))]
    extern crate c_names;

    #[test]
    fn maps_have_the_cells_they_should() {
        for side in 1..5 {
            let grid = cubes(side);
            slices::check_map(&grid.rows, &used(grid.rows.len() / 4)).done().expect("a map");
            let n = grid.rows.len() / 4;
            let (k, flags, mut loans) = (side, vec![0; n], Loans::new());
            let cells = [
                (Cell::Vertex, (k + 1).pow(3)),
                (Cell::Edge, 3 * k * (k + 1).pow(2)),
                (Cell::Face, 3 * k * k * (k + 1)),
                (Cell::Volume, k.pow(3)),
            ];
            for (cell, count) in cells {
                assert_eq!(loans.list(cell, &grid.rows, &flags).expect("a list").len(), count);
            }
            // darts linked by beta 2 and 3 run against each other
            let end = |d: usize| grid.rows[4 * d + 1] as usize;
            let point = |d: usize| &grid.coordinates[3 * d..3 * d + 3];
            for d in 1..n {
                for i in [2, 3] {
                    let other = grid.rows[4 * d + i] as usize;
                    assert!(other == 0 || (point(d), point(end(d))) == (point(end(other)), point(other)));
                }
            }
            assert!(side == 1 || grid.probes.iter().all(|&d| grid.rows[4 * d as usize + 3] != 0));
            let lone = lone_faces(&grid);
            for (cell, rows) in [(Cell::Edge, &grid.rows), (Cell::Vertex, &lone.rows), (Cell::Edge, &lone.rows)] {
                assert_eq!(loans.list(cell, rows, &flags).expect("a list").len(), 3 * k * (k + 1).pow(2));
            }
        }
        slices::check_map(&ring(7).rows, &used(8)).done().expect("a map");
    }
}
