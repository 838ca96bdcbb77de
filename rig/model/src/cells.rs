//! Orbits, identifiers and cell lists.

use crate::{Answer, Step, answer, beta_number, darts, done, image, loans, map, size};

/// The classes of cells that have an identifier and a list.
#[derive(Debug, Clone, Copy, PartialEq, Eq, PartialOrd, Ord)]
pub enum Cell {
    Vertex,
    Edge,
    Face,
    Volume,
}

/// The orbits, each a list of steps.
#[derive(Debug, Clone, Copy, PartialEq, Eq)]
pub enum Orbit<'a> {
    Vertex,
    VertexLinear,
    Edge,
    Face,
    FaceLinear,
    Volume,
    VolumeLinear,
    /// The listed betas in order, possibly none.
    Custom(&'a [u8]),
}

/// Where one turn of the search leads from `d`, in the order of scope: steps; null images are dropped later.
fn steps(rows: &[u32], orbit: Orbit<'_>, d: u32, found: &mut Vec<u32>) {
    let b = |i: usize| image(rows, i, d);
    // the inner beta is the one written last
    let bb = |outer: usize, inner: usize| image(rows, outer, image(rows, inner, d));
    found.clear();
    match orbit {
        Orbit::Vertex => {
            found.extend([bb(1, 2), bb(2, 0), bb(1, 3), bb(3, 0), bb(2, 3), bb(3, 2)]);
        }
        Orbit::VertexLinear => found.extend([bb(1, 2), bb(1, 3), bb(2, 3)]),
        Orbit::Edge => found.extend([b(2), b(3)]),
        Orbit::Face => found.extend([b(1), b(0), b(3)]),
        Orbit::FaceLinear => found.extend([b(1), b(3)]),
        Orbit::Volume => found.extend([b(1), b(0), b(2)]),
        Orbit::VolumeLinear => found.extend([b(1), b(2)]),
        Orbit::Custom(betas) => found.extend(betas.iter().map(|&i| b(usize::from(i)))),
    }
}

/// The darts of an orbit, first found first, beginning with `d`; the orbit of 0 is the single 0.
pub(crate) fn orbit_of(rows: &[u32], orbit: Orbit<'_>, d: u32) -> Vec<u32> {
    let mut known = vec![false; rows.len() / 4];
    known[0] = true;
    known[d as usize] = true;
    let mut list = vec![d];
    let mut found = Vec::new();
    let mut at = 0;
    while at < list.len() {
        steps(rows, orbit, list[at], &mut found);
        for &to in &found {
            if !known[to as usize] {
                known[to as usize] = true;
                list.push(to);
            }
        }
        at += 1;
    }
    list
}

/// `face_id`: a walk along both sides of the face, first forward, then, if a side ended, backward.
/// The Rust's walk once more (scope: face_id).
///
/// It stops at a pair of which neither dart is new. A left dart that is new is marked, and the
/// right one is then neither looked at nor marked. The minimum is taken over the first pair and
/// over each pair stepped to, but not over the first pair of the backward leg.
pub(crate) fn face_of(rows: &[u32], d: u32) -> u32 {
    let mut known = vec![false; rows.len() / 4];
    known[0] = true;
    let across = image(rows, 3, d);
    let mut least = d;
    if across != 0 {
        least = least.min(across);
    }
    let mut go = |mut l: u32, mut r: u32, left: usize, right: usize| {
        loop {
            let new = if !known[l as usize] { l } else { r };
            if known[new as usize] {
                return (l, r);
            }
            known[new as usize] = true;
            (l, r) = (image(rows, left, l), image(rows, right, r));
            for x in [l, r] {
                if x != 0 {
                    least = least.min(x);
                }
            }
        }
    };
    let (l, r) = go(d, across, 1, 0);
    if l == 0 || r == 0 {
        go(image(rows, 0, d), image(rows, 1, across), 0, 1);
    }
    least
}

/// A cell by its identifier, with its size: the number of its darts.
#[derive(Debug, Clone, Copy, PartialEq, Eq)]
pub(crate) struct Named {
    pub(crate) name: u32,
    pub(crate) size: u32,
}

/// Vertices, edges and volumes are named by the least dart of the orbit, whose length is their size; the null dart is
/// of size 0. A face is named by its walk, and its darts are not counted.
pub(crate) fn named(rows: &[u32], cell: Cell, d: u32) -> Named {
    let orbit = match cell {
        Cell::Vertex => Orbit::Vertex,
        Cell::Edge => Orbit::Edge,
        Cell::Face => return Named { name: face_of(rows, d), size: 0 },
        Cell::Volume => Orbit::Volume,
    };
    let darts = orbit_of(rows, orbit, d);
    let size = if d == 0 { 0 } else { darts.len() as u32 };
    Named { name: darts.into_iter().fold(d, u32::min), size }
}

/// Marks and queue as a call leaves them once tests 1 to 5 have passed, refused later or not.
pub(crate) fn leave_scratch(n: usize, marks: &mut [u8], queue: &mut [u32]) {
    marks[..n].fill(0);
    queue[..n].fill(0);
}

/// The identifier of the cell of `d`, which may be unused: it is then alone in its cell. The size of a vertex, an
/// edge or a volume is the second value.
pub fn identifier(cell: Cell, rows: &[u32], marks: &mut [u8], queue: &mut [u32], flags: &[u8], d: u32) -> Answer {
    answer((|| {
        let n = size(rows)?;
        loans(&[(1, marks.len(), n), (2, queue.len(), n), (4, flags.len(), n)])?;
        map(rows, flags)?;
        darts(n, &[d])?;
        leave_scratch(n, marks, queue);
        let Named { name, size } = named(rows, cell, d);
        Ok(done(name, size as usize))
    })())
}

/// The darts of an orbit of `d`, which may be unused, written to the start of `output`.
pub fn orbit(orbit: Orbit<'_>, rows: &[u32], marks: &mut [u8], output: &mut [u32], flags: &[u8], d: u32) -> Answer {
    answer((|| {
        let n = size(rows)?;
        loans(&[(1, marks.len(), n), (3, output.len(), n), (4, flags.len(), n)])?;
        map(rows, flags)?;
        darts(n, &[d])?;
        if let Orbit::Custom(betas) = orbit {
            // the first number above 3 is the one named
            betas.iter().try_for_each(|&i| beta_number(u32::from(i)).map(|_| ()))?;
        }
        leave_scratch(n, marks, &mut vec![0; n]);
        let list = orbit_of(rows, orbit, d);
        output[..list.len()].copy_from_slice(&list);
        Ok(done(0, list.len()))
    })())
}

/// Every d from 1 to n-1 not unused whose identifier is d, ascending.
pub(crate) fn list_of(rows: &[u32], cell: Cell, flags: &[u8]) -> Vec<u32> {
    (1..(rows.len() / 4) as u32).filter(|&d| flags[d as usize] == 0 && named(rows, cell, d).name == d).collect()
}

/// The cells of a class, written to the start of `output`.
pub fn list(cell: Cell, rows: &[u32], marks: &mut [u8], queue: &mut [u32], output: &mut [u32], flags: &[u8]) -> Answer {
    answer((|| -> Step<Answer> {
        let n = size(rows)?;
        loans(&[(1, marks.len(), n), (2, queue.len(), n), (3, output.len(), n), (4, flags.len(), n)])?;
        map(rows, flags)?;
        leave_scratch(n, marks, queue);
        let list = list_of(rows, cell, flags);
        output[..list.len()].copy_from_slice(&list);
        Ok(done(0, list.len()))
    })())
}
