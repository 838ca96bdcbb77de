//! Sews and unsews with their plans.

use crate::cells::{Cell, Named, leave_scratch, named};
use crate::links::{link_core, three_unlink_walk, unlink_core};
use crate::{Answer, ENTRY_NUMBERS, Step, answer, done, image, loans, map, refused, size, used_darts};

const VERTEX_MERGE: u32 = 1;
const EDGE_MERGE: u32 = 2;
const VERTEX_SPLIT: u32 = 11;
const EDGE_SPLIT: u32 = 12;
const FACE_SPLIT: u32 = 13;

/// An entry of a plan: code, three identifiers, the sizes of the left and of the right cell.
type Entry = [u32; ENTRY_NUMBERS];

/// The vertex of `d` in these rows.
fn vertex(rows: &[u32], d: u32) -> Named {
    named(rows, Cell::Vertex, d)
}

/// The edge of `d` in these rows.
fn edge(rows: &[u32], d: u32) -> Named {
    named(rows, Cell::Edge, d)
}

/// M: the larger of the two named images of `d`.
fn larger(rows: &[u32], i: usize, j: usize, d: u32) -> u32 {
    image(rows, i, d).max(image(rows, j, d))
}

/// A merge if the two are named differently: out (the lesser), left in, right in, and their sizes.
fn merge(plan: &mut Vec<Entry>, code: u32, left: Named, right: Named) {
    if left.name != right.name {
        plan.push([code, left.name.min(right.name), left.name, right.name, left.size, right.size]);
    }
}

/// A split if the two are named differently: left out, right out, in (the lesser), and their sizes.
fn split(plan: &mut Vec<Entry>, code: u32, left: Named, right: Named) {
    if left.name != right.name {
        plan.push([code, left.name, right.name, left.name.min(right.name), left.size, right.size]);
    }
}

/// The scratch and the flags that every sew and unsew is lent.
struct Lent<'a> {
    marks: &'a mut [u8],
    queue: &'a mut [u32],
    flags: &'a [u8],
}

/// Tests 1 to 4, then the work on a copy of the rows, then the room for its plan.
///
/// `more` are the loans beyond marks, queue and flags, as number, length and places for each dart.
fn sew_on_copy(
    rows: &mut [u32],
    lent: Lent<'_>,
    more: &[(u64, usize, usize)],
    plan: &mut [u32],
    arguments: &[u32],
    work: impl FnOnce(&mut [u32], &mut Vec<Entry>) -> Step<u32>,
) -> Answer {
    answer((|| {
        let n = size(rows)?;
        let mut held = vec![(1, lent.marks.len(), n), (2, lent.queue.len(), n), (4, lent.flags.len(), n)];
        held.extend(more.iter().map(|&(which, length, each)| (which, length, each * n)));
        loans(&held)?;
        map(rows, lent.flags)?;
        used_darts(n, lent.flags, arguments)?;
        leave_scratch(n, lent.marks, lent.queue);
        let mut copy = rows.to_vec();
        let mut entries = Vec::new();
        let first = work(&mut copy, &mut entries)?;
        if entries.len() > plan.len() / ENTRY_NUMBERS {
            return refused(11, &[entries.len() as u64]);
        }
        rows.copy_from_slice(&copy);
        for (place, entry) in plan.chunks_exact_mut(ENTRY_NUMBERS).zip(&entries) {
            place.copy_from_slice(entry);
        }
        Ok(done(first, entries.len()))
    })())
}

/// 1-sew. m = M(beta 3, beta 2 of ld); before linking, vl = vertex of m, vr = vertex of rd, named and counted.
pub fn one_sew(
    rows: &mut [u32],
    marks: &mut [u8],
    queue: &mut [u32],
    flags: &[u8],
    plan: &mut [u32],
    ld: u32,
    rd: u32,
) -> Answer {
    sew_on_copy(rows, Lent { marks, queue, flags }, &[], plan, &[ld, rd], |rows, plan| {
        let m = larger(rows, 3, 2, ld);
        let (vl, vr) = (vertex(rows, m), vertex(rows, rd));
        let (b3l, b3r) = (image(rows, 3, ld), image(rows, 3, rd));
        link_core(rows, 1, ld, rd)?;
        if b3l != 0 && b3r != 0 {
            link_core(rows, 1, b3r, b3l)?;
        }
        if m != 0 {
            merge(plan, VERTEX_MERGE, vl, vr);
        }
        Ok(0)
    })
}

/// 1-unsew: unlink; if both have beta 3, beta 1 of beta 3 of rd must be beta 3 of ld, else 9, and
/// that is unlinked too. Then the split on new identifiers and sizes.
pub fn one_unsew(
    rows: &mut [u32],
    marks: &mut [u8],
    queue: &mut [u32],
    flags: &[u8],
    plan: &mut [u32],
    ld: u32,
) -> Answer {
    sew_on_copy(rows, Lent { marks, queue, flags }, &[], plan, &[ld], |rows, plan| {
        let rd = unlink_core(rows, 1, ld)?;
        let (b3l, b3r) = (image(rows, 3, ld), image(rows, 3, rd));
        if b3l != 0 && b3r != 0 {
            if image(rows, 1, b3r) != b3l {
                return refused(9, &[u64::from(ld), u64::from(rd)]);
            }
            unlink_core(rows, 1, b3r)?;
        }
        let m = larger(rows, 3, 2, ld);
        if m != 0 {
            split(plan, VERTEX_SPLIT, vertex(rows, m), vertex(rows, rd));
        }
        Ok(rd)
    })
}

/// A vertex slot: no vertex, or a point.
fn slot(vertex_marks: &[u8], coordinates: &[f64], v: u32) -> Option<[f64; 3]> {
    let v = v as usize;
    (vertex_marks[v] != 0).then(|| [coordinates[3 * v], coordinates[3 * v + 1], coordinates[3 * v + 2]])
}

/// (m1 minus ld) dot (m2 minus rd): x product plus y product, plus z product.
fn dot(m1: [f64; 3], l: [f64; 3], m2: [f64; 3], r: [f64; 3]) -> f64 {
    let product = |k: usize| (m1[k] - l[k]) * (m2[k] - r[k]);
    (product(0) + product(1)) + product(2)
}

/// 2-sew. m1 = M(beta 1, beta 3) of ld, m2 of rd; all identifiers and sizes before linking.
#[allow(clippy::too_many_arguments)]
pub fn two_sew(
    rows: &mut [u32],
    marks: &mut [u8],
    queue: &mut [u32],
    flags: &[u8],
    vertex_marks: &[u8],
    coordinates: &[f64],
    plan: &mut [u32],
    ld: u32,
    rd: u32,
) -> Answer {
    let more = [(5, vertex_marks.len(), 1), (6, coordinates.len(), 3)];
    sew_on_copy(rows, Lent { marks, queue, flags }, &more, plan, &[ld, rd], |rows, plan| {
        let (m1, m2) = (larger(rows, 1, 3, ld), larger(rows, 1, 3, rd));
        let (el, er) = (edge(rows, ld), edge(rows, rd));
        let (vl, vm2) = (vertex(rows, ld), vertex(rows, m2));
        let (vm1, vr) = (vertex(rows, m1), vertex(rows, rd));
        let point = |v: Named| slot(vertex_marks, coordinates, v.name);
        if let (Some(pl), Some(pm2), Some(pm1), Some(pr)) = (point(vl), point(vm2), point(vm1), point(vr)) {
            // a NaN compares false and so doesn't refuse
            if dot(pm1, pl, pm2, pr) >= 0.0 {
                return refused(10, &[2, u64::from(ld), u64::from(rd)]);
            }
        }
        link_core(rows, 2, ld, rd)?;
        merge(plan, EDGE_MERGE, el, er);
        if m2 != 0 {
            merge(plan, VERTEX_MERGE, vl, vm2);
        }
        if m1 != 0 {
            merge(plan, VERTEX_MERGE, vm1, vr);
        }
        Ok(0)
    })
}

/// 2-unsew: unlink first; the 2-sew's three as splits, on new identifiers and sizes.
pub fn two_unsew(
    rows: &mut [u32],
    marks: &mut [u8],
    queue: &mut [u32],
    flags: &[u8],
    plan: &mut [u32],
    ld: u32,
) -> Answer {
    sew_on_copy(rows, Lent { marks, queue, flags }, &[], plan, &[ld], |rows, plan| {
        let rd = unlink_core(rows, 2, ld)?;
        let (m1, m2) = (larger(rows, 1, 3, ld), larger(rows, 1, 3, rd));
        split(plan, EDGE_SPLIT, edge(rows, ld), edge(rows, rd));
        if m2 != 0 {
            split(plan, VERTEX_SPLIT, vertex(rows, ld), vertex(rows, m2));
        }
        if m1 != 0 {
            split(plan, VERTEX_SPLIT, vertex(rows, m1), vertex(rows, rd));
        }
        Ok(rd)
    })
}

/// 3-unsew: 3-unlink collecting pairs in walk order. A face split, always, of as many darts on each side as there
/// are pairs; then for each pair its edge, its vertex at the far end and, where the chain begins, the one at the
/// near end, all on the rows after the last pair is parted.
pub fn three_unsew(
    rows: &mut [u32],
    marks: &mut [u8],
    queue: &mut [u32],
    flags: &[u8],
    plan: &mut [u32],
    ld: u32,
) -> Answer {
    sew_on_copy(rows, Lent { marks, queue, flags }, &[], plan, &[ld], |rows, plan| {
        let (rd, pairs) = three_unlink_walk(rows, ld)?;
        let left = pairs.iter().map(|p| p.0).fold(ld, u32::min);
        let right = pairs.iter().map(|p| p.1).fold(rd, u32::min);
        let side = pairs.len() as u32;
        plan.push([FACE_SPLIT, left, right, left.min(right), side, side]);
        for (l, r) in pairs {
            split(plan, EDGE_SPLIT, edge(rows, l), edge(rows, r));
            // a null M gives identifier 0 and size 0, and that split is listed
            split(plan, VERTEX_SPLIT, vertex(rows, larger(rows, 1, 2, l)), vertex(rows, r));
            if image(rows, 0, l) == 0 {
                split(plan, VERTEX_SPLIT, vertex(rows, l), vertex(rows, larger(rows, 1, 2, r)));
            }
        }
        Ok(rd)
    })
}
