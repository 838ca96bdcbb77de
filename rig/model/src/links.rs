//! Links and unlinks. Each walks over the rows as written so far, on a copy.

use crate::{Answer, Step, answer, done, image, loans, map, refused, size, used_darts};

/// Sets the image of `d` under beta `i`.
fn put(rows: &mut [u32], i: usize, d: u32, to: u32) {
    rows[4 * d as usize + i] = to;
}

/// Link core (i, l, r): base not i-free gives 6 with (i, l, r); else image not free, or l = r with
/// i 2 or 3, gives 7. For i = 1 the base is beta 1 of l, the image beta 0 of r, and 7 says 0.
pub(crate) fn link_core(rows: &mut [u32], i: usize, l: u32, r: u32) -> Step<()> {
    let back = if i == 1 { 0 } else { i };
    let (wide_l, wide_r) = (u64::from(l), u64::from(r));
    if image(rows, i, l) != 0 {
        return refused(6, &[i as u64, wide_l, wide_r]);
    }
    if image(rows, back, r) != 0 || (l == r && i >= 2) {
        return refused(7, &[back as u64, wide_l, wide_r]);
    }
    put(rows, i, l, r);
    put(rows, back, r, l);
    Ok(())
}

/// Unlink core: a null image gives 8. Gives the dart that was there.
pub(crate) fn unlink_core(rows: &mut [u32], i: usize, l: u32) -> Step<u32> {
    let back = if i == 1 { 0 } else { i };
    let r = image(rows, i, l);
    if r == 0 {
        return refused(8, &[i as u64, u64::from(l)]);
    }
    put(rows, i, l, 0);
    put(rows, back, r, 0);
    Ok(r)
}

/// Both ways round the face of `ld`, `rd`'s taken backwards: `each` does one pair of darts, first
/// ld's own, and `halts` says when a right dart cannot go with its left one.
///
/// l goes forward by beta 1, r by beta 0, until l is ld or null. If l is null: r not null gives 9;
/// then from ld by beta 0 and rd by beta 1 until l is null. When l is null in this second leg r
/// isn't looked at; nor is r when a closed l is back at ld.
fn round(
    rows: &mut [u32],
    ld: u32,
    rd: u32,
    halts: impl Fn(&[u32], u32, u32) -> bool,
    mut each: impl FnMut(&mut [u32], u32, u32) -> Step<()>,
) -> Step<()> {
    let uneven = || refused(9, &[u64::from(ld), u64::from(rd)]);
    let (mut l, mut r) = (image(rows, 1, ld), image(rows, 0, rd));
    while l != ld && l != 0 {
        if halts(rows, l, r) {
            return uneven();
        }
        each(rows, l, r)?;
        (l, r) = (image(rows, 1, l), image(rows, 0, r));
    }
    if l == 0 {
        if r != 0 {
            return uneven();
        }
        (l, r) = (image(rows, 0, ld), image(rows, 1, rd));
        while l != 0 {
            if halts(rows, l, r) {
                return uneven();
            }
            each(rows, l, r)?;
            (l, r) = (image(rows, 0, l), image(rows, 1, r));
        }
    }
    Ok(())
}

/// The 3-link on rows that may be spoilt by a refusal.
fn three_link_walk(rows: &mut [u32], ld: u32, rd: u32) -> Step<()> {
    link_core(rows, 3, ld, rd)?;
    round(rows, ld, rd, |_, _, r| r == 0, |rows, l, r| link_core(rows, 3, l, r))
}

/// The 3-unlink on rows that may be spoilt by a refusal: rd, and the pairs in walk order.
///
/// It walks likewise, each l required to be beta 3 of r, else 9.
pub(crate) fn three_unlink_walk(rows: &mut [u32], ld: u32) -> Step<(u32, Vec<(u32, u32)>)> {
    let rd = unlink_core(rows, 3, ld)?;
    let mut pairs = vec![(ld, rd)];
    round(
        rows,
        ld,
        rd,
        |rows, l, r| image(rows, 3, r) != l,
        |rows, l, r| {
            unlink_core(rows, 3, l)?;
            pairs.push((l, r));
            Ok(())
        },
    )?;
    Ok((rd, pairs))
}

/// Tests size, flags, map and darts, then does `work` on a copy, put back if it is done.
fn on_copy(rows: &mut [u32], flags: &[u8], arguments: &[u32], work: impl FnOnce(&mut [u32]) -> Step<Answer>) -> Answer {
    answer((|| {
        let n = size(rows)?;
        loans(&[(4, flags.len(), n)])?;
        map(rows, flags)?;
        used_darts(n, flags, arguments)?;
        let mut copy = rows.to_vec();
        let answer = work(&mut copy)?;
        rows.copy_from_slice(&copy);
        Ok(answer)
    })())
}

/// 1-link: core (1, ld, rd).
pub fn one_link(rows: &mut [u32], flags: &[u8], ld: u32, rd: u32) -> Answer {
    on_copy(rows, flags, &[ld, rd], |rows| link_core(rows, 1, ld, rd).map(|()| done(0, 0)))
}

/// 2-link: core (2, ld, rd).
pub fn two_link(rows: &mut [u32], flags: &[u8], ld: u32, rd: u32) -> Answer {
    on_copy(rows, flags, &[ld, rd], |rows| link_core(rows, 2, ld, rd).map(|()| done(0, 0)))
}

/// 3-link of two faces.
pub fn three_link(rows: &mut [u32], flags: &[u8], ld: u32, rd: u32) -> Answer {
    on_copy(rows, flags, &[ld, rd], |rows| three_link_walk(rows, ld, rd).map(|()| done(0, 0)))
}

/// Core (3, ld, rd) alone, which no call offers; it is compared with the Rust's all the same.
pub fn three_link_core(rows: &mut [u32], flags: &[u8], ld: u32, rd: u32) -> Answer {
    on_copy(rows, flags, &[ld, rd], |rows| link_core(rows, 3, ld, rd).map(|()| done(0, 0)))
}

/// 1-unlink: returns rd.
pub fn one_unlink(rows: &mut [u32], flags: &[u8], ld: u32) -> Answer {
    on_copy(rows, flags, &[ld], |rows| unlink_core(rows, 1, ld).map(|rd| done(rd, 0)))
}

/// 2-unlink: returns rd.
pub fn two_unlink(rows: &mut [u32], flags: &[u8], ld: u32) -> Answer {
    on_copy(rows, flags, &[ld], |rows| unlink_core(rows, 2, ld).map(|rd| done(rd, 0)))
}

/// 3-unlink of two faces: returns rd.
pub fn three_unlink(rows: &mut [u32], flags: &[u8], ld: u32) -> Answer {
    on_copy(rows, flags, &[ld], |rows| three_unlink_walk(rows, ld).map(|(rd, _)| done(rd, 0)))
}

/// Unlink core for beta 3 alone, which no call offers; it is compared with the Rust's all the same.
pub fn three_unlink_core(rows: &mut [u32], flags: &[u8], ld: u32) -> Answer {
    on_copy(rows, flags, &[ld], |rows| unlink_core(rows, 3, ld).map(|rd| done(rd, 0)))
}
