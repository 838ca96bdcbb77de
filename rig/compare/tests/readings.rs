//! Readings of the scope that are stated without a walk, tried over all maps of up to four real darts against
//! the walks of the model and of the published Rust, which have to agree.

use std::cell::RefCell;
use std::collections::BTreeMap;

use compare::{Answer, Call, Cell, ENTRY_NUMBERS, Kernel, Loans, Model, Orbit, Published, maps};

thread_local! {
    static PUBLISHED: RefCell<Published> = RefCell::new(Published::default());
}

fn image(rows: &[u32], i: usize, d: u32) -> u32 {
    rows[4 * d as usize + i]
}

/// Runs a call of real darts of a map on the model and on the published Rust.
fn run(call: Call, rows: &[u32]) -> (Answer, Loans) {
    let mut loans = Loans::around(rows.to_vec());
    let answer = Model.run(&call, &mut loans);
    let mut lent = Loans::around(rows.to_vec());
    let published = PUBLISHED.with_borrow_mut(|published| published.run(&call, &mut lent));
    assert_eq!(published, answer, "{call:?} on {rows:?}");
    assert_eq!((lent.rows, lent.plan, lent.output), (loans.rows.clone(), loans.plan.clone(), loans.output.clone()));
    (answer, loans)
}

/// The face chain of `d`: all darts reached by beta 1 and beta 0, and whether it is closed.
fn chain(rows: &[u32], d: u32) -> (Vec<u32>, bool) {
    let mut darts = vec![d];
    let mut l = image(rows, 1, d);
    while l != 0 && l != d {
        darts.push(l);
        l = image(rows, 1, l);
    }
    let closed = l == d;
    if !closed {
        l = image(rows, 0, d);
        while l != 0 {
            darts.push(l);
            l = image(rows, 0, l);
        }
    }
    (darts, closed)
}

/// The step condition: at the end of an open chain the partner's beta 0 is null; the closing step is free;
/// every other beta 1 step is a beta 0 step between the partners.
fn steps_match(rows: &[u32], ld: u32, closed: bool, p: &BTreeMap<u32, u32>) -> bool {
    p.iter().all(|(&l, &to)| match image(rows, 1, l) {
        0 => image(rows, 0, to) == 0,
        next if closed && next == ld => true,
        next => p.get(&next) == Some(&image(rows, 0, to)),
    })
}

/// Demand 3's matching of the chain of `ld` with p(ld) = rd, if there is one; the steps leave no choice.
fn matching(rows: &[u32], ld: u32, rd: u32) -> Option<BTreeMap<u32, u32>> {
    let (darts, closed) = chain(rows, ld);
    let mut p = BTreeMap::from([(ld, rd)]);
    let mut l = ld;
    while image(rows, 1, l) != 0 && image(rows, 1, l) != ld {
        let to = image(rows, 0, p[&l]);
        l = image(rows, 1, l);
        p.insert(l, to);
    }
    l = ld;
    while !closed && image(rows, 0, l) != 0 {
        let to = image(rows, 1, p[&l]);
        l = image(rows, 0, l);
        p.insert(l, to);
    }
    let mut partners: Vec<u32> = p.values().copied().collect();
    partners.sort_unstable();
    partners.dedup();
    let fits = partners.len() == p.len()
        && partners.iter().all(|to| *to != 0 && !darts.contains(to))
        && p.iter().all(|(&l, &to)| image(rows, 3, l) == 0 && image(rows, 3, to) == 0)
        && steps_match(rows, ld, closed, &p);
    fits.then_some(p)
}

#[test]
fn a_three_link_is_done_exactly_when_there_is_a_matching() {
    let (mut done, mut refused) = (0, 0);
    for k in 1..=4 {
        maps::all_of(k, |rows| {
            for ld in 1..=k as u32 {
                for rd in 1..=k as u32 {
                    let (answer, after) = run(Call::ThreeLink { ld, rd }, rows);
                    let matching = matching(rows, ld, rd);
                    assert_eq!(answer.0 == 0, matching.is_some(), "3-link {ld},{rd} on {rows:?}");
                    let Some(p) = matching else {
                        refused += 1;
                        continue;
                    };
                    done += 1;
                    // exactly these pairs become 3-linked, and the way back restores every row
                    let mut wanted = rows.to_vec();
                    for (&l, &to) in &p {
                        wanted[4 * l as usize + 3] = to;
                        wanted[4 * to as usize + 3] = l;
                    }
                    assert_eq!(after.rows, wanted);
                    let (answer, back) = run(Call::ThreeUnlink { ld }, &after.rows);
                    assert_eq!((answer, &back.rows[..]), ((0, [u64::from(rd), 0, 0]), rows));
                }
            }
        });
    }
    assert!(done > 1000 && refused > 1000);
}

#[test]
fn a_three_unlink_without_a_walk() {
    for k in 1..=4 {
        maps::all_of(k, |rows| {
            for ld in 1..=k as u32 {
                let (answer, after) = run(Call::ThreeUnlink { ld }, rows);
                let rd = image(rows, 3, ld);
                if rd == 0 {
                    assert_eq!(answer, (8, [3, u64::from(ld), 0]));
                    continue;
                }
                let (darts, closed) = chain(rows, ld);
                let p: BTreeMap<u32, u32> = darts.iter().map(|&l| (l, image(rows, 3, l))).collect();
                let fits = p.values().all(|to| *to != 0 && !darts.contains(to)) && steps_match(rows, ld, closed, &p);
                if fits {
                    assert_eq!(answer, (0, [u64::from(rd), 0, 0]), "3-unlink {ld} on {rows:?}");
                    // row 0 is never written
                    assert_eq!(after.rows[..4], [0; 4]);
                } else {
                    assert_eq!(answer, (9, [u64::from(ld), u64::from(rd), 0]), "3-unlink {ld} on {rows:?}");
                }
            }
        });
    }
}

#[test]
fn face_id_is_least_on_regular_faces() {
    let mut least = 0;
    for k in 1..=4 {
        maps::all_of(k, |rows| {
            for d in 1..=k as u32 {
                let (darts, closed) = chain(rows, d);
                let across = |l: u32| image(rows, 3, l);
                let none = darts.iter().all(|&l| across(l) == 0);
                let all =
                    darts.iter().all(|&l| across(l) != 0 && image(rows, 0, across(l)) == across(image(rows, 1, l)));
                if closed && (none || all) {
                    let (answer, _) = run(Call::Identifier { cell: Cell::Face, d }, rows);
                    let (count, loans) = run(Call::Orbit { orbit: Orbit::Face, d }, rows);
                    let orbit = &loans.output[..count.1[1] as usize];
                    assert_eq!(answer.1[0], u64::from(*orbit.iter().min().unwrap()), "face of {d} on {rows:?}");
                    least += 1;
                }
            }
        });
    }
    assert!(least > 1000);
}

/// What a later request proves: a sew that is done, undone at once, loses nothing.
#[test]
fn sew_then_unsew_gives_back_rows_and_entries() {
    for k in 1..=3 {
        maps::all_of(k, |rows| {
            for ld in 1..=k as u32 {
                for rd in 1..=k as u32 {
                    let pairs = [
                        (Call::OneSew { ld, rd }, Call::OneUnsew { ld }),
                        (Call::TwoSew { ld, rd }, Call::TwoUnsew { ld }),
                    ];
                    for (sew, unsew) in pairs {
                        let (answer, sewn) = run(sew, rows);
                        if answer.0 != 0 {
                            continue;
                        }
                        let (back, undone) = run(unsew, &sewn.rows);
                        assert_eq!(back, (0, [u64::from(rd), answer.1[1], 0]));
                        assert_eq!(undone.rows, rows);
                        let written = ENTRY_NUMBERS * answer.1[1] as usize;
                        let [merges, splits] =
                            [&sewn, &undone].map(|loans| loans.plan[..written].chunks_exact(ENTRY_NUMBERS));
                        for (merge, split) in merges.zip(splits) {
                            let turned = [merge[0] + 10, merge[2], merge[3], merge[1], merge[4], merge[5]];
                            assert_eq!(turned, split, "on {rows:?}");
                        }
                    }
                }
            }
        });
    }
}

/// The darts of a cell, ascending.
fn darts(orbit: Orbit, rows: &[u32], d: u32) -> Vec<u32> {
    let mut loans = Loans::around(rows.to_vec());
    let (_, [_, count, _]) = Model.run(&Call::Orbit { orbit, d }, &mut loans);
    loans.output.truncate(count as usize);
    loans.output.sort_unstable();
    loans.output
}

/// The merges of a sew on these rows, if it is done, and the rows that it leaves.
fn merges(call: Call, rows: &[u32]) -> Option<(Vec<[u32; ENTRY_NUMBERS]>, Vec<u32>)> {
    let (answer, after) = run(call, rows);
    let written = &after.plan[..ENTRY_NUMBERS * answer.1[1] as usize];
    let entries = written.chunks_exact(ENTRY_NUMBERS).map(|entry| entry.try_into().expect("six")).collect();
    (answer.0 == 0).then_some((entries, after.rows))
}

/// Whether what is left of a merge's two cells has exactly the darts of these cells, is named by the one that it says
/// stays, and has as many darts as both together.
fn adds_up(orbit: &Orbit, merge: &[u32; ENTRY_NUMBERS], before: &[u32], after: &[u32]) -> bool {
    let [_, out, left, right, left_size, right_size] = *merge;
    let mut both = [left, right].map(|d| darts(orbit.clone(), before, d)).concat();
    both.sort_unstable();
    let whole = darts(orbit.clone(), after, left);
    whole == both && whole[0] == out && whole.len() as u32 == left_size + right_size
}

/// Of the cells that these merges name, each once, one is left with the darts of all.
fn one_of_all(orbit: &Orbit, merges: &[[u32; ENTRY_NUMBERS]], before: &[u32], after: &[u32]) -> bool {
    let mut named: Vec<u32> = merges.iter().flat_map(|merge| [merge[2], merge[3]]).collect();
    named.sort_unstable();
    named.dedup();
    let mut all: Vec<u32> = named.iter().flat_map(|&d| darts(orbit.clone(), before, d)).collect();
    all.sort_unstable();
    named.iter().all(|&d| darts(orbit.clone(), after, d) == all)
}

/// Every two real darts of every map of up to four of them.
fn every_pair(mut each: impl FnMut(&[u32], u32, u32)) {
    for k in 1..=4 {
        maps::all_of(k, |rows| {
            (1..=k as u32).for_each(|ld| (1..=k as u32).for_each(|rd| each(rows, ld, rd)));
        });
    }
}

/// The sizes of a 1-sew's vertex merge and of a 2-sew's edge merge add up (scope: sums).
#[test]
fn sizes_that_add_up() {
    let (mut vertices, mut edges) = (0, 0);
    every_pair(|rows, ld, rd| {
        if let Some((entries, after)) = merges(Call::OneSew { ld, rd }, rows) {
            assert!(entries.iter().all(|merge| adds_up(&Orbit::Vertex, merge, rows, &after)), "{rows:?}");
            vertices += entries.len();
        }
        if let Some((mut entries, after)) = merges(Call::TwoSew { ld, rd }, rows) {
            entries.retain(|merge| merge[0] == 2);
            assert!(entries.iter().all(|merge| adds_up(&Orbit::Edge, merge, rows, &after)), "{rows:?}");
            edges += entries.len();
        }
    });
    assert!(vertices > 1000 && edges > 1000);
}

/// Those of a 2-sew's vertex merges do where these name no cell in common; where they do, one vertex is left of all
/// that they name, and then there are sums that are too small, and names that are not the vertex's.
#[test]
fn sizes_that_need_not_add_up() {
    let (mut apart, mut short, mut renamed) = (0, 0, 0);
    every_pair(|rows, ld, rd| {
        let Some((mut entries, after)) = merges(Call::TwoSew { ld, rd }, rows) else { return };
        entries.retain(|merge| merge[0] == 1);
        let sums = entries.iter().filter(|merge| adds_up(&Orbit::Vertex, merge, rows, &after)).count();
        if let [first, second] = &entries[..]
            && first[2..4].iter().any(|d| second[2..4].contains(d))
        {
            assert!(one_of_all(&Orbit::Vertex, &entries, rows, &after), "{rows:?}");
            let vertex = darts(Orbit::Vertex, &after, first[2]);
            short += entries.iter().filter(|merge| merge[4] + merge[5] < vertex.len() as u32).count();
            renamed += entries.iter().filter(|merge| merge[1] != vertex[0]).count();
        } else {
            assert_eq!(sums, entries.len(), "{rows:?}");
            apart += sums;
        }
    });
    assert!(apart > 1000 && short > 1000 && renamed > 1000);
}
