//! The faults of sizes and of entries of six numbers.

use super::{found, image};
use compare::{Answer, Call, Cell, ENTRY_NUMBERS, Kernel, Loans, Model};

/// How many darts the cell of `d` has in these rows: a vertex or an edge, by the code of an entry.
fn size(rows: &[u32], code: u32, d: u32) -> u32 {
    let cell = if code % 10 == 1 { Cell::Vertex } else { Cell::Edge };
    Model.run(&Call::Identifier { cell, d }, &mut Loans::around(rows.to_vec())).1[1] as u32
}

/// The left and the right identifier of an entry.
fn left_and_right(entry: &[u32]) -> [u32; 2] {
    if entry[0] < 11 { [entry[2], entry[3]] } else { [entry[1], entry[2]] }
}

/// A kernel that does this to every entry of a single sew or unsew; it gets the call, the rows before and after, and
/// the entry.
fn other_entries(spoil: impl Fn(&Call, &[u32], &[u32], &mut [u32]) + 'static) -> &'static str {
    let fault = move |call: &Call, before: &Loans, loans: &mut Loans, answer: Answer| {
        if call.plans() && *call != Call::Commands && answer.0 == 0 {
            let Loans { rows, plan, .. } = loans;
            let written = ENTRY_NUMBERS * answer.1[1] as usize;
            plan[..written].chunks_exact_mut(ENTRY_NUMBERS).for_each(|entry| spoil(call, &before.rows, rows, entry));
        }
        answer
    };
    found(fault).0
}

#[test]
#[should_panic(expected = "the fault was not noticed")]
fn no_fault_at_all() {
    other_entries(|_, before, after, entry| {
        let rows = if entry[0] < 11 { before } else { after };
        if entry[0] != 13 {
            let sizes = left_and_right(entry).map(|d| size(rows, entry[0], d));
            entry[4..].copy_from_slice(&sizes);
        }
    });
}

#[test]
fn sizes_swapped() {
    other_entries(|_, _, _, entry| entry.swap(4, 5));
}

#[test]
fn sizes_before_the_identifiers() {
    other_entries(|_, _, _, entry| entry[1..].rotate_right(2));
}

#[test]
fn sizes_of_a_merge_after_linking() {
    other_entries(|_, _, after, entry| {
        if entry[0] < 11 {
            let sizes = left_and_right(entry).map(|d| size(after, entry[0], d));
            entry[4..].copy_from_slice(&sizes);
        }
    });
}

#[test]
fn the_size_of_the_merged_edge() {
    let name = other_entries(|_, _, after, entry| {
        if entry[0] == 2 {
            entry[4] = size(after, 2, entry[1]);
        }
    });
    assert_eq!(name, "two_sew");
}

#[test]
fn sizes_of_a_split_before_unlinking() {
    other_entries(|_, before, _, entry| {
        if entry[0] == 11 || entry[0] == 12 {
            let sizes = left_and_right(entry).map(|d| size(before, entry[0], d));
            entry[4..].copy_from_slice(&sizes);
        }
    });
}

/// Of a 3-unsew of a closed face, as if its last pair were still there.
#[test]
fn sizes_of_a_split_before_the_last_pair_is_parted() {
    let name = other_entries(|call, before, after, entry| {
        let &Call::ThreeUnsew { ld } = call else { return };
        let (l, mut rows) = (image(before, 0, ld), after.to_vec());
        let r = image(before, 3, l);
        if entry[0] != 13 && l != 0 && image(after, 3, l) != r {
            (rows[4 * l as usize + 3], rows[4 * r as usize + 3]) = (r, l);
            let sizes = left_and_right(entry).map(|d| size(&rows, entry[0], d));
            entry[4..].copy_from_slice(&sizes);
        }
    });
    assert_eq!(name, "three_unsew");
}

#[test]
fn a_null_far_end_of_size_one() {
    let name = other_entries(|_, _, _, entry| {
        for (at, d) in left_and_right(entry).into_iter().enumerate() {
            entry[4 + at] += u32::from(d == 0);
        }
    });
    assert_eq!(name, "three_unsew");
}

#[test]
fn a_face_split_that_counts_the_darts_of_both_sides() {
    let name = other_entries(|_, _, _, entry| {
        if entry[0] == 13 {
            entry[4..].iter_mut().for_each(|size| *size *= 2);
        }
    });
    assert_eq!(name, "three_unsew");
}

/// Of a triangle against a quad three pairs are parted, and the quad has four darts.
#[test]
fn a_face_split_that_counts_each_side_by_itself() {
    let name = other_entries(|_, _, after, entry| {
        if entry[0] == 13 {
            // the faces are apart, so that each orbit is one side
            let side = |d: u32| {
                let mut loans = Loans::around(after.to_vec());
                Model.run(&Call::Orbit { orbit: compare::Orbit::Custom(vec![1, 0]), d }, &mut loans).1[1] as u32
            };
            (entry[4], entry[5]) = (side(entry[1]), side(entry[2]));
        }
    });
    assert_eq!(name, "three_unsew");
}

/// Room for so many entries as there would be of four numbers: what does not fit is cut off.
#[test]
fn room_counted_by_four() {
    found(|call, before, loans, answer| {
        if !call.plans() || *call == Call::Commands || answer.0 != 11 || before.plan.len() / 4 < answer.1[0] as usize {
            return answer;
        }
        loans.plan.resize(ENTRY_NUMBERS * answer.1[0] as usize, 0);
        let answer = Model.run(call, loans);
        loans.plan.truncate(before.plan.len());
        answer
    });
}

/// The entries of a command behind four numbers for each entry before it.
#[test]
fn plans_of_a_list_that_overlap() {
    let fault = |call: &Call, before: &Loans, loans: &mut Loans, answer: Answer| {
        if *call == Call::Commands && answer.0 == 0 && answer.1[1] > 1 {
            let (written, mut plan) = (ENTRY_NUMBERS * answer.1[1] as usize, before.plan.clone());
            for (at, entry) in loans.plan[..written].chunks_exact(ENTRY_NUMBERS).enumerate() {
                plan[4 * at..4 * at + ENTRY_NUMBERS].copy_from_slice(entry);
            }
            loans.plan = plan;
        }
        answer
    };
    assert_eq!(found(fault).0, "commands");
}

#[test]
fn sizes_left_out_by_a_list() {
    let fault = |call: &Call, before: &Loans, loans: &mut Loans, answer: Answer| {
        if *call == Call::Commands && answer.0 == 0 {
            let written = ENTRY_NUMBERS * answer.1[1] as usize;
            let (plan, old) = (&mut loans.plan[..written], &before.plan[..written]);
            for (entry, old) in plan.chunks_exact_mut(ENTRY_NUMBERS).zip(old.chunks_exact(ENTRY_NUMBERS)) {
                entry[4..].copy_from_slice(&old[4..]);
            }
        }
        answer
    };
    assert_eq!(found(fault).0, "commands");
}

/// An identifier that says another size; `other` gets the class, the dart, the rows and the size.
fn other_size(other: impl Fn(Cell, u32, &[u32], u64) -> u64 + 'static) -> &'static str {
    let fault = move |call: &Call, before: &Loans, _: &mut Loans, (number, values): Answer| match *call {
        Call::Identifier { cell, d } if number == 0 => {
            (number, [values[0], other(cell, d, &before.rows, values[1]), 0])
        }
        _ => (number, values),
    };
    found(fault).0
}

#[test]
fn a_null_dart_of_size_one() {
    assert_eq!(other_size(|cell, d, _, size| size + u64::from(cell == Cell::Volume && d == 0)), "volume_id");
}

#[test]
fn no_size_at_all() {
    assert_eq!(other_size(|cell, _, _, size| if cell == Cell::Vertex { 0 } else { size }), "vertex_id");
}

#[test]
fn a_face_with_a_size() {
    assert_eq!(other_size(|cell, d, _, size| size + u64::from(cell == Cell::Face && d != 0)), "face_id");
}

/// Beta 2 and beta 3 in turn from the dart, and not the other way too.
#[test]
fn an_edge_counted_one_way() {
    let other = |cell: Cell, d: u32, rows: &[u32], size: u64| {
        if cell != Cell::Edge || d == 0 {
            return size;
        }
        let (mut at, mut by, mut met) = (d, 2, 0);
        loop {
            met += 1;
            at = image(rows, by, at);
            by = 5 - by;
            if at == 0 || at == d {
                return met;
            }
        }
    };
    assert_eq!(other_size(other), "edge_id");
}

#[test]
fn a_size_in_the_third_value() {
    found(|call, _, _, answer| match (call, answer) {
        (Call::Identifier { .. }, (0, [name, size, _])) => (0, [name, 0, size]),
        _ => answer,
    });
}
