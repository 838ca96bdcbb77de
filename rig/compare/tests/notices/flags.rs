//! The faults of flags.

use super::{found, image};
use compare::{Answer, Call, Cell, Kernel, Loans, Model};

/// Whether a call is lent the flags of the map that it tests; the reader's are the image's.
fn takes_flags(call: &Call) -> bool {
    !matches!(call, Call::Beta { .. } | Call::IsIFree { .. } | Call::IsFree { .. } | Call::ReadImage)
}

/// Whether this number is a real dart that is unused.
fn unused(loans: &Loans, d: u32) -> bool {
    (1..loans.rows.len() as u32 / 4).contains(&d) && loans.flags[d as usize] != 0
}

/// The answer of a call that is lent other flags than it was.
fn with_flags(call: &Call, before: &Loans, loans: &mut Loans, change: impl FnOnce(&mut Vec<u8>)) -> Answer {
    loans.clone_from(before);
    change(&mut loans.flags);
    let answer = Model.run(call, loans);
    loans.flags.clone_from(&before.flags);
    answer
}

/// Another answer for a call that takes flags, which leaves every loan.
fn other_answer(other: impl Fn(&Call, &Loans, Answer) -> Option<Answer> + 'static) -> &'static str {
    let fault = move |call: &Call, before: &Loans, loans: &mut Loans, answer: Answer| {
        let Some(other) = Some(call).filter(|call| takes_flags(call)).and_then(|call| other(call, before, answer))
        else {
            return answer;
        };
        loans.clone_from(before);
        other
    };
    found(fault).0
}

#[test]
fn flags_never_read() {
    found(|call, before, loans, answer| match takes_flags(call) {
        true => with_flags(call, before, loans, |flags| flags.fill(0)),
        false => answer,
    });
}

#[test]
fn flags_that_no_map_test_reads() {
    let fault = |call: &Call, before: &Loans, loans: &mut Loans, answer: Answer| match (call, answer) {
        (Call::CheckMap, (3, [4, ..])) => with_flags(call, before, loans, |flags| flags.fill(0)),
        _ => answer,
    };
    assert_eq!(found(fault).0, "check_map");
}

#[test]
fn the_flag_of_dart_0_looked_at() {
    other_answer(|_, before, answer| match answer.0 {
        1 | 2 => None,
        _ => (before.flags[0] != 0).then_some((3, [4, 0, 0])),
    });
}

#[test]
fn a_flag_behind_the_last_dart_looked_at() {
    other_answer(|_, before, answer| match answer.0 {
        1 | 2 => None,
        _ => before.flags.get(before.rows.len() / 4).is_some_and(|&flag| flag != 0).then_some((2, [4, 0, 0])),
    });
}

#[test]
fn flags_tested_before_the_betas_of_the_same_dart() {
    other_answer(|_, before, answer| match answer {
        (3, [0..=3, d, _]) if unused(before, d as u32) => Some((3, [4, d, 0])),
        _ => None,
    });
}

#[test]
fn flags_tested_after_all_darts() {
    other_answer(|_, before, answer| {
        let mut other = before.clone();
        other.flags.fill(0);
        let bare = Model.run(&Call::CheckMap, &mut other);
        (answer.0 == 3 && answer.1[0] == 4 && bare.0 == 3).then_some(bare)
    });
}

#[test]
fn flags_tested_before_all_darts() {
    other_answer(|_, before, answer| {
        let linked = |d: &u32| unused(before, *d) && (0..4).any(|i| image(&before.rows, i, *d) != 0);
        let first = (1..before.rows.len() as u32 / 4).find(linked).filter(|_| answer.0 == 3)?;
        Some((3, [4, u64::from(first), 0]))
    });
}

#[test]
fn a_dart_with_beta_0_alone_taken_for_free() {
    found(|call, before, loans, answer| match (takes_flags(call), answer) {
        (true, (3, [4, d, _])) if (1..4).all(|i| image(&before.rows, i, d as u32) == 0) => {
            with_flags(call, before, loans, |flags| flags[d as usize] = 0)
        }
        _ => answer,
    });
}

#[test]
fn a_linked_dart_whose_flag_has_to_be_one() {
    let fault = |call: &Call, before: &Loans, loans: &mut Loans, answer: Answer| match (call, answer) {
        (Call::CheckMap, (3, [4, ..])) => {
            with_flags(call, before, loans, |flags| flags.iter_mut().for_each(|flag| *flag = u8::from(*flag == 1)))
        }
        _ => answer,
    };
    assert_eq!(found(fault).0, "check_map");
}

/// The place among its numbers of an unused argument that the model refuses.
fn refused_argument(call: &Call, before: &Loans, answer: Answer) -> Option<usize> {
    let place = (answer.0 == 4).then(|| answer.1[0] as usize - 1)?;
    call.numbers().get(place).is_some_and(|&d| unused(before, d)).then_some(place)
}

#[test]
fn an_unused_second_argument_let_through() {
    found(|call, before, loans, answer| match refused_argument(call, before, answer) {
        Some(1) => with_flags(call, before, loans, |flags| flags[call.numbers()[1] as usize] = 0),
        _ => answer,
    });
}

#[test]
fn an_unused_argument_of_an_unsew_let_through() {
    let fault = |call: &Call, before: &Loans, loans: &mut Loans, answer: Answer| match call {
        Call::OneUnsew { ld } if refused_argument(call, before, answer).is_some() => {
            with_flags(call, before, loans, |flags| flags[*ld as usize] = 0)
        }
        _ => answer,
    };
    assert_eq!(found(fault).0, "one_unsew");
}

#[test]
fn a_second_dart_that_is_none_named_before_an_unused_first() {
    other_answer(|call, before, answer| {
        let n = before.rows.len() as u32 / 4;
        let none = |d: &u32| *d == 0 || *d >= n;
        (refused_argument(call, before, answer)? == 0 && call.numbers().get(1).is_some_and(none))
            .then_some((4, [2, 0, 0]))
    });
}

#[test]
fn an_identifier_of_an_unused_dart_refused() {
    let name = other_answer(|call, before, answer| match *call {
        Call::Identifier { cell: Cell::Edge, d } if answer.0 == 0 && unused(before, d) => Some((4, [1, 0, 0])),
        _ => None,
    });
    assert_eq!(name, "edge_id");
}

#[test]
fn an_orbit_of_an_unused_dart_refused() {
    other_answer(|call, before, answer| match *call {
        Call::Orbit { d, .. } if answer.0 == 0 && unused(before, d) => Some((4, [1, 0, 0])),
        _ => None,
    });
}

#[test]
fn short_flags_let_through() {
    found(|call, before, loans, answer| match (call, answer) {
        (Call::TwoUnsew { .. }, (2, [4, ..])) => {
            with_flags(call, before, loans, |flags| flags.resize(before.rows.len() / 4, 0))
        }
        _ => answer,
    });
}

#[test]
fn flags_asked_for_before_output() {
    other_answer(|_, before, answer| match answer {
        (2, [3, ..]) if before.flags.len() < before.rows.len() / 4 => Some((2, [4, 0, 0])),
        _ => None,
    });
}

#[test]
fn flags_asked_for_behind_vertex_marks() {
    other_answer(|call, before, answer| match (call, answer) {
        (Call::TwoSew { .. }, (2, [4, ..])) if before.vertex_marks.len() < before.rows.len() / 4 => {
            Some((2, [5, 0, 0]))
        }
        _ => None,
    });
}

#[test]
fn a_link_that_clears_a_flag() {
    found(|call, _, loans, answer| {
        if matches!(call, Call::TwoLink { .. }) && answer.0 == 0 {
            loans.flags[0] = 0;
        }
        answer
    });
}

#[test]
fn unused_darts_let_through_by_commands() {
    let fault = |call: &Call, before: &Loans, loans: &mut Loans, answer: Answer| match (call, answer.0) {
        (Call::Commands, 0) => with_flags(call, before, loans, |flags| flags.fill(0)),
        _ => answer,
    };
    assert_eq!(found(fault).0, "commands");
}

/// The second number of an unlink or unsew may be an unused dart like any other number.
#[test]
fn an_unused_dart_refused_where_nobody_looks() {
    let fault = |call: &Call, before: &Loans, loans: &mut Loans, answer: Answer| {
        if *call != Call::Commands || answer.0 != 0 {
            return answer;
        }
        loans.clone_from(before);
        for command in loans.commands.chunks_exact_mut(3) {
            if (6..12).contains(&command[0]) && unused(before, command[2]) {
                command[1] = 0;
            }
        }
        let answer = Model.run(call, loans);
        loans.commands.clone_from(&before.commands);
        answer
    };
    assert_eq!(found(fault).0, "commands");
}

/// How many darts a stored image has, and where its flags are; of one whose header is right.
fn stored_flags(bytes: &[u8]) -> (usize, usize) {
    let n = u32::from_le_bytes([bytes[8], bytes[9], bytes[10], bytes[11]]) as usize;
    (n, 28 + 16 * n)
}

#[test]
fn a_reader_that_tests_the_rows_alone() {
    let fault = |call: &Call, before: &Loans, loans: &mut Loans, answer: Answer| {
        if *call != Call::ReadImage || (answer.0, answer.1[0]) != (3, 4) {
            return answer;
        }
        let (n, at) = stored_flags(&before.bytes);
        loans.bytes[at..at + n].fill(0);
        let answer = Model.run(call, loans);
        loans.bytes.clone_from(&before.bytes);
        if answer.0 == 0 {
            loans.flags[..n].copy_from_slice(&before.bytes[at..at + n]);
        }
        answer
    };
    assert_eq!(found(fault).0, "read_image");
}

#[test]
fn a_reader_that_tests_flags_before_betas() {
    let fault = |call: &Call, before: &Loans, _: &mut Loans, answer: Answer| match (call, answer) {
        (Call::ReadImage, (3, [0..=3, d, _]))
            if d > 0 && before.bytes[stored_flags(&before.bytes).1 + d as usize] > 0 =>
        {
            (3, [4, d, 0])
        }
        _ => answer,
    };
    assert_eq!(found(fault).0, "read_image");
}

#[test]
fn a_reader_that_tests_the_map_before_vertices() {
    let fault = |call: &Call, before: &Loans, _: &mut Loans, answer: Answer| {
        if *call != Call::ReadImage || (answer.0, answer.1[0]) != (12, 8) {
            return answer;
        }
        let (n, at) = stored_flags(&before.bytes);
        let word = |bytes: &[u8]| u32::from_le_bytes([bytes[0], bytes[1], bytes[2], bytes[3]]);
        let mut map = Loans::around(before.bytes[28..at].chunks_exact(4).map(word).collect());
        map.flags[..n].copy_from_slice(&before.bytes[at..at + n]);
        let test = Model.run(&Call::CheckMap, &mut map);
        if (test.0, test.1[0]) == (3, 4) { test } else { answer }
    };
    assert_eq!(found(fault).0, "read_image");
}

#[test]
fn a_writer_that_tests_the_rows_alone() {
    let fault = |call: &Call, before: &Loans, loans: &mut Loans, answer: Answer| match (call, answer) {
        (Call::WriteImage, (3, [4, ..])) => with_flags(call, before, loans, |flags| flags[1..].fill(0)),
        _ => answer,
    };
    assert_eq!(found(fault).0, "write_image");
}
