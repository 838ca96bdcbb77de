//! The writer's faults.

use super::found;
use compare::{Answer, Call, Kernel, Loans, Model};

/// A writer that does `spoil` to what the model wrote; it gets the loans before, those after, n, and the bytes
/// written.
fn spoilt_writer(spoil: impl Fn(&Loans, &mut Loans, usize, usize) + 'static) {
    let fault = move |call: &Call, before: &Loans, loans: &mut Loans, answer: Answer| {
        if *call == Call::WriteImage && answer.0 == 0 {
            spoil(before, loans, before.rows.len() / 4, answer.1[1] as usize);
        }
        answer
    };
    assert_eq!(found(fault).0, "write_image");
}

#[test]
fn a_flag_of_2_that_is_written_as_it_is() {
    spoilt_writer(|before, loans, n, _| loans.bytes[28 + 16 * n..28 + 17 * n].copy_from_slice(&before.flags[..n]));
}

#[test]
fn a_byte_behind_the_image_touched() {
    spoilt_writer(|_, loans, _, written| {
        if let Some(behind) = loans.bytes.get_mut(written) {
            *behind = 0;
        }
    });
}

#[test]
fn a_negative_zero_written_as_zero() {
    spoilt_writer(|_, loans, n, written| {
        for record in loans.bytes[28 + 17 * n..written].chunks_exact_mut(28) {
            for coordinate in record[4..].chunks_exact_mut(8).filter(|bits| **bits == [0, 0, 0, 0, 0, 0, 0, 0x80]) {
                coordinate.fill(0);
            }
        }
    });
}

/// A writer that takes other loans for those it was lent.
fn other_writer(other: impl Fn(&mut Loans) + 'static, when: impl Fn(Answer) -> bool + 'static) {
    let fault = move |call: &Call, before: &Loans, loans: &mut Loans, answer: Answer| {
        if *call != Call::WriteImage || !when(answer) {
            return answer;
        }
        let mut changed = before.clone();
        other(&mut changed);
        let answer = Model.run(call, &mut changed);
        if answer.0 == 0 {
            loans.bytes = [&changed.bytes[..], &before.bytes[changed.bytes.len()..]].concat();
        } else {
            loans.bytes.clone_from(&before.bytes);
        }
        answer
    };
    assert_eq!(found(fault).0, "write_image");
}

#[test]
fn image_room_one_byte_too_early() {
    other_writer(|loans| _ = loans.bytes.pop(), |_| true);
}

#[test]
fn an_infinity_let_through() {
    let finite = |x: &mut f64| *x = if x.is_infinite() { 0.0 } else { *x };
    other_writer(move |loans| loans.coordinates.iter_mut().for_each(finite), |answer| answer.0 == 12);
}

#[test]
fn a_nan_without_a_point_that_refuses() {
    let fault = |call: &Call, before: &Loans, loans: &mut Loans, answer: Answer| {
        let n = before.rows.len() / 4;
        if *call == Call::WriteImage && answer.0 == 0 && before.coordinates[..3 * n].iter().any(|x| x.is_nan()) {
            loans.bytes.clone_from(&before.bytes);
            return (12, [8, 0, 0]);
        }
        answer
    };
    assert_eq!(found(fault).0, "write_image");
}

#[test]
fn slot_0_stored() {
    let fault = |call: &Call, before: &Loans, loans: &mut Loans, answer: Answer| {
        let (records, size) = (28 + 17 * (before.rows.len() / 4), answer.1[1] as usize + 28);
        if *call != Call::WriteImage || answer.0 != 0 || before.vertex_marks[0] == 0 {
            return answer;
        }
        if loans.bytes.len() < size {
            loans.bytes.clone_from(&before.bytes);
            return (14, [size as u64, 0, 0]);
        }
        loans.bytes.copy_within(records..size - 28, records + 28);
        loans.bytes[records..records + 4].fill(0);
        (0, [0, size as u64, 0])
    };
    assert_eq!(found(fault).0, "write_image");
}

#[test]
fn a_refusal_that_has_written() {
    let fault = |call: &Call, _: &Loans, loans: &mut Loans, answer: Answer| {
        if let (Call::WriteImage, 14, Some(first)) = (call, answer.0, loans.bytes.first_mut()) {
            *first = 1;
        }
        answer
    };
    assert_eq!(found(fault).0, "write_image");
}

#[test]
fn the_flag_of_dart_0_tested_before_the_map() {
    let fault = |call: &Call, before: &Loans, _: &mut Loans, answer: Answer| match (call, answer.0) {
        (Call::WriteImage, 3) if before.flags[0] != 0 => (12, [7, 0, 0]),
        _ => answer,
    };
    assert_eq!(found(fault).0, "write_image");
}
