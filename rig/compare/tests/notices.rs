//! A comparison is worth what it notices: kernels with one fault each, all of which must be found, and
//! one without a fault, of which nothing may be found.

use compare::{Answer, Call, Cell, Comparison, ENTRY_NUMBERS, Kernel, Loans, Model, Orbit, runs};

#[path = "notices/commands.rs"]
mod commands;
#[path = "notices/flags.rs"]
mod flags;
#[path = "notices/sizes.rs"]
mod sizes;
#[path = "notices/writer.rs"]
mod writer;

/// The model, with a fault put in behind it: `spoil` gets the call, the loans before, and what the model
/// made of both.
struct Spoilt<F: Fn(&Call, &Loans, &mut Loans, Answer) -> Answer>(F);

impl<F: Fn(&Call, &Loans, &mut Loans, Answer) -> Answer> Kernel for Spoilt<F> {
    fn name(&self) -> &'static str {
        "spoilt"
    }
    fn has_say(&self, _: &Call, _: &Loans) -> bool {
        true
    }
    fn leaves_scratch(&self) -> bool {
        true
    }
    fn run(&mut self, call: &Call, loans: &mut Loans) -> Answer {
        let before = loans.clone();
        let answer = Model.run(call, loans);
        (self.0)(call, &before, loans, answer)
    }
}

/// All maps of up to three real darts, and a little of every other run.
fn run(kernel: impl Kernel + 'static) -> Comparison {
    let mut comparison = Comparison::new(vec![Box::new(kernel)]);
    for k in 0..4 {
        runs::small(&mut comparison, k, 0, 1);
    }
    runs::walks(&mut comparison, 40, 60, 5);
    runs::floats(&mut comparison, 20_000, 5);
    runs::refusals(&mut comparison, 20_000, 5);
    runs::images(&mut comparison, 5_000, 5);
    runs::bytes(&mut comparison, 5_000, 5);
    runs::writes(&mut comparison, 2, 2_000, 5);
    runs::lists(&mut comparison, 2, 2_000, 5);
    comparison
}

/// The call, and the rows' length, of the smallest finding.
fn found(spoil: impl Fn(&Call, &Loans, &mut Loans, Answer) -> Answer + 'static) -> (&'static str, usize) {
    let comparison = run(Spoilt(spoil));
    assert!(comparison.differences() > 0, "the fault was not noticed");
    let smallest = comparison.findings().min_by_key(|finding| finding.before.rows.len()).expect("one");
    (smallest.call.name(), smallest.before.rows.len())
}

fn image(rows: &[u32], i: usize, d: u32) -> u32 {
    rows[4 * d as usize + i]
}

#[test]
fn nothing_where_nothing_is_wrong() {
    let comparison = run(Spoilt(|_, _, _, answer| answer));
    assert_eq!(comparison.differences(), 0);
}

#[test]
fn face_id_as_the_least_of_its_orbit() {
    let fault = |call: &Call, before: &Loans, _: &mut Loans, answer: Answer| match *call {
        Call::Identifier { cell: Cell::Face, d } if answer.0 == 0 => {
            let mut loans = before.clone();
            let orbit = Call::Orbit { orbit: Orbit::Face, d };
            let (_, [_, count, _]) = Model.run(&orbit, &mut loans);
            (0, [u64::from(*loans.output[..count as usize].iter().min().unwrap()), 0, 0])
        }
        _ => answer,
    };
    // the open pair 1 2 is the smallest map that shows it
    assert_eq!(found(fault), ("face_id", 12));
}

#[test]
fn scratch_left_dirty() {
    found(|call, _, loans, answer| {
        if matches!(call, Call::Identifier { cell: Cell::Volume, .. }) && answer.0 == 0 {
            loans.marks[0] = 1;
        }
        answer
    });
}

#[test]
fn scratch_cleared_too_far() {
    found(|call, _, loans, answer| {
        if matches!(call, Call::TwoUnsew { .. }) && answer.0 == 8 {
            loans.queue.fill(0);
        }
        answer
    });
}

#[test]
fn scratch_touched_before_the_map_test() {
    found(|call, _, loans, answer| {
        if matches!(call, Call::OneSew { .. }) && answer.0 == 3 {
            loans.marks.fill(0);
        }
        answer
    });
}

#[test]
fn output_beyond_the_count() {
    found(|call, _, loans, answer| {
        if matches!(call, Call::List { cell: Cell::Edge }) && answer.0 == 0 {
            loans.output[answer.1[1] as usize] = 0;
        }
        answer
    });
}

#[test]
fn a_pair_left_linked_after_a_refusal() {
    found(|call, _, loans, answer| {
        if let (&Call::ThreeLink { ld, rd }, 9) = (call, answer.0) {
            loans.rows[4 * ld as usize + 3] = rd;
            loans.rows[4 * rd as usize + 3] = ld;
        }
        answer
    });
}

#[test]
fn a_closed_three_link_that_asks_for_rd_at_its_end() {
    found(|call, before, loans, answer| {
        let (&Call::ThreeLink { ld, rd }, 0) = (call, answer.0) else { return answer };
        let (mut l, mut r) = (image(&before.rows, 1, ld), image(&before.rows, 0, rd));
        while l != ld && l != 0 {
            (l, r) = (image(&before.rows, 1, l), image(&before.rows, 0, r));
        }
        if l == ld && r != rd {
            loans.rows.clone_from(&before.rows);
            return (9, [u64::from(ld), u64::from(rd), 0]);
        }
        answer
    });
}

#[test]
fn plan_entries_in_another_order() {
    found(|call, _, loans, answer| {
        if matches!(call, Call::ThreeUnsew { .. }) && answer.0 == 0 && answer.1[1] > 2 {
            let (left, right) = loans.plan.split_at_mut(2 * ENTRY_NUMBERS);
            left[ENTRY_NUMBERS..].swap_with_slice(&mut right[..ENTRY_NUMBERS]);
        }
        answer
    });
}

#[test]
fn plan_room_one_entry_too_early() {
    found(|call, before, loans, answer| {
        let room = before.plan.len() / ENTRY_NUMBERS;
        if call.plans() && answer.0 == 0 && answer.1[1] > 0 && room == answer.1[1] as usize {
            loans.rows.clone_from(&before.rows);
            loans.plan.clone_from(&before.plan);
            return (11, [answer.1[1], 0, 0]);
        }
        answer
    });
}

#[test]
fn plan_remainder_touched() {
    found(|call, _, loans, answer| {
        if matches!(call, Call::OneUnsew { .. }) && answer.0 == 11 {
            let whole = loans.plan.len() / ENTRY_NUMBERS * ENTRY_NUMBERS;
            loans.plan[whole..].fill(0);
        }
        answer
    });
}

/// 2-sews whose dot is `dot` instead of the scope's.
fn other_dot(dot: fn([f64; 3], [f64; 3]) -> bool) -> (&'static str, usize) {
    found(move |call, before, loans, answer| {
        let &Call::TwoSew { ld, rd } = call else { return answer };
        if !matches!(answer.0, 0 | 6 | 7 | 10) {
            return answer;
        }
        let identifier = |d: u32| {
            let mut other = before.clone();
            Model.run(&Call::Identifier { cell: Cell::Vertex, d }, &mut other).1[0] as usize
        };
        let behind = |d: u32| image(&before.rows, 1, d).max(image(&before.rows, 3, d));
        let slots = [ld, behind(rd), behind(ld), rd].map(identifier);
        if slots.iter().any(|&v| before.vertex_marks[v] == 0) {
            return answer;
        }
        let [l, m2, m1, r] = slots.map(|v| [0, 1, 2].map(|k| before.coordinates[3 * v + k]));
        let minus = |a: [f64; 3], b: [f64; 3]| [0, 1, 2].map(|k| a[k] - b[k]);
        if dot(minus(m1, l), minus(m2, r)) {
            loans.rows.clone_from(&before.rows);
            loans.plan.clone_from(&before.plan);
            return (10, [2, u64::from(ld), u64::from(rd)]);
        }
        // as if there were no vertices
        loans.clone_from(before);
        loans.vertex_marks.fill(0);
        let answer = Model.run(call, loans);
        loans.vertex_marks.clone_from(&before.vertex_marks);
        answer
    })
}

#[test]
fn a_nan_that_refuses() {
    other_dot(|a, b| {
        let dot = a[0] * b[0] + a[1] * b[1] + a[2] * b[2];
        dot.is_nan() || dot >= 0.0
    });
}

#[test]
fn a_dot_that_is_fused() {
    other_dot(|a, b| a[2].mul_add(b[2], a[1].mul_add(b[1], a[0] * b[0])) >= 0.0);
}

#[test]
fn a_dot_summed_from_the_other_end() {
    other_dot(|a, b| a[0] * b[0] + (a[1] * b[1] + a[2] * b[2]) >= 0.0);
}

#[test]
fn a_zero_dot_that_passes() {
    other_dot(|a, b| a[0] * b[0] + a[1] * b[1] + a[2] * b[2] > 0.0);
}

#[test]
fn an_unused_flag_that_must_be_one() {
    found(|call, before, loans, answer| {
        if matches!(call, Call::List { .. }) && answer.0 == 0 {
            loans.clone_from(before);
            loans.flags.iter_mut().for_each(|flag| *flag = u8::from(*flag == 1));
            let answer = Model.run(call, loans);
            loans.flags.clone_from(&before.flags);
            return answer;
        }
        answer
    });
}

#[test]
fn the_second_bad_dart_named() {
    found(|call, _, _, answer| match (call, answer) {
        (Call::TwoLink { ld, rd }, (4, _)) if ld == rd => (4, [2, 0, 0]),
        _ => answer,
    });
}

#[test]
fn a_reader_that_leaves_negative_zero() {
    found(|call, _, loans, answer| {
        if *call == Call::ReadImage && answer.0 == 0 {
            loans.coordinates[0] = -0.0;
        }
        answer
    });
}

#[test]
fn a_reader_that_writes_before_it_refuses() {
    found(|call, _, loans, answer| {
        if *call == Call::ReadImage && answer == (12, [8, 0, 0]) {
            loans.flags[0] = 0;
        }
        answer
    });
}

#[test]
fn a_map_test_that_names_the_dart_first() {
    let fault = |call: &Call, _: &Loans, _: &mut Loans, answer: Answer| match (call, answer) {
        (Call::CheckMap, (3, [beta, dart, _])) => (3, [dart, beta, 0]),
        _ => answer,
    };
    assert_eq!(found(fault).0, "check_map");
}

#[test]
fn a_map_test_that_lets_beta_2_fix_a_dart() {
    let fault = |call: &Call, before: &Loans, _: &mut Loans, answer: Answer| match (call, answer) {
        (Call::CheckMap, (3, [2, dart, _])) if image(&before.rows, 2, dart as u32) == dart as u32 => (0, [0; 3]),
        _ => answer,
    };
    assert_eq!(found(fault).0, "check_map");
}

#[test]
fn a_kernel_that_panics() {
    std::panic::set_hook(Box::new(|_| {}));
    found(|call, _, _, answer| match call {
        Call::IsFree { d: 2 } => panic!("on purpose"),
        _ => answer,
    });
}
