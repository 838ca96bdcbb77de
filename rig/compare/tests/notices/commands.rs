//! The faults of lists of commands.

use super::found;
use compare::{Answer, Call, ENTRY_NUMBERS, Kernel, Loans, Model};

/// What is done to the five numbers of the answer of a command.
type Spoil = fn([u32; 3], &mut [u32]);

/// A list as its calls one after another, with what may go wrong in it; each place has the right thing by
/// default.
#[derive(Default)]
struct List {
    /// The plan is lent from its start again.
    plan_from_its_start: bool,
    /// A refusal ends the list.
    ends: bool,
    /// The second dart of an unlink or unsew has to be one.
    second_dart: bool,
    /// Darts are tested before the operation.
    darts_first: bool,
    /// What fits of a plan without room is left behind.
    plan_left: bool,
    /// Room is asked for, where there is too little, as for all entries from the list's start.
    entries_in_all: bool,
    /// Every command starts from the rows of the list's start.
    rows_of_the_start: bool,
    /// Other answers.
    five: Option<Spoil>,
}

impl List {
    /// The answer of one command; a dart that is none, or an operation, is refused here.
    fn command(&self, [operation, ld, rd]: [u32; 3], loans: &mut Loans) -> Answer {
        let real = 1..(loans.rows.len() / 4) as u32;
        let bad = [ld, rd].iter().position(|dart| !real.contains(dart)).map(|at| (4, [at as u64 + 1, 0, 0]));
        match (Call::of_command([operation, ld, rd]), bad) {
            (None, Some(bad)) if self.darts_first => bad,
            (None, _) => (13, [u64::from(operation), 0, 0]),
            (Some(_), Some(bad)) if self.second_dart => bad,
            (Some(call), _) => Model.run(&call, loans),
        }
    }

    /// Leaves what fits of the plan that a command would have.
    fn leave_plan(&self, numbers: [u32; 3], loans: &mut Loans) {
        let mut ample = loans.clone();
        ample.plan.resize(4000, 0);
        self.command(numbers, &mut ample);
        let whole = loans.plan.len() / ENTRY_NUMBERS * ENTRY_NUMBERS;
        loans.plan[..whole].copy_from_slice(&ample.plan[..whole]);
    }

    /// Runs the list of these loans, whose scratch is clear.
    fn run(&self, loans: &mut Loans) -> Answer {
        let (start, mut plan) = (loans.rows.clone(), loans.plan.clone());
        let (commands, mut written) = (loans.commands.clone(), 0);
        for (at, numbers) in commands.chunks_exact(3).enumerate() {
            let numbers = [numbers[0], numbers[1], numbers[2]];
            let from = if self.plan_from_its_start { 0 } else { ENTRY_NUMBERS * written };
            loans.plan = plan[from..].to_vec();
            let before = loans.rows.clone();
            if self.rows_of_the_start {
                loans.rows.clone_from(&start);
            }
            let (number, mut values) = self.command(numbers, loans);
            if self.rows_of_the_start && number != 0 {
                loans.rows = before;
            }
            if number == 11 && self.plan_left {
                self.leave_plan(numbers, loans);
            }
            if number == 11 && self.entries_in_all {
                values[0] += written as u64;
            }
            plan[from..].copy_from_slice(&loans.plan);
            let [a, b, c] = values.map(|value| value as u32);
            let mut five = if number == 0 { [0, a, 0, 0, b] } else { [number, a, b, c, 0] };
            written += five[4] as usize;
            if let Some(spoil) = self.five {
                spoil(numbers, &mut five);
            }
            loans.output[5 * at..5 * at + 5].copy_from_slice(&five);
            if number != 0 && self.ends {
                break;
            }
        }
        loans.plan = plan;
        (0, [0, written as u64, 0])
    }
}

/// A library whose lists are these.
fn other_list(list: List) {
    let fault = move |call: &Call, before: &Loans, loans: &mut Loans, answer: Answer| {
        if *call != Call::Commands || answer.0 != 0 {
            return answer;
        }
        // scratch is as the model has left it
        let (marks, queue) = (loans.marks.clone(), loans.queue.clone());
        loans.clone_from(before);
        (loans.marks, loans.queue) = (marks, queue);
        list.run(loans)
    };
    assert_eq!(found(fault).0, "commands");
}

#[test]
#[should_panic(expected = "the fault was not noticed")]
fn no_fault_at_all() {
    other_list(List::default());
}

#[test]
fn a_plan_lent_from_its_start_again() {
    other_list(List { plan_from_its_start: true, ..List::default() });
}

#[test]
fn a_list_ended_by_a_refusal() {
    other_list(List { ends: true, ..List::default() });
}

#[test]
fn the_second_dart_of_an_unlink_tested() {
    other_list(List { second_dart: true, ..List::default() });
}

#[test]
fn the_plan_of_a_refused_command_left_behind() {
    other_list(List { plan_left: true, ..List::default() });
}

#[test]
fn room_asked_for_as_for_the_whole_list() {
    other_list(List { entries_in_all: true, ..List::default() });
}

#[test]
fn commands_on_the_rows_of_the_start() {
    other_list(List { rows_of_the_start: true, ..List::default() });
}

#[test]
fn darts_tested_before_the_operation() {
    other_list(List { darts_first: true, ..List::default() });
}

#[test]
fn a_count_of_entries_one_off() {
    let spoil = |_: [u32; 3], five: &mut [u32]| five[4] += u32::from(five[4] > 0);
    other_list(List { five: Some(spoil), ..List::default() });
}

#[test]
fn a_count_of_entries_where_there_is_no_room() {
    let spoil = |_: [u32; 3], five: &mut [u32]| five[4] = if five[0] == 11 { five[1] } else { five[4] };
    other_list(List { five: Some(spoil), ..List::default() });
}

#[test]
fn a_link_that_answers_a_dart() {
    let spoil = |[operation, _, rd]: [u32; 3], five: &mut [u32]| {
        if five[0] == 0 && operation == 2 {
            five[1] = rd;
        }
    };
    other_list(List { five: Some(spoil), ..List::default() });
}

#[test]
fn an_operation_taken_for_its_last_byte() {
    let fault = |call: &Call, before: &Loans, loans: &mut Loans, answer: Answer| {
        if *call != Call::Commands || answer.0 != 0 {
            return answer;
        }
        loans.clone_from(before);
        loans.commands.iter_mut().step_by(3).for_each(|operation| *operation %= 256);
        let answer = Model.run(call, loans);
        loans.commands.clone_from(&before.commands);
        answer
    };
    assert_eq!(found(fault).0, "commands");
}

/// A fault in what a whole list leaves or answers.
fn whole(spoil: impl Fn(&Loans, &mut Loans, Answer) -> Answer + 'static) {
    let fault = move |call: &Call, before: &Loans, loans: &mut Loans, answer: Answer| match call {
        Call::Commands => spoil(before, loans, answer),
        _ => answer,
    };
    assert_eq!(found(fault).0, "commands");
}

#[test]
fn scratch_left_where_the_list_is_no_whole_commands() {
    whole(|before, loans, answer| {
        if answer.0 == 13 {
            loans.marks.clone_from(&before.marks);
        }
        answer
    });
}

#[test]
fn scratch_cleared_before_the_map_test() {
    whole(|_, loans, answer| {
        if answer.0 == 3 {
            loans.queue[0] = 0;
        }
        answer
    });
}

#[test]
fn scratch_left_by_a_list_of_links() {
    whole(|before, loans, answer| {
        if answer.0 == 0 && before.commands.chunks_exact(3).all(|numbers| (1..4).contains(&numbers[0])) {
            loans.marks.clone_from(&before.marks);
        }
        answer
    });
}

#[test]
fn the_map_tested_before_the_length_of_the_list() {
    whole(|before, loans, answer| {
        if answer.0 != 13 {
            return answer;
        }
        let mut other = before.clone();
        let test = Model.run(&Call::CheckMap, &mut other);
        if test.0 == 3 {
            loans.clone_from(before);
            return test;
        }
        answer
    });
}

#[test]
fn a_list_that_is_no_whole_commands_refused_before_a_short_loan() {
    whole(|before, _, answer| match answer.0 {
        2 if before.commands.len() % 3 != 0 => (13, [0; 3]),
        _ => answer,
    });
}

#[test]
fn output_asked_for_as_for_a_command_that_is_not_whole() {
    whole(|before, loans, answer| {
        if answer.0 == 13 && before.output.len() < before.commands.len().div_ceil(3) * 5 {
            loans.clone_from(before);
            return (2, [3, 0, 0]);
        }
        answer
    });
}

#[test]
fn output_behind_the_last_answer_touched() {
    whole(|before, loans, answer| {
        if let (0, Some(behind)) = (answer.0, loans.output.get_mut(before.commands.len() / 3 * 5)) {
            *behind = 0;
        }
        answer
    });
}

#[test]
fn plan_behind_the_last_entry_touched() {
    whole(|_, loans, answer| {
        if let (0, Some(behind)) = (answer.0, loans.plan.get_mut(ENTRY_NUMBERS * answer.1[1] as usize)) {
            *behind = 0;
        }
        answer
    });
}

#[test]
fn commands_counted_instead_of_entries() {
    whole(|before, _, answer| match answer.0 {
        0 => (0, [0, before.commands.len() as u64 / 3, 0]),
        _ => answer,
    });
}
