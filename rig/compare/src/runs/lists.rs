//! Lists of commands: all small ones, and random ones in which plans run out.

use super::calls::{any_number, some_call};
use super::loans::{fill_vertices, put_unused, resize, spoil_flag, take_out};
use crate::check::Comparison;
use crate::kernel::{Answer, Call, ENTRY_NUMBERS, Kernel, Loans};
use crate::kernels::Model;
use crate::maps;
use crate::random::Random;

/// A command: operation, first dart, second dart.
type Command = [u32; 3];

/// How often each operation was answered with each number; those that are none stand under 0.
struct Tally([[u64; 15]; 12]);

impl Tally {
    /// Counts the answers of a list.
    fn count(&mut self, commands: &[u32], output: &[u32]) {
        for (command, five) in commands.chunks_exact(3).zip(output.chunks_exact(5)) {
            let operation = if command[0] < 12 { command[0] as usize } else { 0 };
            self.0[operation][five[0] as usize] += 1;
        }
    }

    /// A line for each operation.
    fn lines(&self) -> Vec<String> {
        const NAMES: [&str; 12] = [
            "no operation",
            "1-link",
            "2-link",
            "3-link",
            "1-sew",
            "2-sew",
            "1-unlink",
            "2-unlink",
            "3-unlink",
            "1-unsew",
            "2-unsew",
            "3-unsew",
        ];
        let line = |(name, counts): (&str, &[u64; 15])| {
            let met = (0..).zip(counts).filter(|&(_, &times)| times > 0);
            let numbers: Vec<String> = met.map(|(number, times): (u32, _)| format!("{number}:{times}")).collect();
            format!("commands, {name}: {} [{}]", counts.iter().sum::<u64>(), numbers.join(" "))
        };
        NAMES.into_iter().zip(&self.0).map(line).collect()
    }
}

/// Puts a list into loans, with an output of its size and a little beyond.
pub(super) fn lend(loans: &mut Loans, list: &[Command]) {
    loans.commands.clear();
    loans.commands.extend(list.iter().flatten());
    loans.output.clear();
    loans.output.resize(5 * list.len() + 3, 0xFEED_0000);
}

/// Makes the list of these loans and counts its answers. Gives the model's answer and loans.
fn check<'a>(comparison: &'a mut Comparison, tally: &mut Tally, loans: &Loans) -> (Answer, &'a Loans) {
    let (answer, after) = comparison.check(&Call::Commands, loans);
    if answer.0 == 0 {
        tally.count(&loans.commands, &after.output);
    }
    (answer, after)
}

/// Makes it with ample room, then with less: of up to eight entries every whole room below, else some; with
/// words behind the last whole entry.
fn with_rooms(comparison: &mut Comparison, tally: &mut Tally, random: &mut Random, loans: &Loans) {
    let ((number, [_, entries, _]), _) = check(comparison, tally, loans);
    if number != 0 || entries == 0 {
        return;
    }
    let mut rooms: Vec<usize> = (0..=entries as usize).collect();
    if entries > 8 {
        rooms = (0..5).map(|_| random.below(entries as usize + 1)).chain([entries as usize]).collect();
    }
    let mut tight = loans.clone();
    for room in rooms {
        tight.plan.clone_from(&loans.plan);
        tight.plan.truncate(ENTRY_NUMBERS * room + random.below(ENTRY_NUMBERS));
        check(comparison, tally, &tight);
    }
}

/// Every command with every real dart of a map of `n` darts. What an unlink or unsew does not look at is any
/// word.
fn every_command(random: &mut Random, n: usize) -> Vec<Command> {
    let mut commands = Vec::new();
    for ld in 1..n as u32 {
        commands.extend((6..12).map(|operation| [operation, ld, random.word() as u32]));
        for rd in 1..n as u32 {
            commands.extend((1..6).map(|operation| [operation, ld, rd]));
        }
    }
    commands
}

/// A 3-link followed by the 3-unlink of its first dart: where the 3-link is done, the 3-unlink answers its
/// second dart, and every row is as it was.
fn there_and_back(comparison: &mut Comparison, tally: &mut Tally, random: &mut Random, loans: &mut Loans) {
    let n = loans.rows.len() / 4;
    for (ld, rd) in (1..n as u32).flat_map(|ld| (1..n as u32).map(move |rd| (ld, rd))) {
        lend(loans, &[[3, ld, rd], [8, ld, random.word() as u32]]);
        let (_, after) = check(comparison, tally, loans);
        if after.output[0] == 0 {
            let same = after.rows == loans.rows && after.output[5..10] == [0, rd, 0, 0, 0];
            assert!(same, "the model does not undo the 3-link {ld}, {rd} on {:?}", loans.rows);
        }
    }
}

/// Every list of one of these commands, and where `pairs` of two.
fn every_list(
    comparison: &mut Comparison,
    tally: &mut Tally,
    random: &mut Random,
    loans: &mut Loans,
    commands: &[Command],
    pairs: bool,
) {
    for first in commands {
        lend(loans, &[*first]);
        with_rooms(comparison, tally, random, loans);
        for second in commands.iter().filter(|_| pairs) {
            lend(loans, &[*first, *second]);
            let (answer, _) = check(comparison, tally, loans);
            if answer.1[1] > 0 {
                let mut tight = loans.clone();
                let room = random.below(answer.1[1] as usize);
                tight.plan.truncate(ENTRY_NUMBERS * room + random.below(ENTRY_NUMBERS));
                check(comparison, tally, &tight);
            }
        }
    }
}

/// All maps of `k` real darts, with every choice of unused ones among the free, with every list of one command,
/// and where `pairs` of two; vertices are any or none.
fn small(comparison: &mut Comparison, tally: &mut Tally, random: &mut Random, k: usize, pairs: bool) {
    let commands = every_command(random, k + 1);
    let mut loans = Loans::around(vec![0; 4 * (k + 1)]);
    maps::all_of(k, |rows| {
        comparison.maps += 1;
        loans.rows.copy_from_slice(rows);
        let defined = *random.pick(&[0, 60, 100]);
        fill_vertices(random, &mut loans, defined);
        for unused in maps::unused_choices(rows) {
            put_unused(random, &mut loans, &unused);
            every_list(comparison, tally, random, &mut loans, &commands, pairs);
            there_and_back(comparison, tally, random, &mut loans);
        }
    });
}

/// A command on this map, more often than not one that can be done; and now and then any numbers.
fn some_command(random: &mut Random, rows: &[u32], flags: &[u8]) -> Command {
    let n = rows.len() / 4;
    if n < 2 || random.percent(8) {
        let operation = *random.pick(&[0, 1, 3, 5, 6, 8, 9, 11, 12, 13, 255, 256, 259, u32::MAX]);
        return [operation, any_number(random, n), any_number(random, n)];
    }
    loop {
        let call = some_call(random, rows, flags);
        let numbers = call.numbers();
        let (Some(&ld), Some(&rd)) = (numbers.first(), numbers.last()) else { continue };
        let stands_for = |operation: &u32| Call::of_command([*operation, ld, rd]).as_ref() == Some(&call);
        if let Some(operation) = (1..12).find(stands_for) {
            // the second dart of an unlink or unsew is anything
            return [operation, ld, if operation < 6 { rd } else { any_number(random, n) }];
        }
    }
}

/// A list of so many commands from these loans on, each chosen for what the ones before leave where the plan has
/// room for all.
pub(super) fn some_list(random: &mut Random, loans: &Loans, commands: usize) -> Vec<Command> {
    let mut list = Vec::new();
    let mut at = loans.clone();
    while list.len() < commands {
        let command = some_command(random, &at.rows, &at.flags);
        list.push(command);
        if let Some(call) = Call::of_command(command) {
            let (number, _) = Model.run(&call, &mut at);
            // a 3-link is often undone by the next command
            if number == 0 && command[0] == 3 && random.percent(30) {
                list.push([*random.pick(&[8, 8, 11]), command[1], random.word() as u32]);
                Model.run(&Call::ThreeUnlink { ld: command[1] }, &mut at);
            }
        }
    }
    list
}

/// One fault: a size, an image of a dart, a flag, a number of the list, its length.
fn spoil(random: &mut Random, loans: &mut Loans) {
    let n = loans.rows.len() / 4;
    match random.below(15) {
        0 => resize(random, &mut loans.rows, 0),
        1 => resize(random, &mut loans.marks, 3),
        2 => resize(random, &mut loans.queue, 3),
        // around its size rather than anywhere
        3 | 4 => loans.output.truncate(loans.output.len().saturating_sub(random.below(9))),
        5 => resize(random, &mut loans.vertex_marks, 1),
        6 => resize(random, &mut loans.coordinates, 1.0),
        7 | 8 if !loans.rows.is_empty() => {
            let place = random.below(loans.rows.len());
            loans.rows[place] = any_number(random, n);
        }
        9 if !loans.commands.is_empty() => {
            let place = random.below(loans.commands.len());
            loans.commands[place] = any_number(random, n);
        }
        10 => loans.commands.push(any_number(random, n)),
        11 => resize(random, &mut loans.flags, 1),
        12 | 13 => spoil_flag(random, loans),
        _ => resize(random, &mut loans.commands, 1),
    }
}

/// Loans around a random map or a grid of cubes, of which some darts may be unused, with points in some of its
/// slots.
fn some_loans(random: &mut Random, round: usize) -> Loans {
    let n = 1 + random.below([4, 8, 24, 100][round % 4]);
    let kind = random.below(6);
    let (rows, points) = match kind {
        0 | 1 => (maps::wild(random, n), None),
        2 | 3 => (maps::faces(random, n), None),
        4 => (vec![0; 4 * n], None),
        _ => {
            let (rows, marks, coordinates) = maps::cubes([1 + random.below(2), 1 + random.below(2), 1]);
            (rows, Some((marks, coordinates)))
        }
    };
    let mut loans = Loans::around(rows);
    let defined = *random.pick(&[0, 50, 95, 100]);
    fill_vertices(random, &mut loans, defined);
    if let Some((marks, coordinates)) = points {
        loans.vertex_marks[..marks.len()].copy_from_slice(&marks);
        loans.coordinates[..coordinates.len()].copy_from_slice(&coordinates);
    }
    let unused = *random.pick(&[0, 0, 5, 25]);
    take_out(random, &mut loans, unused);
    loans
}

/// Lists of commands: every single one on all maps of up to `most` real darts, every pair on those of one dart
/// fewer; then random lists on random maps, right and wrong, with plans that run out. Gives a line for each
/// operation: what came of it.
pub fn lists(comparison: &mut Comparison, most: usize, rounds: usize, seed: u64) -> Vec<String> {
    let mut random = Random::new(seed);
    let mut tally = Tally([[0; 15]; 12]);
    for k in 0..=most {
        small(comparison, &mut tally, &mut random, k, k < most);
    }
    for round in 0..rounds {
        comparison.maps += 1;
        let mut loans = some_loans(&mut random, round);
        let commands = random.below([3, 8, 20, 60][round % 4]);
        let list = some_list(&mut random, &loans, commands);
        lend(&mut loans, &list);
        // as many entries as there can be, so that no room is short yet
        let entries = (list.len() * (3 * loans.rows.len() / 4 + 1)).min(4000);
        loans.plan.resize(ENTRY_NUMBERS * entries + 5, 0xC0DE_0000);
        with_rooms(comparison, &mut tally, &mut random, &loans);
        for _ in 0..random.below(4) {
            spoil(&mut random, &mut loans);
            check(comparison, &mut tally, &loans);
        }
    }
    tally.lines()
}
