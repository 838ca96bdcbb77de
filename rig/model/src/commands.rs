//! A list of commands in one call.

use crate::cells::leave_scratch;
use crate::{Answer, ENTRY_NUMBERS, answer, done, links, loans, map, refused, sews, size};

/// What every command of a list is lent, beside what is left of the plan.
struct Lent<'a> {
    rows: &'a mut [u32],
    marks: &'a mut [u8],
    queue: &'a mut [u32],
    flags: &'a [u8],
    vertex_marks: &'a [u8],
    coordinates: &'a [f64],
}

/// One command, an operation and two darts, as the call that it stands for. An unlink or an unsew has one
/// dart, and the second number is not looked at.
fn command(lent: &mut Lent<'_>, plan: &mut [u32], [operation, ld, rd]: [u32; 3]) -> Answer {
    let Lent { rows, marks, queue, flags, vertex_marks, coordinates } = lent;
    match operation {
        1 => links::one_link(rows, flags, ld, rd),
        2 => links::two_link(rows, flags, ld, rd),
        3 => links::three_link(rows, flags, ld, rd),
        4 => sews::one_sew(rows, marks, queue, flags, plan, ld, rd),
        5 => sews::two_sew(rows, marks, queue, flags, vertex_marks, coordinates, plan, ld, rd),
        6 => links::one_unlink(rows, flags, ld),
        7 => links::two_unlink(rows, flags, ld),
        8 => links::three_unlink(rows, flags, ld),
        9 => sews::one_unsew(rows, marks, queue, flags, plan, ld),
        10 => sews::two_unsew(rows, marks, queue, flags, plan, ld),
        11 => sews::three_unsew(rows, marks, queue, flags, plan, ld),
        _ => (13, [u64::from(operation), 0, 0]),
    }
}

/// The commands in turn; gives the entries of the plan that they wrote.
fn in_turn(mut lent: Lent<'_>, output: &mut [u32], plan: &mut [u32], list: &[u32]) -> usize {
    let mut written = 0;
    for (numbers, place) in list.chunks_exact(3).zip(output.chunks_exact_mut(5)) {
        let rest = &mut plan[ENTRY_NUMBERS * written..];
        let (number, [first, second, third]) = command(&mut lent, rest, [numbers[0], numbers[1], numbers[2]]);
        // of a call that is done the second value is the count, which has a place of its own here
        let (values, entries) = if number == 0 { ([first, 0, 0], second) } else { ([first, second, third], 0) };
        let values = values.map(|value| u32::try_from(value).expect("darts, betas and counts of entries"));
        place.copy_from_slice(&[number, values[0], values[1], values[2], entries as u32]);
        written += entries as usize;
    }
    written
}

/// A list of commands, one after another, each lent what the ones before have left of the plan. A command
/// that is refused changes nothing, and the list goes on.
///
/// To `output` go five numbers for each command: the number of its answer, three values (the dart answered,
/// where it is done) and how many entries of the plan it wrote.
///
/// ```
/// let (mut rows, mut marks, mut queue) = ([0; 16], [9; 4], [9; 4]);
/// let (flags, no_points, nowhere) = ([0, 0, 0, 1], [0; 4], [0.0; 12]); // dart 3 is unused
/// let (mut output, mut plan) = ([9; 21], [9; 27]);
/// let list = [3, 1, 2, 3, 1, 2, 11, 2, 77, 2, 1, 3]; // 3-link 1 and 2, the same again, 3-unsew 2, 2-link 1 and 3
/// let answer = model::commands(
///     &mut rows, &mut marks, &mut queue, &mut output, &flags, &no_points, &nowhere, &mut plan, &list,
/// );
/// assert_eq!(answer, (0, [0, 4, 0]));
/// assert_eq!(output, [0, 0, 0, 0, 0, 6, 3, 1, 2, 0, 0, 1, 0, 0, 4, 4, 2, 0, 0, 0, 9]);
/// // behind the three identifiers of an entry stand the sizes of its two cells
/// assert_eq!(plan[..12], [13, 2, 1, 1, 1, 1, 12, 2, 1, 1, 1, 1]);
/// assert_eq!(plan[12..], [11, 0, 1, 0, 0, 1, 11, 2, 0, 0, 1, 0, 9, 9, 9]);
/// assert_eq!((rows, marks, queue), ([0; 16], [0; 4], [0; 4]));
/// ```
#[allow(clippy::too_many_arguments)]
pub fn commands(
    rows: &mut [u32],
    marks: &mut [u8],
    queue: &mut [u32],
    output: &mut [u32],
    flags: &[u8],
    vertex_marks: &[u8],
    coordinates: &[f64],
    plan: &mut [u32],
    list: &[u32],
) -> Answer {
    answer((|| {
        let n = size(rows)?;
        let whole = list.len() / 3;
        loans(&[
            (1, marks.len(), n),
            (2, queue.len(), n),
            (3, output.len(), 5 * whole),
            (4, flags.len(), n),
            (5, vertex_marks.len(), n),
            (6, coordinates.len(), 3 * n),
        ])?;
        if list.len() != 3 * whole {
            // only refusals 1 to 5 leave scratch as it was
            leave_scratch(n, marks, queue);
            return refused(13, &[0]);
        }
        map(rows, flags)?;
        leave_scratch(n, marks, queue);
        let lent = Lent { rows, marks, queue, flags, vertex_marks, coordinates };
        Ok(done(0, in_turn(lent, output, plan, list)))
    })())
}
