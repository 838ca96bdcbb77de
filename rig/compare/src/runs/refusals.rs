//! Inputs that are wrong.

use super::calls::{any_call, any_number};
use super::loans::{fill_flags, fill_vertices, resize, spoil_flag};
use crate::check::Comparison;
use crate::kernel::{ENTRY_NUMBERS, Loans};
use crate::maps;
use crate::random::Random;

/// Inputs that are wrong in one way or several: sizes, loans, rows, flags, darts, betas, plan room.
pub fn refusals(comparison: &mut Comparison, rounds: usize, seed: u64) {
    let mut random = Random::new(seed);
    for _ in 0..rounds {
        comparison.maps += 1;
        let n = 1 + random.below(8);
        let rows = if random.percent(50) { maps::wild(&mut random, n) } else { maps::faces(&mut random, n) };
        let mut loans = Loans::around(rows);
        fill_vertices(&mut random, &mut loans, 80);
        let unused = *random.pick(&[0, 50, 100]);
        fill_flags(&mut random, &mut loans, unused);
        // most of the time one fault, sometimes none, sometimes several
        for _ in 0..*random.pick(&[0, 1, 1, 1, 2, 3, 6]) {
            match random.below(14) {
                0 => resize(&mut random, &mut loans.rows, 0),
                1 => resize(&mut random, &mut loans.marks, 3),
                2 => resize(&mut random, &mut loans.queue, 3),
                3 => resize(&mut random, &mut loans.output, 3),
                4 => resize(&mut random, &mut loans.flags, 0),
                5 => resize(&mut random, &mut loans.vertex_marks, 1),
                6 => resize(&mut random, &mut loans.coordinates, 1.0),
                7 => resize(&mut random, &mut loans.plan, 9),
                8 => loans.plan.truncate(random.below(2 * ENTRY_NUMBERS + 1)),
                9 | 10 => spoil_flag(&mut random, &mut loans),
                _ => {
                    if !loans.rows.is_empty() {
                        let place = random.below(loans.rows.len());
                        loans.rows[place] = any_number(&mut random, n);
                    }
                }
            }
        }
        let call = any_call(&mut random, n);
        comparison.check(&call, &loans);
    }
}
