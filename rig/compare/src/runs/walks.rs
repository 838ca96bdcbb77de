//! Long walks of calls.

use super::calls::some_call;
use super::loans::{fill_vertices, take_out};
use crate::check::Comparison;
use crate::kernel::Loans;
use crate::maps;
use crate::random::Random;

/// Loans to start from: a grid of cubes with its vertices, or a random map with any.
fn start(random: &mut Random, n: usize) -> Loans {
    let kind = random.below(5);
    if kind == 0 {
        let size = [1 + random.below(3), 1 + random.below(2), 1 + random.below(2)];
        let (rows, marks, coordinates) = maps::cubes(size);
        let mut loans = Loans::around(rows);
        loans.vertex_marks[..marks.len()].copy_from_slice(&marks);
        loans.coordinates[..coordinates.len()].copy_from_slice(&coordinates);
        return loans;
    }
    let rows = if kind < 3 { maps::wild(random, n) } else { maps::faces(random, n) };
    let mut loans = Loans::around(rows);
    let defined = *random.pick(&[0, 50, 95, 100]);
    fill_vertices(random, &mut loans, defined);
    loans
}

/// Long walks: from random maps of up to a few hundred darts and from grids of cubes, of which some darts may be
/// taken out and unused, call after call, each on what the one before left.
pub fn walks(comparison: &mut Comparison, rounds: usize, steps: usize, seed: u64) {
    for round in 0..rounds {
        // each round can be run again by itself
        let mut random = Random::new(seed.wrapping_mul(1_000_003).wrapping_add(round as u64));
        let most = [12, 60, 400][round % 3];
        let n = 1 + random.below(most);
        let mut loans = start(&mut random, n);
        comparison.maps += 1;
        let mut tight = Loans::default();
        let unused = *random.pick(&[0, 5, 25]);
        take_out(&mut random, &mut loans, unused);
        for _ in 0..steps {
            let call = some_call(&mut random, &loans.rows, &loans.flags);
            comparison.check_with_rooms(&call, &loans, &mut tight);
            let (answer, after) = comparison.check(&call, &loans);
            if answer.0 == 0 {
                // scratch is spoilt again each time, by what is left standing in `loans`
                loans.rows.clone_from(&after.rows);
            }
        }
    }
}
