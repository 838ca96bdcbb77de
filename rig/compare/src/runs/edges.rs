//! Edges: one round or one chain of beta 2 and beta 3 in turn, named from every dart.

use super::loans::fill_flags;
use crate::check::Comparison;
use crate::kernel::{Call, Cell, Loans, Orbit};
use crate::maps;
use crate::random::Random;

/// The name of the edge of every dart, and the orbit of one of them; the list of all edges; a 2-sew and a
/// 2-unsew of every fifth dart, which name an edge each side. Some of the free darts may be unused.
fn ask(comparison: &mut Comparison, random: &mut Random, rows: Vec<u32>) {
    let n = rows.len() / 4;
    let mut loans = Loans::around(rows);
    let unused = *random.pick(&[0, 0, 10, 40]);
    fill_flags(random, &mut loans, unused);
    comparison.maps += 1;
    for d in 0..n as u32 {
        comparison.check(&Call::Identifier { cell: Cell::Edge, d }, &loans);
        if d > 0 && d % 5 == 0 {
            let rd = 1 + random.below(n - 1) as u32;
            comparison.check(&Call::TwoSew { ld: d, rd }, &loans);
            comparison.check(&Call::TwoUnsew { ld: d }, &loans);
        }
    }
    let d = random.below(n) as u32;
    comparison.check(&Call::Orbit { orbit: Orbit::Edge, d }, &loans);
    comparison.check(&Call::List { cell: Cell::Edge }, &loans);
}

/// Edges of every length up to `longest`, round where it is even and open from either beta, with their
/// darts in any order and others between them; then `rounds` random maps.
pub fn edges(comparison: &mut Comparison, longest: usize, rounds: usize, seed: u64) {
    let mut random = Random::new(seed);
    for length in 1..=longest {
        for first in [2, 3] {
            for round in [false, true] {
                let rows = maps::edge(&mut random, length, first, round);
                ask(comparison, &mut random, rows);
            }
        }
    }
    for _ in 0..rounds {
        let n = 1 + random.below(400);
        let rows = maps::wild(&mut random, n);
        ask(comparison, &mut random, rows);
    }
}
