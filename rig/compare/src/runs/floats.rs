//! The geometry test where floats go astray.

use super::loans::fill_vertices;
use crate::check::Comparison;
use crate::kernel::{Call, Loans};
use crate::random::Random;

/// Rows of `n` darts with links (i, l, r).
fn chain(n: usize, links: &[(usize, usize, usize)]) -> Vec<u32> {
    let mut rows = vec![0; 4 * n];
    for &(i, l, r) in links {
        rows[4 * l + i] = r as u32;
        rows[4 * r + if i == 1 { 0 } else { i }] = l as u32;
    }
    rows
}

/// Differences at right angles, so that the dot is 0 or its rounding decides.
fn straighten(random: &mut Random, loans: &mut Loans) {
    for slot in 0..loans.rows.len() / 4 {
        let keep = random.below(3);
        for k in (0..3).filter(|&k| k != keep) {
            loans.coordinates[3 * slot + k] = *random.pick(&[0.0, -0.0, 1.0]);
        }
    }
}

/// 2-sews over coordinates at which floats go astray: NaN, infinities, both zeros, sums that cancel,
/// products that overflow or vanish, and dots that are exactly 0.
pub fn floats(comparison: &mut Comparison, rounds: usize, seed: u64) {
    let mut random = Random::new(seed);
    let shapes = [
        // open 1 2; 3 4
        chain(5, &[(1, 1, 2), (1, 3, 4)]),
        // ends by beta 3
        chain(5, &[(3, 1, 2), (3, 3, 4)]),
        // nothing behind either dart: the slot of 0 is read
        chain(5, &[]),
        chain(5, &[(1, 1, 2)]),
        // a loop of one dart against itself
        chain(3, &[(1, 1, 1), (1, 2, 2)]),
    ];
    let mut tight = Loans::default();
    for _ in 0..rounds {
        comparison.maps += 1;
        let mut loans = Loans::around(random.pick(&shapes).clone());
        let defined = *random.pick(&[100, 100, 100, 80]);
        fill_vertices(&mut random, &mut loans, defined);
        if random.percent(25) {
            straighten(&mut random, &mut loans);
        }
        let n = loans.rows.len() / 4;
        let (ld, rd) = if n == 3 || random.percent(20) {
            (1 + random.below(n - 1) as u32, 1 + random.below(n - 1) as u32)
        } else {
            (1, 3)
        };
        comparison.check_with_rooms(&Call::TwoSew { ld, rd }, &loans, &mut tight);
    }
}
