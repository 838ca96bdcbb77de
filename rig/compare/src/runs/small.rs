//! All small maps.

use super::calls::every_call;
use super::loans::{fill_vertices, put_unused, yes};
use crate::check::Comparison;
use crate::kernel::{Call, Loans};
use crate::maps;
use crate::random::Random;

/// Slots for a 2-sew: marks and coordinates.
type Setting = (Vec<u8>, Vec<f64>);

/// Random settings of the slots of `n` darts.
fn settings(random: &mut Random, n: usize) -> Vec<Setting> {
    let setting = |_| {
        let mut set = Loans::around(vec![0; 4 * n]);
        let defined = *random.pick(&[60, 90, 100, 100]);
        fill_vertices(random, &mut set, defined);
        (set.vertex_marks, set.coordinates)
    };
    (0..97).map(setting).collect()
}

/// The map test on the map with one image changed: to every number up to n, at every place; of five
/// darts and more at one place only, since there are so many maps. To one of the numbers with any flags, too.
fn one_change(comparison: &mut Comparison, random: &mut Random, loans: &mut Loans) {
    let (places, n) = (loans.rows.len(), loans.rows.len() / 4);
    let only = if n > 5 { Some(random.below(places)) } else { None };
    let flags = loans.flags.clone();
    for place in (0..places).filter(|&place| only.is_none_or(|only| only == place)) {
        let old = loans.rows[place];
        for to in (0..=n as u32).filter(|&to| to != old) {
            loans.rows[place] = to;
            comparison.check(&Call::CheckMap, loans);
        }
        loans.rows[place] = random.below(n + 1) as u32;
        let unused = *random.pick(&[20, 50, 100]);
        loans.flags.fill_with(|| yes(random, unused));
        comparison.check(&Call::CheckMap, loans);
        loans.flags.clone_from(&flags);
        loans.rows[place] = old;
    }
}

/// Every choice of darts to be unused, linked ones among them: the map test, and one call of all.
fn any_unused(comparison: &mut Comparison, random: &mut Random, loans: &mut Loans, calls: &[Call]) {
    let n = loans.rows.len() / 4;
    for choice in 0..1usize << (n - 1) {
        let unused: Vec<usize> = (1..n).filter(|d| choice >> (d - 1) & 1 == 1).collect();
        put_unused(random, loans, &unused);
        comparison.check(&Call::CheckMap, loans);
        comparison.check(random.pick(calls), loans);
    }
}

/// A call again with other vertices or rows, where it looks at them.
fn again(comparison: &mut Comparison, random: &mut Random, loans: &mut Loans, call: &Call, settings: &[Setting]) {
    let mut tight = Loans::default();
    match call {
        Call::TwoSew { .. } => {
            for _ in 0..2 {
                let (marks, coordinates) = random.pick(settings);
                loans.vertex_marks.clone_from(marks);
                loans.coordinates.clone_from(coordinates);
                comparison.check_with_rooms(call, loans, &mut tight);
            }
        }
        Call::CheckMap => one_change(comparison, random, loans),
        _ => {}
    }
}

/// All well-formed maps of `k` real darts, with every choice of unused ones among the free, with every call and
/// dart; 2-sews without vertices and with two random settings, plans with little, just enough and ample room; the
/// map test also with one image changed; and flags of linked darts.
///
/// Part `part`, counted from 0, of `parts`.
pub fn small(comparison: &mut Comparison, k: usize, part: usize, parts: usize) {
    let n = k + 1;
    let calls = every_call(n);
    let mut random = Random::new(k as u64);
    let mut loans = Loans::around(vec![0; 4 * n]);
    let mut tight = Loans::default();
    let settings = settings(&mut random, n);
    maps::part_of(k, part, parts, |rows| {
        comparison.maps += 1;
        loans.rows.copy_from_slice(rows);
        for unused in maps::unused_choices(rows) {
            put_unused(&mut random, &mut loans, &unused);
            for call in &calls {
                loans.vertex_marks.fill(0);
                comparison.check_with_rooms(call, &loans, &mut tight);
                again(comparison, &mut random, &mut loans, call, &settings);
            }
        }
        any_unused(comparison, &mut random, &mut loans, &calls);
    });
}
