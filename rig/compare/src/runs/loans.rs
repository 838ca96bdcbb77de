//! What is put into loans, and lengths that do not do.

use crate::kernel::Loans;
use crate::maps;
use crate::random::Random;

/// Slots as they may be lent (scope: vertices): defined or not, any coordinates, slot 0 like any other.
pub(super) fn fill_vertices(random: &mut Random, loans: &mut Loans, defined: usize) {
    for mark in &mut loans.vertex_marks {
        // any byte but 0 means defined
        *mark = if random.percent(defined) { 1 + random.below(255) as u8 } else { 0 };
    }
    for x in &mut loans.coordinates {
        *x = random.coordinate();
    }
}

/// A byte that stands for yes, 1 or another, so many times in a hundred, else 0.
pub(super) fn yes(random: &mut Random, percent: usize) -> u8 {
    match random.percent(percent) {
        true if random.percent(50) => 1,
        true => 1 + random.below(255) as u8,
        false => 0,
    }
}

/// Makes these darts unused and all others used. The flag of dart 0 and those behind the last dart are anything.
pub(super) fn put_unused(random: &mut Random, loans: &mut Loans, unused: &[usize]) {
    let n = loans.rows.len() / 4;
    for (d, flag) in loans.flags.iter_mut().enumerate() {
        let percent = if (1..n).contains(&d) { 100 * usize::from(unused.contains(&d)) } else { 50 };
        *flag = yes(random, percent);
    }
}

/// Makes so many in a hundred of the free darts unused and all others used, with any flags besides.
pub(super) fn fill_flags(random: &mut Random, loans: &mut Loans, percent: usize) {
    let n = loans.rows.len() / 4;
    for (d, flag) in loans.flags.iter_mut().enumerate() {
        *flag = match (1..n).contains(&d) {
            true if maps::is_free(&loans.rows, d) => yes(random, percent),
            true => 0,
            false => yes(random, 50),
        };
    }
}

/// Takes so many in a hundred of the darts out of the map, and makes most of the free ones unused.
pub(super) fn take_out(random: &mut Random, loans: &mut Loans, percent: usize) {
    for d in 1..loans.rows.len() / 4 {
        if random.percent(percent) {
            maps::set_free(&mut loans.rows, d);
        }
    }
    fill_flags(random, loans, if percent == 0 { 0 } else { 70 });
}

/// Sets a flag anywhere: of a dart that is linked, free, dart 0, or of none.
pub(super) fn spoil_flag(random: &mut Random, loans: &mut Loans) {
    if !loans.flags.is_empty() {
        let place = random.below(loans.flags.len());
        loans.flags[place] = yes(random, 100);
    }
}

/// Spoils a length: shorter or longer than it was, sometimes nothing.
pub(super) fn resize<T: Copy>(random: &mut Random, list: &mut Vec<T>, filler: T) {
    let length = match random.below(6) {
        0 => 0,
        1 => list.len().saturating_sub(1),
        2 => list.len().saturating_sub(2),
        3 => list.len() / 2,
        4 => list.len() + 1,
        _ => random.below(list.len() + 3),
    };
    list.resize(length, filler);
}
