//! Answers as lines, for fixed lists: name and numbers | flags | rows | number and values | rows after | what was
//! written (plan entries or darts; by a list of commands its answers and then its plan). Flags are those of the
//! darts alone.

use super::calls::{any_call, any_number, every_call};
use super::lists::{lend, some_list};
use super::loans::{fill_flags, put_unused};
use crate::kernel::{Answer, Call, ENTRY_NUMBERS, Kernel, Loans};
use crate::kernels::{Model, Published};
use crate::maps;
use crate::random::Random;

/// Numbers with a space between each two.
fn words<T: ToString>(list: &[T]) -> String {
    list.iter().map(T::to_string).collect::<Vec<_>>().join(" ")
}

/// The line of a call; `note` stands behind its name.
fn line(call: &Call, note: &str, before: &[u32], (number, [a, b, c]): Answer, loans: &Loans) -> String {
    let (output, plan) = match call {
        _ if number != 0 => (0, 0),
        Call::Orbit { .. } | Call::List { .. } => (b as usize, 0),
        Call::Commands => (loans.commands.len() / 3 * 5, ENTRY_NUMBERS * b as usize),
        call if call.plans() => (0, ENTRY_NUMBERS * b as usize),
        _ => (0, 0),
    };
    let written = words(&[&loans.output[..output], &loans.plan[..plan]].concat());
    let numbers = if *call == Call::Commands { loans.commands.clone() } else { call.numbers() };
    let name = [call.name().to_string() + note, words(&numbers)].join(" ");
    let (flags, before, after) = (words(&loans.flags[..before.len() / 4]), words(before), words(&loans.rows));
    format!("{} | {flags} | {before} | {number} {a} {b} {c} | {after} | {written}", name.trim_end())
}

/// Vertices for 2-sews: none for 0; for 1 and 2 those of the two worked 2-sews, 2 at (1,0,0), and 3
/// there too or 4 at (0,1,0), all else at (0,0,0).
fn put_points(loans: &mut Loans, points: usize) {
    loans.vertex_marks.fill(u8::from(points > 0));
    loans.coordinates.fill(0.0);
    let ones = [&[][..], &[6, 9], &[6, 13]];
    for &place in ones[points.min(2)] {
        if let Some(x) = loans.coordinates.get_mut(place) {
            *x = 1.0;
        }
    }
}

/// The kernel's own answers over all maps of `k` real darts, every `stride`-th call that it has, with no dart
/// unused. With `points` 0 there are no vertices; else only 2-sews are asked, and the points are noted
/// behind the name.
pub fn answers(kernel: &mut dyn Kernel, k: usize, stride: usize, points: usize, mut each: impl FnMut(String)) {
    let n = k + 1;
    let mut calls = every_call(n);
    let mut loans = Loans::around(vec![0; 4 * n]);
    loans.flags.fill(0);
    calls.retain(|call| kernel.has_say(call, &loans));
    calls.retain(|call| points == 0 || matches!(call, Call::TwoSew { .. }));
    let note = if points == 0 { String::new() } else { format!("@{points}") };
    put_points(&mut loans, points);
    let mut at = 0;
    maps::all_of(k, |rows| {
        for call in &calls {
            at += 1;
            if at % stride.max(1) == 0 {
                loans.rows.copy_from_slice(rows);
                let answer = kernel.run(call, &mut loans);
                each(line(call, &note, rows, answer, &loans));
            }
        }
    });
}

/// The model's refusals 1, 3, 4 and 5 of calls on no rows, on rows of which one image was changed, and
/// with numbers that are no darts or betas, a quarter of `count` each; no dart is unused, and all numbers are
/// below 256. The Rust has no such refusals.
pub fn wrong(count: usize, seed: u64, mut each: impl FnMut(String)) {
    let mut random = Random::new(seed);
    let mut left = [0, count / 4, 0, count / 4, count / 4, count / 4];
    while left != [0; 6] {
        let n = random.below(5);
        let mut rows = if n == 0 { Vec::new() } else { maps::wild(&mut random, n) };
        if n > 0 && random.percent(50) {
            let place = random.below(rows.len());
            rows[place] = any_number(&mut random, n) % 256;
        }
        let call = any_call(&mut random, n);
        let mut loans = Loans::around(rows.clone());
        loans.flags.fill(0);
        let answer = Model.run(&call, &mut loans);
        let small = call.numbers().iter().all(|&x| x < 256);
        let number = answer.0 as usize;
        if small && call != Call::CheckMap && left.get(number).is_some_and(|&left| left > 0) {
            left[number] -= 1;
            each(line(&call, "", &rows, answer, &loans));
        }
    }
}

/// What an unused dart has to do with a call: nothing, or the place of its answer among those that are counted.
fn kind(call: &Call, number: u32, flags: &[u8]) -> Option<usize> {
    let darts = if let Call::Orbit { d, .. } = call { vec![*d] } else { call.numbers() };
    let names_unused = darts.iter().any(|&d| flags.get(d as usize).is_some_and(|&flag| d > 0 && flag != 0));
    match (call, number) {
        (Call::Beta { .. } | Call::IsIFree { .. } | Call::IsFree { .. } | Call::CheckMap, ..) => None,
        (_, 3) => Some(0),
        (_, 4) if names_unused => Some(1),
        (Call::Identifier { .. } | Call::Orbit { .. }, 0) if names_unused => Some(2),
        (_, 0 | 6..11) if !names_unused => Some(3),
        _ => None,
    }
}

/// Calls on small maps of which one dart at least is unused, a quarter of `count` each: refusals 3 of an unused
/// dart that is linked, now and then with an image changed besides; refusals 4 of an unused argument; identifiers
/// and orbits of an unused dart; other calls beside one. The first two are the model's, the others the published
/// Rust's. Numbers are below 256.
pub fn unused(count: usize, seed: u64, mut each: impl FnMut(String)) {
    let mut random = Random::new(seed);
    let mut published = Published::default();
    let mut left = [count / 4; 4];
    while left != [0; 4] {
        let n = 2 + random.below(4);
        let mut rows = if random.percent(50) { maps::wild(&mut random, n) } else { maps::faces(&mut random, n) };
        let one = 1 + random.below(n - 1);
        if random.percent(75) {
            maps::set_free(&mut rows, one);
        }
        let also: Vec<usize> = (1..n).filter(|&d| maps::is_free(&rows, d) && random.percent(30)).collect();
        if random.percent(3) {
            let place = random.below(rows.len());
            rows[place] = any_number(&mut random, n) % 256;
        }
        let mut loans = Loans::around(rows.clone());
        put_unused(&mut random, &mut loans, &[&also[..], &[one]].concat());
        put_points(&mut loans, 0);
        let call = if random.percent(20) { any_call(&mut random, n) } else { random.pick(&every_call(n)).clone() };
        // the bare cores and the map test are not replayed
        let replayed = !call.name().starts_with('(') && call != Call::CheckMap;
        let small = *call.numbers().iter().max().unwrap_or(&0) < 256;
        let kernel: &mut dyn Kernel = if published.has_say(&call, &loans) { &mut published } else { &mut Model };
        let answer = kernel.run(&call, &mut loans);
        if let Some(left) = kind(&call, answer.0, &loans.flags[..n]).and_then(|kind| left.get_mut(kind))
            && replayed
            && small
            && *left > 0
        {
            *left -= 1;
            each(line(&call, "", &rows, answer, &loans));
        }
    }
}

/// A small map, of which free darts may be unused, and a list of up to six commands on it; all numbers are below
/// 256. Now and then the list is no whole commands or has none, an image was changed, a linked dart is unused, or
/// there are no rows.
fn some_loans(random: &mut Random) -> Loans {
    let n = 2 + random.below(7);
    let mut loans = Loans::around(if random.percent(50) { maps::wild(random, n) } else { maps::faces(random, n) });
    loans.flags.fill(0);
    if random.percent(40) {
        maps::set_free(&mut loans.rows, 1 + random.below(n - 1));
        fill_flags(random, &mut loans, 70);
    }
    let commands = 1 + random.below(5);
    let mut list = some_list(random, &loans, commands);
    if let Some(d) = (1..n).find(|&d| loans.flags[d] != 0).filter(|_| random.percent(60)) {
        // of the second dart of a link or sew, at which an unlink or unsew does not look
        list[random.below(commands)][2] = d as u32;
    }
    lend(&mut loans, &list);
    match random.below(40) {
        0 => loans.rows.clear(),
        6 => loans.flags[1 + random.below(n - 1)] = 1,
        1 | 2 => {
            let place = random.below(loans.rows.len());
            loans.rows[place] = any_number(random, n) % 256;
        }
        3 | 4 => _ = loans.commands.pop(),
        5 => loans.commands.clear(),
        _ => {}
    }
    loans.commands.iter_mut().for_each(|number| *number %= 256);
    loans
}

/// Lists of commands with the published Rust's answers, and with the model's where the whole list is refused.
/// Points, and the words of plan that are lent, at most 64, are noted behind the name.
pub fn listed(count: usize, seed: u64, mut each: impl FnMut(String)) {
    let mut random = Random::new(seed);
    let mut published = Published::default();
    for _ in 0..count {
        let mut loans = some_loans(&mut random);
        let points = *random.pick(&[0, 0, 0, 1, 2]);
        put_points(&mut loans, points);
        // ample, or up to four entries and some words that are no whole one
        let room = if random.percent(40) { 64 } else { ENTRY_NUMBERS * random.below(20) / 4 };
        loans.plan.resize(room, 0);
        let before = loans.rows.clone();
        let kernel: &mut dyn Kernel =
            if published.has_say(&Call::Commands, &loans) { &mut published } else { &mut Model };
        let answer = kernel.run(&Call::Commands, &mut loans);
        each(line(&Call::Commands, &format!("@{points}/{room}"), &before, answer, &loans));
    }
}
