//! Calls to make: every one, one that can be done, any at all.

use crate::kernel::{Call, Cell, Orbit};
use crate::random::Random;

pub(super) const CELLS: [Cell; 4] = [Cell::Vertex, Cell::Edge, Cell::Face, Cell::Volume];

/// Every class of orbits, and some Custom lists.
pub(super) fn orbits() -> Vec<Orbit> {
    vec![
        Orbit::Vertex,
        Orbit::VertexLinear,
        Orbit::Edge,
        Orbit::Face,
        Orbit::FaceLinear,
        Orbit::Volume,
        Orbit::VolumeLinear,
        Orbit::Custom(vec![]),
        Orbit::Custom(vec![0]),
        Orbit::Custom(vec![1]),
        Orbit::Custom(vec![3, 1, 2]),
        Orbit::Custom(vec![2, 0, 2, 3]),
        Orbit::Custom(vec![0, 1, 2, 3]),
    ]
}

/// Every call with every dart of a map of `n` darts, the null dart where it is allowed.
pub(super) fn every_call(n: usize) -> Vec<Call> {
    let mut calls = Vec::new();
    for d in 0..n as u32 {
        for i in 0..4 {
            calls.push(Call::Beta { i, d });
            calls.push(Call::IsIFree { i, d });
        }
        calls.push(Call::IsFree { d });
        calls.extend(CELLS.map(|cell| Call::Identifier { cell, d }));
        calls.extend(orbits().into_iter().map(|orbit| Call::Orbit { orbit, d }));
    }
    for ld in 1..n as u32 {
        calls.extend([
            Call::OneUnlink { ld },
            Call::TwoUnlink { ld },
            Call::ThreeUnlink { ld },
            Call::ThreeUnlinkCore { ld },
            Call::OneUnsew { ld },
            Call::TwoUnsew { ld },
            Call::ThreeUnsew { ld },
        ]);
        for rd in 1..n as u32 {
            calls.extend([
                Call::OneLink { ld, rd },
                Call::TwoLink { ld, rd },
                Call::ThreeLink { ld, rd },
                Call::ThreeLinkCore { ld, rd },
                Call::OneSew { ld, rd },
                Call::TwoSew { ld, rd },
            ]);
        }
    }
    calls.extend(CELLS.map(|cell| Call::List { cell }));
    calls.push(Call::CheckMap);
    calls
}

/// A dart for which `fits` holds, if a few tries find one; else, and now and then at once, any real dart.
fn dart(random: &mut Random, n: usize, fits: impl Fn(u32) -> bool) -> u32 {
    let mut d = 1 + random.below(n - 1) as u32;
    let tries = if random.percent(3) { 0 } else { 12 };
    for _ in 0..tries {
        if fits(d) {
            break;
        }
        d = 1 + random.below(n - 1) as u32;
    }
    d
}

/// A call on this map, more often than not one that can be done.
pub(super) fn some_call(random: &mut Random, rows: &[u32], flags: &[u8]) -> Call {
    let n = rows.len() / 4;
    let free = |i: usize| move |d: u32| rows[4 * d as usize + i] == 0 && flags[d as usize] == 0;
    let bound = |i: usize| move |d: u32| rows[4 * d as usize + i] != 0;
    let any = random.below(n) as u32;
    match random.below(25) {
        0 => Call::Beta { i: random.below(4) as u32, d: any },
        1 => Call::IsIFree { i: random.below(4) as u32, d: any },
        2 => Call::IsFree { d: any },
        3 | 4 => Call::Identifier { cell: *random.pick(&CELLS), d: any },
        5 => {
            let betas = (0..random.below(6)).map(|_| random.below(4) as u8).collect();
            Call::Orbit { orbit: Orbit::Custom(betas), d: any }
        }
        6 | 7 => Call::Orbit { orbit: random.pick(&orbits()[..7]).clone(), d: any },
        8 => Call::List { cell: *random.pick(&CELLS) },
        24 => Call::CheckMap,
        _ if n < 2 => Call::IsFree { d: any },
        9 => Call::OneLink { ld: dart(random, n, free(1)), rd: dart(random, n, free(0)) },
        10 => Call::TwoLink { ld: dart(random, n, free(2)), rd: dart(random, n, free(2)) },
        11 | 12 => Call::ThreeLink { ld: dart(random, n, free(3)), rd: dart(random, n, free(3)) },
        13 => Call::OneUnlink { ld: dart(random, n, bound(1)) },
        14 => Call::TwoUnlink { ld: dart(random, n, bound(2)) },
        15 => Call::ThreeUnlink { ld: dart(random, n, bound(3)) },
        16 | 17 => Call::OneSew { ld: dart(random, n, free(1)), rd: dart(random, n, free(0)) },
        18 => Call::OneUnsew { ld: dart(random, n, bound(1)) },
        19 | 20 => Call::TwoSew { ld: dart(random, n, free(2)), rd: dart(random, n, free(2)) },
        21 => Call::TwoUnsew { ld: dart(random, n, bound(2)) },
        _ => Call::ThreeUnsew { ld: dart(random, n, bound(3)) },
    }
}

/// A number that may be past every limit.
pub(super) fn any_number(random: &mut Random, n: usize) -> u32 {
    match random.below(8) {
        0 => 0,
        1 => n as u32,
        2 => n as u32 + 1,
        3 => u32::MAX,
        4 => 0x8000_0000,
        5 => 1_048_576,
        _ => random.below(n + 1) as u32,
    }
}

/// Any call with any numbers.
pub(super) fn any_call(random: &mut Random, n: usize) -> Call {
    let (i, ld, rd) =
        (*random.pick(&[0, 1, 2, 3, 4, 5, 255, 256, 259, u32::MAX]), any_number(random, n), any_number(random, n));
    match random.below(20) {
        0 => Call::Beta { i, d: ld },
        1 => Call::IsIFree { i, d: ld },
        2 => Call::IsFree { d: ld },
        3 => Call::OneLink { ld, rd },
        4 => Call::TwoLink { ld, rd },
        5 => Call::ThreeLink { ld, rd },
        6 => Call::OneUnlink { ld },
        7 => Call::TwoUnlink { ld },
        8 => Call::ThreeUnlink { ld },
        9 => Call::OneSew { ld, rd },
        10 => Call::OneUnsew { ld },
        11 | 12 => Call::TwoSew { ld, rd },
        13 => Call::TwoUnsew { ld },
        14 => Call::ThreeUnsew { ld },
        15 => Call::Identifier { cell: *random.pick(&CELLS), d: ld },
        16 => Call::Orbit { orbit: random.pick(&orbits()[..7]).clone(), d: ld },
        17 => {
            let betas = (0..random.below(5)).map(|_| *random.pick(&[0, 1, 2, 3, 3, 2, 4, 255])).collect();
            Call::Orbit { orbit: Orbit::Custom(betas), d: ld }
        }
        18 => Call::List { cell: *random.pick(&CELLS) },
        _ => Call::CheckMap,
    }
}
