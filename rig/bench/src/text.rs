//! The published Rust's lines.

use inkcapper::Cell;
use oracle::{Oracle, Orbit};

use crate::clock::time;
use crate::grid::{Grid, ROUNDS};
use crate::lines::{CELLS, Input, Line, Times, Who};
use crate::ours::Lists;

fn of_oracle(cell: Cell) -> oracle::Cell {
    match cell {
        Cell::Vertex => oracle::Cell::Vertex,
        Cell::Edge => oracle::Cell::Edge,
        Cell::Face => oracle::Cell::Face,
        Cell::Volume => oracle::Cell::Volume,
    }
}

/// The map in the text's own structure, vertices included.
pub fn hold(grid: &Grid) -> Oracle {
    let mut oracle = Oracle::new(grid.rows.len() / 4);
    oracle.put_rows(&grid.rows);
    oracle.put_vertices(&grid.vertex_marks, &grid.coordinates);
    oracle
}

/// The identifiers of the cells of all darts.
pub fn names(oracle: &Oracle, cell: Cell) -> Vec<u32> {
    (1..oracle.darts() as u32).map(|d| oracle.identifier(of_oracle(cell), d).1[0] as u32).collect()
}

/// Lists of these cells, held against ours.
pub fn whole_map(times: &mut Times, input: Input, oracle: &Oracle, cells: &[Cell], ours: &Lists, runs: usize) {
    for &cell in cells {
        let ours = &ours[cell as usize];
        let run = |_| {
            let mut list = Vec::new();
            let took = time(|| list = oracle.list(of_oracle(cell)).1);
            assert!(list == *ours, "another {}", Line::List(cell).name());
            took
        };
        times.put(Who::Text, input, Line::List(cell), &(0..runs).map(run).collect::<Vec<_>>());
    }
}

/// Single calls on the same probes, held against ours.
pub fn calls(times: &mut Times, input: Input, oracle: &mut Oracle, grid: &Grid, ours: &Lists, runs: usize) {
    let probes = &grid.probes;
    let mean = |total: f64| total / probes.len() as f64;
    let mut put = |line, found: &[f64]| times.put(Who::Text, input, line, found);
    let many = || (0..ROUNDS).flat_map(|_| probes.iter().copied());
    for (cell, ours) in CELLS.into_iter().zip(ours) {
        let id = |d| oracle.identifier(of_oracle(cell), d).1[0] as u32;
        assert!(probes.iter().map(|&d| id(d)).eq(ours.iter().copied()), "another {}", Line::Id(cell).name());
        let run = |_| mean(time(|| many().map(|d| u64::from(id(d))).sum::<u64>())) / ROUNDS as f64;
        put(Line::Id(cell), &(0..runs).map(run).collect::<Vec<_>>());
    }
    for (cell, orbit) in [(Cell::Vertex, Orbit::Vertex), (Cell::Volume, Orbit::Volume)] {
        let run = |_| mean(time(|| many().map(|d| oracle.orbit(orbit, d).1.len()).sum::<usize>())) / ROUNDS as f64;
        put(Line::Orbit(cell), &(0..runs).map(run).collect::<Vec<_>>());
    }
    let mut found: [Vec<f64>; 4] = Default::default();
    for _ in 0..runs {
        let rd = |beta: usize, d: u32| grid.rows[4 * d as usize + beta];
        // all probes by one call and then by the next, since one call is too short for the clock
        for (at, found) in found.iter_mut().enumerate() {
            let mut call = |d: u32| match at {
                0 => oracle.three_unlink(d).0,
                1 => oracle.three_link(d, rd(3, d)).0,
                2 => oracle.two_unsew(d).0.0,
                _ => oracle.two_sew(d, rd(2, d)).0.0,
            };
            let mut numbers = 0;
            found.push(mean(time(|| probes.iter().for_each(|&d| numbers |= call(d)))));
            assert_eq!(numbers, 0, "a refusal");
        }
    }
    let lines = [Line::ThreeUnlink, Line::ThreeLink, Line::TwoUnsew, Line::TwoSew];
    lines.into_iter().zip(&found).for_each(|(line, found)| put(line, found));
}
