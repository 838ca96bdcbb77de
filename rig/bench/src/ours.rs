//! The proved library's lines.

use inkcapper::{Answer, Cell, slices};

use crate::clock::time;
use crate::grid::{Grid, used};
use crate::lines::{CALLS, CELLS, Input, Line, PASSES, Times, Who};

/// All that a call is lent, at its least size. No dart is unused.
struct Scratch {
    marks: Vec<u8>,
    queue: Vec<u32>,
    output: Vec<u32>,
    flags: Vec<u8>,
    plan: Vec<u32>,
}

impl Scratch {
    fn of(rows: &[u32]) -> Self {
        let n = rows.len() / 4;
        Self { marks: vec![0; n], queue: vec![0; n], output: vec![0; n], flags: used(n), plan: vec![0; 64] }
    }

    /// A list, and how long it took.
    fn list(&mut self, cell: Cell, rows: &[u32]) -> (f64, usize) {
        let call = match cell {
            Cell::Vertex => slices::list_vertices,
            Cell::Edge => slices::list_edges,
            Cell::Face => slices::list_faces,
            Cell::Volume => slices::list_volumes,
        };
        let mut count = 0;
        let took = time(|| {
            let answer = call(rows, &mut self.marks, &mut self.queue, &mut self.output, &self.flags);
            count = answer.done().expect("a list").1 as usize;
        });
        (took, count)
    }
}

/// What the lists hold, so that others can be held against them.
pub type Lists = [Vec<u32>; 4];

/// One pass over the rows or the scratch, and how long it took.
fn pass(line: Line, rows: &[u32], scratch: &mut Scratch) -> f64 {
    let n = (rows.len() / 4) as u32;
    match line {
        Line::Read => time(|| rows.iter().map(|&word| u64::from(word)).sum::<u64>()),
        Line::ReadEach => time(|| rows.iter().position(|&word| word >= n)),
        Line::ClearMarks => time(|| scratch.marks.fill(0)),
        Line::ClearScratch => time(|| {
            scratch.marks.fill(0);
            scratch.queue.fill(0);
        }),
        Line::MapTest => time(|| slices::check_map(rows, &scratch.flags).done().expect("a map")),
        _ => unreachable!("not a pass"),
    }
}

/// Passes and lists. Each run goes through all lines, so that a busy spell of the machine falls on all
/// of them.
pub fn whole_map(times: &mut Times, input: Input, rows: &[u32], runs: usize) -> Lists {
    let mut scratch = Scratch::of(rows);
    let mut lists = Lists::default();
    for _ in 0..runs {
        for line in PASSES {
            // a pass over the rows comes after one of the same kind, so that none finds the rows in a cache that
            // another did not; scratch is cleared after a pass over the rows, as in a call
            if matches!(line, Line::ClearMarks | Line::ClearScratch) {
                pass(Line::MapTest, rows, &mut scratch);
            } else {
                times.put(Who::Ours, input, line, &[pass(line, rows, &mut scratch)]);
            }
            times.put(Who::Ours, input, line, &[pass(line, rows, &mut scratch)]);
        }
        for (at, cell) in CELLS.into_iter().enumerate() {
            let (took, count) = scratch.list(cell, rows);
            times.put(Who::Ours, input, Line::List(cell), &[took]);
            lists[at] = scratch.output[..count].to_vec();
        }
    }
    lists
}

/// The clearing of marks and queue alone, after a map test as in [`whole_map`].
pub fn clearing(times: &mut Times, input: Input, rows: &[u32], runs: usize) {
    let mut scratch = Scratch::of(rows);
    for _ in 0..runs {
        pass(Line::MapTest, rows, &mut scratch);
        times.put(Who::Ours, input, Line::ClearScratch, &[pass(Line::ClearScratch, rows, &mut scratch)]);
    }
}

/// The list of edges, with a map test timed right before it, so that what the list takes beyond its own is a
/// difference within a run. Returns the list.
pub fn edge_list(times: &mut Times, input: Input, rows: &[u32], runs: usize) -> Vec<u32> {
    let mut scratch = Scratch::of(rows);
    let mut list = Vec::new();
    for _ in 0..runs {
        let test = pass(Line::MapTest, rows, &mut scratch);
        let (took, count) = scratch.list(Cell::Edge, rows);
        times.put(Who::Ours, input, Line::EdgeListTest, &[test]);
        times.put(Who::Ours, input, Line::EdgeList, &[took]);
        times.put(Who::Ours, input, Line::BeyondEdgeList, &[took - test]);
        list = scratch.output[..count].to_vec();
    }
    list
}

/// The single calls at these places of [`CALLS`]: each run is the mean over the probes. Returns the identifiers found.
///
/// Every call contains one map test, which is most of it; so a map test is timed right beside each, and
/// what the call took beyond it is the difference within a run, not between medians.
pub fn calls(times: &mut Times, input: Input, grid: &mut Grid, places: &[usize], runs: usize) -> Lists {
    let mut scratch = Scratch::of(&grid.rows);
    let Grid { rows, vertex_marks, coordinates, probes } = grid;
    // what an unlink or unsew of a probe takes away, and the link or sew puts back
    let partners =
        |rows: &[u32], beta: usize| -> Vec<u32> { probes.iter().map(|&d| rows[4 * d as usize + beta]).collect() };
    let (across, beside) = (partners(rows, 3), partners(rows, 2));
    let mut found: [[Vec<f64>; 2]; CALLS.len()] = Default::default();
    let mut ids = Lists::default();
    for _ in 0..runs {
        for &at in places {
            let Scratch { marks, queue, output, flags, plan } = &mut scratch;
            let test = time(|| probes.iter().for_each(|_| _ = slices::check_map(rows, flags).done().expect("a map")));
            // choosing the call each time is nothing beside a map test
            let mut call = |k: usize, d: u32| match CALLS[at] {
                Line::Id(cell) => identifier(cell)(rows, marks, queue, flags, d),
                Line::Orbit(Cell::Vertex) => slices::orbit_vertex(rows, marks, output, flags, d),
                Line::Orbit(_) => slices::orbit_volume(rows, marks, output, flags, d),
                Line::ThreeUnlink => slices::three_unlink(rows, flags, d),
                Line::ThreeLink => slices::three_link(rows, flags, d, across[k]),
                Line::TwoUnsew => slices::two_unsew(rows, marks, queue, flags, plan, d),
                Line::TwoSew => {
                    slices::two_sew(rows, marks, queue, flags, vertex_marks, coordinates, plan, d, beside[k])
                }
                _ => unreachable!("not a single call"),
            };
            let mut answers = Vec::with_capacity(probes.len());
            let took = time(|| answers.extend(probes.iter().enumerate().map(|(k, &d)| call(k, d))));
            let answers = answers.into_iter().map(|answer| answer.done().expect("done").0).collect();
            if let Line::Id(cell) = CALLS[at] {
                ids[cell as usize] = answers;
            }
            let mean = |total: f64| total / probes.len() as f64;
            found[at][0].push(mean(took));
            found[at][1].push(mean(test));
        }
    }
    for &at in places {
        put_call(times, input, at, &found[at]);
    }
    ids
}

/// The times of a single call, of the map test beside it, and of what is beyond that.
fn put_call(times: &mut Times, input: Input, at: usize, [took, test]: &[Vec<f64>; 2]) {
    let beyond: Vec<f64> = took.iter().zip(test).map(|(took, test)| took - test).collect();
    times.put(Who::Ours, input, CALLS[at], took);
    times.put(Who::Ours, input, Line::TestBeside(at), test);
    times.put(Who::Ours, input, Line::Beyond(at), &beyond);
}

type Identifier = fn(&[u32], &mut [u8], &mut [u32], &[u8], u32) -> Answer;

fn identifier(cell: Cell) -> Identifier {
    match cell {
        Cell::Vertex => slices::vertex_id,
        Cell::Edge => slices::edge_id,
        Cell::Face => slices::face_id,
        Cell::Volume => slices::volume_id,
    }
}
