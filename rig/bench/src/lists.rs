//! Lists of commands: inner faces glued, a grid built from free darts, and what a command costs by its operation.

use inkcapper::{ENTRY_NUMBERS, slices};
use oracle::{Entry, Oracle};

use crate::clock::{Spread, human, time};
use crate::grid::{Grid, used};
use crate::lines::{Input, Line, Times, Who};
use crate::report::{cell, ratio, signed_cell, thousands, times_text};

/// A command: operation, first dart, second dart.
pub type Command = [u32; 3];

/// The operations by their numbers from 1 on, each with which darts it is measured.
const OPERATIONS: [(&str, Darts); 11] = [
    ("1-link", Darts::All),
    ("2-link", Darts::Edges),
    ("3-link", Darts::Faces),
    ("1-sew", Darts::Cubes),
    ("2-sew", Darts::Cubes),
    ("1-unlink", Darts::All),
    ("2-unlink", Darts::Edges),
    ("3-unlink", Darts::Faces),
    ("1-unsew", Darts::Cubes),
    ("2-unsew", Darts::Cubes),
    ("3-unsew", Darts::Faces),
];

/// Which darts of a grid are taken.
#[derive(Clone, Copy, PartialEq)]
enum Darts {
    All,
    /// One for each edge of each cube.
    Edges,
    /// One for each inner face.
    Faces,
    /// One for each cube, so that the cells of the grid stay nearly whole.
    Cubes,
}

impl Darts {
    fn name(self) -> &'static str {
        match self {
            Self::All => "every dart",
            Self::Edges => "every edge of every cube",
            Self::Faces => "every inner face",
            Self::Cubes => "a dart of every cube",
        }
    }

    /// How many a grid has.
    fn count(self, side: usize) -> usize {
        match self {
            Self::All => 24 * side.pow(3),
            Self::Edges => 12 * side.pow(3),
            Self::Faces => 3 * side.pow(2) * (side - 1),
            Self::Cubes => side.pow(3),
        }
    }

    /// Them, in the grid with these rows.
    fn of(self, side: usize, rows: &[u32]) -> Vec<u32> {
        let all = 1..(rows.len() / 4) as u32;
        match self {
            Self::All => all.collect(),
            Self::Edges => all.filter(|&d| d < image(rows, 2, d)).collect(),
            Self::Faces => inner_faces(side),
            Self::Cubes => all.skip(4).step_by(24).collect(),
        }
    }
}

pub fn image(rows: &[u32], i: usize, d: u32) -> u32 {
    rows[4 * d as usize + i]
}

/// A dart of each inner face, cube by cube, as cgal/cells.cpp takes them: in a cube whose darts are numbered from
/// 1 it is 5 to the next cube in x, 24 in y and 9 in z.
fn inner_faces(side: usize) -> Vec<u32> {
    let mut darts = Vec::new();
    for cube in 0..side.pow(3) {
        let at = [cube % side, cube / side % side, cube / side.pow(2)];
        let inner = [5, 24, 9].into_iter().zip(at).filter(|&(_, at)| at + 1 < side);
        darts.extend(inner.map(|(local, _)| (24 * cube + local) as u32));
    }
    darts
}

/// Commands of an operation on these darts, with the images of the whole grid as second darts.
fn commands(operation: u32, darts: &[u32], rows: &[u32]) -> Vec<Command> {
    let beta = match operation {
        1 | 4 => Some(1),
        2 | 5 => Some(2),
        3 => Some(3),
        _ => None,
    };
    darts.iter().map(|&d| [operation, d, beta.map_or(0, |beta| image(rows, beta, d))]).collect()
}

/// The most entries that a command of an operation plans here, where faces have four darts.
fn entries(operation: u32) -> usize {
    match operation {
        4 | 9 => 1,
        5 | 10 => 3,
        11 => 10,
        _ => 0,
    }
}

/// What a list is lent beside rows and points, touched before it is measured. No dart is unused.
pub struct Lent {
    marks: Vec<u8>,
    queue: Vec<u32>,
    pub output: Vec<u32>,
    flags: Vec<u8>,
    plan: Vec<u32>,
}

impl Lent {
    /// For lists of up to so many commands and entries.
    pub fn of(n: usize, commands: usize, entries: usize) -> Self {
        let (output, flags) = (vec![1; 5 * commands], used(n));
        Self { marks: vec![1; n], queue: vec![1; n], output, flags, plan: vec![1; ENTRY_NUMBERS * entries] }
    }

    /// Makes a list: how long it took, and how many entries it wrote.
    pub fn make(&mut self, rows: &mut [u32], grid: &Grid, list: &[Command]) -> (f64, usize) {
        let Self { marks, queue, output, flags, plan } = self;
        let (points, at) = (&grid.vertex_marks, &grid.coordinates);
        let mut count = 0;
        let took = time(|| {
            let answer = slices::commands(rows, marks, queue, output, flags, points, at, plan, list.as_flattened());
            count = answer.done().expect("a list").1 as usize;
        });
        (took, count)
    }

    /// Makes a list, of which every command has to be done: how long it took, and its plan.
    fn run(&mut self, rows: &mut [u32], grid: &Grid, list: &[Command]) -> (f64, &[u32]) {
        let (took, count) = self.make(rows, grid, list);
        assert!(self.output.chunks_exact(5).take(list.len()).all(|five| five[0] == 0), "a refusal");
        (took, &self.plan[..ENTRY_NUMBERS * count])
    }
}

/// Whether a plan of ours says what the published Rust does, which has no sizes: codes and identifiers.
fn same_plan(ours: &[u32], rust: &[Entry]) -> bool {
    ours.chunks_exact(ENTRY_NUMBERS).map(|entry| &entry[..4]).eq(rust)
}

/// A command as a single call of the published Rust; its plan is put behind what is there. Gives its number.
fn single(oracle: &mut Oracle, plan: &mut Vec<Entry>, [operation, ld, rd]: Command) -> u32 {
    let sewn = match operation {
        1 => return oracle.one_link(ld, rd).0,
        2 => return oracle.two_link(ld, rd).0,
        3 => return oracle.three_link(ld, rd).0,
        6 => return oracle.one_unlink(ld).0,
        7 => return oracle.two_unlink(ld).0,
        8 => return oracle.three_unlink(ld).0,
        4 => oracle.one_sew(ld, rd),
        5 => oracle.two_sew(ld, rd),
        9 => oracle.one_unsew(ld),
        10 => oracle.two_unsew(ld),
        _ => oracle.three_unsew(ld),
    };
    plan.extend(sewn.1);
    sewn.0.0
}

/// The commands as single calls of the published Rust, all of which have to be done: how long they took.
fn singles(oracle: &mut Oracle, plan: &mut Vec<Entry>, list: &[Command]) -> f64 {
    plan.clear();
    let mut numbers = 0;
    let took = time(|| list.iter().for_each(|&command| numbers |= single(oracle, plan, command)));
    assert_eq!(numbers, 0, "a refusal");
    took
}

/// The rows that the oracle holds have to be these.
fn same_rows(oracle: &Oracle, rows: &[u32]) {
    let mut held = Vec::new();
    oracle.take_rows(&mut held);
    assert!(held == rows, "other rows");
}

/// How often ours and the published Rust are measured; the Rust not more often than ours.
#[derive(Clone, Copy)]
pub struct Runs {
    pub ours: usize,
    pub text: usize,
}

/// Times of a list: ours, the empty list right before it, and the published Rust's.
#[derive(Default)]
pub struct Found {
    pub ours: Vec<f64>,
    pub empty: Vec<f64>,
    pub text: Vec<f64>,
}

/// A list from these rows to the grid's, ours and the published Rust's, with the same plan.
pub fn to_grid(grid: &Grid, oracle: &mut Oracle, start: &[u32], list: &[Command], runs: Runs) -> Found {
    let room = list.iter().map(|command| entries(command[0])).sum();
    let mut lent = Lent::of(grid.vertex_marks.len(), list.len(), room);
    let (mut rows, mut plan) = (start.to_vec(), Vec::with_capacity(room));
    let mut found = Found::default();
    for _ in 0..runs.text {
        oracle.put_rows(start);
        found.text.push(singles(oracle, &mut plan, list));
        same_rows(oracle, &grid.rows);
    }
    for _ in 0..runs.ours {
        rows.copy_from_slice(start);
        found.empty.push(lent.run(&mut rows, grid, &[]).0);
        let (took, written) = lent.run(&mut rows, grid, list);
        assert!(rows == grid.rows && same_plan(written, &plan), "other rows, or another plan");
        found.ours.push(took);
    }
    found
}

/// All inner faces of a grid 3-linked: its cubes are built and not glued yet.
fn glue(times: &mut Times, input: Input, side: usize, grid: &Grid, oracle: &mut Oracle, runs: Runs) {
    let list = commands(3, &inner_faces(side), &grid.rows);
    let mut start = grid.rows.clone();
    start.iter_mut().skip(3).step_by(4).for_each(|image| *image = 0);
    let Found { ours, empty, text } = to_grid(grid, oracle, &start, &list, runs);
    let a_face = |took: f64| took / list.len() as f64;
    for (took, empty) in ours.into_iter().zip(empty) {
        times.put(Who::Ours, input, Line::Glue, &[a_face(took)]);
        times.put(Who::Ours, input, Line::BeyondGlue, &[a_face(took - empty)]);
    }
    times.put(Who::Text, input, Line::Glue, &text.into_iter().map(a_face).collect::<Vec<_>>());
}

/// A grid built from free darts: 1-links make its quads, 2-sews with points its cubes, and 3-links glue them.
fn build(times: &mut Times, input: Input, side: usize, grid: &Grid, oracle: &mut Oracle, runs: Runs) {
    let parts = [(1, Darts::All), (5, Darts::Edges), (3, Darts::Faces)];
    let list: Vec<Command> = parts
        .into_iter()
        .flat_map(|(operation, darts)| commands(operation, &darts.of(side, &grid.rows), &grid.rows))
        .collect();
    let Found { ours, text, .. } = to_grid(grid, oracle, &vec![0; grid.rows.len()], &list, runs);
    times.put(Who::Ours, input, Line::Build, &ours);
    times.put(Who::Text, input, Line::Build, &text);
}

/// Every operation in a list of its own, from the whole grid and back: first what takes apart, then what puts
/// together again.
fn operations(times: &mut Times, input: Input, side: usize, grid: &Grid, oracle: &mut Oracle, runs: Runs) {
    let mut lent =
        Lent::of(grid.vertex_marks.len(), Darts::All.count(side), 10 * Darts::Faces.count(side).max(side.pow(3)));
    let (mut rows, mut plan) = (grid.rows.clone(), Vec::with_capacity(lent.plan.len() / ENTRY_NUMBERS));
    for (apart, together) in [(6, 1), (7, 2), (8, 3), (9, 4), (10, 5), (11, 3)] {
        let darts = OPERATIONS[apart as usize - 1].1.of(side, &grid.rows);
        let lists = [apart, together].map(|operation| commands(operation, &darts, &grid.rows));
        let mean = |took: f64| took / darts.len() as f64;
        for run in 0..runs.ours {
            let with_text = run < runs.text;
            if with_text {
                oracle.put_rows(&grid.rows);
            }
            for (list, operation) in lists.iter().zip([apart, together]) {
                let text = with_text.then(|| singles(oracle, &mut plan, list));
                let (empty, _) = lent.run(&mut rows, grid, &[]);
                let (took, written) = lent.run(&mut rows, grid, list);
                assert!(!with_text || same_plan(written, &plan), "another plan");
                if (apart, operation) == (11, 3) {
                    continue; // 3-links had their turn; these put right what 3-unsews took apart
                }
                if let Some(text) = text {
                    same_rows(oracle, &rows);
                    times.put(Who::Text, input, Line::Command(operation), &[mean(text)]);
                }
                times.put(Who::Ours, input, Line::EmptyList, &[empty]);
                times.put(Who::Ours, input, Line::Command(operation), &[mean(took)]);
                times.put(Who::Ours, input, Line::BeyondList(operation), &[mean(took - empty)]);
            }
            assert!(rows == grid.rows, "other rows");
        }
    }
}

/// Everything of one grid; the oracle holds it before and afterwards.
pub fn measure(times: &mut Times, input: Input, grid: &Grid, oracle: &mut Oracle, runs: Runs) {
    let Input::Grid(side) = input else { unreachable!("only grids are glued") };
    glue(times, input, side, grid, oracle, runs);
    build(times, input, side, grid, oracle, runs);
    operations(times, input, side, grid, oracle, runs);
}

/// Whether ours takes no longer than what it is held to, on each grid where both were measured.
pub fn verdict(grids: &[Input], both: impl Fn(Input) -> (Option<Spread>, Option<Spread>)) -> String {
    let of = |&input: &Input| {
        let (ours, held) = both(input);
        ours.zip(held)
    };
    let known: Vec<(Spread, Spread)> = grids.iter().filter_map(of).collect();
    let medians = known.iter().filter(|(ours, held)| ours.median <= held.median).count();
    let leasts = known.iter().filter(|(ours, held)| ours.least <= held.least).count();
    match known.len() {
        0 => "not measured".into(),
        all if medians == all => format!("met by medians on all {all} grids, by least times on {leasts}"),
        all => format!("**not met**: by medians on {medians} of {all} grids, by least times on {leasts}"),
    }
}

/// A line of a table.
pub fn row(text: &mut String, cells: &[String]) {
    text.push_str(&format!("| {} |\n", cells.join(" | ")));
}

/// The tables of the report.
pub fn tables(times: &Times, grids: &[Input]) -> String {
    let side = |input: Input| if let Input::Grid(side) = input { side } else { 0 };
    let get = |who, input, line| times.get(who, input, line);
    let mut text = format!(
        "**A list of 3-links no slower, for a face, than CGAL's `is_sewable<3>` and `sew<3>`**: {}.\n\n\
         | darts | inner faces | ours, a face | beyond the empty list | published Rust | CGAL | Rust / ours | CGAL / ours |\n\
         |---|---|---|---|---|---|---|---|\n",
        verdict(grids, |input| (get(Who::Ours, input, Line::Glue), get(Who::Cgal, input, Line::TestedSew)))
    );
    for &input in grids {
        let [ours, rust] = [Who::Ours, Who::Text].map(|who| get(who, input, Line::Glue));
        let cgal = get(Who::Cgal, input, Line::TestedSew);
        let counts = [thousands(input.darts()), thousands(Darts::Faces.count(side(input)))];
        let ratios = [rust, cgal].map(|peer| times_text(ratio(peer, ours)));
        let beyond = signed_cell(get(Who::Ours, input, Line::BeyondGlue));
        row(&mut text, &[&counts[..], &[cell(ours), beyond, cell(rust), cell(cgal)], &ratios].concat());
    }
    text.push_str(
        "\nA grid from free darts: 1-links make its quads, 2-sews with points its cubes, 3-links glue them.\n\n\
         | darts | commands | ours | published Rust | Rust / ours | ours, a command | published Rust, a command |\n\
         |---|---|---|---|---|---|---|\n",
    );
    for &input in grids {
        let [ours, rust] = [Who::Ours, Who::Text].map(|who| get(who, input, Line::Build));
        let commands: usize =
            [Darts::All, Darts::Edges, Darts::Faces].iter().map(|darts| darts.count(side(input))).sum();
        let each = [ours, rust].map(|s| s.map_or("–".into(), |s: Spread| human(s.median / commands as f64)));
        let counts = [thousands(input.darts()), thousands(commands)];
        let whole = [cell(ours), cell(rust), times_text(ratio(rust, ours))];
        row(&mut text, &[&counts[..], &whole, &each].concat());
    }
    for &input in grids {
        text.push_str(&format!(
            "\nA command in a list of its kind, {} darts; a list of no commands takes {}.\n\n\
             | operation | commands | ours, a command | beyond the empty list | published Rust | Rust / ours |\n\
             |---|---|---|---|---|---|\n",
            thousands(input.darts()),
            cell(get(Who::Ours, input, Line::EmptyList)),
        ));
        for (number, (name, darts)) in (1..).zip(OPERATIONS) {
            let [ours, rust] = [Who::Ours, Who::Text].map(|who| get(who, input, Line::Command(number)));
            let beyond = get(Who::Ours, input, Line::BeyondList(number));
            let commands = format!("{}, {}", thousands(darts.count(side(input))), darts.name());
            row(
                &mut text,
                &[name.into(), commands, cell(ours), signed_cell(beyond), cell(rust), times_text(ratio(rust, ours))],
            );
        }
    }
    text
}

#[cfg(test)]
mod tests {
    use super::*;
    use crate::grid::cubes;
    use crate::text::hold;

    #[cfg(not(feature = "linked"))]
    extern crate c_names;

    #[test]
    fn grids_are_glued_built_and_told() {
        let mut times = Times::default();
        let grids = [Input::Grid(2), Input::Grid(3)];
        for (input, side) in grids.into_iter().zip([2, 3]) {
            let grid = cubes(side);
            let mut oracle = hold(&grid);
            measure(&mut times, input, &grid, &mut oracle, Runs { ours: 2, text: 1 });
            same_rows(&oracle, &grid.rows);
            for (_, darts) in OPERATIONS {
                assert_eq!(darts.of(side, &grid.rows).len(), darts.count(side));
            }
        }
        let text = tables(&times, &grids);
        assert!(text.contains("| 648 | 54 |") && text.contains("| 648 | 1,026 |"));
        // CGAL alone was not asked
        assert_eq!(text.lines().filter(|line| line.contains('–')).count(), 2);
    }
}
