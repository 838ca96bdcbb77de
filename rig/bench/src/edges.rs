//! Names of edges: by the list of all, as the commands of a list ask for them, and by a single call.

use inkcapper::Cell;
use oracle::Oracle;

use crate::clock::{Spread, human};
use crate::grid::{Grid, lone_faces};
use crate::lines::{EDGE_CALL, Input, Line, Times, Who};
use crate::lists::{Command, Found, Lent, Runs, image, row, to_grid, verdict};
use crate::ours;
use crate::report::{cell, ratio, signed_cell, thousands, times_text};

/// One dart of each pair of beta 2. A grid has no dart that is free by it.
fn pairs(rows: &[u32]) -> impl Iterator<Item = (u32, u32)> {
    (1..(rows.len() / 4) as u32).map(|d| (d, image(rows, 2, d))).filter(|(d, e)| d < e)
}

/// Every pair 2-unsewn and 2-sewn again, one pair after the other: the rest of the grid is whole each time.
fn resews(times: &mut Times, input: Input, grid: &Grid, oracle: &mut Oracle, runs: Runs) {
    let list: Vec<Command> = pairs(&grid.rows).flat_map(|(d, e)| [[10, d, 0], [5, d, e]]).collect();
    let Found { ours, empty, text } = to_grid(grid, oracle, &grid.rows, &list, runs);
    let a_command = |took: f64| took / list.len() as f64;
    for (took, empty) in ours.into_iter().zip(empty) {
        times.put(Who::Ours, input, Line::Resew, &[a_command(took)]);
        times.put(Who::Ours, input, Line::BeyondResew, &[a_command(took - empty)]);
    }
    times.put(Who::Text, input, Line::Resew, &text.into_iter().map(a_command).collect::<Vec<_>>());
}

/// Makes a list of links and sews of which every one has to be refused, since its first dart is not free: how long it
/// took.
fn refuse(lent: &mut Lent, rows: &mut [u32], grid: &Grid, list: &[Command]) -> f64 {
    let (took, count) = lent.make(rows, grid, list);
    let known = list.iter().zip(lent.output.chunks_exact(5)).all(|(&[operation, l, r], five)| {
        let beta = if operation == 5 { 2 } else { 1 };
        five == [6, beta, l, r, 0]
    });
    assert!(known && count == 0 && rows == grid.rows, "another refusal, or other rows");
    took
}

/// The edge identifier as a command asks for it, freed from the vertices that the command asks for too.
///
/// Before it finds that its first dart is linked already, a 2-sew asks for the edges and for both vertices of its two
/// darts, and a 1-sew for two vertices and no edge. Where every dart is a face of its own, a 2-sew of two darts and the
/// 1-sews of each with itself ask for vertices with the same darts, as often. A 1-link, which asks for nothing, evens
/// out the number of commands. What is left is the edge of each dart, and the four points that a 2-sew looks for.
fn refusals(times: &mut Times, input: Input, grid: &Grid, runs: usize) {
    let grid = lone_faces(grid);
    let with_edges: Vec<Command> = pairs(&grid.rows).flat_map(|(d, e)| [[5, d, e], [1, d, d]]).collect();
    let without: Vec<Command> = pairs(&grid.rows).flat_map(|(d, e)| [[4, d, d], [4, e, e]]).collect();
    let mut lent = Lent::of(grid.vertex_marks.len(), without.len(), 0);
    let mut rows = grid.rows.clone();
    let a_dart = |took: f64| took / without.len() as f64;
    for _ in 0..runs {
        let [all, vertices] = [&with_edges, &without].map(|list| a_dart(refuse(&mut lent, &mut rows, &grid, list)));
        times.put(Who::Ours, input, Line::EdgeAndVertices, &[all]);
        times.put(Who::Ours, input, Line::VerticesAlone, &[vertices]);
        times.put(Who::Ours, input, Line::EdgeAlone, &[all - vertices]);
    }
}

/// List and commands on one grid; the oracle holds it before and afterwards. Returns the list of edges.
pub fn measure(times: &mut Times, input: Input, grid: &Grid, oracle: &mut Oracle, runs: Runs) -> Vec<u32> {
    // what is short beside the noise, or a difference, is measured more often
    let list = ours::edge_list(times, input, &grid.rows, 4 * runs.ours);
    assert!(list == ours::edge_list(&mut Times::default(), input, &lone_faces(grid).rows, 1), "other edges");
    resews(times, input, grid, oracle, runs);
    refusals(times, input, grid, 2 * runs.ours);
    list
}

/// A line, another line that is part of it, and their differences within each run.
type Difference = [Line; 3];

const LIST: Difference = [Line::EdgeList, Line::EdgeListTest, Line::BeyondEdgeList];
const EDGE: Difference = [Line::EdgeAndVertices, Line::VerticesAlone, Line::EdgeAlone];
const SECOND: Difference = [Line::Twice(Cell::Edge), Line::Each(Cell::Edge), Line::Again(Cell::Edge)];
const CALL: Difference = [Line::Id(Cell::Edge), Line::TestBeside(EDGE_CALL), Line::Beyond(EDGE_CALL)];

/// The differences within each run, with the difference of the least times as their least: a busy spell between two
/// lines makes differences that are too small, so that the least of them says nothing.
fn difference(times: &Times, who: Who, input: Input, lines: Difference) -> Option<Spread> {
    let [whole, part, within] = lines.map(|line| times.get(who, input, line));
    Some(Spread { least: whole?.least - part?.least, ..within? })
}

/// The three lines of a difference as they were timed.
fn difference_cells(times: &Times, who: Who, input: Input, lines: Difference) -> [String; 3] {
    let [whole, part, within] = lines.map(|line| times.get(who, input, line));
    [cell(whole), cell(part), signed_cell(within)]
}

/// Ours in a peer's, by medians and by least times.
fn ratios(peer: Option<Spread>, ours: Option<Spread>) -> String {
    let leasts = peer.zip(ours).map(|(peer, ours)| peer.least / ours.least);
    format!("{} / {}", times_text(ratio(peer, ours)), times_text(leasts))
}

/// Times shared out evenly.
fn shared(spread: Option<Spread>, among: usize) -> Option<Spread> {
    let part = |time: f64| time / among as f64;
    spread.map(|s| Spread { median: part(s.median), least: part(s.least), most: part(s.most), ..s })
}

/// The list of edges.
fn list_table(times: &Times, grids: &[Input]) -> String {
    let ours = |input| difference(times, Who::Ours, input, LIST);
    let mut text = format!(
        "**The list of edges beyond its map test no slower than CGAL's (the faster of its two ways)**: {}.\n\n\
         | darts | list of edges | map test before it | beyond the map test | of it for a dart | CGAL, least numbers, \
         a dart | CGAL, `one_dart_per_cell`, a dart | CGAL / ours |\n|---|---|---|---|---|---|---|---|\n",
        verdict(grids, |input| (ours(input), times.cgal_list(input, Cell::Edge)))
    );
    for &input in grids {
        let a_dart = |spread| shared(spread, input.darts());
        let each = signed_cell(a_dart(times.get(Who::Ours, input, Line::BeyondEdgeList)));
        let cgal = [Line::List(Cell::Edge), Line::FirstDarts(Cell::Edge)]
            .map(|line| cell(a_dart(times.get(Who::Cgal, input, line))));
        let last = ratios(times.cgal_list(input, Cell::Edge), ours(input));
        let timed = difference_cells(times, Who::Ours, input, LIST);
        row(&mut text, &[&[thousands(input.darts())], &timed[..], &[each], &cgal, &[last]].concat());
    }
    text
}

/// Commands on the grid itself, beside CGAL's least darts of the edges and vertices of all darts.
fn command_table(times: &Times, grids: &[Input]) -> String {
    let mut text = String::from(
        "| darts | commands | ours, a command | beyond the empty list | published Rust | CGAL, the edge of a dart | \
         CGAL, the vertex of a dart | CGAL, two edges and four vertices |\n|---|---|---|---|---|---|---|---|\n",
    );
    for &input in grids {
        let [ours, rust] = [Who::Ours, Who::Text].map(|who| cell(times.get(who, input, Line::Resew)));
        let beyond = signed_cell(times.get(Who::Ours, input, Line::BeyondResew));
        let [edge, vertex] = [Cell::Edge, Cell::Vertex].map(|class| times.get(Who::Cgal, input, Line::Each(class)));
        let same = edge.zip(vertex).map_or("–".into(), |(e, v)| human(2.0 * e.median + 4.0 * v.median));
        let counts = [thousands(input.darts()), thousands(input.darts())];
        row(&mut text, &[&counts[..], &[ours, beyond, rust, cell(edge), cell(vertex), same]].concat());
    }
    text
}

/// The edge identifier alone.
fn edge_table(times: &Times, grids: &[Input]) -> String {
    let ours = |input| difference(times, Who::Ours, input, EDGE);
    let each = |input| times.get(Who::Cgal, input, Line::Each(Cell::Edge));
    let again = |input| difference(times, Who::Cgal, input, SECOND);
    let mut text = format!(
        "**The edge identifier no slower than CGAL's least dart of an edge**: {}; than CGAL's second time: {}.\n\n\
         | darts | edge and two vertices | two vertices | the edge | CGAL, dart after dart | CGAL, each twice | CGAL, \
         the second time | CGAL / ours | second time / ours |\n|---|---|---|---|---|---|---|---|---|\n",
        verdict(grids, |input| (ours(input), each(input))),
        verdict(grids, |input| (ours(input), again(input))),
    );
    for &input in grids {
        let timed = difference_cells(times, Who::Ours, input, EDGE);
        let [twice, once, second] = difference_cells(times, Who::Cgal, input, SECOND);
        let last = [ratios(each(input), ours(input)), ratios(again(input), ours(input))];
        row(&mut text, &[&[thousands(input.darts())], &timed[..], &[once, twice, second], &last].concat());
    }
    text
}

/// The single call.
fn call_table(times: &Times, grids: &[Input]) -> String {
    let ours = |input| difference(times, Who::Ours, input, CALL);
    let clearing = |input| times.get(Who::Ours, input, Line::ClearScratch);
    let mut text = format!(
        "**A single call beyond its map test within the clearing of n marks and n places**: {}.\n\n\
         | darts | edge identifier | map test beside it | beyond the map test | clearing n marks and n places | \
         clearing / beyond | CGAL |\n|---|---|---|---|---|---|---|\n",
        verdict(grids, |input| (ours(input), clearing(input)))
    );
    for &input in grids {
        let timed = difference_cells(times, Who::Ours, input, CALL);
        let share = ratios(clearing(input), ours(input));
        let cgal = cell(times.get(Who::Cgal, input, Line::Id(Cell::Edge)));
        row(&mut text, &[&[thousands(input.darts())], &timed[..], &[cell(clearing(input)), share, cgal]].concat());
    }
    text
}

/// What holds for all tables.
const RATIOS: &str = "\
    Each ratio stands twice: of medians / of least times. For a difference the least time is then the \
    difference of the least times; its own column has the differences within each run, between whose two \
    parts a busy spell can begin or end. A difference that is not above zero has no ratio.";

/// Above [`list_table`].
const BY_LIST: &str = "\
    By the list: every dart of every edge is walked once. The map test was timed right before each list; \
    what the list takes beyond it contains the clearing of scratch.";

/// Above [`command_table`].
const BY_COMMANDS: &str = "\
    By commands: one list 2-unsews and 2-sews again every pair of darts that beta 2 links, one pair \
    after the other. A command asks for the edges of its two darts and for two vertices of each, which \
    it cannot leave out. CGAL's columns are the least darts that `darts_of_cell` finds, for every dart \
    of the grid; the last adds up as many as a command asks for.";

/// Above [`edge_table`].
const ALONE: &str = "\
    The edge alone, for a dart. The vertex of a dart has at least every second dart of its edge, in \
    every map, so that no list asks for edges and next to nothing else; what the vertices cost is taken \
    off. Here beta 1 leads from each dart to itself, and the edges are the grid's, dart by dart. The \
    first list 2-sews every pair that is sewn already, and is refused after it has asked for two edges \
    and four vertices; the second 1-sews every dart with itself, and is refused after it has asked for \
    as many vertices with the same darts. Both have as many commands, and their difference is the edge \
    of every dart once, with what a 2-sew does to look for points. In both the vertices read the darts \
    of the edge, so that it is found in the cache; CGAL's second time, what it adds to ask for each edge \
    twice in a row, is the nearest to that.";

/// Above [`call_table`].
const BY_CALL: &str = "\
    By a single call: the means are over up to 16 darts far apart. What the call takes beyond its map \
    test is the walk of one edge, the clearing of scratch, and noise.";

/// The tables of the report, with what they show.
pub fn tables(times: &Times, grids: &[Input]) -> String {
    let parts = [
        (BY_LIST, list_table(times, grids)),
        (BY_COMMANDS, command_table(times, grids)),
        (ALONE, edge_table(times, grids)),
        (BY_CALL, call_table(times, grids)),
    ];
    let parts = parts.map(|(about, table)| format!("\n{about}\n\n{table}"));
    format!("{RATIOS}\n{}", parts.concat())
}

#[cfg(test)]
mod tests {
    use super::*;
    use crate::grid::cubes;
    use crate::text::{hold, names};

    #[cfg(not(feature = "linked"))]
    extern crate c_names;

    #[test]
    fn edges_are_named_and_told() {
        let mut times = Times::default();
        let grids = [Input::Grid(2), Input::Grid(3)];
        for (input, side) in grids.into_iter().zip([2, 3]) {
            let mut grid = cubes(side);
            let mut oracle = hold(&grid);
            let list = measure(&mut times, input, &grid, &mut oracle, Runs { ours: 2, text: 1 });
            let mut least = names(&oracle, Cell::Edge);
            assert_eq!(pairs(&grid.rows).count(), least.len() / 2);
            least.sort_unstable();
            least.dedup();
            assert_eq!(list, least);
            ours::clearing(&mut times, input, &grid.rows, 2);
            ours::calls(&mut times, input, &mut grid, &[EDGE_CALL], 2);
        }
        let text = tables(&times, &grids);
        assert_eq!(text.lines().filter(|line| line.starts_with("| 648 |")).count(), 4);
        assert!(text.contains("| 648 | 648 |"), "the commands are as many as the darts");
        // CGAL alone was not asked
        assert_eq!(text.lines().filter(|line| line.contains('–')).count(), 4 * 2);
    }
}
