//! Measures the proved library against the published Rust and CGAL. README.md has the command.
//!
//! Prints a table; writes BENCHMARK.md and benchmark.svg to the folder named as the argument, else to
//! the repository's docs. With the argument `commands` it measures lists of commands alone, with `edges` the
//! names of edges; it then prints their tables and writes nothing.

mod cgal;
mod clock;
mod edges;
mod grid;
mod images;
mod lines;
mod lists;
mod ours;
mod plot;
mod report;
mod text;

use std::path::{Path, PathBuf};
use std::process::{Command, ExitCode};

use inkcapper::Cell;
use oracle::Oracle;

use grid::Grid;
use lines::{CALL_ORDER, CELLS, EDGE_CALL, Input, Times};
use lists::Runs;
use report::{Inputs, Machine};

// naming the crate links it
#[cfg(not(feature = "linked"))]
extern crate c_names;

const INPUTS: Inputs = Inputs {
    grids: [Input::Grid(10), Input::Grid(20), Input::Grid(34)],
    small: Input::Grid(2),
    ring: Input::Ring(1_000_000),
};

/// Passes over all inputs and sides, and how often each line is measured in a pass. On a shared machine
/// a busy spell lasts longer than a line: passes spread each line's times over the whole run, and let a
/// spell fall on all sides. The published Rust's lists take the longest.
const PASSES: usize = 4;
const OURS: usize = 5;
const LISTS: usize = 2;
const PEERS: usize = 4;
const COMMANDS: Runs = Runs { ours: 5, text: 1 };

/// What can be measured alone, by the word that asks for it.
struct Part {
    word: &'static str,
    measure: fn(&mut Times, Input, Option<&Path>),
    tables: fn(&Times, &[Input]) -> String,
}

const PARTS: [Part; 2] = [
    Part { word: "commands", measure: measure_commands, tables: lists::tables },
    Part { word: "edges", measure: measure_edges, tables: edges::tables },
];

fn main() -> ExitCode {
    if cfg!(not(feature = "linked")) {
        eprintln!("The proved library is not linked, so there is nothing to measure: add --features linked.");
        return ExitCode::FAILURE;
    }
    let named = std::env::args_os().nth(1).map(PathBuf::from);
    let part = named.as_ref().and_then(|word| PARTS.iter().find(|part| word.as_os_str() == part.word));
    let program = cgal::build();
    if let Err(why) = &program {
        println!("CGAL is skipped: {why}");
    }
    let times = measure_all(part, program.as_deref().ok());
    let cgal = program.map(|program| {
        // ours alone, and of no use afterwards
        let _ = std::fs::remove_file(program);
        cgal::version().unwrap_or_else(|| "of unknown version".into())
    });
    if let Some(part) = part {
        println!("{}", (part.tables)(&times, &INPUTS.grids));
        return ExitCode::SUCCESS;
    }
    println!("{}", report::summary(&times, &INPUTS));
    write(&times, cgal, &named.unwrap_or_else(|| Path::new(env!("CARGO_MANIFEST_DIR")).join("../../docs")))
}

/// All passes, over everything or over one part.
fn measure_all(part: Option<&Part>, program: Option<&Path>) -> Times {
    let mut times = Times::default();
    for pass in 1..=PASSES {
        eprintln!("pass {pass} of {PASSES}");
        match part {
            Some(part) => INPUTS.grids.iter().for_each(|&input| (part.measure)(&mut times, input, program)),
            None => {
                let inputs = INPUTS.grids.into_iter().chain([INPUTS.small, INPUTS.ring]);
                inputs.for_each(|input| measure(&mut times, input, program));
            }
        }
    }
    times
}

/// Writes report and figure to a folder.
fn write(times: &Times, cgal: Result<String, String>, docs: &Path) -> ExitCode {
    if cfg!(debug_assertions) {
        println!(
            "Built with debug assertions, which slow the published Rust: nothing is written. Use --profile measure."
        );
        return ExitCode::SUCCESS;
    }
    let texts = [
        ("BENCHMARK.md", report::report(times, &INPUTS, &machine(cgal))),
        ("benchmark.svg", plot::plot(times, &INPUTS.grids)),
    ];
    for (name, text) in texts {
        if let Err(e) = std::fs::write(docs.join(name), text) {
            eprintln!("{}: {e}", docs.join(name).display());
            return ExitCode::FAILURE;
        }
    }
    ExitCode::SUCCESS
}

/// One pass over one grid with lists of commands alone.
fn measure_commands(times: &mut Times, input: Input, program: Option<&Path>) {
    let Input::Grid(side) = input else { unreachable!("only grids are glued") };
    let grid = grid::cubes(side);
    lists::measure(times, input, &grid, &mut text::hold(&grid), COMMANDS);
    if let Some(program) = program {
        cgal::sews(times, program, input, &grid.rows, PEERS).unwrap_or_else(|why| panic!("CGAL: {why}"));
    }
}

/// One pass over one grid with the names of edges alone.
fn measure_edges(times: &mut Times, input: Input, program: Option<&Path>) {
    let Input::Grid(side) = input else { unreachable!("only grids are asked for their edges") };
    let mut grid = grid::cubes(side);
    let mut oracle = text::hold(&grid);
    edge_names(times, input, &mut grid, &mut oracle, program);
}

/// The names of a grid's edges, which the oracle holds before and afterwards: ours, then CGAL's. They are differences
/// for the most part, and a small grid is soon done, so that it is measured more often.
fn edge_names(times: &mut Times, input: Input, grid: &mut Grid, oracle: &mut Oracle, program: Option<&Path>) {
    let often = (1_000_000 / input.darts()).clamp(1, 4);
    let list = edges::measure(times, input, grid, oracle, Runs { ours: often * COMMANDS.ours, ..COMMANDS });
    ours::clearing(times, input, &grid.rows, 2 * often * OURS);
    let ids = ours::calls(times, input, grid, &[EDGE_CALL], 2 * often * OURS);
    let [edges, vertices] = [Cell::Edge, Cell::Vertex].map(|cell| text::names(oracle, cell));
    let probes = &ids[Cell::Edge as usize];
    assert!(grid.probes.iter().map(|&d| &edges[d as usize - 1]).eq(probes), "another edge identifier");
    assert!((1..).zip(&edges).filter(|(d, id)| d == *id).map(|(_, id)| id).eq(&list), "another list of edges");
    let Some(program) = program else { return };
    let known = cgal::Edges { rows: &grid.rows, list: &list, probes, names: [&edges, &vertices] };
    cgal::edges(times, program, input, &known, often * PEERS).unwrap_or_else(|why| panic!("CGAL: {why}"));
}

/// One pass over one input: ours, the published Rust, CGAL.
fn measure(times: &mut Times, input: Input, program: Option<&Path>) {
    let mut grid = match input {
        Input::Grid(side) => grid::cubes(side),
        Input::Ring(darts) => grid::ring(darts),
    };
    let lists = ours::whole_map(times, input, &grid.rows, OURS);
    let mut oracle = text::hold(&grid);
    let ids = if let Input::Grid(_) = input {
        text::whole_map(times, input, &oracle, &CELLS, &lists, LISTS);
        let ids = ours::calls(times, input, &mut grid, &CALL_ORDER, OURS);
        text::calls(times, input, &mut oracle, &grid, &ids, PEERS);
        images::measure(times, input, &grid, &lists[Cell::Vertex as usize], OURS);
        if INPUTS.grids.contains(&input) {
            lists::measure(times, input, &grid, &mut oracle, COMMANDS);
            edge_names(times, input, &mut grid, &mut oracle, program);
        }
        Some(ids)
    } else {
        // its face and volume lists would walk the whole ring from each dart
        text::whole_map(times, input, &oracle, &[Cell::Vertex, Cell::Edge], &lists, LISTS);
        None
    };
    if let Some(program) = program {
        // a comparison that fails is no reason to go on without it
        let measured = cgal::measure(times, program, input, &grid.rows, &lists, ids.as_ref(), PEERS);
        measured.unwrap_or_else(|why| panic!("CGAL: {why}"));
    }
}

fn machine(cgal: Result<String, String>) -> Machine {
    // lscpu knows the names of Arm's processors too
    let cpu = Command::new("lscpu")
        .output()
        .map_or_else(|_| String::new(), |output| String::from_utf8_lossy(&output.stdout).into_owned());
    let model = cpu.lines().find_map(|line| line.strip_prefix("Model name:")).map(str::trim);
    let first_line = |program: &str| {
        let output = Command::new(program).arg("--version").output().ok()?;
        String::from_utf8_lossy(&output.stdout).lines().next().map(str::to_string)
    };
    let compilers: Vec<String> = ["rustc", "g++"].into_iter().filter_map(first_line).collect();
    Machine {
        processor: model.unwrap_or("unknown").to_string(),
        cores: std::thread::available_parallelism().map_or(1, usize::from),
        compilers: compilers.join("; "),
        cgal,
    }
}
