//! CGAL's lines: builds cgal/cells.cpp and reads what it prints.

use std::collections::HashMap;
use std::path::{Path, PathBuf};
use std::process::Command;

use inkcapper::Cell;

use crate::grid::fnv1a;
use crate::lines::{CELLS, Input, Line, Times, Who, cell_name};
use crate::ours::Lists;

/// The program, or why there is none.
pub fn build() -> Result<PathBuf, String> {
    let source = Path::new(env!("CARGO_MANIFEST_DIR")).join("cgal/cells.cpp");
    let program = std::env::temp_dir().join(format!("inkcapper-bench-cells-{}", std::process::id()));
    let compiler = std::env::var_os("CXX").unwrap_or_else(|| "g++".into());
    let flags = ["-std=c++17", "-O3", "-DNDEBUG", "-DCGAL_NO_ASSERTIONS"];
    let built = Command::new(&compiler).args(flags).arg(&source).arg("-o").arg(&program).output();
    match built {
        Err(e) => Err(format!("no C++ compiler ({e})")),
        Ok(output) if !output.status.success() => {
            let text = String::from_utf8_lossy(&output.stderr);
            let first = text.lines().find(|line| line.contains("error")).unwrap_or("no reason given");
            Err(format!("cells.cpp does not compile here: {}", first.rsplit("error: ").next().unwrap_or(first)))
        }
        Ok(_) => Ok(program),
    }
}

/// The version that the headers name, for the report.
pub fn version() -> Option<String> {
    let mut compiler = Command::new(std::env::var_os("CXX").unwrap_or_else(|| "g++".into()));
    let output = compiler.args(["-E", "-dM", "-x", "c++", "-include", "CGAL/version.h", "/dev/null"]).output().ok()?;
    let text = String::from_utf8_lossy(&output.stdout).into_owned();
    text.lines().find_map(|line| line.strip_prefix("#define CGAL_VERSION ")).map(str::to_string)
}

/// What a line of CGAL's is here, by its name there.
type Names = HashMap<String, Line>;

/// The lines of sews.
fn sew_names() -> Names {
    Names::from([
        ("sew_3".to_string(), Line::ThreeLink),
        ("tested_sew_3".to_string(), Line::TestedSew),
        ("unsew_3".to_string(), Line::ThreeUnlink),
    ])
}

/// Runs it on a grid for its sews alone, and makes sure that the map is ours.
pub fn sews(times: &mut Times, program: &Path, input: Input, rows: &[u32], runs: usize) -> Result<(), String> {
    let Input::Grid(side) = input else { return Err("only grids are sewn".into()) };
    let text = run(program, "sews", side, runs)?;
    take(times, input, &text, HashMap::from([("rows".to_string(), rows)]), &sew_names())
}

/// What is known of the edges of a grid: its rows, the list of edges, those of the probes, and the identifiers of the
/// edges and vertices of all darts.
pub struct Edges<'a> {
    pub rows: &'a [u32],
    pub list: &'a [u32],
    pub probes: &'a [u32],
    pub names: [&'a [u32]; 2],
}

/// Runs it on a grid for its edges alone, and makes sure that they are those that are known.
pub fn edges(times: &mut Times, program: &Path, input: Input, known: &Edges, runs: usize) -> Result<(), String> {
    let Input::Grid(side) = input else { return Err("only grids are asked for their edges".into()) };
    let text = run(program, "edges", side, runs)?;
    let expected = [
        ("rows", known.rows),
        ("first_edges", known.list),
        ("least_edges", known.list),
        ("id_edge", known.probes),
        ("all_edges", known.names[0]),
        ("twice_edges", known.names[0]),
        ("all_vertices", known.names[1]),
    ];
    let lines = [
        ("first_edges", Line::FirstDarts(Cell::Edge)),
        ("least_edges", Line::List(Cell::Edge)),
        ("id_edge", Line::Id(Cell::Edge)),
        ("orbit_edge", Line::Orbit(Cell::Edge)),
        ("all_edges", Line::Each(Cell::Edge)),
        ("twice_edges", Line::Twice(Cell::Edge)),
        ("again_edges", Line::Again(Cell::Edge)),
        ("all_vertices", Line::Each(Cell::Vertex)),
    ];
    let expected = expected.map(|(name, words)| (name.to_string(), words));
    let lines = lines.map(|(name, line)| (name.to_string(), line));
    take(times, input, &text, HashMap::from(expected), &Names::from(lines))
}

/// Runs it on one input and makes sure that map, lists and identifiers are ours.
pub fn measure(
    times: &mut Times,
    program: &Path,
    input: Input,
    rows: &[u32],
    lists: &Lists,
    ids: Option<&Lists>,
    runs: usize,
) -> Result<(), String> {
    let (kind, size) = match input {
        Input::Grid(side) => ("grid", side),
        Input::Ring(darts) => ("ring", darts as usize),
    };
    let text = run(program, kind, size, runs)?;
    let mut expected = HashMap::from([("rows".to_string(), rows)]);
    let mut lines = sew_names();
    lines.insert("is_valid".to_string(), Line::MapTest);
    for (at, cell) in CELLS.into_iter().enumerate() {
        let (one, many) = cell_name(cell);
        expected.insert(format!("first_{many}"), &lists[at]);
        expected.insert(format!("least_{many}"), &lists[at]);
        if let Some(ids) = ids {
            expected.insert(format!("id_{one}"), &ids[at]);
        }
        lines.insert(format!("first_{many}"), Line::FirstDarts(cell));
        lines.insert(format!("least_{many}"), Line::List(cell));
        lines.insert(format!("id_{one}"), Line::Id(cell));
        lines.insert(format!("orbit_{one}"), Line::Orbit(cell));
    }
    take(times, input, &text, expected, &lines)
}

/// What the program prints for a map of this kind and size.
fn run(program: &Path, kind: &str, size: usize, runs: usize) -> Result<String, String> {
    let output = Command::new(program).arg(kind).arg(size.to_string()).arg(runs.to_string()).output();
    let output = output.map_err(|e| e.to_string())?;
    if !output.status.success() {
        return Err(format!("cells {kind} {size} ended with {}", output.status));
    }
    Ok(String::from_utf8_lossy(&output.stdout).into_owned())
}

/// Takes the times of a printed text, and holds its words against those that are expected.
fn take(
    times: &mut Times,
    input: Input,
    text: &str,
    mut expected: HashMap<String, &[u32]>,
    lines: &Names,
) -> Result<(), String> {
    for line in text.lines() {
        let words: Vec<&str> = line.split(' ').collect();
        match words[..] {
            ["hash", name, count, hash] => {
                if let Some(words) = expected.remove(name) {
                    let same = (words.len().to_string(), format!("{:016x}", fnv1a(words)));
                    assert_eq!((count, hash), (&*same.0, &*same.1), "CGAL has other {name}");
                }
            }
            ["line", name, ..] => {
                let found: Result<Vec<f64>, _> = words[2..].iter().map(|word| word.parse()).collect();
                let found = found.map_err(|e| format!("{line}: {e}"))?;
                times.put(Who::Cgal, input, *lines.get(name).ok_or(format!("no line {name}"))?, &found);
            }
            _ => return Err(format!("cannot read: {line}")),
        }
    }
    // a comparison that was not made must not pass for one that was
    expected.is_empty().then_some(()).ok_or(format!("CGAL did not tell {:?}", expected.keys()))
}
