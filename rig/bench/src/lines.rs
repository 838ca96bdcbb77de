//! What is measured, who is measured, and the times found.

use inkcapper::Cell;

use crate::clock::Spread;

/// Who is measured.
#[derive(Debug, Clone, Copy, PartialEq, Eq)]
pub enum Who {
    Ours,
    /// The published Rust.
    Text,
    Cgal,
}

/// What is measured. Lists and tests are over the whole map, the rest are single calls.
#[derive(Debug, Clone, Copy, PartialEq, Eq)]
pub enum Line {
    /// The sum of all images, which the compiler makes of vector instructions.
    Read,
    /// The first image that is out of range, of which there is none: what any test reads that names the first fault.
    ReadEach,
    /// Setting n marks to 0, and n marks and n places of a queue.
    ClearMarks,
    ClearScratch,
    MapTest,
    /// The list of least darts.
    List(Cell),
    /// CGAL alone: its own range, which gives the darts that come first in storage.
    FirstDarts(Cell),
    Id(Cell),
    Orbit(Cell),
    ThreeLink,
    ThreeUnlink,
    /// CGAL alone: the sew with its test before it.
    TestedSew,
    TwoSew,
    TwoUnsew,
    /// Ours alone: the map test right before the call at this place of [`CALLS`], and what the call took
    /// beyond it.
    TestBeside(usize),
    Beyond(usize),
    /// A stored image: a plain copy of its bytes, then the reader and the writer.
    CopyImage(Points),
    ReadImage(Points),
    WriteImage(Points),
    /// A list of no commands: its map test and its clearing of scratch.
    EmptyList,
    /// All inner faces 3-linked by one list, a face, and what it takes beyond the empty list.
    Glue,
    BeyondGlue,
    /// A grid built from free darts by one list.
    Build,
    /// A command of this operation, in a list of such alone, and what it takes beyond the empty list.
    Command(u32),
    BeyondList(u32),
    /// The list of edges with a map test right before it, that test, and what the list took beyond it.
    EdgeList,
    EdgeListTest,
    BeyondEdgeList,
    /// A command of a list that 2-unsews and 2-sews every pair of darts, and what it takes beyond the empty list.
    Resew,
    BeyondResew,
    /// For a dart: a list of refusals that asks for its edge and two vertices, one that asks for the vertices alone,
    /// and the difference, which is the edge.
    EdgeAndVertices,
    VerticesAlone,
    EdgeAlone,
    /// CGAL alone: the least dart of a dart's cell, over all darts one after another; the same where each is asked
    /// for twice in a row; and the difference.
    Each(Cell),
    Twice(Cell),
    Again(Cell),
}

/// Which slots of a stored grid hold a point.
#[derive(Debug, Clone, Copy, PartialEq, Eq)]
pub enum Points {
    /// Those that name a vertex, as in the images of `examples`.
    Vertices,
    /// Those of all real darts: the most records that an image can have.
    Slots,
}

impl Points {
    pub fn name(self) -> &'static str {
        match self {
            Self::Vertices => "at vertices",
            Self::Slots => "in every slot",
        }
    }
}

pub const POINTS: [Points; 2] = [Points::Vertices, Points::Slots];

/// The lines of stored images, on grids alone.
pub const IMAGES: [Line; 6] = [
    Line::CopyImage(Points::Vertices),
    Line::ReadImage(Points::Vertices),
    Line::WriteImage(Points::Vertices),
    Line::CopyImage(Points::Slots),
    Line::ReadImage(Points::Slots),
    Line::WriteImage(Points::Slots),
];

pub const CELLS: [Cell; 4] = [Cell::Vertex, Cell::Edge, Cell::Face, Cell::Volume];

/// The lines over the whole map, lists aside, in the order of their tables.
pub const PASSES: [Line; 5] = [Line::Read, Line::ReadEach, Line::ClearMarks, Line::ClearScratch, Line::MapTest];

/// The lines that are single calls.
pub const CALLS: [Line; 10] = [
    Line::Id(Cell::Vertex),
    Line::Id(Cell::Edge),
    Line::Id(Cell::Face),
    Line::Id(Cell::Volume),
    Line::Orbit(Cell::Vertex),
    Line::Orbit(Cell::Volume),
    Line::ThreeLink,
    Line::ThreeUnlink,
    Line::TwoSew,
    Line::TwoUnsew,
];

/// The places of these lines in the order in which they can be measured: what takes a link away comes before what puts
/// it there.
pub const CALL_ORDER: [usize; 10] = [0, 1, 2, 3, 4, 5, 7, 6, 9, 8];

/// The place of the edge identifier.
pub const EDGE_CALL: usize = 1;

/// A cell's name, one and many.
pub fn cell_name(cell: Cell) -> (&'static str, &'static str) {
    match cell {
        Cell::Vertex => ("vertex", "vertices"),
        Cell::Edge => ("edge", "edges"),
        Cell::Face => ("face", "faces"),
        Cell::Volume => ("volume", "volumes"),
    }
}

impl Line {
    pub fn name(self) -> String {
        match self {
            Self::Read => "reading the rows once".into(),
            Self::ReadEach => "reading them image by image".into(),
            Self::ClearMarks => "clearing n marks".into(),
            Self::ClearScratch => "clearing n marks and n places".into(),
            Self::MapTest => "map test".into(),
            Self::List(cell) => format!("list of {}", cell_name(cell).1),
            Self::FirstDarts(cell) => format!("first darts of {}", cell_name(cell).1),
            Self::Id(cell) => format!("{} identifier", cell_name(cell).0),
            Self::Orbit(cell) => format!("{} orbit", cell_name(cell).0),
            Self::ThreeLink => "3-link of a face pair".into(),
            Self::ThreeUnlink => "3-unlink of a face pair".into(),
            Self::TestedSew => "is_sewable and 3-sew".into(),
            Self::TwoSew => "2-sew".into(),
            Self::TwoUnsew => "2-unsew".into(),
            Self::TestBeside(call) => format!("map test beside {}", CALLS[call].name()),
            Self::Beyond(call) => format!("{} beyond the map test", CALLS[call].name()),
            Self::CopyImage(points) => format!("image copied, {}", points.name()),
            Self::ReadImage(points) => format!("image read, {}", points.name()),
            Self::WriteImage(points) => format!("image written, {}", points.name()),
            Self::EmptyList => "list of no commands".into(),
            Self::Glue => "inner face, in a list".into(),
            Self::BeyondGlue => "inner face beyond the empty list".into(),
            Self::Build => "grid from free darts, in a list".into(),
            Self::Command(operation) => format!("operation {operation}, in a list"),
            Self::BeyondList(operation) => format!("operation {operation} beyond the empty list"),
            Self::EdgeList => "list of edges after a map test".into(),
            Self::EdgeListTest => "map test before the list of edges".into(),
            Self::BeyondEdgeList => "list of edges beyond the map test".into(),
            Self::Resew => "2-unsew or 2-sew of every pair, in a list".into(),
            Self::BeyondResew => "2-unsew or 2-sew beyond the empty list".into(),
            Self::EdgeAndVertices => "edge and two vertices, in a list".into(),
            Self::VerticesAlone => "two vertices, in a list".into(),
            Self::EdgeAlone => "edge, in a list".into(),
            Self::Each(cell) => format!("least dart of the {} of every dart", cell_name(cell).0),
            Self::Twice(cell) => format!("least dart of the {} of every dart, twice", cell_name(cell).0),
            Self::Again(cell) => format!("least dart of the {} of every dart, again", cell_name(cell).0),
        }
    }
}

/// The map that a line was measured on.
#[derive(Debug, Clone, Copy, PartialEq, Eq)]
pub enum Input {
    /// A grid with so many cubes a side.
    Grid(usize),
    /// One closed face of so many darts.
    Ring(u32),
}

impl Input {
    /// Its real darts.
    pub fn darts(self) -> usize {
        match self {
            Self::Grid(side) => 24 * side.pow(3),
            Self::Ring(darts) => darts as usize,
        }
    }
}

/// All times found, in nanoseconds.
#[derive(Default)]
pub struct Times(Vec<(Who, Input, Line, Vec<f64>)>);

impl Times {
    /// Adds to what earlier passes found.
    pub fn put(&mut self, who: Who, input: Input, line: Line, times: &[f64]) {
        match self.0.iter_mut().find(|(w, i, l, _)| (*w, *i, *l) == (who, input, line)) {
            Some((.., held)) => held.extend(times),
            None => self.0.push((who, input, line, times.to_vec())),
        }
    }

    pub fn get(&self, who: Who, input: Input, line: Line) -> Option<Spread> {
        self.0.iter().find(|(w, i, l, _)| (*w, *i, *l) == (who, input, line)).map(|(.., held)| Spread::of(held))
    }

    /// CGAL's list by whichever of its two ways is the faster here.
    pub fn cgal_list(&self, input: Input, cell: Cell) -> Option<Spread> {
        let ways = [Line::List(cell), Line::FirstDarts(cell)];
        let found = ways.iter().filter_map(|&line| self.get(Who::Cgal, input, line));
        found.min_by(|a, b| a.median.total_cmp(&b.median))
    }

    /// The line of a peer that stands against ours.
    pub fn against(&self, who: Who, input: Input, line: Line) -> Option<Spread> {
        match (who, line) {
            (Who::Cgal, Line::List(cell)) => self.cgal_list(input, cell),
            _ => self.get(who, input, line),
        }
    }
}
