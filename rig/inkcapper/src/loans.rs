//! Loans that grow to what a map needs, so that a caller holds nothing but rows and flags.

use crate::answer::{Answer, Refusal};
use crate::commands::Lists;
use crate::slices;

/// The most darts that a map may have, the null dart counted.
pub const MOST_DARTS: usize = 1_048_576;

/// How many numbers an entry of a plan has (scope: plan): a code, three identifiers and two sizes.
pub const ENTRY_NUMBERS: usize = 6;

/// Classes of cells that have an identifier and a list.
#[derive(Debug, Clone, Copy, PartialEq, Eq, Hash)]
pub enum Cell {
    /// Least dart of the Vertex orbit.
    Vertex,
    /// Least dart of the Edge orbit.
    Edge,
    /// honeycomb's `face_id` (scope: face_id).
    Face,
    /// Least dart of the Volume orbit.
    Volume,
}

/// Orbits, as honeycomb's `OrbitPolicy` (scope: steps).
#[derive(Debug, Clone, Copy, PartialEq, Eq, Hash)]
pub enum Orbit<'a> {
    /// 0-cell.
    Vertex,
    /// 0-cell without beta 0.
    VertexLinear,
    /// 1-cell.
    Edge,
    /// 2-cell.
    Face,
    /// 2-cell without beta 0.
    FaceLinear,
    /// 3-cell.
    Volume,
    /// 3-cell without beta 0.
    VolumeLinear,
    /// The listed betas in order.
    Custom(&'a [u8]),
}

/// A cell as [`Loans::identifier`] names it.
#[derive(Debug, Clone, Copy, PartialEq, Eq, Hash)]
pub struct Identifier {
    /// The dart that names it: the least of a vertex, an edge or a volume, and of a face honeycomb's.
    pub dart: u32,
    /// How many darts a vertex, an edge or a volume has; 0 for the null dart. Those of a face are not counted, and
    /// this is 0.
    pub size: u32,
}

/// What becomes of the cells of an entry.
#[derive(Debug, Clone, Copy, PartialEq, Eq, Hash)]
pub enum Kind {
    /// Two cells become one.
    Merge,
    /// One cell becomes two.
    Split,
}

/// An entry of a plan (scope: plan): what is to be merged or split in the caller's own stores, in order.
///
/// The sizes are those of the left and of the right cell as they were before a sew linked, or are after an unsew has
/// unlinked. What a sew leaves has as many darts as both together where the entry is an edge merge, a vertex merge of
/// a 1-sew, or the one vertex merge of a 2-sew; where a 2-sew has two, if no cell is named by both (scope: sums).
#[derive(Debug, Clone, Copy, PartialEq, Eq, Hash)]
pub struct Entry {
    /// The class of the cells.
    pub class: Cell,
    /// Whether they merge or split.
    pub kind: Kind,
    /// The identifier of the left one of the two.
    pub left: u32,
    /// The identifier of the right one.
    pub right: u32,
    /// The identifier of the one: what a merge leaves, what a split comes from; the lesser of the two.
    pub whole: u32,
    /// How many darts the left cell has; 0 where it is null, and for a face split the pairs that were parted.
    pub left_size: u32,
    /// The same of the right cell.
    pub right_size: u32,
}

impl Entry {
    /// The entry that [`ENTRY_NUMBERS`] numbers of a plan say, if they are one.
    fn read(words: &[u32]) -> Option<Self> {
        let &[code, a, b, c, left_size, right_size] = words else { return None };
        let (class, kind) = match code {
            1 => (Cell::Vertex, Kind::Merge),
            2 => (Cell::Edge, Kind::Merge),
            11 => (Cell::Vertex, Kind::Split),
            12 => (Cell::Edge, Kind::Split),
            13 => (Cell::Face, Kind::Split),
            _ => return None,
        };
        let [left, right, whole] = if kind == Kind::Merge { [b, c, a] } else { [a, b, c] };
        Some(Self { class, kind, left, right, whole, left_size, right_size })
    }
}

/// A sew or unsew that was done, or a command of a list.
#[must_use = "the plan says what the caller's own stores have to follow"]
#[derive(Debug, Clone, Copy, PartialEq, Eq)]
pub struct Sewn<'a> {
    /// The dart that an unlink or unsew answers, 0 for a link or sew.
    pub dart: u32,
    /// The plan in order; links and unlinks have none.
    pub plan: &'a [Entry],
}

/// Vertex slots, for [`Loans::two_sew`], [`Loans::commands`] and [`write_map`](crate::write_map).
#[derive(Debug, Clone, Copy)]
pub struct Vertices<'a> {
    /// Non-zero where the slot holds a point.
    pub marks: &'a [u8],
    /// Three coordinates a slot.
    pub coordinates: &'a [f64],
}

/// Scratch, output and plan, grown as the rows ask for it and kept from call to call.
///
/// ```
/// # #[cfg(not(feature = "linked"))] extern crate c_names;
/// use inkcapper::{Cell, Entry, Identifier, Kind, Loans, Orbit, Refusal, map};
///
/// let (mut rows, flags) = (vec![0; 16], [0, 0, 0, 1]); // two free darts, and one that is unused
/// let mut loans = Loans::new();
/// map::three_link(&mut rows, &flags, 1, 2)?;
/// assert_eq!(loans.identifier(Cell::Face, &rows, &flags, 2)?.dart, 1);
/// assert_eq!(loans.identifier(Cell::Edge, &rows, &flags, 2)?, Identifier { dart: 1, size: 2 });
/// assert_eq!(loans.orbit(Orbit::Edge, &rows, &flags, 2)?, [2, 1]);
/// assert_eq!(loans.orbit(Orbit::Edge, &rows, &flags, 3)?, [3]); // an unused dart stands alone
///
/// let sewn = loans.three_unsew(&mut rows, &flags, 1)?;
/// assert_eq!(sewn.dart, 2);
/// assert_eq!(sewn.plan.len(), 4);
/// let [face, edge, far, near] = [0, 1, 2, 3].map(|at| sewn.plan[at]);
/// assert_eq!((face.class, face.kind), (Cell::Face, Kind::Split));
/// let sizes = |entry: Entry| (entry.left_size, entry.right_size);
/// assert_eq!((edge.left, edge.right, edge.whole, sizes(edge)), (1, 2, 1, (1, 1)));
/// assert_eq!((far.left, far.right, far.whole, sizes(far)), (0, 2, 0, (0, 1))); // dart 1 has no far end
/// assert_eq!((near.left, near.right, near.whole, sizes(near)), (1, 0, 0, (1, 0)));
/// assert_eq!(loans.three_unsew(&mut rows, &flags, 1), Err(Refusal::AlreadyFree { i: 3, d: 1 }));
/// assert_eq!(loans.three_unsew(&mut rows, &flags, 3), Err(Refusal::BadDart { argument: 1 }));
/// # Ok::<(), Refusal>(())
/// ```
#[derive(Debug, Default, Clone)]
pub struct Loans {
    pub(crate) marks: Vec<u8>,
    pub(crate) queue: Vec<u32>,
    output: Vec<u32>,
    pub(crate) plan: Vec<u32>,
    pub(crate) entries: Vec<Entry>,
    pub(crate) lists: Lists,
}

/// The first `count` of what was lent. A count that is more would be a fault of the library; it is named as
/// such.
pub(crate) fn written<T>(lent: &[T], first: u32, count: u64, each: usize) -> Result<&[T], Refusal> {
    usize::try_from(count)
        .ok()
        .and_then(|count| count.checked_mul(each))
        .and_then(|length| lent.get(..length))
        .ok_or(Refusal::Unknown { number: 0, values: [first.into(), count, 0] })
}

impl Loans {
    /// No loans yet.
    pub fn new() -> Self {
        Self::default()
    }

    /// Grows scratch and output for these rows. Rows that are too long are left to the call's refusal.
    pub(crate) fn grow(&mut self, rows: &[u32]) {
        let n = (rows.len() / 4).min(MOST_DARTS);
        if self.marks.len() < n {
            self.marks.resize(n, 0);
            self.queue.resize(n, 0);
            self.output.resize(n, 0);
        }
    }

    /// Grows the plan to room for so many entries.
    pub(crate) fn grow_plan(&mut self, entries: usize) {
        if self.plan.len() < ENTRY_NUMBERS * entries {
            self.plan.resize(ENTRY_NUMBERS * entries, 0);
        }
    }

    /// How many entries the plan has room for.
    pub(crate) fn plan_room(&self) -> usize {
        self.plan.len() / ENTRY_NUMBERS
    }

    /// Reads the first `count` entries of the plan.
    pub(crate) fn read_plan(&mut self, dart: u32, count: u64) -> Result<(), Refusal> {
        self.entries.clear();
        for words in written(&self.plan, dart, count, ENTRY_NUMBERS)?.chunks_exact(ENTRY_NUMBERS) {
            let fault = Refusal::Unknown { number: 0, values: [dart.into(), count, words[0].into()] };
            self.entries.push(Entry::read(words).ok_or(fault)?);
        }
        Ok(())
    }

    /// The identifier of the cell of `d`, with its size; an unused dart is alone in its cell.
    ///
    /// # Errors
    ///
    /// Refusals 1, 3 and 4, and 2 for short flags.
    pub fn identifier(&mut self, cell: Cell, rows: &[u32], flags: &[u8], d: u32) -> Result<Identifier, Refusal> {
        self.grow(rows);
        let call = match cell {
            Cell::Vertex => slices::vertex_id,
            Cell::Edge => slices::edge_id,
            Cell::Face => slices::face_id,
            Cell::Volume => slices::volume_id,
        };
        let (dart, count) = call(rows, &mut self.marks, &mut self.queue, flags, d).done()?;
        // a size that is no u32 would be a fault of the library, and is named as such
        let fault = Refusal::Unknown { number: 0, values: [dart.into(), count, 0] };
        u32::try_from(count).map(|size| Identifier { dart, size }).map_err(|_| fault)
    }

    /// The darts of an orbit of `d`, first found first.
    ///
    /// # Errors
    ///
    /// Refusals 1, 3, 4 and, for `Custom`, 5, and 2 for short flags.
    pub fn orbit(&mut self, orbit: Orbit<'_>, rows: &[u32], flags: &[u8], d: u32) -> Result<&[u32], Refusal> {
        self.grow(rows);
        let (marks, output) = (&mut self.marks[..], &mut self.output[..]);
        let answer = match orbit {
            Orbit::Vertex => slices::orbit_vertex(rows, marks, output, flags, d),
            Orbit::VertexLinear => slices::orbit_vertex_linear(rows, marks, output, flags, d),
            Orbit::Edge => slices::orbit_edge(rows, marks, output, flags, d),
            Orbit::Face => slices::orbit_face(rows, marks, output, flags, d),
            Orbit::FaceLinear => slices::orbit_face_linear(rows, marks, output, flags, d),
            Orbit::Volume => slices::orbit_volume(rows, marks, output, flags, d),
            Orbit::VolumeLinear => slices::orbit_volume_linear(rows, marks, output, flags, d),
            Orbit::Custom(betas) => slices::orbit_custom(rows, marks, output, flags, betas, d),
        };
        let (first, count) = answer.done()?;
        written(&self.output, first, count, 1)
    }

    /// The cells of a class that used darts have, ascending. A flag that is not 0 means unused.
    ///
    /// # Errors
    ///
    /// Refusals 1 and 3, and 2 for short flags.
    pub fn list(&mut self, cell: Cell, rows: &[u32], flags: &[u8]) -> Result<&[u32], Refusal> {
        self.grow(rows);
        let call = match cell {
            Cell::Vertex => slices::list_vertices,
            Cell::Edge => slices::list_edges,
            Cell::Face => slices::list_faces,
            Cell::Volume => slices::list_volumes,
        };
        let answer = call(rows, &mut self.marks, &mut self.queue, &mut self.output, flags);
        let (first, count) = answer.done()?;
        written(&self.output, first, count, 1)
    }

    /// Calls, and once more with a grown plan where the plan was too short: a refusal changes nothing.
    fn with_plan(
        &mut self,
        rows: &mut [u32],
        call: impl Fn(&mut [u32], &mut [u8], &mut [u32], &mut [u32]) -> Answer,
    ) -> Result<Sewn<'_>, Refusal> {
        self.grow(rows);
        let mut answer = call(rows, &mut self.marks, &mut self.queue, &mut self.plan);
        if let Answer::Refused(Refusal::PlanRoom { entries }) = answer {
            // a plan has at most one face split and three entries for each dart of a side
            let most = 1 + 3 * (rows.len() / 4);
            let needed = usize::try_from(entries).ok();
            if let Some(needed) = needed.filter(|&needed| needed <= most && needed > self.plan_room()) {
                self.grow_plan(needed);
                answer = call(rows, &mut self.marks, &mut self.queue, &mut self.plan);
            }
        }
        let (dart, count) = answer.done()?;
        self.read_plan(dart, count)?;
        Ok(Sewn { dart, plan: &self.entries })
    }

    /// 1-sews `ld` to `rd` (scope: 1-sew).
    ///
    /// ```
    /// # #[cfg(not(feature = "linked"))] extern crate c_names;
    /// use inkcapper::{Cell, Identifier, Loans, Refusal, map};
    ///
    /// let (mut rows, flags, mut loans) = (vec![0; 24], [0; 6], Loans::new());
    /// map::two_link(&mut rows, &flags, 1, 2)?; // 2 is a vertex by itself
    /// map::two_link(&mut rows, &flags, 3, 4)?;
    /// map::one_link(&mut rows, &flags, 4, 5)?; // 3 and 5 are one
    /// let merge = loans.one_sew(&mut rows, &flags, 1, 3)?.plan[0];
    /// assert_eq!((merge.left, merge.left_size, merge.right, merge.right_size, merge.whole), (2, 1, 3, 2, 2));
    /// let weighted = |left: f64, right: f64| {
    ///     let [l, r] = [merge.left_size, merge.right_size].map(f64::from);
    ///     (l * left + r * right) / (l + r)
    /// };
    /// assert_eq!(weighted(0.0, 9.0), 6.0);
    /// assert_eq!(loans.identifier(Cell::Vertex, &rows, &flags, 5)?, Identifier { dart: 2, size: 3 });
    /// # Ok::<(), Refusal>(())
    /// ```
    ///
    /// # Errors
    ///
    /// Refusals 1, 3, 4, 6 and 7, and 2 for short flags.
    pub fn one_sew(&mut self, rows: &mut [u32], flags: &[u8], ld: u32, rd: u32) -> Result<Sewn<'_>, Refusal> {
        self.with_plan(rows, |rows, marks, queue, plan| slices::one_sew(rows, marks, queue, flags, plan, ld, rd))
    }

    /// 1-unsews `ld`.
    ///
    /// # Errors
    ///
    /// Refusals 1, 3, 4, 8 and 9, and 2 for short flags.
    pub fn one_unsew(&mut self, rows: &mut [u32], flags: &[u8], ld: u32) -> Result<Sewn<'_>, Refusal> {
        self.with_plan(rows, |rows, marks, queue, plan| slices::one_unsew(rows, marks, queue, flags, plan, ld))
    }

    /// 2-sews `ld` and `rd` (scope: 2-sew).
    ///
    /// # Errors
    ///
    /// Refusals 1, 3, 4, 6, 7 and 10, and 2 for short flags or vertices.
    pub fn two_sew(
        &mut self,
        rows: &mut [u32],
        flags: &[u8],
        vertices: Vertices<'_>,
        ld: u32,
        rd: u32,
    ) -> Result<Sewn<'_>, Refusal> {
        self.with_plan(rows, |rows, marks, queue, plan| {
            slices::two_sew(rows, marks, queue, flags, vertices.marks, vertices.coordinates, plan, ld, rd)
        })
    }

    /// 2-unsews `ld`.
    ///
    /// # Errors
    ///
    /// Refusals 1, 3, 4 and 8, and 2 for short flags.
    pub fn two_unsew(&mut self, rows: &mut [u32], flags: &[u8], ld: u32) -> Result<Sewn<'_>, Refusal> {
        self.with_plan(rows, |rows, marks, queue, plan| slices::two_unsew(rows, marks, queue, flags, plan, ld))
    }

    /// 3-unsews the face of `ld` (scope: 3-unsew).
    ///
    /// # Errors
    ///
    /// Refusals 1, 3, 4, 8 and 9, and 2 for short flags.
    pub fn three_unsew(&mut self, rows: &mut [u32], flags: &[u8], ld: u32) -> Result<Sewn<'_>, Refusal> {
        self.with_plan(rows, |rows, marks, queue, plan| slices::three_unsew(rows, marks, queue, flags, plan, ld))
    }
}
