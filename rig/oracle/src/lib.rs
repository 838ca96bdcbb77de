//! The published Rust text of honeycomb-core's 3-map, compiled as it stands and made to answer in
//! the scope's numbers and values.
//!
//! README.md says which files are compiled, which were not at hand and what stands in for them.
//!
//! The oracle speaks for what the Rust decides: what is done, and refusals 6 to 10. It expects a
//! well-formed map and darts that the library lets through; on anything else the text may index
//! out of bounds (a panic) or walk for ever.

use std::cell::RefCell;
use std::collections::BTreeMap;
use std::marker::PhantomData;

// the text is compiled for its behaviour, and much of it is not called
#[allow(clippy::all, dead_code, unused_imports, unused_must_use, dependency_on_unit_never_type_fallback)]
mod honeycomb {
    include!(concat!(env!("OUT_DIR"), "/tree.rs"));
}
// The text says `crate::cmap` and so on: its tree has to be reachable from the crate's root.
pub(crate) use honeycomb::{attributes, cmap, geometry, stm};

use attributes::recorder::{self, Asked, Record};
use cmap::dim3::access;
use cmap::{CMap3, LinkError, OrbitPolicy, SewError};
use stm::{Transaction, TransactionClosureResult, atomically, atomically_with_err};

/// The text's files that were compiled: path under `honeycomb-core/src`, bytes, FNV-1a hash.
pub const TEXT: &[(&str, usize, u64)] = &include!(concat!(env!("OUT_DIR"), "/text.rs"));

/// An answer's number and its three values, 0 where absent (scope: numbers).
pub type Answer = (u32, [u64; 3]);

/// A plan entry as far as the text says it: code, then its three identifiers, the first four numbers of scope: plan.
pub type Entry = [u32; 4];

/// The classes of cells that have an identifier and a list.
#[derive(Debug, Clone, Copy, PartialEq, Eq, PartialOrd, Ord)]
pub enum Cell {
    Vertex,
    Edge,
    Face,
    Volume,
}

/// The orbits (scope: steps).
#[derive(Debug, Clone, Copy, PartialEq, Eq)]
pub enum Orbit<'a> {
    Vertex,
    VertexLinear,
    Edge,
    Face,
    FaceLinear,
    Volume,
    VolumeLinear,
    /// The listed betas in order.
    Custom(&'a [u8]),
}

/// A map in the text's own structure. See tests/examples.rs for its use.
pub struct Oracle {
    map: CMap3<f64>,
    // The text says that its map may go to other threads; over these transactions it may not.
    _here: PhantomData<*const ()>,
}

impl Oracle {
    /// A map of `n` darts, the null dart counted, without images, vertices or flags.
    ///
    /// # Panics
    ///
    /// If `n` is 0.
    pub fn new(n: usize) -> Self {
        assert!(n > 0, "the null dart is always there");
        Self { map: access::new_map(n), _here: PhantomData }
    }

    /// How many darts there are, the null dart counted.
    pub fn darts(&self) -> usize {
        self.map.n_darts()
    }

    /// Sets every image: beta 0, 1, 2, 3 of dart 0, then of dart 1, and so on.
    pub fn put_rows(&mut self, rows: &[u32]) {
        assert_eq!(rows.len(), 4 * self.darts());
        access::put_rows(&self.map, rows);
    }

    /// Writes every image to `rows`.
    pub fn take_rows(&self, rows: &mut Vec<u32>) {
        access::take_rows(&self.map, rows);
    }

    /// Sets the vertex slots.
    pub fn put_vertices(&mut self, marks: &[u8], coordinates: &[f64]) {
        for d in 0..self.darts() {
            let point = || [coordinates[3 * d], coordinates[3 * d + 1], coordinates[3 * d + 2]];
            access::put_vertex(&self.map, d as u32, (marks[d] != 0).then(point));
        }
    }

    /// Sets which darts are unused.
    pub fn put_flags(&mut self, flags: &[u8]) {
        for (d, &flag) in flags[..self.darts()].iter().enumerate() {
            access::put_flag(&self.map, d as u32, flag != 0);
        }
    }

    /// `beta_rt`.
    pub fn beta(&self, i: u8, d: u32) -> Answer {
        done(self.map.beta_rt(i, d), 0)
    }

    /// `is_i_free`.
    ///
    /// # Panics
    ///
    /// If `i` is above 3.
    pub fn is_i_free(&self, i: u8, d: u32) -> Answer {
        let free = match i {
            0 => self.map.is_i_free::<0>(d),
            1 => self.map.is_i_free::<1>(d),
            2 => self.map.is_i_free::<2>(d),
            3 => self.map.is_i_free::<3>(d),
            _ => panic!("no beta {i}"),
        };
        done(u32::from(free), 0)
    }

    /// `is_free`.
    pub fn is_free(&self, d: u32) -> Answer {
        done(u32::from(self.map.is_free(d)), 0)
    }

    /// `one_link_core`.
    pub fn one_link(&mut self, ld: u32, rd: u32) -> Answer {
        linked(|t| access::betas(&self.map).one_link_core(t, ld, rd))
    }

    /// `two_link_core`.
    pub fn two_link(&mut self, ld: u32, rd: u32) -> Answer {
        linked(|t| access::betas(&self.map).two_link_core(t, ld, rd))
    }

    /// `three_link_core`.
    pub fn three_link_core(&mut self, ld: u32, rd: u32) -> Answer {
        linked(|t| access::betas(&self.map).three_link_core(t, ld, rd))
    }

    /// `three_link_tx`.
    pub fn three_link(&mut self, ld: u32, rd: u32) -> Answer {
        linked(|t| self.map.three_link_tx(t, ld, rd))
    }

    /// `one_unlink_core`.
    pub fn one_unlink(&mut self, ld: u32) -> Answer {
        unlinked(|t| access::betas(&self.map).one_unlink_core(t, ld))
    }

    /// `two_unlink_core`.
    pub fn two_unlink(&mut self, ld: u32) -> Answer {
        unlinked(|t| access::betas(&self.map).two_unlink_core(t, ld))
    }

    /// `three_unlink_core`.
    pub fn three_unlink_core(&mut self, ld: u32) -> Answer {
        unlinked(|t| access::betas(&self.map).three_unlink_core(t, ld))
    }

    /// `three_unlink_tx`.
    pub fn three_unlink(&mut self, ld: u32) -> Answer {
        unlinked(|t| self.map.three_unlink_tx(t, ld))
    }

    /// `one_sew_tx`.
    pub fn one_sew(&mut self, ld: u32, rd: u32) -> (Answer, Vec<Entry>) {
        sewn(|t| self.map.one_sew_tx(t, ld, rd).map(|()| 0))
    }

    /// `two_sew_tx`.
    pub fn two_sew(&mut self, ld: u32, rd: u32) -> (Answer, Vec<Entry>) {
        sewn(|t| self.map.two_sew_tx(t, ld, rd).map(|()| 0))
    }

    /// `one_unsew_tx`.
    pub fn one_unsew(&mut self, ld: u32) -> (Answer, Vec<Entry>) {
        sewn(|t| self.map.one_unsew_tx(t, ld))
    }

    /// `two_unsew_tx`.
    pub fn two_unsew(&mut self, ld: u32) -> (Answer, Vec<Entry>) {
        sewn(|t| self.map.two_unsew_tx(t, ld))
    }

    /// `three_unsew_tx`.
    pub fn three_unsew(&mut self, ld: u32) -> (Answer, Vec<Entry>) {
        sewn(|t| self.map.three_unsew_tx(t, ld))
    }

    /// `vertex_id`, `edge_id`, `face_id`, `volume_id`.
    pub fn identifier(&self, cell: Cell, d: u32) -> Answer {
        let id = match cell {
            Cell::Vertex => self.map.vertex_id(d),
            Cell::Edge => self.map.edge_id(d),
            Cell::Face => self.map.face_id(d),
            Cell::Volume => self.map.volume_id(d),
        };
        done(id, 0)
    }

    /// `orbit_tx`, to its end.
    pub fn orbit(&self, orbit: Orbit<'_>, d: u32) -> (Answer, Vec<u32>) {
        let policy = match orbit {
            Orbit::Vertex => OrbitPolicy::Vertex,
            Orbit::VertexLinear => OrbitPolicy::VertexLinear,
            Orbit::Edge => OrbitPolicy::Edge,
            Orbit::Face => OrbitPolicy::Face,
            Orbit::FaceLinear => OrbitPolicy::FaceLinear,
            Orbit::Volume => OrbitPolicy::Volume,
            Orbit::VolumeLinear => OrbitPolicy::VolumeLinear,
            Orbit::Custom(betas) => OrbitPolicy::Custom(for_ever(betas)),
        };
        let darts: Vec<u32> = atomically(|t| self.map.orbit_tx(t, policy.clone(), d).collect());
        (done(0, darts.len()), darts)
    }

    /// `iter_vertices`, `iter_edges`, `iter_faces`, `iter_volumes`.
    pub fn list(&self, cell: Cell) -> (Answer, Vec<u32>) {
        let ids: Vec<u32> = match cell {
            Cell::Vertex => self.map.iter_vertices().collect(),
            Cell::Edge => self.map.iter_edges().collect(),
            Cell::Face => self.map.iter_faces().collect(),
            Cell::Volume => self.map.iter_volumes().collect(),
        };
        (done(0, ids.len()), ids)
    }
}

fn done(first: u32, count: usize) -> Answer {
    (0, [u64::from(first), count as u64, 0])
}

fn link_error(e: &LinkError) -> Answer {
    let wide = |i: u8, l: u32, r: u32| [u64::from(i), u64::from(l), u64::from(r)];
    match *e {
        LinkError::NonFreeBase(i, l, r) => (6, wide(i, l, r)),
        LinkError::NonFreeImage(i, l, r) => (7, wide(i, l, r)),
        LinkError::AlreadyFree(i, d) => (8, wide(i, d, 0)),
        LinkError::AsymmetricalFaces(l, r) => (9, [u64::from(l), u64::from(r), 0]),
    }
}

fn linked(f: impl Fn(&mut Transaction) -> TransactionClosureResult<(), LinkError>) -> Answer {
    match atomically_with_err(f) {
        Ok(()) => done(0, 0),
        Err(e) => link_error(&e),
    }
}

fn unlinked(f: impl Fn(&mut Transaction) -> TransactionClosureResult<u32, LinkError>) -> Answer {
    match atomically_with_err(f) {
        Ok(rd) => done(rd, 0),
        Err(e) => link_error(&e),
    }
}

fn sewn(f: impl Fn(&mut Transaction) -> TransactionClosureResult<u32, SewError>) -> (Answer, Vec<Entry>) {
    recorder::take();
    match atomically_with_err(f) {
        Ok(rd) => {
            let plan = entries(&recorder::take());
            (done(rd, plan.len()), plan)
        }
        Err(SewError::FailedLink(e)) => (link_error(&e), Vec::new()),
        Err(SewError::BadGeometry(i, l, r)) => ((10, [u64::from(i), u64::from(l), u64::from(r)]), Vec::new()),
        Err(SewError::FailedAttributeOp(e)) => unreachable!("recorders succeed, and yet: {e}"),
    }
}

/// The plan's entries. The text asks `vertices` and then the vertex attributes, with the same
/// identifiers; that pair is one entry. Anything else about vertices would be a finding.
fn entries(log: &[Record]) -> Vec<Entry> {
    let mut plan = Vec::new();
    let mut at = 0;
    while at < log.len() {
        let Record { asked, split, ids } = log[at];
        let code = match (asked, split) {
            (Asked::Vertices, _) => {
                let pair = Record { asked: Asked::Attributes(0), split, ids };
                assert_eq!(log.get(at + 1), Some(&pair), "a vertex call without its pair");
                at += 1;
                if split { 11 } else { 1 }
            }
            (Asked::Attributes(1), false) => 2,
            (Asked::Attributes(1), true) => 12,
            (Asked::Attributes(2), true) => 13,
            _ => panic!("the plan has no code for {:?}", log[at]),
        };
        plan.push([code, ids[0], ids[1], ids[2]]);
        at += 1;
    }
    plan
}

/// The same list with the lifetime that the text's Custom policy asks for; each list is kept once.
fn for_ever(betas: &[u8]) -> &'static [u8] {
    thread_local! {
        static KEPT: RefCell<BTreeMap<Vec<u8>, &'static [u8]>> = const { RefCell::new(BTreeMap::new()) };
    }
    KEPT.with(|kept| {
        let mut kept = kept.borrow_mut();
        if let Some(list) = kept.get(betas) {
            return *list;
        }
        let list: &'static [u8] = Box::leak(betas.to_vec().into_boxed_slice());
        kept.insert(betas.to_vec(), list);
        list
    })
}
