//! Puts rows, vertices and flags into the text's map and takes rows out.
//!
//! It stands inside `dim3` because the map's fields are open there and nowhere else.

use super::structure::CMap3;
use crate::attributes::{AttributeStorage, recorder};
use crate::cmap::components::betas::BetaFunctions;
use crate::geometry::Vertex3;
use crate::stm::atomically;

/// A map of `n` darts, the null dart counted, without any image.
pub fn new_map(n: usize) -> CMap3<f64> {
    CMap3::new_with_undefined_attributes(n - 1, recorder::manager())
}

/// The map's beta functions, for the bare cores.
pub fn betas(map: &CMap3<f64>) -> &BetaFunctions<4> {
    &map.betas
}

pub fn put_rows(map: &CMap3<f64>, rows: &[u32]) {
    for (place, &image) in rows.iter().enumerate() {
        map.betas[((place % 4) as u8, (place / 4) as u32)].write_atomic(image);
    }
}

pub fn take_rows(map: &CMap3<f64>, rows: &mut Vec<u32>) {
    rows.clear();
    for d in 0..map.n_darts() as u32 {
        rows.extend((0..4u8).map(|i| map.betas[(i, d)].read_atomic()));
    }
}

pub fn put_vertex(map: &CMap3<f64>, d: u32, point: Option<[f64; 3]>) {
    atomically(|t| match point {
        Some([x, y, z]) => map.vertices.write(t, d, Vertex3(x, y, z)),
        None => map.vertices.remove(t, d),
    });
}

pub fn put_flag(map: &CMap3<f64>, d: u32, unused: bool) {
    map.unused_darts[d].write_atomic(unused);
}
