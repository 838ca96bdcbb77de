//! Writes the images of the repository's folder `examples`: meshes linked by the library's calls, with a point at
//! the dart that names each vertex, stored by its writer. From `rig/`:
//!
//!     cargo run -p inkcapper --features linked --example images [-- FOLDER]

use std::collections::HashMap;
use std::path::PathBuf;

use inkcapper::{Cell, Image, Loans, Refusal, map, write_image};

#[cfg(not(feature = "linked"))]
extern crate c_names;

/// A corner of a grid.
type Corner = [i32; 3];

/// The corners of each face of the unit cube, anticlockwise from outside.
const CUBE: [[Corner; 4]; 6] = [
    [[0, 0, 0], [0, 1, 0], [1, 1, 0], [1, 0, 0]],
    [[0, 0, 1], [1, 0, 1], [1, 1, 1], [0, 1, 1]],
    [[0, 0, 0], [1, 0, 0], [1, 0, 1], [0, 0, 1]],
    [[0, 1, 0], [0, 1, 1], [1, 1, 1], [1, 1, 0]],
    [[0, 0, 0], [0, 0, 1], [0, 1, 1], [0, 1, 0]],
    [[1, 0, 0], [1, 1, 0], [1, 1, 1], [1, 0, 1]],
];

/// So many darts, all free and in use, without points.
fn free(darts: usize) -> Image {
    let n = darts + 1;
    Image { rows: vec![0; 4 * n], flags: vec![0; n], vertex_marks: vec![0; n], coordinates: vec![0.0; 3 * n] }
}

/// Makes a closed face of these darts.
fn close(image: &mut Image, face: &[u32]) -> Result<(), Refusal> {
    (0..face.len()).try_for_each(|k| map::one_link(&mut image.rows, &image.flags, face[k], face[(k + 1) % face.len()]))
}

/// Puts a point into the slot of a dart.
fn put(image: &mut Image, dart: u32, point: Corner) {
    let slot = dart as usize;
    image.vertex_marks[slot] = 1;
    image.coordinates[3 * slot..3 * slot + 3].copy_from_slice(&point.map(f64::from));
}

/// Two darts, one behind the other, with open ends.
fn open_strip() -> Result<Image, Refusal> {
    let mut strip = free(2);
    map::one_link(&mut strip.rows, &strip.flags, 1, 2)?;
    put(&mut strip, 1, [0, 0, 0]);
    put(&mut strip, 2, [1, 0, 0]);
    Ok(strip)
}

/// A triangle 3-linked to a quad, whose dart 5 stays free.
fn valve_seat() -> Result<Image, Refusal> {
    let mut seat = free(7);
    close(&mut seat, &[1, 2, 3])?;
    close(&mut seat, &[4, 5, 6, 7])?;
    map::three_link(&mut seat.rows, &seat.flags, 1, 4)?;
    for (dart, point) in [(1, [0, 0, 0]), (2, [1, 0, 0]), (3, [0, 1, 0]), (5, [-1, 1, 0])] {
        put(&mut seat, dart, point);
    }
    Ok(seat)
}

/// The cubes of a grid with this many a side, z fastest, each a list of its faces' corners.
fn cubes(side: i32) -> impl Iterator<Item = [[Corner; 4]; 6]> {
    (0..side.pow(3)).map(move |cube| {
        let at = [cube / (side * side), cube / side % side, cube % side];
        CUBE.map(|face| face.map(|corner| [0, 1, 2].map(|k| at[k] + corner[k])))
    })
}

/// A grid of cubes with every 2- and 3-link. A dart is an edge of a face of a cube, and runs against those it is
/// linked to.
fn cube_grid(side: i32) -> Result<Image, Refusal> {
    let mut grid = free(24 * side.pow(3) as usize);
    let mut starts = vec![[0; 3]];
    let mut faces_met = HashMap::new();
    for cube in cubes(side) {
        let mut edges_met = HashMap::new();
        for face in cube {
            let first = starts.len() as u32;
            close(&mut grid, &[first, first + 1, first + 2, first + 3])?;
            starts.extend(face);
            for k in 0..4 {
                let (dart, from, to) = (first + k as u32, face[k], face[(k + 1) % 4]);
                edges_met.insert((from, to), dart);
                if let Some(&other) = edges_met.get(&(to, from)) {
                    map::two_link(&mut grid.rows, &grid.flags, other, dart)?;
                }
            }
            // twice the middle names the face, which is met from both sides
            let middle = [0, 1, 2].map(|k| face[0][k] + face[2][k]);
            if let Some(other) = faces_met.insert(middle, first) {
                // the dart of the other side that runs against the first of this one starts where that ends
                for against in (other..other + 4).filter(|&d| starts[d as usize] == face[1]) {
                    map::three_link(&mut grid.rows, &grid.flags, first, against)?;
                }
            }
        }
    }
    for dart in Loans::new().list(Cell::Vertex, &grid.rows, &grid.flags)? {
        put(&mut grid, *dart, starts[*dart as usize]);
    }
    Ok(grid)
}

/// Each image under the name of its file.
pub fn images() -> Result<[(&'static str, Vec<u8>); 3], Refusal> {
    Ok([
        ("cube_grid.img", write_image(&cube_grid(2)?)?),
        ("open_strip.img", write_image(&open_strip()?)?),
        ("valve_seat.img", write_image(&valve_seat()?)?),
    ])
}

fn main() -> Result<(), Box<dyn std::error::Error>> {
    let named = std::env::args_os().nth(1).map(PathBuf::from);
    let folder = named.unwrap_or_else(|| PathBuf::from(env!("CARGO_MANIFEST_DIR")).join("../../examples"));
    for (name, bytes) in images()? {
        std::fs::write(folder.join(name), bytes)?;
    }
    Ok(())
}
