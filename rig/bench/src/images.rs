//! Stored images: written and read, beside a plain copy of as many bytes.

use std::hint::black_box;

use inkcapper::{Image, read_image, slices, write_image};

use crate::clock::time;
use crate::grid::{Grid, used};
use crate::lines::{Input, Line, POINTS, Points, Times, Who};
use crate::report::{cell, ratio, thousands, times_text};

/// The darts whose slots hold a point; `vertices` are those that name one.
fn slots(grid: &Grid, vertices: &[u32], points: Points) -> Vec<usize> {
    match points {
        Points::Vertices => vertices.iter().map(|&dart| dart as usize).collect(),
        Points::Slots => (1..grid.vertex_marks.len()).collect(),
    }
}

/// The grid with points in these slots.
fn with_points(grid: &Grid, slots: &[usize]) -> Image {
    let n = grid.vertex_marks.len();
    let (mut vertex_marks, mut coordinates) = (vec![0; n], vec![0.0; 3 * n]);
    for &slot in slots {
        let place = 3 * slot..3 * slot + 3;
        vertex_marks[slot] = 1;
        coordinates[place.clone()].copy_from_slice(&grid.coordinates[place]);
    }
    Image { rows: grid.rows.clone(), flags: used(n), vertex_marks, coordinates }
}

/// The bytes of an image of a grid.
fn size(input: Input, points: Points) -> usize {
    let Input::Grid(side) = input else { unreachable!("only grids are stored") };
    let records = match points {
        Points::Vertices => (side + 1).pow(3),
        Points::Slots => input.darts(),
    };
    28 + 17 * (input.darts() + 1) + 28 * records
}

/// Copies, reads and writes the grid's images; every buffer was touched before. What is read must be what was
/// written.
pub fn measure(times: &mut Times, input: Input, grid: &Grid, vertices: &[u32], runs: usize) {
    for points in POINTS {
        let image = with_points(grid, &slots(grid, vertices, points));
        let bytes = write_image(&image).expect("an image");
        assert_eq!(bytes.len(), size(input, points), "another number of points");
        let mut copy = bytes.clone();
        let mut read = read_image(&bytes).expect("an image");
        for _ in 0..runs {
            let took = time(|| black_box(&mut copy).copy_from_slice(&bytes));
            times.put(Who::Ours, input, Line::CopyImage(points), &[took]);
            let Image { rows, flags, vertex_marks, coordinates } = &mut read;
            let took =
                time(|| slices::read_image(&bytes, flags, vertex_marks, coordinates, rows).done().expect("read"));
            times.put(Who::Ours, input, Line::ReadImage(points), &[took]);
            let Image { rows, flags, vertex_marks, coordinates } = &image;
            let took = time(|| {
                slices::write_image(rows, flags, vertex_marks, coordinates, &mut copy).done().expect("written")
            });
            times.put(Who::Ours, input, Line::WriteImage(points), &[took]);
        }
        assert!(copy == bytes && read == image, "another image");
    }
}

/// The table of the report.
pub fn table(times: &Times, grids: &[Input]) -> String {
    let mut text = String::from(
        "| darts | points | bytes | copying | reading | writing | reading / copying | writing / copying |\n\
         |---|---|---|---|---|---|---|---|\n",
    );
    for &input in grids {
        for points in POINTS {
            let lines = [Line::CopyImage(points), Line::ReadImage(points), Line::WriteImage(points)];
            let [copied, read, written] = lines.map(|line| times.get(Who::Ours, input, line));
            text.push_str(&format!(
                "| {} | {} | {} | {} | {} | {} | {} | {} |\n",
                thousands(input.darts()),
                points.name(),
                thousands(size(input, points)),
                cell(copied),
                cell(read),
                cell(written),
                times_text(ratio(read, copied)),
                times_text(ratio(written, copied)),
            ));
        }
    }
    text
}

#[cfg(test)]
mod tests {
    use super::*;
    use crate::grid::cubes;
    use inkcapper::{Cell, Loans};

    #[cfg(not(feature = "linked"))]
    extern crate c_names;

    #[test]
    fn grids_are_stored_and_told() {
        let mut times = Times::default();
        let grids = [Input::Grid(1), Input::Grid(3)];
        for (input, side) in grids.into_iter().zip([1, 3]) {
            let grid = cubes(side);
            let mut loans = Loans::new();
            let vertices = loans.list(Cell::Vertex, &grid.rows, &used(grid.vertex_marks.len())).expect("a list");
            measure(&mut times, input, &grid, vertices, 2);
        }
        let table = table(&times, &grids);
        assert_eq!(table.lines().count(), 2 + 4);
        assert!(!table.contains('–'), "every line has a time");
        assert!(table.contains("| 24 | at vertices | 677 |") && table.contains("| 648 | in every slot | 29,205 |"));
    }
}
