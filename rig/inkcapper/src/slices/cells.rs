//! Identifiers, orbits and lists. Dart 0 and unused darts are allowed; an unused one stands alone.

use super::ask;
use crate::answer::Answer;
use crate::ffi;

macro_rules! identifiers {
    ($($(#[$doc:meta])* $name:ident, $c:ident;)*) => { $(
        $(#[$doc])*
        pub fn $name(rows: &[u32], marks: &mut [u8], queue: &mut [u32], flags: &[u8], d: u32) -> Answer {
            // SAFETY: pointers and lengths of live slices; those written are held by nobody else.
            ask(|values| unsafe {
                ffi::$c(
                    rows.as_ptr(), rows.len(), marks.as_mut_ptr(), marks.len(), queue.as_mut_ptr(), queue.len(),
                    flags.as_ptr(), flags.len(), d, values,
                )
            })
        }
    )* };
}

identifiers! {
    /// The least dart of the vertex of `d`, and as the count how many darts it has.
    ///
    /// ```
    /// # #[cfg(not(feature = "linked"))] extern crate c_names;
    /// use inkcapper::{Answer, slices};
    /// let rows = [0, 0, 0, 0, 0, 2, 3, 0, 1, 0, 0, 0, 0, 0, 1, 0]; // 2 behind 1 by beta 1, 3 beside it by beta 2
    /// let (mut marks, mut queue, flags) = ([0; 4], [0; 4], [0; 4]);
    /// let mut vertex = |d| slices::vertex_id(&rows, &mut marks, &mut queue, &flags, d);
    /// assert_eq!(vertex(3), Answer::Done { first: 2, count: 2 });
    /// assert_eq!(vertex(1), Answer::Done { first: 1, count: 1 });
    /// assert_eq!(vertex(0), Answer::Done { first: 0, count: 0 });
    /// ```
    vertex_id, inkcapper_vertex_id;
    /// The least dart of the edge of `d`, and as the count how many darts it has.
    edge_id, inkcapper_edge_id;
    /// The face of `d` as honeycomb's `face_id` names it; its darts are not counted.
    face_id, inkcapper_face_id;
    /// The least dart of the volume of `d`, and as the count how many darts it has.
    volume_id, inkcapper_volume_id;
}

macro_rules! orbits {
    ($($(#[$doc:meta])* $name:ident, $c:ident;)*) => { $(
        $(#[$doc])*
        pub fn $name(rows: &[u32], marks: &mut [u8], output: &mut [u32], flags: &[u8], d: u32) -> Answer {
            // SAFETY: pointers and lengths of live slices; those written are held by nobody else.
            ask(|values| unsafe {
                ffi::$c(
                    rows.as_ptr(), rows.len(), marks.as_mut_ptr(), marks.len(), output.as_mut_ptr(), output.len(),
                    flags.as_ptr(), flags.len(), d, values,
                )
            })
        }
    )* };
}

orbits! {
    /// The darts of the vertex of `d`, first found first.
    orbit_vertex, inkcapper_orbit_vertex;
    /// As `orbit_vertex`, without beta 0.
    orbit_vertex_linear, inkcapper_orbit_vertex_linear;
    /// The darts of the edge of `d`, first found first.
    orbit_edge, inkcapper_orbit_edge;
    /// The darts of the face of `d`, first found first.
    ///
    /// ```
    /// # #[cfg(not(feature = "linked"))] extern crate c_names;
    /// use inkcapper::{Answer, slices};
    /// let triangle = [0, 0, 0, 0, 3, 2, 0, 0, 1, 3, 0, 0, 2, 1, 0, 0];
    /// let (mut marks, mut output, flags) = ([0; 4], [0; 4], [0; 4]);
    /// let answer = slices::orbit_face(&triangle, &mut marks, &mut output, &flags, 2);
    /// assert_eq!(answer, Answer::Done { first: 0, count: 3 });
    /// assert_eq!(output[..3], [2, 3, 1]);
    /// ```
    orbit_face, inkcapper_orbit_face;
    /// As `orbit_face`, without beta 0.
    orbit_face_linear, inkcapper_orbit_face_linear;
    /// The darts of the volume of `d`, first found first.
    orbit_volume, inkcapper_orbit_volume;
    /// As `orbit_volume`, without beta 0.
    orbit_volume_linear, inkcapper_orbit_volume_linear;
}

/// The darts that the listed betas reach from `d`, first found first.
pub fn orbit_custom(rows: &[u32], marks: &mut [u8], output: &mut [u32], flags: &[u8], betas: &[u8], d: u32) -> Answer {
    // SAFETY: pointers and lengths of live slices; those written are held by nobody else.
    ask(|values| unsafe {
        ffi::inkcapper_orbit_custom(
            rows.as_ptr(),
            rows.len(),
            marks.as_mut_ptr(),
            marks.len(),
            output.as_mut_ptr(),
            output.len(),
            flags.as_ptr(),
            flags.len(),
            betas.as_ptr(),
            betas.len(),
            d,
            values,
        )
    })
}

macro_rules! lists {
    ($($(#[$doc:meta])* $name:ident, $c:ident;)*) => { $(
        $(#[$doc])*
        pub fn $name(rows: &[u32], marks: &mut [u8], queue: &mut [u32], output: &mut [u32], flags: &[u8]) -> Answer {
            // SAFETY: pointers and lengths of live slices; those written are held by nobody else.
            ask(|values| unsafe {
                ffi::$c(
                    rows.as_ptr(), rows.len(), marks.as_mut_ptr(), marks.len(), queue.as_mut_ptr(), queue.len(),
                    output.as_mut_ptr(), output.len(), flags.as_ptr(), flags.len(), values,
                )
            })
        }
    )* };
}

lists! {
    /// The vertices of the used darts, ascending.
    list_vertices, inkcapper_list_vertices;
    /// The edges of the used darts, ascending.
    list_edges, inkcapper_list_edges;
    /// The faces of the used darts, ascending, as honeycomb's `iter_faces` has them.
    list_faces, inkcapper_list_faces;
    /// The volumes of the used darts, ascending.
    list_volumes, inkcapper_list_volumes;
}
