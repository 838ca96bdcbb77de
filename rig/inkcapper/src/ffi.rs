//! The functions with C linkage, as `include/inkcapper.h` declares them.
//!
//! A slice is a pointer and a length in elements. Parameters stand in one order: rows, the loans by
//! their numbers (marks, queue, output, flags, vertex marks, coordinates), plan or bytes, lists of numbers,
//! numbers, and last the place for the three values; the reader has its bytes first and its rows last. Each
//! returns the answer's number.

/// Where the three values go.
pub type Values = *mut [u64; 3];

unsafe extern "C" {
    pub fn inkcapper_beta(rows: *const u32, rows_len: usize, i: u32, d: u32, values: Values) -> u32;
    pub fn inkcapper_is_i_free(rows: *const u32, rows_len: usize, i: u32, d: u32, values: Values) -> u32;
    pub fn inkcapper_is_free(rows: *const u32, rows_len: usize, d: u32, values: Values) -> u32;

    pub fn inkcapper_check_map(
        rows: *const u32,
        rows_len: usize,
        flags: *const u8,
        flags_len: usize,
        values: Values,
    ) -> u32;

    pub fn inkcapper_one_sew(
        rows: *mut u32,
        rows_len: usize,
        marks: *mut u8,
        marks_len: usize,
        queue: *mut u32,
        queue_len: usize,
        flags: *const u8,
        flags_len: usize,
        plan: *mut u32,
        plan_len: usize,
        ld: u32,
        rd: u32,
        values: Values,
    ) -> u32;
    pub fn inkcapper_two_sew(
        rows: *mut u32,
        rows_len: usize,
        marks: *mut u8,
        marks_len: usize,
        queue: *mut u32,
        queue_len: usize,
        flags: *const u8,
        flags_len: usize,
        vertex_marks: *const u8,
        vertex_marks_len: usize,
        coordinates: *const f64,
        coordinates_len: usize,
        plan: *mut u32,
        plan_len: usize,
        ld: u32,
        rd: u32,
        values: Values,
    ) -> u32;
    pub fn inkcapper_commands(
        rows: *mut u32,
        rows_len: usize,
        marks: *mut u8,
        marks_len: usize,
        queue: *mut u32,
        queue_len: usize,
        output: *mut u32,
        output_len: usize,
        flags: *const u8,
        flags_len: usize,
        vertex_marks: *const u8,
        vertex_marks_len: usize,
        coordinates: *const f64,
        coordinates_len: usize,
        plan: *mut u32,
        plan_len: usize,
        commands: *const u32,
        commands_len: usize,
        values: Values,
    ) -> u32;

    pub fn inkcapper_orbit_custom(
        rows: *const u32,
        rows_len: usize,
        marks: *mut u8,
        marks_len: usize,
        output: *mut u32,
        output_len: usize,
        flags: *const u8,
        flags_len: usize,
        betas: *const u8,
        betas_len: usize,
        d: u32,
        values: Values,
    ) -> u32;

    pub fn inkcapper_read_image(
        bytes: *const u8,
        bytes_len: usize,
        flags: *mut u8,
        flags_len: usize,
        vertex_marks: *mut u8,
        vertex_marks_len: usize,
        coordinates: *mut f64,
        coordinates_len: usize,
        rows: *mut u32,
        rows_len: usize,
        values: Values,
    ) -> u32;
    pub fn inkcapper_write_image(
        rows: *const u32,
        rows_len: usize,
        flags: *const u8,
        flags_len: usize,
        vertex_marks: *const u8,
        vertex_marks_len: usize,
        coordinates: *const f64,
        coordinates_len: usize,
        bytes: *mut u8,
        bytes_len: usize,
        values: Values,
    ) -> u32;
}

/// Functions that differ in their name alone.
macro_rules! alike {
    ($($name:ident)* => $parameters:tt) => { $( alike!(@one $name $parameters); )* };
    (@one $name:ident ($($parameter:ident : $ty:ty),* $(,)?)) => {
        unsafe extern "C" { pub fn $name($($parameter: $ty),*) -> u32; }
    };
}

alike! {
    inkcapper_one_link inkcapper_two_link inkcapper_three_link => (
        rows: *mut u32, rows_len: usize, flags: *const u8, flags_len: usize, ld: u32, rd: u32, values: Values,
    )
}

alike! {
    inkcapper_one_unlink inkcapper_two_unlink inkcapper_three_unlink => (
        rows: *mut u32, rows_len: usize, flags: *const u8, flags_len: usize, ld: u32, values: Values,
    )
}

alike! {
    inkcapper_one_unsew inkcapper_two_unsew inkcapper_three_unsew => (
        rows: *mut u32, rows_len: usize, marks: *mut u8, marks_len: usize, queue: *mut u32, queue_len: usize,
        flags: *const u8, flags_len: usize, plan: *mut u32, plan_len: usize, ld: u32, values: Values,
    )
}

alike! {
    inkcapper_vertex_id inkcapper_edge_id inkcapper_face_id inkcapper_volume_id => (
        rows: *const u32, rows_len: usize, marks: *mut u8, marks_len: usize, queue: *mut u32, queue_len: usize,
        flags: *const u8, flags_len: usize, d: u32, values: Values,
    )
}

alike! {
    inkcapper_orbit_vertex inkcapper_orbit_vertex_linear inkcapper_orbit_edge inkcapper_orbit_face
    inkcapper_orbit_face_linear inkcapper_orbit_volume inkcapper_orbit_volume_linear => (
        rows: *const u32, rows_len: usize, marks: *mut u8, marks_len: usize, output: *mut u32, output_len: usize,
        flags: *const u8, flags_len: usize, d: u32, values: Values,
    )
}

alike! {
    inkcapper_list_vertices inkcapper_list_edges inkcapper_list_faces inkcapper_list_volumes => (
        rows: *const u32, rows_len: usize, marks: *mut u8, marks_len: usize, queue: *mut u32, queue_len: usize,
        output: *mut u32, output_len: usize, flags: *const u8, flags_len: usize, values: Values,
    )
}
