//! The model behind the C names, so that everything on this side of the boundary (header, wrapper,
//! comparison) can be tried where the proved library is not linked. It is no substitute for it.
//!
//! # Safety
//!
//! Of each function: pointers with the lengths beside them, live and aligned; those written do not
//! overlap others. `include/inkcapper.h` says the same to C.

#![allow(clippy::missing_safety_doc, clippy::too_many_arguments)]

use std::slice::{from_raw_parts as read, from_raw_parts_mut as lent};

use model::{Answer, Cell, Orbit};

fn tell(answer: Answer, values: *mut [u64; 3]) -> u32 {
    // SAFETY: the caller's place for the values.
    unsafe { *values = answer.1 };
    answer.0
}

#[unsafe(no_mangle)]
pub unsafe extern "C" fn inkcapper_beta(
    rows: *const u32,
    rows_len: usize,
    i: u32,
    d: u32,
    values: *mut [u64; 3],
) -> u32 {
    tell(model::beta(unsafe { read(rows, rows_len) }, i, d), values)
}

#[unsafe(no_mangle)]
pub unsafe extern "C" fn inkcapper_is_i_free(
    rows: *const u32,
    rows_len: usize,
    i: u32,
    d: u32,
    values: *mut [u64; 3],
) -> u32 {
    tell(model::is_i_free(unsafe { read(rows, rows_len) }, i, d), values)
}

#[unsafe(no_mangle)]
pub unsafe extern "C" fn inkcapper_is_free(rows: *const u32, rows_len: usize, d: u32, values: *mut [u64; 3]) -> u32 {
    tell(model::is_free(unsafe { read(rows, rows_len) }, d), values)
}

#[unsafe(no_mangle)]
pub unsafe extern "C" fn inkcapper_check_map(
    rows: *const u32,
    rows_len: usize,
    flags: *const u8,
    flags_len: usize,
    values: *mut [u64; 3],
) -> u32 {
    let (rows, flags) = unsafe { (read(rows, rows_len), read(flags, flags_len)) };
    tell(model::check_map(rows, flags), values)
}

macro_rules! links {
    ($($name:ident ($($dart:ident),*) = $model:path;)*) => { $(
        #[unsafe(no_mangle)]
        pub unsafe extern "C" fn $name(
            rows: *mut u32, rows_len: usize, flags: *const u8, flags_len: usize, $($dart: u32,)* values: *mut [u64; 3],
        ) -> u32 {
            let (rows, flags) = unsafe { (lent(rows, rows_len), read(flags, flags_len)) };
            tell($model(rows, flags, $($dart),*), values)
        }
    )* };
}

links! {
    inkcapper_one_link(ld, rd) = model::one_link;
    inkcapper_two_link(ld, rd) = model::two_link;
    inkcapper_three_link(ld, rd) = model::three_link;
    inkcapper_one_unlink(ld) = model::one_unlink;
    inkcapper_two_unlink(ld) = model::two_unlink;
    inkcapper_three_unlink(ld) = model::three_unlink;
}

macro_rules! sews {
    ($($name:ident ($($dart:ident),*) = $model:path;)*) => { $(
        #[unsafe(no_mangle)]
        pub unsafe extern "C" fn $name(
            rows: *mut u32, rows_len: usize, marks: *mut u8, marks_len: usize, queue: *mut u32, queue_len: usize,
            flags: *const u8, flags_len: usize, plan: *mut u32, plan_len: usize, $($dart: u32,)*
            values: *mut [u64; 3],
        ) -> u32 {
            let (rows, marks, queue) =
                unsafe { (lent(rows, rows_len), lent(marks, marks_len), lent(queue, queue_len)) };
            let (flags, plan) = unsafe { (read(flags, flags_len), lent(plan, plan_len)) };
            tell($model(rows, marks, queue, flags, plan, $($dart),*), values)
        }
    )* };
}

sews! {
    inkcapper_one_sew(ld, rd) = model::one_sew;
    inkcapper_one_unsew(ld) = model::one_unsew;
    inkcapper_two_unsew(ld) = model::two_unsew;
    inkcapper_three_unsew(ld) = model::three_unsew;
}

#[unsafe(no_mangle)]
pub unsafe extern "C" fn inkcapper_two_sew(
    rows: *mut u32,
    rows_len: usize,
    marks: *mut u8,
    marks_len: usize,
    queue: *mut u32,
    queue_len: usize,
    flags: *const u8,
    flags_len: usize,
    vertex_marks: *const u8,
    vertex_marks_len: usize,
    coordinates: *const f64,
    coordinates_len: usize,
    plan: *mut u32,
    plan_len: usize,
    ld: u32,
    rd: u32,
    values: *mut [u64; 3],
) -> u32 {
    let (rows, marks, queue) = unsafe { (lent(rows, rows_len), lent(marks, marks_len), lent(queue, queue_len)) };
    let (flags, plan) = unsafe { (read(flags, flags_len), lent(plan, plan_len)) };
    let (vertex_marks, coordinates) =
        unsafe { (read(vertex_marks, vertex_marks_len), read(coordinates, coordinates_len)) };
    tell(model::two_sew(rows, marks, queue, flags, vertex_marks, coordinates, plan, ld, rd), values)
}

#[unsafe(no_mangle)]
pub unsafe extern "C" fn inkcapper_commands(
    rows: *mut u32,
    rows_len: usize,
    marks: *mut u8,
    marks_len: usize,
    queue: *mut u32,
    queue_len: usize,
    output: *mut u32,
    output_len: usize,
    flags: *const u8,
    flags_len: usize,
    vertex_marks: *const u8,
    vertex_marks_len: usize,
    coordinates: *const f64,
    coordinates_len: usize,
    plan: *mut u32,
    plan_len: usize,
    commands: *const u32,
    commands_len: usize,
    values: *mut [u64; 3],
) -> u32 {
    let (rows, marks, queue) = unsafe { (lent(rows, rows_len), lent(marks, marks_len), lent(queue, queue_len)) };
    let (output, plan) = unsafe { (lent(output, output_len), lent(plan, plan_len)) };
    let (vertex_marks, coordinates) =
        unsafe { (read(vertex_marks, vertex_marks_len), read(coordinates, coordinates_len)) };
    let (flags, commands) = unsafe { (read(flags, flags_len), read(commands, commands_len)) };
    tell(model::commands(rows, marks, queue, output, flags, vertex_marks, coordinates, plan, commands), values)
}

macro_rules! identifiers {
    ($($name:ident = $cell:expr;)*) => { $(
        #[unsafe(no_mangle)]
        pub unsafe extern "C" fn $name(
            rows: *const u32, rows_len: usize, marks: *mut u8, marks_len: usize, queue: *mut u32, queue_len: usize,
            flags: *const u8, flags_len: usize, d: u32, values: *mut [u64; 3],
        ) -> u32 {
            let (rows, flags) = unsafe { (read(rows, rows_len), read(flags, flags_len)) };
            let (marks, queue) = unsafe { (lent(marks, marks_len), lent(queue, queue_len)) };
            tell(model::identifier($cell, rows, marks, queue, flags, d), values)
        }
    )* };
}

identifiers! {
    inkcapper_vertex_id = Cell::Vertex;
    inkcapper_edge_id = Cell::Edge;
    inkcapper_face_id = Cell::Face;
    inkcapper_volume_id = Cell::Volume;
}

macro_rules! orbits {
    ($($name:ident = $orbit:expr;)*) => { $(
        #[unsafe(no_mangle)]
        pub unsafe extern "C" fn $name(
            rows: *const u32, rows_len: usize, marks: *mut u8, marks_len: usize, output: *mut u32, output_len: usize,
            flags: *const u8, flags_len: usize, d: u32, values: *mut [u64; 3],
        ) -> u32 {
            let (rows, flags) = unsafe { (read(rows, rows_len), read(flags, flags_len)) };
            let (marks, output) = unsafe { (lent(marks, marks_len), lent(output, output_len)) };
            tell(model::orbit($orbit, rows, marks, output, flags, d), values)
        }
    )* };
}

orbits! {
    inkcapper_orbit_vertex = Orbit::Vertex;
    inkcapper_orbit_vertex_linear = Orbit::VertexLinear;
    inkcapper_orbit_edge = Orbit::Edge;
    inkcapper_orbit_face = Orbit::Face;
    inkcapper_orbit_face_linear = Orbit::FaceLinear;
    inkcapper_orbit_volume = Orbit::Volume;
    inkcapper_orbit_volume_linear = Orbit::VolumeLinear;
}

#[unsafe(no_mangle)]
pub unsafe extern "C" fn inkcapper_orbit_custom(
    rows: *const u32,
    rows_len: usize,
    marks: *mut u8,
    marks_len: usize,
    output: *mut u32,
    output_len: usize,
    flags: *const u8,
    flags_len: usize,
    betas: *const u8,
    betas_len: usize,
    d: u32,
    values: *mut [u64; 3],
) -> u32 {
    let (rows, marks, output) = unsafe { (read(rows, rows_len), lent(marks, marks_len), lent(output, output_len)) };
    let (flags, betas) = unsafe { (read(flags, flags_len), read(betas, betas_len)) };
    tell(model::orbit(Orbit::Custom(betas), rows, marks, output, flags, d), values)
}

macro_rules! lists {
    ($($name:ident = $cell:expr;)*) => { $(
        #[unsafe(no_mangle)]
        pub unsafe extern "C" fn $name(
            rows: *const u32, rows_len: usize, marks: *mut u8, marks_len: usize, queue: *mut u32, queue_len: usize,
            output: *mut u32, output_len: usize, flags: *const u8, flags_len: usize, values: *mut [u64; 3],
        ) -> u32 {
            let (rows, marks, queue) =
                unsafe { (read(rows, rows_len), lent(marks, marks_len), lent(queue, queue_len)) };
            let (output, flags) = unsafe { (lent(output, output_len), read(flags, flags_len)) };
            tell(model::list($cell, rows, marks, queue, output, flags), values)
        }
    )* };
}

lists! {
    inkcapper_list_vertices = Cell::Vertex;
    inkcapper_list_edges = Cell::Edge;
    inkcapper_list_faces = Cell::Face;
    inkcapper_list_volumes = Cell::Volume;
}

#[unsafe(no_mangle)]
pub unsafe extern "C" fn inkcapper_read_image(
    bytes: *const u8,
    bytes_len: usize,
    flags: *mut u8,
    flags_len: usize,
    vertex_marks: *mut u8,
    vertex_marks_len: usize,
    coordinates: *mut f64,
    coordinates_len: usize,
    rows: *mut u32,
    rows_len: usize,
    values: *mut [u64; 3],
) -> u32 {
    let bytes = unsafe { read(bytes, bytes_len) };
    let (flags, vertex_marks) = unsafe { (lent(flags, flags_len), lent(vertex_marks, vertex_marks_len)) };
    let (coordinates, rows) = unsafe { (lent(coordinates, coordinates_len), lent(rows, rows_len)) };
    tell(model::read_image(bytes, flags, vertex_marks, coordinates, rows), values)
}

#[unsafe(no_mangle)]
pub unsafe extern "C" fn inkcapper_write_image(
    rows: *const u32,
    rows_len: usize,
    flags: *const u8,
    flags_len: usize,
    vertex_marks: *const u8,
    vertex_marks_len: usize,
    coordinates: *const f64,
    coordinates_len: usize,
    bytes: *mut u8,
    bytes_len: usize,
    values: *mut [u64; 3],
) -> u32 {
    let (rows, flags) = unsafe { (read(rows, rows_len), read(flags, flags_len)) };
    let (vertex_marks, coordinates) =
        unsafe { (read(vertex_marks, vertex_marks_len), read(coordinates, coordinates_len)) };
    tell(model::write_image(rows, flags, vertex_marks, coordinates, unsafe { lent(bytes, bytes_len) }), values)
}
