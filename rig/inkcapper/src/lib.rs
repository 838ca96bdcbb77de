//! Inkcapper from Rust: the proved dart and beta part of honeycomb-core's 3-map, called through C
//! linkage.
//!
//! - [`map`] has the calls on rows and flags alone: a read gives a dart or a yes or no.
//! - [`slices`] has one safe function for each call, on the caller's own slices.
//! - [`Loans`] holds scratch, output and plan and grows them, for callers that hold rows and flags alone.
//! - [`Loans::commands`] makes a list of [`Command`]s under one map test, for callers with many of them.
//! - [`read_image`] and [`write_image`] are for stored maps, in buffers of their size.
//! - [`Answer`] and [`Refusal`] are what calls answer, as types; each says its number.
//!
//! A map is its rows and its flags: an unused dart has no image. Identifiers and plans say how many darts a cell has.
//! The exact rules are docs/SCOPE.md, whose paragraphs are cited by name (scope: 3-link).
//!
//! Nothing here panics, whatever the arguments: every test is the library's, and it refuses.
//!
//! With the feature `linked` the build looks for the proved library (see build.rs). Without it the C
//! names are left open for the final program to bring.

mod answer;
mod commands;
pub mod ffi;
mod image;
mod loans;
pub mod map;
pub mod slices;

pub use answer::{Answer, Refusal};
pub use commands::{Answers, Command};
pub use image::{Image, read_image, write_image, write_map};
pub use loans::{Cell, ENTRY_NUMBERS, Entry, Identifier, Kind, Loans, MOST_DARTS, Orbit, Sewn, Vertices};

/// The version of the C boundary that this crate is written for, `INKCAPPER_VERSION` of its header: raised whenever
/// a function's parameters or its meaning change, and this crate's own version with it.
pub const VERSION: u32 = 5;
