//! The scope's own answers.

use crate::kernel::{Answer, Call, Kernel, Loans, Orbit};

/// The scope as written down in the crate `model`.
pub struct Model;

/// Reads, the map test, links and unlinks.
fn on_rows(call: &Call, rows: &mut [u32], flags: &[u8]) -> Option<Answer> {
    let answer = match *call {
        Call::Beta { i, d } => model::beta(rows, i, d),
        Call::IsIFree { i, d } => model::is_i_free(rows, i, d),
        Call::IsFree { d } => model::is_free(rows, d),
        Call::CheckMap => model::check_map(rows, flags),
        Call::OneLink { ld, rd } => model::one_link(rows, flags, ld, rd),
        Call::TwoLink { ld, rd } => model::two_link(rows, flags, ld, rd),
        Call::ThreeLink { ld, rd } => model::three_link(rows, flags, ld, rd),
        Call::OneUnlink { ld } => model::one_unlink(rows, flags, ld),
        Call::TwoUnlink { ld } => model::two_unlink(rows, flags, ld),
        Call::ThreeUnlink { ld } => model::three_unlink(rows, flags, ld),
        Call::ThreeLinkCore { ld, rd } => model::three_link_core(rows, flags, ld, rd),
        Call::ThreeUnlinkCore { ld } => model::three_unlink_core(rows, flags, ld),
        _ => return None,
    };
    Some(answer)
}

/// Sews, unsews and lists of commands.
fn with_plan(call: &Call, loans: &mut Loans) -> Option<Answer> {
    let Loans { rows, marks, queue, output, flags, vertex_marks, coordinates, plan, commands, .. } = loans;
    let answer = match *call {
        Call::OneSew { ld, rd } => model::one_sew(rows, marks, queue, flags, plan, ld, rd),
        Call::OneUnsew { ld } => model::one_unsew(rows, marks, queue, flags, plan, ld),
        Call::TwoSew { ld, rd } => model::two_sew(rows, marks, queue, flags, vertex_marks, coordinates, plan, ld, rd),
        Call::TwoUnsew { ld } => model::two_unsew(rows, marks, queue, flags, plan, ld),
        Call::ThreeUnsew { ld } => model::three_unsew(rows, marks, queue, flags, plan, ld),
        Call::Commands => model::commands(rows, marks, queue, output, flags, vertex_marks, coordinates, plan, commands),
        _ => return None,
    };
    Some(answer)
}

/// The model's name of an orbit.
fn of_model(orbit: &Orbit) -> model::Orbit<'_> {
    match orbit {
        Orbit::Vertex => model::Orbit::Vertex,
        Orbit::VertexLinear => model::Orbit::VertexLinear,
        Orbit::Edge => model::Orbit::Edge,
        Orbit::Face => model::Orbit::Face,
        Orbit::FaceLinear => model::Orbit::FaceLinear,
        Orbit::Volume => model::Orbit::Volume,
        Orbit::VolumeLinear => model::Orbit::VolumeLinear,
        Orbit::Custom(betas) => model::Orbit::Custom(betas),
    }
}

/// Identifiers, orbits and lists.
fn on_cells(call: &Call, loans: &mut Loans) -> Option<Answer> {
    let Loans { rows, marks, queue, output, flags, .. } = loans;
    let answer = match *call {
        Call::Identifier { cell, d } => model::identifier(cell, rows, marks, queue, flags, d),
        Call::Orbit { ref orbit, d } => model::orbit(of_model(orbit), rows, marks, output, flags, d),
        Call::List { cell } => model::list(cell, rows, marks, queue, output, flags),
        _ => return None,
    };
    Some(answer)
}

/// The reader and the writer.
fn on_bytes(call: &Call, loans: &mut Loans) -> Option<Answer> {
    let Loans { rows, flags, vertex_marks, coordinates, bytes, .. } = loans;
    match call {
        Call::ReadImage => Some(model::read_image(bytes, flags, vertex_marks, coordinates, rows)),
        Call::WriteImage => Some(model::write_image(rows, flags, vertex_marks, coordinates, bytes)),
        _ => None,
    }
}

impl Kernel for Model {
    fn name(&self) -> &'static str {
        "model"
    }

    fn has_say(&self, _: &Call, _: &Loans) -> bool {
        true
    }

    fn leaves_scratch(&self) -> bool {
        true
    }

    fn run(&mut self, call: &Call, loans: &mut Loans) -> Answer {
        on_rows(call, &mut loans.rows, &loans.flags)
            .or_else(|| with_plan(call, loans))
            .or_else(|| on_cells(call, loans))
            .or_else(|| on_bytes(call, loans))
            .expect("a call of one of the groups")
    }
}
