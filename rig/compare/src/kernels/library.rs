//! The answers of what stands behind the C names.

use inkcapper::{Answer as Told, slices};

use super::fence::Fence;
use crate::kernel::{Answer, Call, Cell, Kernel, Loans, Orbit};

// Without the proved library the model stands behind the C names; naming the crate links it.
#[cfg(not(feature = "linked"))]
extern crate c_names;

/// What stands behind the C names, through the safe wrapper.
pub struct Library;

/// Reads, the map test, links and unlinks.
fn on_rows(call: &Call, lent: &Fence, loans: &mut Loans) -> Option<Told> {
    let (rows, flags) = (&mut loans.rows[..lent.rows], &loans.flags[..lent.flags]);
    let answer = match *call {
        Call::Beta { i, d } => slices::beta(rows, i, d),
        Call::IsIFree { i, d } => slices::is_i_free(rows, i, d),
        Call::IsFree { d } => slices::is_free(rows, d),
        Call::CheckMap => slices::check_map(rows, flags),
        Call::OneLink { ld, rd } => slices::one_link(rows, flags, ld, rd),
        Call::TwoLink { ld, rd } => slices::two_link(rows, flags, ld, rd),
        Call::ThreeLink { ld, rd } => slices::three_link(rows, flags, ld, rd),
        Call::OneUnlink { ld } => slices::one_unlink(rows, flags, ld),
        Call::TwoUnlink { ld } => slices::two_unlink(rows, flags, ld),
        Call::ThreeUnlink { ld } => slices::three_unlink(rows, flags, ld),
        _ => return None,
    };
    Some(answer)
}

/// Sews, unsews and lists of commands.
fn with_plan(call: &Call, lent: &Fence, loans: &mut Loans) -> Option<Told> {
    let Loans { rows, marks, queue, output, flags, vertex_marks, coordinates, plan, commands, .. } = loans;
    let (rows, marks, queue) = (&mut rows[..lent.rows], &mut marks[..lent.marks], &mut queue[..lent.queue]);
    let (vertex_marks, coordinates) = (&vertex_marks[..lent.vertex_marks], &coordinates[..lent.coordinates]);
    let (output, plan) = (&mut output[..lent.output], &mut plan[..lent.plan]);
    let (flags, commands) = (&flags[..lent.flags], &commands[..lent.commands]);
    let answer = match *call {
        Call::OneSew { ld, rd } => slices::one_sew(rows, marks, queue, flags, plan, ld, rd),
        Call::OneUnsew { ld } => slices::one_unsew(rows, marks, queue, flags, plan, ld),
        Call::TwoSew { ld, rd } => slices::two_sew(rows, marks, queue, flags, vertex_marks, coordinates, plan, ld, rd),
        Call::TwoUnsew { ld } => slices::two_unsew(rows, marks, queue, flags, plan, ld),
        Call::ThreeUnsew { ld } => slices::three_unsew(rows, marks, queue, flags, plan, ld),
        Call::Commands => {
            slices::commands(rows, marks, queue, output, flags, vertex_marks, coordinates, plan, commands)
        }
        _ => return None,
    };
    Some(answer)
}

/// An orbit by its class.
fn orbit(orbit: &Orbit, rows: &[u32], marks: &mut [u8], output: &mut [u32], flags: &[u8], d: u32) -> Told {
    let call = match orbit {
        Orbit::Vertex => slices::orbit_vertex,
        Orbit::VertexLinear => slices::orbit_vertex_linear,
        Orbit::Edge => slices::orbit_edge,
        Orbit::Face => slices::orbit_face,
        Orbit::FaceLinear => slices::orbit_face_linear,
        Orbit::Volume => slices::orbit_volume,
        Orbit::VolumeLinear => slices::orbit_volume_linear,
        Orbit::Custom(betas) => return slices::orbit_custom(rows, marks, output, flags, betas, d),
    };
    call(rows, marks, output, flags, d)
}

/// Identifiers, orbits and lists.
fn on_cells(call: &Call, lent: &Fence, loans: &mut Loans) -> Option<Told> {
    let Loans { rows, marks, queue, output, flags, .. } = loans;
    let (rows, flags) = (&rows[..lent.rows], &flags[..lent.flags]);
    let (marks, queue) = (&mut marks[..lent.marks], &mut queue[..lent.queue]);
    let output = &mut output[..lent.output];
    let answer = match *call {
        Call::Identifier { cell: Cell::Vertex, d } => slices::vertex_id(rows, marks, queue, flags, d),
        Call::Identifier { cell: Cell::Edge, d } => slices::edge_id(rows, marks, queue, flags, d),
        Call::Identifier { cell: Cell::Face, d } => slices::face_id(rows, marks, queue, flags, d),
        Call::Identifier { cell: Cell::Volume, d } => slices::volume_id(rows, marks, queue, flags, d),
        Call::Orbit { orbit: ref by, d } => orbit(by, rows, marks, output, flags, d),
        Call::List { cell: Cell::Vertex } => slices::list_vertices(rows, marks, queue, output, flags),
        Call::List { cell: Cell::Edge } => slices::list_edges(rows, marks, queue, output, flags),
        Call::List { cell: Cell::Face } => slices::list_faces(rows, marks, queue, output, flags),
        Call::List { cell: Cell::Volume } => slices::list_volumes(rows, marks, queue, output, flags),
        _ => return None,
    };
    Some(answer)
}

/// The reader and the writer.
fn on_bytes(call: &Call, lent: &Fence, loans: &mut Loans) -> Option<Told> {
    let Loans { rows, flags, vertex_marks, coordinates, bytes, .. } = loans;
    let (rows, bytes) = (&mut rows[..lent.rows], &mut bytes[..lent.bytes]);
    let (flags, vertex_marks) = (&mut flags[..lent.flags], &mut vertex_marks[..lent.vertex_marks]);
    let coordinates = &mut coordinates[..lent.coordinates];
    match call {
        Call::ReadImage => Some(slices::read_image(bytes, flags, vertex_marks, coordinates, rows)),
        Call::WriteImage => Some(slices::write_image(rows, flags, vertex_marks, coordinates, bytes)),
        _ => None,
    }
}

impl Kernel for Library {
    fn name(&self) -> &'static str {
        if cfg!(feature = "linked") { "library" } else { "model behind the C names" }
    }

    /// Every call that has a C name, refusals included.
    fn has_say(&self, call: &Call, _: &Loans) -> bool {
        !matches!(call, Call::ThreeLinkCore { .. } | Call::ThreeUnlinkCore { .. })
    }

    fn leaves_scratch(&self) -> bool {
        true
    }

    fn run(&mut self, call: &Call, loans: &mut Loans) -> Answer {
        let lent = Fence::around(loans);
        let answer = on_rows(call, &lent, loans)
            .or_else(|| with_plan(call, &lent, loans))
            .or_else(|| on_cells(call, &lent, loans))
            .or_else(|| on_bytes(call, &lent, loans))
            .expect("the bare beta 3 cores have no C name");
        lent.take_away(loans);
        answer.parts()
    }
}
