//! What is compared: calls on loans, and whoever answers them.

pub use model::{Answer, Cell, ENTRY_NUMBERS};

/// The orbits by class; Custom carries its list.
#[derive(Debug, Clone, PartialEq, Eq)]
pub enum Orbit {
    Vertex,
    VertexLinear,
    Edge,
    Face,
    FaceLinear,
    Volume,
    VolumeLinear,
    Custom(Vec<u8>),
}

/// A call with its numbers; its slices are the [`Loans`].
#[derive(Debug, Clone, PartialEq, Eq)]
pub enum Call {
    Beta {
        i: u32,
        d: u32,
    },
    IsIFree {
        i: u32,
        d: u32,
    },
    IsFree {
        d: u32,
    },
    /// The map test: in the model, without a counterpart in the Rust.
    CheckMap,
    OneLink {
        ld: u32,
        rd: u32,
    },
    TwoLink {
        ld: u32,
        rd: u32,
    },
    ThreeLink {
        ld: u32,
        rd: u32,
    },
    OneUnlink {
        ld: u32,
    },
    TwoUnlink {
        ld: u32,
    },
    ThreeUnlink {
        ld: u32,
    },
    /// Core (3, ld, rd): in the Rust and in the model, without a C name.
    ThreeLinkCore {
        ld: u32,
        rd: u32,
    },
    /// Unlink core for beta 3: in the Rust and in the model, without a C name.
    ThreeUnlinkCore {
        ld: u32,
    },
    OneSew {
        ld: u32,
        rd: u32,
    },
    OneUnsew {
        ld: u32,
    },
    TwoSew {
        ld: u32,
        rd: u32,
    },
    TwoUnsew {
        ld: u32,
    },
    ThreeUnsew {
        ld: u32,
    },
    Identifier {
        cell: Cell,
        d: u32,
    },
    Orbit {
        orbit: Orbit,
        d: u32,
    },
    List {
        cell: Cell,
    },
    /// A list of commands, which stands in the loans.
    Commands,
    ReadImage,
    WriteImage,
}

/// The calls by name, in the order of the scope.
pub const NAMES: [&str; 36] = [
    "beta",
    "is_i_free",
    "is_free",
    "check_map",
    "one_link",
    "two_link",
    "three_link",
    "one_unlink",
    "two_unlink",
    "three_unlink",
    "(three_link_core)",
    "(three_unlink_core)",
    "one_sew",
    "one_unsew",
    "two_sew",
    "two_unsew",
    "three_unsew",
    "vertex_id",
    "edge_id",
    "face_id",
    "volume_id",
    "orbit_vertex",
    "orbit_vertex_linear",
    "orbit_edge",
    "orbit_face",
    "orbit_face_linear",
    "orbit_volume",
    "orbit_volume_linear",
    "orbit_custom",
    "list_vertices",
    "list_edges",
    "list_faces",
    "list_volumes",
    "read_image",
    "write_image",
    "commands",
];

impl Call {
    /// The name under which the call is counted: that of the C boundary.
    pub fn name(&self) -> &'static str {
        NAMES[self.index()]
    }

    /// The place of its name in [`NAMES`]: counting must cost next to nothing.
    pub fn index(&self) -> usize {
        match self {
            Call::Beta { .. } => 0,
            Call::IsIFree { .. } => 1,
            Call::IsFree { .. } => 2,
            Call::CheckMap => 3,
            Call::OneLink { .. } => 4,
            Call::TwoLink { .. } => 5,
            Call::ThreeLink { .. } => 6,
            Call::OneUnlink { .. } => 7,
            Call::TwoUnlink { .. } => 8,
            Call::ThreeUnlink { .. } => 9,
            Call::ThreeLinkCore { .. } => 10,
            Call::ThreeUnlinkCore { .. } => 11,
            Call::OneSew { .. } => 12,
            Call::OneUnsew { .. } => 13,
            Call::TwoSew { .. } => 14,
            Call::TwoUnsew { .. } => 15,
            Call::ThreeUnsew { .. } => 16,
            Call::Identifier { cell, .. } => 17 + *cell as usize,
            Call::Orbit { orbit, .. } => match orbit {
                Orbit::Vertex => 21,
                Orbit::VertexLinear => 22,
                Orbit::Edge => 23,
                Orbit::Face => 24,
                Orbit::FaceLinear => 25,
                Orbit::Volume => 26,
                Orbit::VolumeLinear => 27,
                Orbit::Custom(_) => 28,
            },
            Call::List { cell } => 29 + *cell as usize,
            Call::ReadImage => 33,
            Call::WriteImage => 34,
            Call::Commands => 35,
        }
    }

    /// Its numbers in the order of the C boundary; the betas of a Custom orbit stand before the dart.
    pub fn numbers(&self) -> Vec<u32> {
        match *self {
            Call::Beta { i, d } | Call::IsIFree { i, d } => vec![i, d],
            Call::IsFree { d } | Call::Identifier { d, .. } => vec![d],
            Call::OneLink { ld, rd }
            | Call::TwoLink { ld, rd }
            | Call::ThreeLink { ld, rd }
            | Call::ThreeLinkCore { ld, rd }
            | Call::OneSew { ld, rd }
            | Call::TwoSew { ld, rd } => vec![ld, rd],
            Call::OneUnlink { ld }
            | Call::TwoUnlink { ld }
            | Call::ThreeUnlink { ld }
            | Call::ThreeUnlinkCore { ld }
            | Call::OneUnsew { ld }
            | Call::TwoUnsew { ld }
            | Call::ThreeUnsew { ld } => vec![ld],
            Call::Orbit { orbit: Orbit::Custom(ref betas), d } => {
                betas.iter().map(|&i| u32::from(i)).chain([d]).collect()
            }
            Call::Orbit { d, .. } => vec![d],
            Call::CheckMap | Call::List { .. } | Call::Commands | Call::ReadImage | Call::WriteImage => Vec::new(),
        }
    }

    /// Whether the call has a plan.
    pub fn plans(&self) -> bool {
        matches!(
            self,
            Call::OneSew { .. }
                | Call::OneUnsew { .. }
                | Call::TwoSew { .. }
                | Call::TwoUnsew { .. }
                | Call::ThreeUnsew { .. }
                | Call::Commands
        )
    }

    /// The call that a command stands for, by its operation and its darts; an unlink or unsew has the first alone.
    pub fn of_command([operation, ld, rd]: [u32; 3]) -> Option<Self> {
        let call = match operation {
            1 => Call::OneLink { ld, rd },
            2 => Call::TwoLink { ld, rd },
            3 => Call::ThreeLink { ld, rd },
            4 => Call::OneSew { ld, rd },
            5 => Call::TwoSew { ld, rd },
            6 => Call::OneUnlink { ld },
            7 => Call::TwoUnlink { ld },
            8 => Call::ThreeUnlink { ld },
            9 => Call::OneUnsew { ld },
            10 => Call::TwoUnsew { ld },
            11 => Call::ThreeUnsew { ld },
            _ => return None,
        };
        Some(call)
    }
}

/// All that a call can be lent. A call takes its own; the others must come back untouched.
#[derive(Debug, Default)]
pub struct Loans {
    pub rows: Vec<u32>,
    pub marks: Vec<u8>,
    pub queue: Vec<u32>,
    pub output: Vec<u32>,
    pub flags: Vec<u8>,
    pub vertex_marks: Vec<u8>,
    pub coordinates: Vec<f64>,
    pub plan: Vec<u32>,
    pub commands: Vec<u32>,
    pub bytes: Vec<u8>,
}

impl Clone for Loans {
    fn clone(&self) -> Self {
        let mut copy = Self::default();
        copy.clone_from(self);
        copy
    }

    // keeps what is already allocated: this runs once for every call and kernel
    fn clone_from(&mut self, from: &Self) {
        self.rows.clone_from(&from.rows);
        self.marks.clone_from(&from.marks);
        self.queue.clone_from(&from.queue);
        self.output.clone_from(&from.output);
        self.flags.clone_from(&from.flags);
        self.vertex_marks.clone_from(&from.vertex_marks);
        self.coordinates.clone_from(&from.coordinates);
        self.plan.clone_from(&from.plan);
        self.commands.clone_from(&from.commands);
        self.bytes.clone_from(&from.bytes);
    }
}

impl Loans {
    /// Loans of the right size for these rows and a little beyond, filled with what a call must not
    /// leave behind or must not touch. No dart is unused; the flag of dart 0, at which only the writer looks, and
    /// the one behind the last dart's are set.
    pub fn around(rows: Vec<u32>) -> Self {
        let n = rows.len() / 4;
        let mut flags = vec![0; n + 1];
        (flags[0], flags[n]) = (0xF1, 0xF1);
        Self {
            rows,
            marks: vec![0xA5; n + 1],
            queue: vec![0xDEAD_BEEF; n + 2],
            output: vec![0xFEED_0000; n + 3],
            flags,
            vertex_marks: vec![0; n + 1],
            coordinates: vec![-7.25; 3 * n + 1],
            plan: vec![0xC0DE_0000; ENTRY_NUMBERS * (3 * n + 1) + 5],
            commands: Vec::new(),
            bytes: Vec::new(),
        }
    }

    /// The first loan in which two differ; floats by their bits.
    pub fn first_difference(&self, other: &Self, scratch: bool) -> Option<&'static str> {
        let bits =
            |a: &[f64], b: &[f64]| a.len() == b.len() && a.iter().zip(b).all(|(x, y)| x.to_bits() == y.to_bits());
        let same = [
            ("rows", self.rows == other.rows),
            ("marks", !scratch || self.marks == other.marks),
            ("queue", !scratch || self.queue == other.queue),
            ("output", self.output == other.output),
            ("flags", self.flags == other.flags),
            ("vertex marks", self.vertex_marks == other.vertex_marks),
            ("coordinates", bits(&self.coordinates, &other.coordinates)),
            ("plan", self.plan == other.plan),
            ("commands", self.commands == other.commands),
            ("bytes", self.bytes == other.bytes),
        ];
        same.iter().find(|(_, same)| !same).map(|&(name, _)| name)
    }
}

/// Whoever answers calls. Each is held against the model: its answer and every loan afterwards.
pub trait Kernel {
    /// Its name in reports.
    fn name(&self) -> &'static str;

    /// Whether it has a say on this call with these loans; judged from these alone, and not by what the model
    /// answers.
    fn has_say(&self, call: &Call, before: &Loans) -> bool;

    /// Whether marks and queue are its own doing and so compared.
    fn leaves_scratch(&self) -> bool;

    /// Answers, and leaves the loans as it does.
    fn run(&mut self, call: &Call, loans: &mut Loans) -> Answer;
}
