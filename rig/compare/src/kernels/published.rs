//! The published Rust's answers.

use std::mem::take;

use oracle::{Entry, Oracle};

use crate::kernel::{Answer, Call, Cell, ENTRY_NUMBERS, Kernel, Loans, Orbit};

/// The published Rust, with the scope's plan room put on top, and sizes of cells, of which it says nothing: they are
/// counted here, in its own orbits of the darts that it names.
#[derive(Default)]
pub struct Published {
    oracle: Option<Oracle>,
    /// What the oracle holds, so that a map asked many things is put in once: its rows and its flags.
    held: Vec<u32>,
    flags: Vec<u8>,
}

impl Published {
    /// The oracle with these rows in it, and with the flags of the darts where there are as many.
    fn with(&mut self, rows: &[u32], flags: &[u8]) -> &mut Oracle {
        let n = rows.len() / 4;
        if self.oracle.as_ref().is_none_or(|oracle| oracle.darts() != n) {
            self.oracle = Some(Oracle::new(n));
            self.held.clear();
            self.flags.clear();
        }
        let oracle = self.oracle.as_mut().expect("just put there");
        if self.held != rows {
            oracle.put_rows(rows);
            self.held.clear();
            self.held.extend_from_slice(rows);
        }
        if let Some(flags) = flags.get(..n).filter(|flags| self.flags != *flags) {
            oracle.put_flags(flags);
            self.flags.clear();
            self.flags.extend_from_slice(flags);
        }
        oracle
    }

    /// Takes over the rows after a call that may have changed them.
    fn changed(&mut self, rows: &mut Vec<u32>) {
        if let Some(oracle) = &self.oracle {
            oracle.take_rows(rows);
            self.held.clone_from(rows);
        }
    }

    /// A sew's answer: its plan written if it fits, with sizes; else refusal 11, and nothing changed.
    fn planned(&mut self, (answer, entries): (Answer, Vec<Entry>), loans: &mut Loans) -> Answer {
        if entries.len() > loans.plan.len() / ENTRY_NUMBERS {
            self.held.clear();
            return (11, [entries.len() as u64, 0, 0]);
        }
        let before = loans.rows.clone();
        self.changed(&mut loans.rows);
        let sizes = self.sizes(&entries, &before, &loans.rows, &loans.flags);
        for ((place, entry), sizes) in loans.plan.chunks_exact_mut(ENTRY_NUMBERS).zip(&entries).zip(sizes) {
            let (said, counted) = place.split_at_mut(entry.len());
            said.copy_from_slice(entry);
            counted.copy_from_slice(&sizes);
        }
        answer
    }

    /// The sizes of the left and the right cell of each entry of one sew or unsew. Those of merges are counted in the
    /// rows before, those of splits in the rows after. A face split has a pair for every two darts that have lost
    /// their beta 3 image.
    fn sizes(&mut self, entries: &[Entry], before: &[u32], after: &[u32], flags: &[u8]) -> Vec<[u32; 2]> {
        let Some(first) = entries.first() else { return Vec::new() };
        let oracle = self.with(if first[0] < 11 { before } else { after }, flags);
        let parted = before.iter().zip(after).skip(3).step_by(4).filter(|(before, after)| before != after).count();
        let of = |&[code, a, b, c]: &Entry| match code {
            1 => [b, c].map(|d| size(oracle, Cell::Vertex, d)),
            2 => [b, c].map(|d| size(oracle, Cell::Edge, d)),
            11 => [a, b].map(|d| size(oracle, Cell::Vertex, d)),
            12 => [a, b].map(|d| size(oracle, Cell::Edge, d)),
            _ => [parted as u32 / 2; 2],
        };
        entries.iter().map(of).collect()
    }

    /// Reads, links and unlinks.
    fn on_rows(&mut self, call: &Call, rows: &mut Vec<u32>, flags: &[u8]) -> Option<Answer> {
        let oracle = self.with(rows, flags);
        let answer = match *call {
            Call::Beta { i, d } => return Some(oracle.beta(i as u8, d)),
            Call::IsIFree { i, d } => return Some(oracle.is_i_free(i as u8, d)),
            Call::IsFree { d } => return Some(oracle.is_free(d)),
            Call::OneLink { ld, rd } => oracle.one_link(ld, rd),
            Call::TwoLink { ld, rd } => oracle.two_link(ld, rd),
            Call::ThreeLink { ld, rd } => oracle.three_link(ld, rd),
            Call::OneUnlink { ld } => oracle.one_unlink(ld),
            Call::TwoUnlink { ld } => oracle.two_unlink(ld),
            Call::ThreeUnlink { ld } => oracle.three_unlink(ld),
            Call::ThreeLinkCore { ld, rd } => oracle.three_link_core(ld, rd),
            Call::ThreeUnlinkCore { ld } => oracle.three_unlink_core(ld),
            _ => return None,
        };
        self.changed(rows);
        Some(answer)
    }

    /// Sews and unsews.
    fn with_plan(&mut self, call: &Call, loans: &mut Loans) -> Option<Answer> {
        let oracle = self.with(&loans.rows, &loans.flags);
        let sewn = match *call {
            Call::OneSew { ld, rd } => oracle.one_sew(ld, rd),
            Call::OneUnsew { ld } => oracle.one_unsew(ld),
            Call::TwoSew { ld, rd } => {
                oracle.put_vertices(&loans.vertex_marks, &loans.coordinates);
                oracle.two_sew(ld, rd)
            }
            Call::TwoUnsew { ld } => oracle.two_unsew(ld),
            Call::ThreeUnsew { ld } => oracle.three_unsew(ld),
            _ => return None,
        };
        Some(self.planned(sewn, loans))
    }

    /// A command of a list as a single call. An operation that there is not, and darts that are none or unused, are
    /// tested here: the Rust has no such tests.
    fn command(&mut self, numbers: [u32; 3], loans: &mut Loans) -> Answer {
        let Some(call) = Call::of_command(numbers) else { return (13, [u64::from(numbers[0]), 0, 0]) };
        let n = (loans.rows.len() / 4) as u32;
        match call.numbers().iter().position(|d| !(1..n).contains(d) || loans.flags[*d as usize] != 0) {
            Some(at) => (4, [at as u64 + 1, 0, 0]),
            None => self.run(&call, loans),
        }
    }

    /// A list of commands as its calls one after another, each lent what is left of the plan.
    fn commands(&mut self, loans: &mut Loans) -> Answer {
        let (mut output, mut plan) = (take(&mut loans.output), take(&mut loans.plan));
        let commands = take(&mut loans.commands);
        let mut written = 0;
        for (numbers, place) in commands.chunks_exact(3).zip(output.chunks_exact_mut(5)) {
            let rest = &mut plan[ENTRY_NUMBERS * written..];
            loans.plan.clear();
            loans.plan.extend_from_slice(rest);
            let (number, [a, b, c]) = self.command([numbers[0], numbers[1], numbers[2]], loans);
            rest.copy_from_slice(&loans.plan);
            let five = if number == 0 { [0, a, 0, 0, b] } else { [u64::from(number), a, b, c, 0] };
            place.copy_from_slice(&five.map(|word| word as u32));
            written += five[4] as usize;
        }
        (loans.output, loans.plan, loans.commands) = (output, plan, commands);
        (0, [0, written as u64, 0])
    }

    /// Identifiers, orbits and lists.
    fn on_cells(&mut self, call: &Call, loans: &mut Loans) -> Option<Answer> {
        let oracle = self.with(&loans.rows, &loans.flags);
        let (answer, list) = match *call {
            Call::Identifier { cell, d } => {
                let (number, [name, ..]) = oracle.identifier(of_oracle(cell), d);
                return Some((number, [name, u64::from(size(oracle, cell, d)), 0]));
            }
            Call::Orbit { ref orbit, d } => oracle.orbit(orbit_of_oracle(orbit), d),
            Call::List { cell } => oracle.list(of_oracle(cell)),
            _ => return None,
        };
        loans.output[..list.len()].copy_from_slice(&list);
        Some(answer)
    }
}

/// How many darts the cell of `d` has, by the length of its orbit: none for the null dart. Those of a face, which
/// nobody asks for, are not counted.
fn size(oracle: &Oracle, cell: Cell, d: u32) -> u32 {
    let orbit = match cell {
        _ if d == 0 => return 0,
        Cell::Vertex => oracle::Orbit::Vertex,
        Cell::Edge => oracle::Orbit::Edge,
        Cell::Face => return 0,
        Cell::Volume => oracle::Orbit::Volume,
    };
    oracle.orbit(orbit, d).1.len() as u32
}

/// The oracle's name of a class of cells.
fn of_oracle(cell: Cell) -> oracle::Cell {
    match cell {
        Cell::Vertex => oracle::Cell::Vertex,
        Cell::Edge => oracle::Cell::Edge,
        Cell::Face => oracle::Cell::Face,
        Cell::Volume => oracle::Cell::Volume,
    }
}

/// The oracle's name of an orbit.
fn orbit_of_oracle(orbit: &Orbit) -> oracle::Orbit<'_> {
    match orbit {
        Orbit::Vertex => oracle::Orbit::Vertex,
        Orbit::VertexLinear => oracle::Orbit::VertexLinear,
        Orbit::Edge => oracle::Orbit::Edge,
        Orbit::Face => oracle::Orbit::Face,
        Orbit::FaceLinear => oracle::Orbit::FaceLinear,
        Orbit::Volume => oracle::Orbit::Volume,
        Orbit::VolumeLinear => oracle::Orbit::VolumeLinear,
        Orbit::Custom(betas) => oracle::Orbit::Custom(betas),
    }
}

/// The most darts that a map may have, the null dart counted.
const MOST_DARTS: usize = 1 << 20;

/// Whether rows and flags are a map, from the rules themselves.
fn is_map(rows: &[u32], flags: &[u8]) -> bool {
    let n = rows.len() / 4;
    let image = |i: usize, d: usize| rows[4 * d + i] as usize;
    (0..n).all(|d| {
        (0..4).all(|i| match image(i, d) {
            0 => true,
            x => d != 0 && x < n && image([1, 0, 2, 3][i], x) == d && (i < 2 || x != d) && flags[d] == 0,
        })
    })
}

/// The beta numbers and the darts of a call.
fn betas_and_darts(call: &Call) -> (Vec<u32>, Vec<u32>) {
    let mut numbers = call.numbers();
    let betas = match call {
        Call::Beta { .. } | Call::IsIFree { .. } => 1,
        Call::Orbit { orbit: Orbit::Custom(betas), .. } => betas.len(),
        _ => 0,
    };
    let darts = numbers.split_off(betas);
    (numbers, darts)
}

/// Whether the loans that the call has, but for the plan, are long enough for n darts.
fn long_enough(call: &Call, loans: &Loans, n: usize) -> bool {
    let (marks, queue) = (loans.marks.len() >= n, loans.queue.len() >= n);
    let (output, flags) = (loans.output.len() >= n, loans.flags.len() >= n);
    let vertices = loans.vertex_marks.len() >= n && loans.coordinates.len() >= 3 * n;
    match call {
        Call::Beta { .. } | Call::IsIFree { .. } | Call::IsFree { .. } => true,
        Call::Identifier { .. } => marks && queue && flags,
        Call::Orbit { .. } => marks && output && flags,
        Call::List { .. } => marks && queue && output && flags,
        Call::TwoSew { .. } => marks && queue && flags && vertices,
        Call::Commands => marks && queue && loans.output.len() >= loans.commands.len() / 3 * 5 && flags && vertices,
        call if call.plans() => marks && queue && flags,
        _ => flags,
    }
}

impl Kernel for Published {
    fn name(&self) -> &'static str {
        "published Rust"
    }

    /// It has one wherever refusals 1 to 5, 12 and 13, which it does not have, do not come first: on maps whose
    /// unused darts are free, of used darts, and where dart 0 is allowed of unused ones too. The map test, the
    /// reader and the writer as calls have no counterpart in it. A list of commands is its calls.
    fn has_say(&self, call: &Call, before: &Loans) -> bool {
        let n = before.rows.len() / 4;
        let sized = before.rows.len() == 4 * n && (1..=MOST_DARTS).contains(&n);
        let least = match call {
            Call::CheckMap | Call::ReadImage | Call::WriteImage => return false,
            Call::Beta { .. } | Call::IsIFree { .. } | Call::IsFree { .. } => 0,
            Call::Identifier { .. } | Call::Orbit { .. } | Call::List { .. } => 0,
            _ => 1,
        };
        let reads = matches!(call, Call::Beta { .. } | Call::IsIFree { .. } | Call::IsFree { .. });
        let (betas, darts) = betas_and_darts(call);
        let whole = *call != Call::Commands || before.commands.len().is_multiple_of(3);
        sized
            && whole
            && long_enough(call, before, n)
            && betas.iter().all(|&i| i < 4)
            && darts.iter().all(|&d| (least..n as u32).contains(&d) && (least == 0 || before.flags[d as usize] == 0))
            && (reads || is_map(&before.rows, &before.flags))
    }

    fn leaves_scratch(&self) -> bool {
        false
    }

    fn run(&mut self, call: &Call, loans: &mut Loans) -> Answer {
        if *call == Call::Commands {
            return self.commands(loans);
        }
        self.on_rows(call, &mut loans.rows, &loans.flags)
            .or_else(|| self.with_plan(call, loans))
            .or_else(|| self.on_cells(call, loans))
            .expect("the Rust has no map test, no reader and no writer")
    }
}
