//! Places that no call is lent.

use crate::kernel::Loans;

/// Places behind the end of every loan, which no call is lent and none may touch.
pub struct Fence {
    pub rows: usize,
    pub marks: usize,
    pub queue: usize,
    pub output: usize,
    pub flags: usize,
    pub vertex_marks: usize,
    pub coordinates: usize,
    pub plan: usize,
    pub commands: usize,
    pub bytes: usize,
}

impl Fence {
    const WORD: u32 = 0xFE9C_E000;
    const BYTE: u8 = 0xFE;
    const FLOAT: f64 = 1234.5;

    /// Puts the places there; the lengths are those that are lent.
    pub fn around(loans: &mut Loans) -> Self {
        fn put<T: Copy>(list: &mut Vec<T>, fence: T) -> usize {
            list.extend([fence; 4]);
            list.len() - 4
        }
        Self {
            rows: put(&mut loans.rows, Self::WORD),
            marks: put(&mut loans.marks, Self::BYTE),
            queue: put(&mut loans.queue, Self::WORD),
            output: put(&mut loans.output, Self::WORD),
            flags: put(&mut loans.flags, Self::BYTE),
            vertex_marks: put(&mut loans.vertex_marks, Self::BYTE),
            coordinates: put(&mut loans.coordinates, Self::FLOAT),
            plan: put(&mut loans.plan, Self::WORD),
            commands: put(&mut loans.commands, Self::WORD),
            bytes: put(&mut loans.bytes, Self::BYTE),
        }
    }

    /// Takes them away again; a place that was touched is a panic, which the comparison reports.
    pub fn take_away(self, loans: &mut Loans) {
        fn take<T: Copy + PartialEq>(list: &mut Vec<T>, length: usize, fence: T, name: &str) {
            assert!(list[length..].iter().all(|&place| place == fence), "written behind the end of {name}");
            list.truncate(length);
        }
        take(&mut loans.rows, self.rows, Self::WORD, "rows");
        take(&mut loans.marks, self.marks, Self::BYTE, "marks");
        take(&mut loans.queue, self.queue, Self::WORD, "queue");
        take(&mut loans.output, self.output, Self::WORD, "output");
        take(&mut loans.flags, self.flags, Self::BYTE, "flags");
        take(&mut loans.vertex_marks, self.vertex_marks, Self::BYTE, "vertex marks");
        take(&mut loans.coordinates, self.coordinates, Self::FLOAT, "coordinates");
        take(&mut loans.plan, self.plan, Self::WORD, "plan");
        take(&mut loans.commands, self.commands, Self::WORD, "commands");
        take(&mut loans.bytes, self.bytes, Self::BYTE, "bytes");
    }
}
