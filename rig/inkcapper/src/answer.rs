//! What a call answers.

use std::fmt;

/// The answer of a call: done, or refused with a reason.
#[must_use = "a call that is not looked at may have been refused"]
#[derive(Debug, Clone, Copy, PartialEq, Eq, Hash)]
pub enum Answer {
    /// Done, with the dart or yes/no answered (0 where none) and a count (0 where none).
    Done {
        /// The dart, or 1 for yes and 0 for no.
        first: u32,
        /// What was written: darts for orbits, lists and the reader; entries for plans, and for lists of commands
        /// in all; bytes for the writer. Of a vertex, edge or volume identifier the size of the cell: its darts.
        count: u64,
    },
    /// Refused; rows, flags, vertices, plan, output and bytes are as they were (scope: what is left).
    Refused(Refusal),
}

/// The refusals, with their values (scope: numbers).
#[must_use = "a refusal says what the call has not done"]
#[derive(Debug, Clone, Copy, PartialEq, Eq, Hash)]
pub enum Refusal {
    /// 1: the row length is 0, no multiple of 4, or the darts are too many.
    BadSize { length: u64 },
    /// 2: a loan is below its size. Loans are numbered 1 to 7: marks, queue, output, flags, vertex
    /// marks, coordinates, rows.
    ShortLoan { loan: u32 },
    /// 3: the image of this dart under this beta is the first that breaks a rule of maps; beta 4 says that the dart
    /// is unused and yet has an image.
    NotAMap { beta: u32, dart: u32 },
    /// 4: the first or second dart is not below n, or is 0 or unused where a real one in use is asked for.
    BadDart { argument: u32 },
    /// 5: a beta number above 3.
    BadBeta { value: u32 },
    /// 6: cannot link `l` to `r`, beta `i` of `l` is not null.
    NonFreeBase { i: u32, l: u32, r: u32 },
    /// 7: cannot link `l` to `r`, beta `i` of `r` is not null (or `l` is `r` under beta 2 or 3).
    NonFreeImage { i: u32, l: u32, r: u32 },
    /// 8: cannot unlink `d`, its beta `i` is null.
    AlreadyFree { i: u32, d: u32 },
    /// 9: the two faces do not go together.
    AsymmetricalFaces { ld: u32, rd: u32 },
    /// 10: the two edges do not point against each other.
    BadGeometry { i: u32, ld: u32, rd: u32 },
    /// 11: the plan needs this many entries, of [`ENTRY_NUMBERS`](crate::ENTRY_NUMBERS) numbers each, and fewer fit.
    PlanRoom { entries: u64 },
    /// 12: this header word (0 to 6), or the flags (7), or the vertices (8) of the image are wrong.
    BadImage { part: u32 },
    /// 13: there is no such operation; or, of a whole list, its length is no multiple of three (0).
    BadCommand { operation: u32 },
    /// 14: the image needs this many bytes, and fewer are lent.
    ImageRoom { bytes: u64 },
    /// A number, or values, that no call of the proved library gives.
    Unknown { number: u32, values: [u64; 3] },
}

impl Answer {
    /// The answer for a call's number and values. Nothing is lost: [`parts`](Self::parts) gives both
    /// back.
    ///
    /// ```
    /// use inkcapper::{Answer, Refusal};
    /// assert_eq!(Answer::from_parts(0, [2, 4, 0]), Answer::Done { first: 2, count: 4 });
    /// let refused = Answer::from_parts(11, [4, 0, 0]);
    /// assert_eq!(refused, Answer::Refused(Refusal::PlanRoom { entries: 4 }));
    /// assert_eq!(refused.to_string(), "refused 11: the plan needs room for 4 entries");
    /// assert_eq!(Answer::from_parts(3, [4, 7, 0]).to_string(), "refused 3: dart 7 is unused and not free");
    /// assert_eq!(Answer::from_parts(13, [12, 0, 0]).to_string(), "refused 13: there is no operation 12");
    /// assert_eq!(Answer::from_parts(14, [96, 0, 0]).to_string(), "refused 14: the image needs 96 bytes");
    /// assert_eq!(Answer::from_parts(11, [4, 0, 1]).parts(), (11, [4, 0, 1]));
    /// ```
    pub fn from_parts(number: u32, values: [u64; 3]) -> Self {
        let [a, b, c] = values;
        let refusal = match (number, values.map(|value| u32::try_from(value).ok())) {
            (0, [Some(first), _, Some(0)]) => return Self::Done { first, count: b },
            (1, [_, Some(0), Some(0)]) => Refusal::BadSize { length: a },
            (2, [Some(loan), Some(0), Some(0)]) => Refusal::ShortLoan { loan },
            (3, [Some(beta), Some(dart), Some(0)]) => Refusal::NotAMap { beta, dart },
            (4, [Some(argument), Some(0), Some(0)]) => Refusal::BadDart { argument },
            (5, [Some(value), Some(0), Some(0)]) => Refusal::BadBeta { value },
            (6, [Some(i), Some(l), Some(r)]) => Refusal::NonFreeBase { i, l, r },
            (7, [Some(i), Some(l), Some(r)]) => Refusal::NonFreeImage { i, l, r },
            (8, [Some(i), Some(d), Some(0)]) => Refusal::AlreadyFree { i, d },
            (9, [Some(ld), Some(rd), Some(0)]) => Refusal::AsymmetricalFaces { ld, rd },
            (10, [Some(i), Some(ld), Some(rd)]) => Refusal::BadGeometry { i, ld, rd },
            (11, [_, Some(0), Some(0)]) => Refusal::PlanRoom { entries: a },
            (12, [Some(part), Some(0), Some(0)]) => Refusal::BadImage { part },
            (13, [Some(operation), Some(0), Some(0)]) => Refusal::BadCommand { operation },
            (14, [_, Some(0), Some(0)]) => Refusal::ImageRoom { bytes: a },
            _ => Refusal::Unknown { number, values: [a, b, c] },
        };
        Self::Refused(refusal)
    }

    /// The number and the values.
    pub fn parts(self) -> (u32, [u64; 3]) {
        match self {
            Self::Done { first, count } => (0, [first.into(), count, 0]),
            Self::Refused(refusal) => refusal.parts(),
        }
    }

    /// The first value and the count of a call that was done.
    ///
    /// # Errors
    ///
    /// The refusal of one that was not.
    pub fn done(self) -> Result<(u32, u64), Refusal> {
        match self {
            Self::Done { first, count } => Ok((first, count)),
            Self::Refused(refusal) => Err(refusal),
        }
    }
}

impl Refusal {
    /// The number and the values.
    pub fn parts(self) -> (u32, [u64; 3]) {
        let of = |number: u32, values: [u32; 3]| (number, values.map(u64::from));
        match self {
            Self::BadSize { length } => (1, [length, 0, 0]),
            Self::ShortLoan { loan } => of(2, [loan, 0, 0]),
            Self::NotAMap { beta, dart } => of(3, [beta, dart, 0]),
            Self::BadDart { argument } => of(4, [argument, 0, 0]),
            Self::BadBeta { value } => of(5, [value, 0, 0]),
            Self::NonFreeBase { i, l, r } => of(6, [i, l, r]),
            Self::NonFreeImage { i, l, r } => of(7, [i, l, r]),
            Self::AlreadyFree { i, d } => of(8, [i, d, 0]),
            Self::AsymmetricalFaces { ld, rd } => of(9, [ld, rd, 0]),
            Self::BadGeometry { i, ld, rd } => of(10, [i, ld, rd]),
            Self::PlanRoom { entries } => (11, [entries, 0, 0]),
            Self::BadImage { part } => of(12, [part, 0, 0]),
            Self::BadCommand { operation } => of(13, [operation, 0, 0]),
            Self::ImageRoom { bytes } => (14, [bytes, 0, 0]),
            Self::Unknown { number, values } => (number, values),
        }
    }
}

/// The names of the loans, 1 to 7.
fn loan_name(loan: u32) -> &'static str {
    match loan {
        1 => "marks",
        2 => "queue",
        3 => "output",
        4 => "flags",
        5 => "vertex marks",
        6 => "coordinates",
        7 => "rows",
        _ => "loan",
    }
}

impl fmt::Display for Answer {
    fn fmt(&self, f: &mut fmt::Formatter<'_>) -> fmt::Result {
        match self {
            Self::Done { first, count } => write!(f, "done: {first}, count {count}"),
            Self::Refused(refusal) => refusal.fmt(f),
        }
    }
}

impl fmt::Display for Refusal {
    fn fmt(&self, f: &mut fmt::Formatter<'_>) -> fmt::Result {
        write!(f, "refused {}: ", self.parts().0)?;
        match *self {
            Self::BadSize { length } => write!(f, "{length} is no row length of a map"),
            Self::ShortLoan { loan } => write!(f, "the {} (loan {loan}) are too short", loan_name(loan)),
            Self::NotAMap { beta: 4, dart } => write!(f, "dart {dart} is unused and not free"),
            Self::NotAMap { beta, dart } => write!(f, "beta {beta} of dart {dart} breaks a rule of maps"),
            Self::BadDart { argument } => write!(f, "dart argument {argument} is no dart of this map, or 0 or unused"),
            Self::BadBeta { value } => write!(f, "there is no beta {value}"),
            Self::NonFreeBase { i, l, r } => write!(f, "cannot link {l} to {r}: beta {i} of {l} is not null"),
            Self::NonFreeImage { i, l, r } => write!(f, "cannot link {l} to {r}: beta {i} of {r} is not free"),
            Self::AlreadyFree { i, d } => write!(f, "cannot unlink {d}: beta {i} of {d} is null"),
            Self::AsymmetricalFaces { ld, rd } => write!(f, "the faces of {ld} and {rd} do not go together"),
            Self::BadGeometry { i, ld, rd } => {
                write!(f, "cannot {i}-sew {ld} and {rd}: they do not point against each other")
            }
            Self::PlanRoom { entries } => write!(f, "the plan needs room for {entries} entries"),
            Self::BadImage { part: 7 } => f.write_str("the image's flags are wrong"),
            Self::BadImage { part: 8 } => f.write_str("the image's vertices are wrong"),
            Self::BadImage { part } => write!(f, "the image's header word {part} is wrong"),
            Self::BadCommand { operation: 0 } => f.write_str("a list of no whole commands, or an operation 0"),
            Self::BadCommand { operation } => write!(f, "there is no operation {operation}"),
            Self::ImageRoom { bytes } => write!(f, "the image needs {bytes} bytes"),
            Self::Unknown { values: [a, b, c], .. } => write!(f, "{a} {b} {c}"),
        }
    }
}

impl std::error::Error for Refusal {}
