//! What came of cases, and the lines that `test_report_noise` must print.

use std::fmt;

use super::cases::{NAMES, Noise, case};
use crate::{Answer, report};

/// The most darts of a case of `test_report_noise`.
const MOST: usize = 6;
/// Its cases of each kind.
const CASES: usize = 2000;

/// How often each outcome came.
#[derive(Debug, Default, Clone, PartialEq, Eq)]
pub struct Tally {
    pub accepted: u64,
    /// BadImage by word or block.
    pub bad_image: [u64; 9],
    pub not_a_map: u64,
    /// The reader's alone: the report lends enough.
    pub short_loan: u64,
    pub other: u64,
}

impl Tally {
    /// Counts an answer of the reader.
    pub fn count(&mut self, (number, [first, ..]): Answer) {
        match (number, first) {
            (0, _) => self.accepted += 1,
            (2, _) => self.short_loan += 1,
            (3, _) => self.not_a_map += 1,
            (12, part @ 0..=8) => self.bad_image[part as usize] += 1,
            _ => self.other += 1,
        }
    }
}

impl fmt::Display for Tally {
    fn fmt(&self, f: &mut fmt::Formatter<'_>) -> fmt::Result {
        write!(f, "accepted {}; BadImage 0 to 8:", self.accepted)?;
        self.bad_image.iter().try_for_each(|times| write!(f, " {times}"))?;
        write!(f, "; NotAMap {}; other {}", self.not_a_map, self.other)
    }
}

/// The answer that a report tells: `refused` and its numbers, or done.
fn told(text: &str) -> Answer {
    let Some(refused) = text.strip_prefix("refused ") else {
        return (0, [0; 3]);
    };
    let numbers: Vec<u64> = refused.split_whitespace().map(|word| word.parse().expect("a number")).collect();
    (numbers[0] as u32, [numbers[1], numbers[2], numbers[3]])
}

/// What `test_report_noise` must print: a line for each kind, with a sum over every byte of every report.
pub fn lines() -> String {
    let mut lines = String::new();
    for (kind, name) in NAMES.iter().enumerate() {
        let mut noise = Noise::new(kind as u32);
        let mut tally = Tally::default();
        let mut sum = 0;
        for _ in 0..CASES {
            let text = report(&case(kind, MOST, &mut noise));
            tally.count(told(&text));
            sum = text.bytes().fold(sum, |sum: u64, byte| (31 * sum + u64::from(byte)) % 4_294_967_291);
        }
        lines.push_str(&format!("kind {kind} ({name}): {tally}; sum {sum}\n"));
    }
    lines
}
