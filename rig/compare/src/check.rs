//! One call through the model and every kernel, what differs, and the counts.

use std::collections::BTreeMap;
use std::fmt::Write;
use std::panic::{AssertUnwindSafe, catch_unwind};

use crate::kernel::{Answer, Call, ENTRY_NUMBERS, Kernel, Loans, NAMES};
use crate::kernels::Model;

/// A difference, with the input that shows it.
pub struct Finding {
    pub kernel: &'static str,
    pub call: Call,
    /// The answer, or the loan, that differs.
    pub place: &'static str,
    pub expected: Answer,
    /// None if the kernel panicked.
    pub got: Option<Answer>,
    pub before: Loans,
    pub expected_after: Loans,
    pub after: Loans,
}

impl Finding {
    /// Smaller inputs are better examples: fewer darts, then fewer images.
    fn size(&self) -> (usize, usize) {
        (self.before.rows.len(), self.before.rows.iter().filter(|&&image| image != 0).count())
    }

    /// Its lines of the report.
    fn tell(&self, text: &mut String) {
        let Self { kernel, call, place, expected, got, before, expected_after, after } = self;
        let _ = writeln!(text, "DIFFERENCE {kernel}: {call:?} in {place}");
        let _ =
            writeln!(text, "  rows {:?} flags {:?}\n  expected {expected:?}, got {got:?}", before.rows, before.flags);
        if !matches!(*place, "answer" | "panic") {
            let _ = writeln!(text, "  before {before:?}\n  expected after {expected_after:?}\n  got after {after:?}");
        }
    }
}

/// How often a call was made and what came of it.
#[derive(Default, Clone)]
pub struct Count {
    pub calls: u64,
    /// By the answer's number, 0 to 14.
    pub answers: [u64; 15],
    /// Comparisons by kernel, in the kernels' order.
    pub compared: Vec<u64>,
    pub differences: u64,
}

/// Holds kernels against the model.
pub struct Comparison {
    kernels: Vec<Box<dyn Kernel>>,
    /// By the call's place in `NAMES`.
    counts: Vec<Count>,
    /// The smallest finding for each kernel, call and place.
    findings: BTreeMap<(&'static str, &'static str, &'static str), Finding>,
    pub maps: u64,
    expected: Loans,
    got: Loans,
}

impl Comparison {
    /// A comparison of these kernels, with nothing counted yet.
    pub fn new(kernels: Vec<Box<dyn Kernel>>) -> Self {
        let count = Count { compared: vec![0; kernels.len()], ..Count::default() };
        Self {
            kernels,
            counts: vec![count; NAMES.len()],
            findings: BTreeMap::new(),
            maps: 0,
            expected: Loans::default(),
            got: Loans::default(),
        }
    }

    /// Makes the call everywhere from `before` and compares. Gives the model's answer and loans.
    pub fn check(&mut self, call: &Call, before: &Loans) -> (Answer, &Loans) {
        self.expected.clone_from(before);
        let expected = Model.run(call, &mut self.expected);
        let count = &mut self.counts[call.index()];
        count.calls += 1;
        count.answers[expected.0 as usize] += 1;
        for (at, kernel) in self.kernels.iter_mut().enumerate() {
            if !kernel.has_say(call, before) {
                continue;
            }
            count.compared[at] += 1;
            self.got.clone_from(before);
            // a panic is a difference like any other
            let got = catch_unwind(AssertUnwindSafe(|| kernel.run(call, &mut self.got))).ok();
            let place = match got {
                None => Some("panic"),
                Some(got) if got != expected => Some("answer"),
                Some(_) => self.expected.first_difference(&self.got, kernel.leaves_scratch()),
            };
            if let Some(place) = place {
                count.differences += 1;
                let finding = Finding {
                    kernel: kernel.name(),
                    call: call.clone(),
                    place,
                    expected,
                    got,
                    before: before.clone(),
                    expected_after: self.expected.clone(),
                    after: self.got.clone(),
                };
                let key = (kernel.name(), call.name(), place);
                if self.findings.get(&key).is_none_or(|old| finding.size() < old.size()) {
                    self.findings.insert(key, finding);
                }
            }
        }
        (expected, &self.expected)
    }

    /// As `check`; where a plan was written, again with one entry too few and with just enough room.
    pub fn check_with_rooms(&mut self, call: &Call, before: &Loans, tight: &mut Loans) -> Answer {
        let (answer, _) = self.check(call, before);
        if call.plans() && answer.0 == 0 && answer.1[1] > 0 {
            let entries = answer.1[1] as usize;
            tight.clone_from(before);
            tight.plan.truncate(ENTRY_NUMBERS * entries - 1);
            self.check(call, tight);
            tight.plan.clone_from(&before.plan);
            tight.plan.truncate(ENTRY_NUMBERS * entries);
            self.check(call, tight);
        }
        answer
    }

    /// How many calls differed, over all kernels.
    pub fn differences(&self) -> u64 {
        self.counts.iter().map(|count| count.differences).sum()
    }

    /// How many calls were made.
    pub fn calls(&self) -> u64 {
        self.counts.iter().map(|count| count.calls).sum()
    }

    /// The smallest findings.
    pub fn findings(&self) -> impl Iterator<Item = &Finding> {
        self.findings.values()
    }

    /// The counts for each call, then the findings with their smallest inputs.
    pub fn report(&self) -> String {
        let mut text = String::new();
        let _ = writeln!(text, "{} maps, {} calls, {} differences", self.maps, self.calls(), self.differences());
        for (name, count) in NAMES.iter().zip(&self.counts).filter(|(_, count)| count.calls > 0) {
            let answers: Vec<String> = (0..)
                .zip(count.answers)
                .filter(|&(_, times)| times > 0)
                .map(|(number, times): (u32, u64)| format!("{number}:{times}"))
                .collect();
            let compared: Vec<String> = self
                .kernels
                .iter()
                .zip(&count.compared)
                .map(|(kernel, times)| format!("{} {times}", kernel.name()))
                .collect();
            let _ = writeln!(
                text,
                "  {name:<20} {:>10} calls  {} differences  [{}]  against {}",
                count.calls,
                count.differences,
                answers.join(" "),
                compared.join(", ")
            );
        }
        self.findings.values().for_each(|finding| finding.tell(&mut text));
        text
    }
}
