//! Lists of commands: joins by the thousand under one map test.

use crate::answer::{Answer, Refusal};
use crate::loans::{Entry, Loans, MOST_DARTS, Sewn, Vertices};
use crate::slices;

/// A command of a list, for [`Loans::commands`]: what the call of the same name does (scope: commands).
#[derive(Debug, Clone, Copy, PartialEq, Eq, Hash)]
pub enum Command {
    /// Operation 1 (scope: 1-link).
    OneLink { ld: u32, rd: u32 },
    /// Operation 2 (scope: 2-link).
    TwoLink { ld: u32, rd: u32 },
    /// Operation 3 (scope: 3-link).
    ThreeLink { ld: u32, rd: u32 },
    /// Operation 4 (scope: 1-sew).
    OneSew { ld: u32, rd: u32 },
    /// Operation 5 (scope: 2-sew).
    TwoSew { ld: u32, rd: u32 },
    /// Operation 6 (scope: unlink core).
    OneUnlink { ld: u32 },
    /// Operation 7 (scope: unlink core).
    TwoUnlink { ld: u32 },
    /// Operation 8 (scope: 3-unlink).
    ThreeUnlink { ld: u32 },
    /// Operation 9 (scope: 1-unsew).
    OneUnsew { ld: u32 },
    /// Operation 10 (scope: 2-unsew).
    TwoUnsew { ld: u32 },
    /// Operation 11 (scope: 3-unsew).
    ThreeUnsew { ld: u32 },
}

impl Command {
    /// Its numbers as they are lent: operation, first dart, second dart, which is 0 where there is none.
    pub fn numbers(self) -> [u32; 3] {
        match self {
            Self::OneLink { ld, rd } => [1, ld, rd],
            Self::TwoLink { ld, rd } => [2, ld, rd],
            Self::ThreeLink { ld, rd } => [3, ld, rd],
            Self::OneSew { ld, rd } => [4, ld, rd],
            Self::TwoSew { ld, rd } => [5, ld, rd],
            Self::OneUnlink { ld } => [6, ld, 0],
            Self::TwoUnlink { ld } => [7, ld, 0],
            Self::ThreeUnlink { ld } => [8, ld, 0],
            Self::OneUnsew { ld } => [9, ld, 0],
            Self::TwoUnsew { ld } => [10, ld, 0],
            Self::ThreeUnsew { ld } => [11, ld, 0],
        }
    }
}

/// Entries of a plan that a list may need.
struct Room {
    /// What does for faces of up to four darts.
    likely: usize,
    /// What does whatever the map.
    most: usize,
}

impl Room {
    /// For a list on a map of `n` darts.
    fn of(list: &[Command], n: usize) -> Self {
        let (mut sews, mut links, mut unsews) = (0usize, 0usize, 0usize);
        for command in list {
            match command {
                Command::OneSew { .. } | Command::OneUnsew { .. } => sews += 1,
                Command::TwoSew { .. } | Command::TwoUnsew { .. } => sews += 3,
                Command::ThreeLink { .. } => links += 1,
                Command::ThreeUnsew { .. } => unsews += 1,
                _ => {}
            }
        }
        // A 3-unsew has one face split, two entries for each pair at most, and one more where a chain begins.
        // Each pair that one of them parts was there before the list or was made by a 3-link of it.
        let (pairs, times) = (n / 2, unsews.min(links + 1));
        Self { likely: sews + 10 * unsews, most: (sews + 2 * unsews).saturating_add(times.saturating_mul(2 * pairs)) }
    }
}

/// What [`Loans::commands`] holds beside the loans of every call.
#[derive(Debug, Default, Clone)]
pub(crate) struct Lists {
    /// Three numbers for each command.
    commands: Vec<u32>,
    /// Five numbers for each answer.
    answers: Vec<u32>,
    /// The rows before the list, where its plan may run out.
    rows: Vec<u32>,
}

/// The answers of a list, command by command, in the list's order.
#[must_use = "a command that is not looked at may have been refused"]
#[derive(Debug, Clone, PartialEq, Eq)]
pub struct Answers<'a> {
    numbers: &'a [u32],
    plan: &'a [Entry],
}

impl<'a> Answers<'a> {
    /// The plan of all commands whose answers are still to come, in order.
    pub fn plan(&self) -> &'a [Entry] {
        self.plan
    }
}

impl<'a> Iterator for Answers<'a> {
    type Item = Result<Sewn<'a>, Refusal>;

    fn next(&mut self) -> Option<Self::Item> {
        let (&[number, a, b, c, entries], numbers) = self.numbers.split_first_chunk()?;
        self.numbers = numbers;
        match Answer::from_parts(number, [a, b, c].map(u64::from)) {
            Answer::Refused(refusal) => Some(Err(refusal)),
            Answer::Done { first, .. } => {
                let (plan, behind) = self.plan.split_at(entries as usize);
                self.plan = behind;
                Some(Ok(Sewn { dart: first, plan }))
            }
        }
    }

    fn size_hint(&self) -> (usize, Option<usize>) {
        let left = self.numbers.len() / 5;
        (left, Some(left))
    }
}

impl ExactSizeIterator for Answers<'_> {}

/// Whether answers are such as a list gives: a command that is done answers a dart and its entries alone, one
/// that is refused has none, and all have `count`.
fn are_answers(numbers: &[u32], count: u64) -> bool {
    let mut fives = numbers.chunks_exact(5);
    let entries: u64 = fives.clone().map(|five| u64::from(five[4])).sum();
    entries == count && fives.all(|five| if five[0] == 0 { five[2..4] == [0, 0] } else { five[4] == 0 })
}

impl Loans {
    /// Makes the list that is held, from the same rows again as long as its plan runs out and could be longer.
    fn until_there_is_room(
        &mut self,
        rows: &mut [u32],
        flags: &[u8],
        vertices: Vertices<'_>,
        most: usize,
    ) -> Result<(u32, u64), Refusal> {
        loop {
            let done = slices::commands(
                rows,
                &mut self.marks,
                &mut self.queue,
                &mut self.lists.answers,
                flags,
                vertices.marks,
                vertices.coordinates,
                &mut self.plan,
                &self.lists.commands,
            );
            let answer = done.done()?;
            let room = self.plan_room();
            if room >= most || !self.lists.answers.chunks_exact(5).any(|five| five[0] == 11) {
                return Ok(answer);
            }
            rows.copy_from_slice(&self.lists.rows);
            self.grow_plan((2 * room).min(most));
        }
    }

    /// Makes the commands of a list one after another, under one map test (scope: commands).
    ///
    /// A command that is refused changes nothing, and the list goes on. Plan room is seen to: no command is
    /// refused for want of it. Where a list has 3-unsews and their faces may be long, the rows are kept beside
    /// until it is done.
    ///
    /// ```
    /// # #[cfg(not(feature = "linked"))] extern crate c_names;
    /// use inkcapper::{Command, Loans, Refusal, Vertices};
    ///
    /// let (mut rows, flags) = (vec![0; 12], [0; 3]); // two free darts
    /// let vertices = Vertices { marks: &[0; 3], coordinates: &[0.0; 9] }; // without points
    /// let list = [
    ///     Command::ThreeLink { ld: 1, rd: 2 },
    ///     Command::ThreeLink { ld: 1, rd: 2 },
    ///     Command::ThreeUnsew { ld: 1 },
    /// ];
    /// let mut loans = Loans::new();
    /// let mut answers = loans.commands(&mut rows, &flags, vertices, &list)?;
    /// assert_eq!(answers.next().unwrap()?.plan, []);
    /// assert_eq!(answers.next(), Some(Err(Refusal::NonFreeBase { i: 3, l: 1, r: 2 })));
    /// let unsewn = answers.next().unwrap()?;
    /// assert_eq!((unsewn.dart, unsewn.plan.len()), (2, 4));
    /// # Ok::<(), Refusal>(())
    /// ```
    ///
    /// # Errors
    ///
    /// Of the whole list refusals 1 and 3, and 2 for short flags or vertices; then no command was made.
    pub fn commands(
        &mut self,
        rows: &mut [u32],
        flags: &[u8],
        vertices: Vertices<'_>,
        list: &[Command],
    ) -> Result<Answers<'_>, Refusal> {
        self.grow(rows);
        self.lists.commands.clear();
        self.lists.commands.extend(list.iter().flat_map(|command| command.numbers()));
        self.lists.answers.resize(5 * list.len(), 0);
        let Room { likely, most } = Room::of(list, (rows.len() / 4).min(MOST_DARTS));
        self.grow_plan(likely.min(most));
        // where the plan runs out the list goes on without what was refused, so that it has to be made again
        // from where it began
        if self.plan_room() < most {
            self.lists.rows.clear();
            self.lists.rows.extend_from_slice(rows);
        }
        let (first, count) = self.until_there_is_room(rows, flags, vertices, most)?;
        if !are_answers(&self.lists.answers, count) {
            // a fault of the library, and named as such
            return Err(Refusal::Unknown { number: 0, values: [first.into(), count, 0] });
        }
        self.read_plan(first, count)?;
        Ok(Answers { numbers: &self.lists.answers, plan: &self.entries })
    }
}
