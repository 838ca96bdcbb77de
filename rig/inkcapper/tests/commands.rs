//! Lists of commands through the wrapper: a list is its calls one after another, whatever room its plan needs.

mod common;

use inkcapper::{Command, Entry, Loans, MOST_DARTS, Refusal, Vertices, map};

use common::Numbers;

#[cfg(not(feature = "linked"))]
extern crate c_names;

/// The commands of all operations on these darts, by their numbers from 1 on.
fn all(ld: u32, rd: u32) -> [Command; 11] {
    [
        Command::OneLink { ld, rd },
        Command::TwoLink { ld, rd },
        Command::ThreeLink { ld, rd },
        Command::OneSew { ld, rd },
        Command::TwoSew { ld, rd },
        Command::OneUnlink { ld },
        Command::TwoUnlink { ld },
        Command::ThreeUnlink { ld },
        Command::OneUnsew { ld },
        Command::TwoUnsew { ld },
        Command::ThreeUnsew { ld },
    ]
}

/// What came of a command: its dart and its plan.
type Outcome = Result<(u32, Vec<Entry>), Refusal>;

/// The call that a command stands for.
fn call(loans: &mut Loans, rows: &mut [u32], flags: &[u8], vertices: Vertices<'_>, command: Command) -> Outcome {
    let bare = |dart: u32| (dart, Vec::new());
    let sewn = match command {
        Command::OneLink { ld, rd } => return map::one_link(rows, flags, ld, rd).map(|()| bare(0)),
        Command::TwoLink { ld, rd } => return map::two_link(rows, flags, ld, rd).map(|()| bare(0)),
        Command::ThreeLink { ld, rd } => return map::three_link(rows, flags, ld, rd).map(|()| bare(0)),
        Command::OneUnlink { ld } => return map::one_unlink(rows, flags, ld).map(bare),
        Command::TwoUnlink { ld } => return map::two_unlink(rows, flags, ld).map(bare),
        Command::ThreeUnlink { ld } => return map::three_unlink(rows, flags, ld).map(bare),
        Command::OneSew { ld, rd } => loans.one_sew(rows, flags, ld, rd)?,
        Command::TwoSew { ld, rd } => loans.two_sew(rows, flags, vertices, ld, rd)?,
        Command::OneUnsew { ld } => loans.one_unsew(rows, flags, ld)?,
        Command::TwoUnsew { ld } => loans.two_unsew(rows, flags, ld)?,
        Command::ThreeUnsew { ld } => loans.three_unsew(rows, flags, ld)?,
    };
    Ok((sewn.dart, sewn.plan.to_vec()))
}

/// Makes a list with these loans and as single calls, which must come to the same. Gives the entries planned.
fn same(loans: &mut Loans, rows: &[u32], flags: &[u8], vertices: Vertices<'_>, list: &[Command]) -> usize {
    let (mut listed, mut single) = (rows.to_vec(), rows.to_vec());
    let answers = loans.commands(&mut listed, flags, vertices, list).expect("a map");
    assert_eq!(answers.len(), list.len());
    let (plan, mut from) = (answers.plan(), 0);
    let mut calls = Loans::new();
    for (answer, &command) in answers.zip(list) {
        let wanted = call(&mut calls, &mut single, flags, vertices, command);
        assert!(!matches!(answer, Err(Refusal::PlanRoom { .. })));
        if let Ok(sewn) = answer {
            assert_eq!(sewn.plan, &plan[from..from + sewn.plan.len()]);
            from += sewn.plan.len();
        }
        assert_eq!(answer.map(|sewn| (sewn.dart, sewn.plan.to_vec())), wanted, "{command:?}");
    }
    assert_eq!((listed, from), (single, plan.len()));
    plan.len()
}

/// Closed faces of so many darts each, one behind another.
fn loops(faces: usize, darts: usize) -> Vec<u32> {
    let mut rows = vec![0; 4];
    for first in (0..faces).map(|face| 1 + face * darts) {
        rows.extend((0..darts).flat_map(|k| {
            let (before, next) = (first + (k + darts - 1) % darts, first + (k + 1) % darts);
            [before as u32, next as u32, 0, 0]
        }));
    }
    rows
}

#[test]
fn operations_have_the_scopes_numbers() {
    let numbers = all(7, 9).map(Command::numbers);
    assert_eq!(numbers.map(|three| three[0]), [1, 2, 3, 4, 5, 6, 7, 8, 9, 10, 11]);
    assert!(numbers.iter().all(|three| three[1] == 7 && three[2] == if three[0] < 6 { 9 } else { 0 }));
}

#[test]
fn random_lists() {
    let mut numbers = Numbers(1);
    let (mut kept, mut entries) = (Loans::new(), 0);
    for round in 0..3000 {
        let darts = 1 + numbers.below(6);
        let rows =
            if round % 2 == 0 { vec![0; 4 * (2 + numbers.below(9))] } else { loops(1 + numbers.below(4), darts) };
        let n = rows.len() / 4;
        // of free darts some are unused
        let is_free = |d: usize| rows[4 * d..4 * d + 4] == [0; 4];
        let flags: Vec<u8> = (0..n).map(|d| if is_free(d) { numbers.below(8) as u8 / 6 } else { 0 }).collect();
        let marks: Vec<u8> = (0..n).map(|_| numbers.below(4) as u8).collect();
        let coordinates: Vec<f64> = (0..3 * n).map(|_| numbers.below(3) as f64 - 1.0).collect();
        let list: Vec<Command> = (0..numbers.below(50))
            .map(|_| {
                // now and then a dart that is none
                let (ld, rd) = (numbers.below(n + 1) as u32, numbers.below(n + 1) as u32);
                all(ld, rd)[numbers.below(11)]
            })
            .collect();
        let vertices = Vertices { marks: &marks, coordinates: &coordinates };
        // loans that are kept have a plan from before, new ones have none
        entries += same(&mut kept, &rows, &flags, vertices, &list);
        same(&mut Loans::new(), &rows, &flags, vertices, &list);
    }
    assert!(entries > 5000);
}

/// Long faces glued and parted again and again: many times the entries that are lent at first.
#[test]
fn three_unsews_of_long_faces() {
    let mut numbers = Numbers(2);
    for (faces, darts, times) in [(2, 100, 1), (2, 40, 30), (6, 25, 60), (20, 7, 100), (3, 300, 9), (8, 4, 200)] {
        let rows = loops(faces, darts);
        let n = rows.len() / 4;
        let (flags, vertices) = (vec![0; n], Vertices { marks: &vec![0; n], coordinates: &vec![0.0; 3 * n] });
        let mut glued = rows.clone();
        let mut list = Vec::new();
        for time in 0..times {
            let mut dart = || 1 + numbers.below(n - 1) as u32;
            let (ld, rd) = (dart(), dart());
            list.extend([Command::ThreeLink { ld, rd }, Command::ThreeUnsew { ld }]);
            if time % 3 == 0 {
                // what comes behind a 3-unsew sees whether it was made
                list.extend([
                    Command::ThreeUnlink { ld: rd },
                    Command::OneUnsew { ld: dart() },
                    Command::ThreeUnsew { ld },
                ]);
            }
        }
        let entries = same(&mut Loans::new(), &rows, &flags, vertices, &list);
        assert!(entries > 0);
        // a list that has 3-unsews alone: every pair is there before
        for face in (0..faces - 1).step_by(2) {
            let (ld, rd) = ((1 + face * darts) as u32, (2 + face * darts + darts) as u32);
            map::three_link(&mut glued, &flags, ld, rd).expect("free");
        }
        let list: Vec<Command> = (1..n).step_by(3).map(|ld| Command::ThreeUnsew { ld: ld as u32 }).collect();
        let entries = same(&mut Loans::new(), &glued, &flags, vertices, &list);
        assert_eq!(entries, faces / 2 * (1 + 2 * darts));
    }
}

/// The most entries that there can be: open chains of which every name is another.
#[test]
fn three_unsews_of_open_chains() {
    for darts in 1..60 {
        let n = 2 * darts + 1;
        let (mut rows, flags) = (vec![0; 4 * n], vec![0; n]);
        for k in 1..darts as u32 {
            map::one_link(&mut rows, &flags, k, k + 1).expect("free");
            map::one_link(&mut rows, &flags, darts as u32 + k, darts as u32 + k + 1).expect("free");
        }
        let vertices = Vertices { marks: &vec![0; n], coordinates: &vec![0.0; 3 * n] };
        let pair = [Command::ThreeLink { ld: 1, rd: 2 * darts as u32 }, Command::ThreeUnsew { ld: 1 }];
        let list: Vec<Command> = (0..9).flat_map(|_| pair).collect();
        assert_eq!(same(&mut Loans::new(), &rows, &flags, vertices, &list), 9 * (2 + 2 * darts));
        assert_eq!(same(&mut Loans::new(), &rows, &flags, vertices, &pair), 2 + 2 * darts);
    }
}

#[test]
fn refusals_of_a_whole_list() {
    let list = [Command::OneLink { ld: 1, rd: 2 }, Command::ThreeUnsew { ld: 1 }];
    let run = |rows: &mut [u32], flags: &[u8], marks: &[u8], coordinates: &[f64]| {
        let before = rows.to_vec();
        let refusal = Loans::new().commands(rows, flags, Vertices { marks, coordinates }, &list).err();
        assert!(refusal.is_none() || rows == before);
        refusal
    };
    let used = &[0; 3];
    assert_eq!(run(&mut [0; 12], used, &[0; 3], &[0.0; 9]), None);
    assert_eq!(run(&mut [0; 12], &[0; 2], &[0; 2], &[0.0; 8]), Some(Refusal::ShortLoan { loan: 4 }));
    assert_eq!(run(&mut [0; 12], used, &[0; 2], &[0.0; 8]), Some(Refusal::ShortLoan { loan: 5 }));
    assert_eq!(run(&mut [0; 12], used, &[0; 3], &[0.0; 8]), Some(Refusal::ShortLoan { loan: 6 }));
    assert_eq!(run(&mut [0; 11], used, &[0; 3], &[0.0; 9]), Some(Refusal::BadSize { length: 11 }));
    assert_eq!(run(&mut [], &[], &[], &[]), Some(Refusal::BadSize { length: 0 }));
    let mut long = vec![0; 4 * MOST_DARTS + 4];
    assert_eq!(run(&mut long, &[], &[], &[]), Some(Refusal::BadSize { length: 4_194_308 }));
    let mut broken = [0; 12];
    broken[6] = 1;
    assert_eq!(run(&mut broken, used, &[0; 3], &[0.0; 9]), Some(Refusal::NotAMap { beta: 2, dart: 1 }));
    (broken[6], broken[10]) = (2, 1);
    assert_eq!(run(&mut broken, &[0, 0, 1], &[0; 3], &[0.0; 9]), Some(Refusal::NotAMap { beta: 4, dart: 2 }));
    let mut loans = Loans::new();
    let none = loans.commands(&mut [0; 4], &[0], Vertices { marks: &[0], coordinates: &[0.0; 3] }, &[]);
    assert_eq!(none.map(|answers| answers.len()), Ok(0));
}

/// An unused dart is refused by the command that names it, and the list goes on.
#[test]
fn unused_darts() {
    let list = [Command::TwoLink { ld: 1, rd: 2 }, Command::OneLink { ld: 1, rd: 3 }, Command::TwoUnsew { ld: 2 }];
    let (mut rows, mut loans) = ([0; 16], Loans::new());
    let vertices = Vertices { marks: &[0; 4], coordinates: &[0.0; 12] };
    let answers = loans.commands(&mut rows, &[0, 0, 9, 0], vertices, &list).expect("a map");
    let refused = |argument| Some(Refusal::BadDart { argument });
    assert_eq!(answers.map(Result::err).collect::<Vec<_>>(), [refused(2), None, refused(1)]);
    assert_eq!((rows[5], rows[12]), (3, 1));
}
