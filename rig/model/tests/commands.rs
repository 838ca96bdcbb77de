//! Lists of commands: worked ones, and that a list is its calls one after another.

use model::{Answer, ENTRY_NUMBERS};

/// What a list is lent and what it leaves; scratch is dirty before and every loan longer than it has to be.
#[derive(Debug, Clone, PartialEq)]
struct Lent {
    rows: Vec<u32>,
    marks: Vec<u8>,
    queue: Vec<u32>,
    output: Vec<u32>,
    flags: Vec<u8>,
    vertex_marks: Vec<u8>,
    coordinates: Vec<f64>,
    plan: Vec<u32>,
}

impl Lent {
    /// Loans around these rows, with all darts used, without points, with room for so many entries and five words
    /// more, which are none. Nobody asks for the flag of dart 0.
    fn around(rows: Vec<u32>, commands: usize, entries: usize) -> Self {
        let n = rows.len() / 4;
        Self {
            rows,
            marks: vec![7; n + 2],
            queue: vec![7; n + 1],
            output: vec![7; 5 * commands + 3],
            flags: [&[9][..], &vec![0; n]].concat(),
            vertex_marks: vec![0; n + 1],
            coordinates: vec![0.0; 3 * n + 2],
            plan: vec![7; ENTRY_NUMBERS * entries + 5],
        }
    }

    fn run(&mut self, list: &[u32]) -> Answer {
        let Self { rows, marks, queue, output, flags, vertex_marks, coordinates, plan } = self;
        model::commands(rows, marks, queue, output, flags, vertex_marks, coordinates, plan, list)
    }
}

/// Runs a list whose loans do: the answers of its commands, the rows and the entries of the plan.
fn done(rows: &[u32], list: &[[u32; 3]], entries: usize) -> (Vec<[u32; 5]>, Vec<u32>, Vec<[u32; ENTRY_NUMBERS]>) {
    let n = rows.len() / 4;
    let mut lent = Lent::around(rows.to_vec(), list.len(), entries);
    let (number, [first, count, third]) = lent.run(&list.concat());
    assert_eq!((number, first, third), (0, 0, 0));
    let written = ENTRY_NUMBERS * count as usize;
    assert!(lent.plan[written..].iter().all(|&word| word == 7), "plan behind the count");
    assert_eq!(
        (&lent.output[5 * list.len()..], &lent.marks[n..], &lent.queue[n..]),
        (&[7; 3][..], &[7; 2][..], &[7][..])
    );
    assert!(lent.marks[..n].iter().all(|&mark| mark == 0) && lent.queue[..n].iter().all(|&place| place == 0));
    let answers = lent.output[..5 * list.len()].chunks_exact(5).map(|five| five.try_into().unwrap()).collect();
    (
        answers,
        lent.rows,
        lent.plan[..written].chunks_exact(ENTRY_NUMBERS).map(|entry| entry.try_into().unwrap()).collect(),
    )
}

#[test]
fn the_triangle_and_the_quad() {
    let chains = [(1, 2), (2, 3), (3, 1), (4, 5), (5, 6), (6, 7), (7, 4)];
    let mut list: Vec<[u32; 3]> = chains.iter().map(|&(ld, rd)| [1, ld, rd]).collect();
    // 3-link 4 and 1 is refused and leaves no pair behind, so that 3-link 1 and 4 is done
    list.extend([[3, 4, 1], [3, 1, 4], [8, 4, 99], [8, 1, 99], [8, 1, 99]]);
    let (answers, rows, plan) = done(&[0; 32], &list, 0);
    assert!(answers[..7].iter().all(|answer| *answer == [0; 5]));
    assert_eq!(answers[7..], [[7, 3, 7, 1, 0], [0; 5], [9, 4, 1, 0, 0], [0, 4, 0, 0, 0], [8, 3, 1, 0, 0]]);
    // the 3-unlink took every pair away
    assert!((0..8).all(|d| rows[4 * d + 3] == 0) && plan.is_empty());
}

#[test]
fn plans_behind_each_other_until_there_is_no_room() {
    // 3-link, 3-unsew (4 entries), 2-link, 2-unsew (1 entry); the same from the other side, with a 3-unlink
    let list = [[3, 1, 2], [11, 1, 0], [2, 1, 2], [10, 1, 0], [3, 1, 2], [11, 2, 0], [8, 2, 0], [2, 1, 2], [10, 2, 0]];
    let (answers, rows, plan) = done(&[0; 12], &list, 10);
    let fives: Vec<u32> = answers.iter().map(|answer| answer[4]).collect();
    assert_eq!((fives, rows), (vec![0, 4, 0, 1, 0, 4, 0, 0, 1], vec![0; 12]));
    let unsewn = |l: u32, r: u32| [[13, l, r, 1, 1, 1], [12, l, r, 1, 1, 1], [11, 0, r, 0, 0, 1], [11, l, 0, 0, 1, 0]];
    let all = [&unsewn(1, 2)[..], &[[12, 1, 2, 1, 1, 1]], &unsewn(2, 1), &[[12, 2, 1, 1, 1, 1]]].concat();
    assert_eq!((answers[6], plan), ([8, 3, 2, 0, 0], all.clone()));
    // room for six: the second 3-unsew is refused and says what it needs itself, its darts stay linked for the
    // 3-unlink, and the plan of the last command still fits
    let (answers, rows, plan) = done(&[0; 12], &list, 6);
    assert_eq!(answers[5..], [[11, 4, 0, 0, 0], [0, 1, 0, 0, 0], [0; 5], [0, 1, 0, 0, 1]]);
    assert_eq!((rows, plan), (vec![0; 12], [&all[..5], &all[9..]].concat()));
}

#[test]
fn points_decide_a_two_sew() {
    // chains 1 2 and 3 4, then the worked 2-sews: 2 and 3 at (1, 0, 0), or 2 there and 4 at (0, 1, 0)
    for (place, number) in [(9, 0), (13, 10)] {
        let mut lent = Lent::around(vec![0; 20], 4, 3);
        lent.vertex_marks.fill(1);
        lent.coordinates[6] = 1.0;
        lent.coordinates[place] = 1.0;
        let answer = lent.run(&[1, 1, 2, 1, 3, 4, 5, 1, 3, 2, 1, 3]);
        if number == 0 {
            assert_eq!(answer, (0, [0, 3, 0]));
            assert_eq!(lent.output[10..20], [0, 0, 0, 0, 3, 6, 2, 1, 3, 0]);
            assert_eq!(lent.plan[..12], [2, 1, 1, 3, 1, 1, 1, 1, 1, 4, 1, 1]);
            assert_eq!(lent.plan[12..], [1, 2, 2, 3, 1, 1, 7, 7, 7, 7, 7]);
        } else {
            assert_eq!(answer, (0, [0, 0, 0]));
            assert_eq!(lent.output[10..20], [10, 2, 1, 3, 0, 0, 0, 0, 0, 0]);
            assert_eq!(lent.plan, [7; 23]);
        }
    }
}

#[test]
fn of_one_command() {
    let bad = u32::MAX;
    let list = [
        [0, 1, 2],
        [12, 0, bad], // the operation before the darts
        [bad, 1, 2],
        [1, 0, bad], // the first bad dart
        [4, 1, 3],
        [6, 3, 1],
        [9, 0, 1],
        [3, 1, 2],
        [8, 1, bad], // the second dart of an unlink is not looked at
        [2, 1, 2],
        [10, 2, 3],
    ];
    let (answers, rows, _) = done(&[0; 12], &list, 9);
    let wanted = [
        [13, 0, 0, 0, 0],
        [13, 12, 0, 0, 0],
        [13, bad, 0, 0, 0],
        [4, 1, 0, 0, 0],
        [4, 2, 0, 0, 0],
        [4, 1, 0, 0, 0],
        [4, 1, 0, 0, 0],
        [0; 5],
        [0, 2, 0, 0, 0],
        [0; 5],
        [0, 1, 0, 0, 1],
    ];
    assert_eq!((&answers[..], rows), (&wanted[..], vec![0; 12]));
}

/// Takes one fault away.
type PutRight = fn(&mut Lent, &mut Vec<u32>);

/// Everything wrong at once, put right one by one: each refusal comes as soon as those before it are gone.
/// Only 13 clears scratch.
#[test]
fn refusals_in_their_order() {
    let mut lent = Lent {
        rows: vec![0; 13],
        marks: vec![7; 2],
        queue: vec![7; 2],
        output: vec![7; 9],
        flags: vec![8, 0],
        vertex_marks: vec![1; 2],
        coordinates: vec![0.5; 8],
        plan: vec![7; 5],
    };
    (lent.rows[4], lent.rows[5], lent.rows[10]) = (1, 1, 2);
    let mut list = vec![6, 1, 0, 99, 1, 0, 3];
    let right: [(Answer, PutRight); 10] = [
        ((1, [13, 0, 0]), |lent, _| lent.rows.truncate(12)),
        ((2, [1, 0, 0]), |lent, _| lent.marks.extend([7, 7])),
        ((2, [2, 0, 0]), |lent, _| lent.queue.extend([7, 7])),
        ((2, [3, 0, 0]), |lent, _| lent.output.push(7)),
        ((2, [4, 0, 0]), |lent, _| lent.flags = vec![8, 8, 8, 0]),
        ((2, [5, 0, 0]), |lent, _| lent.vertex_marks.push(1)),
        ((2, [6, 0, 0]), |lent, _| lent.coordinates.push(0.5)),
        ((13, [0, 0, 0]), |_, list| list.truncate(6)),
        ((3, [4, 1, 0]), |lent, _| lent.flags[1] = 0),
        ((3, [2, 2, 0]), |lent, _| lent.rows[10] = 0),
    ];
    for (refusal, put_right) in right {
        let mut left = lent.clone();
        assert_eq!(left.run(&list), refusal);
        if refusal.0 == 13 {
            assert_eq!((&left.marks[..], &left.queue[..]), (&[0, 0, 0, 7][..], &[0, 0, 0, 7][..]));
            left.marks.fill(7);
            left.queue.fill(7);
        }
        assert_eq!(left, lent);
        put_right(&mut lent, &mut list);
    }
    assert_eq!(lent.run(&list), (0, [0, 0, 0]));
    assert_eq!(lent.output, [0, 1, 0, 0, 0, 13, 99, 0, 0, 0]);
}

/// An unused dart is refused like one that there is not, by the command that has it as an argument; what an
/// unlink or unsew does not look at may be one.
#[test]
fn unused_darts() {
    let mut lent = Lent::around(vec![0; 16], 8, 3);
    lent.flags[2] = 255;
    let list = [[1, 1, 2], [3, 2, 9], [5, 9, 2], [2, 3, 1], [7, 2, 1], [10, 1, 2], [4, 1, 3], [12, 2, 2]];
    assert_eq!(lent.run(&list.concat()), (0, [0, 1, 0]));
    let wanted = [
        [4, 2, 0, 0, 0],
        [4, 1, 0, 0, 0],
        [4, 1, 0, 0, 0],
        [0; 5],
        [4, 1, 0, 0, 0],
        [0, 3, 0, 0, 1],
        [0; 5],
        [13, 12, 0, 0, 0],
    ];
    assert_eq!(lent.output[..40], wanted.concat());
    assert_eq!((lent.rows[5], lent.flags), (3, vec![9, 0, 255, 0, 0]));
}

#[test]
fn a_list_of_nothing_clears_scratch() {
    let mut lent = Lent::around(vec![0; 8], 0, 0);
    assert_eq!(lent.run(&[]), (0, [0; 3]));
    assert_eq!((lent.marks, lent.queue), (vec![0, 0, 7, 7], vec![0, 0, 7]));
    assert_eq!((lent.output, lent.plan), (vec![7; 3], vec![7; 5]));
}

/// Two lists one after the other are the one list of both.
#[test]
fn a_list_may_be_cut_anywhere() {
    let mut state = 1u64;
    let mut below = |end: u32| {
        state = state.wrapping_mul(6_364_136_223_846_793_005).wrapping_add(1_442_695_040_888_963_407);
        ((state >> 33) % u64::from(end)) as u32
    };
    let mut entries = 0;
    for _ in 0..3000 {
        let (n, room) = (2 + below(6), below(12) as usize);
        let list: Vec<[u32; 3]> = (0..below(40)).map(|_| [below(13), below(n), below(n)]).collect();
        let start = vec![0; 4 * n as usize];
        let (answers, rows, plan) = done(&start, &list, room);
        let (first, second) = list.split_at(below(list.len() as u32 + 1) as usize);
        let (mut answers_2, rows_2, mut plan_2) = done(&start, first, room);
        let (more, rows_2, behind) = done(&rows_2, second, room - plan_2.len());
        answers_2.extend(more);
        plan_2.extend(behind);
        assert_eq!((&answers, &rows, &plan), (&answers_2, &rows_2, &plan_2));
        entries += plan.len();
    }
    assert!(entries > 1000);
}
