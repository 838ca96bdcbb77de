//! Sizes through the wrapper: of identifiers and of entries, each the length of an orbit.

mod common;

use inkcapper::{Answer, Cell, ENTRY_NUMBERS, Entry, Identifier, Kind, Loans, Orbit, Refusal, Vertices, map, slices};

use common::Numbers;

#[cfg(not(feature = "linked"))]
extern crate c_names;

/// How many darts the cell of `d` has, by its orbit; a null dart is in none.
fn size(class: Cell, rows: &[u32], d: u32) -> u32 {
    let orbit = match class {
        Cell::Vertex => Orbit::Vertex,
        Cell::Edge => Orbit::Edge,
        Cell::Face => Orbit::Face,
        Cell::Volume => Orbit::Volume,
    };
    let flags = vec![0; rows.len() / 4];
    let count = Loans::new().orbit(orbit, rows, &flags, d).expect("a dart of a map").len();
    if d == 0 { 0 } else { count as u32 }
}

/// A map of up to 30 darts, of which the numbers decide everything.
fn some_rows(numbers: &mut Numbers) -> Vec<u32> {
    let n = 2 + numbers.below(29);
    let (mut rows, flags) = (vec![0; 4 * n], vec![0; n]);
    for _ in 0..3 * n {
        let link = [map::one_link, map::two_link, map::three_link][numbers.below(3)];
        // one that is refused is left out
        let _ = link(&mut rows, &flags, numbers.below(n) as u32, numbers.below(n) as u32);
    }
    rows
}

/// Whether the sizes of an entry are those of the cells that it names, in the rows before a merge or after a split; a
/// face split says how many darts lost their beta 3 image on either side.
fn is_counted(entry: &Entry, before: &[u32], after: &[u32]) -> bool {
    let rows = if entry.kind == Kind::Merge { before } else { after };
    let sizes = match entry.class {
        Cell::Face => {
            let parted = before.iter().zip(after).filter(|(before, after)| before != after).count();
            [parted as u32 / 2; 2]
        }
        class => [entry.left, entry.right].map(|d| size(class, rows, d)),
    };
    [entry.left_size, entry.right_size] == sizes
}

#[test]
fn entries_count_the_cells_that_they_name() {
    let mut numbers = Numbers(1);
    let (mut loans, mut met) = (Loans::new(), [0; 5]);
    for _ in 0..4000 {
        let before = some_rows(&mut numbers);
        let n = before.len() / 4;
        let (ld, rd) = (1 + numbers.below(n - 1) as u32, 1 + numbers.below(n - 1) as u32);
        let (flags, vertices) = (vec![0; n], Vertices { marks: &vec![0; n], coordinates: &vec![0.0; 3 * n] });
        let (mut rows, call) = (before.clone(), numbers.below(5));
        let sewn = match call {
            0 => loans.one_sew(&mut rows, &flags, ld, rd),
            1 => loans.two_sew(&mut rows, &flags, vertices, ld, rd),
            2 => loans.one_unsew(&mut rows, &flags, ld),
            3 => loans.two_unsew(&mut rows, &flags, ld),
            _ => loans.three_unsew(&mut rows, &flags, ld),
        };
        for entry in sewn.iter().flat_map(|sewn| sewn.plan) {
            assert!(is_counted(entry, &before, &rows), "{entry:?} of {before:?}");
            met[call] += 1;
        }
    }
    assert!(met.iter().all(|&times| times > 100), "{met:?}");
}

#[test]
fn identifiers_count_their_orbits() {
    let (mut numbers, mut loans) = (Numbers(2), Loans::new());
    for _ in 0..300 {
        let rows = some_rows(&mut numbers);
        let flags = vec![0; rows.len() / 4];
        for d in 0..flags.len() as u32 {
            for class in [Cell::Vertex, Cell::Edge, Cell::Volume] {
                let Identifier { dart, size: counted } = loans.identifier(class, &rows, &flags, d).expect("a map");
                assert!(dart <= d && counted == size(class, &rows, d));
                assert_eq!(loans.identifier(class, &rows, &flags, dart), Ok(Identifier { dart, size: counted }));
            }
            assert_eq!(loans.identifier(Cell::Face, &rows, &flags, d).map(|face| face.size), Ok(0));
        }
    }
}

/// A plan that has room for four entries of four numbers has none for four of six.
#[test]
fn room_for_whole_entries() {
    let flags = [0; 3];
    for words in 0..5 * ENTRY_NUMBERS {
        let mut rows = [0; 12];
        map::three_link(&mut rows, &flags, 1, 2).expect("free");
        let mut plan = vec![7; words];
        let answer = slices::three_unsew(&mut rows, &mut [0; 3], &mut [0; 3], &flags, &mut plan, 1);
        if words < 4 * ENTRY_NUMBERS {
            assert_eq!(answer, Answer::Refused(Refusal::PlanRoom { entries: 4 }));
            assert!(plan.iter().all(|&word| word == 7));
        } else {
            assert_eq!(answer, Answer::Done { first: 2, count: 4 });
            assert!(plan[4 * ENTRY_NUMBERS..].iter().all(|&word| word == 7));
        }
    }
}
