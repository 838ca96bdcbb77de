//! Well-formed maps: all small ones, random ones, and grids of cubes.

use std::collections::HashMap;

use crate::random::Random;

/// Every partial injection of 1..=k into itself, as image by dart (index 0 unused).
fn injections(k: usize) -> Vec<Vec<u32>> {
    // chooses the images of d and of the darts behind it
    fn go(d: usize, k: usize, taken: u64, image: &mut Vec<u32>, all: &mut Vec<Vec<u32>>) {
        if d > k {
            all.push(image.clone());
            return;
        }
        for to in 0..=k {
            if to == 0 || taken & (1 << to) == 0 {
                image[d] = to as u32;
                go(d + 1, k, if to == 0 { taken } else { taken | 1 << to }, image, all);
            }
        }
        image[d] = 0;
    }
    let mut all = Vec::new();
    go(1, k, 0, &mut vec![0; k + 1], &mut all);
    all
}

/// Every partial pairing of 1..=k, as partner by dart.
fn pairings(k: usize) -> Vec<Vec<u32>> {
    // chooses the partners of d and of the darts behind it
    fn go(d: usize, k: usize, partner: &mut Vec<u32>, all: &mut Vec<Vec<u32>>) {
        if d > k {
            all.push(partner.clone());
            return;
        }
        go(d + 1, k, partner, all);
        if partner[d] != 0 {
            return;
        }
        for to in d + 1..=k {
            if partner[to] == 0 {
                partner[d] = to as u32;
                partner[to] = d as u32;
                go(d + 1, k, partner, all);
                partner[d] = 0;
                partner[to] = 0;
            }
        }
    }
    let mut all = Vec::new();
    go(1, k, &mut vec![0; k + 1], &mut all);
    all
}

/// How many well-formed maps of `k` real darts there are.
pub fn how_many(k: usize) -> u64 {
    injections(k).len() as u64 * (pairings(k).len() as u64).pow(2)
}

/// Hands every well-formed map of `k` real darts to `each`.
pub fn all_of(k: usize, each: impl FnMut(&[u32])) {
    part_of(k, 0, 1, each);
}

/// The same for one part of `parts`, so that a long run can be split; `part` counts from 0.
pub fn part_of(k: usize, part: usize, parts: usize, mut each: impl FnMut(&[u32])) {
    let pairs = pairings(k);
    let mut rows = vec![0; 4 * (k + 1)];
    for one in injections(k).iter().skip(part).step_by(parts.max(1)) {
        for d in 0..=k {
            rows[4 * d] = 0;
        }
        for d in 1..=k {
            rows[4 * d + 1] = one[d];
            if one[d] != 0 {
                rows[4 * one[d] as usize] = d as u32;
            }
        }
        for two in &pairs {
            for three in &pairs {
                for d in 1..=k {
                    rows[4 * d + 2] = two[d];
                    rows[4 * d + 3] = three[d];
                }
                each(&rows);
            }
        }
    }
}

/// Links two darts by beta `i`.
fn join(rows: &mut [u32], i: usize, l: u32, r: u32) {
    rows[4 * l as usize + i] = r;
    rows[4 * r as usize + if i == 1 { 0 } else { i }] = l;
}

/// Pairs up some darts under beta `i`.
fn pair_some(random: &mut Random, rows: &mut [u32], i: usize, percent: usize) {
    let mut darts: Vec<u32> = (1..(rows.len() / 4) as u32).collect();
    random.shuffle(&mut darts);
    for pair in darts.chunks_exact(2) {
        if random.percent(percent) {
            join(rows, i, pair[0], pair[1]);
        }
    }
}

/// A map without any plan behind it, of `n` darts, the null dart counted.
pub fn wild(random: &mut Random, n: usize) -> Vec<u32> {
    let mut rows = vec![0; 4 * n];
    let mut to: Vec<u32> = (1..n as u32).collect();
    random.shuffle(&mut to);
    let dense = random.below(101);
    for (l, &r) in (1..n as u32).zip(&to) {
        if random.percent(dense) {
            join(&mut rows, 1, l, r);
        }
    }
    for i in [2, 3] {
        let dense = random.below(101);
        pair_some(random, &mut rows, i, dense);
    }
    rows
}

/// Chains and loops of up to seven darts, some 2-linked, some faces 3-linked as a whole.
pub fn faces(random: &mut Random, n: usize) -> Vec<u32> {
    let (mut rows, used) = (vec![0; 4 * n], vec![0; n]);
    let mut darts: Vec<u32> = (1..n as u32).collect();
    random.shuffle(&mut darts);
    let closed = random.below(101);
    let mut rest = &darts[..];
    while !rest.is_empty() {
        let (chain, more) = rest.split_at((1 + random.below(7)).min(rest.len()));
        rest = more;
        chain.windows(2).for_each(|pair| join(&mut rows, 1, pair[0], pair[1]));
        if random.percent(closed) {
            join(&mut rows, 1, chain[chain.len() - 1], chain[0]);
        }
    }
    let dense = random.below(101);
    pair_some(random, &mut rows, 2, dense);
    for _ in 0..n {
        if n > 2 {
            let (ld, rd) = (1 + random.below(n - 1) as u32, 1 + random.below(n - 1) as u32);
            model::three_link(&mut rows, &used, ld, rd);
        }
    }
    rows
}

/// One edge of `length` darts, joined in turn by beta 2 and beta 3, beta `first` first, among as many darts
/// that stand alone; round if asked, where the length is even and leaves two darts to join.
pub fn edge(random: &mut Random, length: usize, first: usize, round: bool) -> Vec<u32> {
    let n = 1 + 2 * length;
    let mut rows = vec![0; 4 * n];
    let mut darts: Vec<u32> = (1..n as u32).collect();
    random.shuffle(&mut darts);
    let by = |turn: usize| if turn.is_multiple_of(2) { first } else { 5 - first };
    let met = &darts[..length];
    met.windows(2).enumerate().for_each(|(turn, pair)| join(&mut rows, by(turn), pair[0], pair[1]));
    if round && length.is_multiple_of(2) {
        join(&mut rows, by(length - 1), met[length - 1], met[0]);
    }
    rows
}

/// Whether a dart has no image.
pub fn is_free(rows: &[u32], d: usize) -> bool {
    rows[4 * d..4 * d + 4] == [0; 4]
}

/// Takes every image of a dart of a map away, and with it the way back.
pub fn set_free(rows: &mut [u32], d: usize) {
    for (i, back) in [1, 0, 2, 3].into_iter().enumerate() {
        let to = std::mem::take(&mut rows[4 * d + i]);
        if to != 0 {
            rows[4 * to as usize + back] = 0;
        }
    }
}

/// Every choice of unused darts that a map allows, each as the darts; none first.
pub fn unused_choices(rows: &[u32]) -> Vec<Vec<usize>> {
    let mut choices = vec![Vec::new()];
    for d in (1..rows.len() / 4).filter(|&d| is_free(rows, d)) {
        let with_it: Vec<Vec<usize>> = choices.iter().map(|choice| [&choice[..], &[d]].concat()).collect();
        choices.extend(with_it);
    }
    choices
}

/// A corner of the grid, or twice the middle of a face.
type Point = [usize; 3];

/// The corners of each face of a cube, anticlockwise from outside.
const FACES: [[Point; 4]; 6] = [
    [[0, 0, 0], [0, 1, 0], [1, 1, 0], [1, 0, 0]],
    [[0, 0, 1], [1, 0, 1], [1, 1, 1], [0, 1, 1]],
    [[0, 0, 0], [1, 0, 0], [1, 0, 1], [0, 0, 1]],
    [[0, 1, 0], [0, 1, 1], [1, 1, 1], [1, 1, 0]],
    [[0, 0, 0], [0, 0, 1], [0, 1, 1], [0, 1, 0]],
    [[1, 0, 0], [1, 1, 0], [1, 1, 1], [1, 0, 1]],
];

/// Joins a dart by beta `i` to the one that runs the other way along its edge, if that one was met.
fn glue(rows: &mut [u32], i: usize, met: &mut HashMap<[Point; 3], u32>, [of, from, to]: [Point; 3], dart: u32) {
    if let Some(&other) = met.get(&[of, to, from]) {
        join(rows, i, dart, other);
    }
    met.insert([of, from, to], dart);
}

/// A grid of cubes with every 2- and 3-link, and its vertices: rows, vertex marks, coordinates.
///
/// A dart is an edge of a face of a cube, seen from outside; the dart across (beta 2 in the same cube,
/// beta 3 in the next) runs the other way along the same edge.
pub fn cubes(size: [usize; 3]) -> (Vec<u32>, Vec<u8>, Vec<f64>) {
    let n = 1 + 24 * size.iter().product::<usize>();
    let mut rows = vec![0; 4 * n];
    let mut starts = vec![[0.0; 3]; n];
    let mut in_cube = HashMap::new();
    let mut in_face = HashMap::new();
    let mut d = 0;
    let [_, along_y, along_z] = size;
    for cube in 0..size.iter().product() {
        let [x, y, z] = [cube / (along_y * along_z), cube / along_z % along_y, cube % along_z];
        for corners in FACES {
            let at = corners.map(|c| [x + c[0], y + c[1], z + c[2]]);
            // twice the middle of the face, which names it
            let middle = std::array::from_fn(|k| at[0][k] + at[2][k]);
            for k in 0..4 {
                let dart = d + 1 + k as u32;
                let (from, to) = (at[k], at[(k + 1) % 4]);
                join(&mut rows, 1, dart, d + 1 + (k as u32 + 1) % 4);
                starts[dart as usize] = from.map(|c| c as f64);
                glue(&mut rows, 2, &mut in_cube, [[x, y, z], from, to], dart);
                glue(&mut rows, 3, &mut in_face, [middle, from, to], dart);
            }
            d += 4;
        }
    }
    let mut marks = vec![1; n];
    marks[0] = 0;
    (rows, marks, starts.concat())
}

#[cfg(test)]
mod tests {
    use super::*;

    #[test]
    fn small_maps_are_all_there_and_well_formed() {
        assert_eq!([0, 1, 2, 3, 4].map(how_many), [1, 2, 28, 544, 20_900]);
        let mut seen = std::collections::HashSet::new();
        all_of(3, |rows| {
            assert_eq!(model::first_breach(rows, &[0; 4]), None);
            assert!(seen.insert(rows.to_vec()));
        });
        assert_eq!(seen.len(), 544);
    }

    /// Of maps of k darts with a choice of unused ones there are as many as of maps of the darts in use.
    #[test]
    fn choices_of_unused_darts_are_all_there() {
        let mut pairs = 0;
        all_of(3, |rows| pairs += unused_choices(rows).len() as u64);
        assert_eq!(pairs, how_many(3) + 3 * how_many(2) + 3 * how_many(1) + how_many(0));
        assert_eq!(unused_choices(&[0; 12]), [vec![], vec![1], vec![2], vec![1, 2]]);
    }

    #[test]
    fn no_small_map_is_missed() {
        // every row content of two real darts, judged by the map test
        let mut well_formed = 0;
        for code in 0..3u32.pow(8) {
            let mut rows = [0; 12];
            (0..8).for_each(|k| rows[4 + k] = code / 3u32.pow(k as u32) % 3);
            well_formed += u64::from(model::first_breach(&rows, &[0; 3]).is_none());
        }
        assert_eq!(well_formed, how_many(2));
    }

    #[test]
    fn random_maps_and_grids_are_well_formed() {
        let mut random = Random::new(1);
        for n in 1..60 {
            let maps = [wild(&mut random, n), faces(&mut random, n), edge(&mut random, n, 2 + n % 2, n % 3 > 0)];
            for mut rows in maps {
                let mut flags = vec![0; rows.len() / 4];
                assert_eq!(model::first_breach(&rows, &flags), None);
                for d in (1..flags.len()).step_by(3) {
                    set_free(&mut rows, d);
                    flags[d] = 1;
                }
                assert_eq!(model::first_breach(&rows, &flags), None);
            }
        }
        let (rows, _, _) = cubes([2, 2, 1]);
        let n = rows.len() / 4;
        assert_eq!(model::first_breach(&rows, &vec![0; n]), None);
        assert!((1..n).all(|d| rows[4 * d + 2] != 0));
        // four cubes in a square share four faces: 32 darts with beta 3
        assert_eq!((1..n).filter(|&d| rows[4 * d + 3] != 0).count(), 32);
        let list = |cell| {
            let (mut marks, mut queue, mut output) = (vec![0; n], vec![0; n], vec![0; n]);
            model::list(cell, &rows, &mut marks, &mut queue, &mut output, &vec![0; n]).1[1]
        };
        use model::Cell::*;
        assert_eq!([Vertex, Edge, Face, Volume].map(list), [18, 33, 20, 4]);
    }
}
