//! Nothing panics, whatever the arguments, and an answer always has a text.

use inkcapper::{Answer, Cell, Command, Loans, Orbit, Vertices, read_image, write_map};

#[cfg(not(feature = "linked"))]
extern crate c_names;

/// Numbers that look random and come again the same.
struct Numbers(u64);

impl Numbers {
    fn below(&mut self, end: u64) -> u64 {
        self.0 = self.0.wrapping_mul(6_364_136_223_846_793_005).wrapping_add(1_442_695_040_888_963_407);
        (self.0 >> 33) % end
    }
    fn dart(&mut self) -> u32 {
        [0, 1, 2, 3, 7, u32::MAX][self.below(6) as usize]
    }
    fn list(&mut self, most: u64) -> Vec<u32> {
        (0..self.below(most)).map(|_| self.below(5) as u32 * self.below(2) as u32).collect()
    }
}

#[test]
fn nothing_panics() {
    let mut numbers = Numbers(1);
    let mut loans = Loans::new();
    let mut done = 0;
    for _ in 0..200_000 {
        let mut rows = numbers.list(22);
        if numbers.below(3) == 0 {
            rows = vec![0; 4 * numbers.below(6) as usize];
        }
        let (d, e) = (numbers.dart(), numbers.dart());
        let [bytes, flags] = [1, 3].map(|by| numbers.list(30).iter().map(|&w| w as u8 / by).collect::<Vec<u8>>());
        let points: Vec<f64> = numbers.list(20).iter().map(|&w| f64::from(w) / 0.0).collect();
        let vertices = Vertices { marks: &bytes, coordinates: &points };
        let refusal = match numbers.below(12) {
            0 => loans.identifier(Cell::Vertex, &rows, &flags, d).err(),
            1 => loans.identifier(Cell::Face, &rows, &flags, d).err(),
            2 => loans.orbit(Orbit::Custom(&bytes), &rows, &flags, d).err(),
            3 => loans.list(Cell::Volume, &rows, &flags).err(),
            4 => loans.one_sew(&mut rows, &flags, d, e).err(),
            5 => loans.one_unsew(&mut rows, &flags, d).err(),
            6 => loans.two_sew(&mut rows, &flags, vertices, d, e).err(),
            7 => loans.two_unsew(&mut rows, &flags, d).err(),
            8 => loans.three_unsew(&mut rows, &flags, d).err(),
            9 => write_map(&rows, &flags, vertices).err(),
            10 => {
                let list = [
                    Command::ThreeLink { ld: d, rd: e },
                    Command::TwoSew { ld: e, rd: d },
                    Command::ThreeUnsew { ld: d },
                ];
                let answers = loans.commands(&mut rows, &flags, vertices, &list[..numbers.below(4) as usize]);
                answers.and_then(|mut answers| answers.try_for_each(|answer| answer.map(|_| ()))).err()
            }
            _ => read_image(&bytes).err(),
        };
        match refusal {
            Some(refusal) => assert!(refusal.to_string().starts_with("refused ")),
            None => done += 1,
        }
    }
    assert!(done > 1000);
}

#[test]
fn number_and_values_go_round() {
    for number in (0..20).chain([u32::MAX]) {
        for values in [[0; 3], [1, 0, 0], [1, 2, 0], [1, 2, 3], [0, 0, 9], [u64::MAX; 3]] {
            let answer = Answer::from_parts(number, values);
            assert_eq!(answer.parts(), (number, values));
            assert!(!answer.to_string().is_empty());
        }
    }
}
