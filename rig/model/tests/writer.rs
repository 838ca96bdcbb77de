//! The writer of images: it and the reader undo each other, and a refusal leaves every byte.

use model::noise::{self, Noise};
use model::{read_image, write_image};

/// Numbers that look random and come again the same.
struct Numbers(u64);

impl Numbers {
    fn below(&mut self, end: usize) -> usize {
        self.0 = self.0.wrapping_mul(6_364_136_223_846_793_005).wrapping_add(1_442_695_040_888_963_407);
        (self.0 >> 33) as usize % end
    }
    fn byte(&mut self) -> u8 {
        self.below(2) as u8 * self.below(256) as u8
    }
    fn finite(&mut self) -> f64 {
        [0.0, -0.0, 1.5, -1e300, 5e-324, f64::MAX, f64::MIN_POSITIVE][self.below(7)]
    }
}

/// What an image holds.
#[derive(Debug, Clone, PartialEq)]
struct Held {
    rows: Vec<u32>,
    flags: Vec<u8>,
    marks: Vec<u8>,
    /// By their bits.
    coordinates: Vec<u64>,
}

impl Held {
    /// Writes into bytes with so much room, all 0xA5 before.
    fn write(&self, room: usize) -> (model::Answer, Vec<u8>) {
        let mut bytes = vec![0xA5; room];
        let coordinates: Vec<f64> = self.coordinates.iter().map(|&bits| f64::from_bits(bits)).collect();
        (write_image(&self.rows, &self.flags, &self.marks, &coordinates, &mut bytes), bytes)
    }

    /// Reads an image that is one.
    fn read(bytes: &[u8], n: usize) -> Self {
        let (mut rows, mut flags, mut marks) = (vec![9; 4 * n], vec![9; n], vec![9; n]);
        let mut coordinates = vec![9.0; 3 * n];
        assert_eq!(read_image(bytes, &mut flags, &mut marks, &mut coordinates, &mut rows), (0, [0, n as u64, 0]));
        Self { rows, flags, marks, coordinates: coordinates.into_iter().map(f64::to_bits).collect() }
    }

    /// What is left of it when it is read back: flags and marks 0 or 1, no slot 0, 0 where no point is.
    fn read_back(mut self) -> Self {
        self.marks[0] = 0;
        self.marks.iter_mut().chain(&mut self.flags).for_each(|byte| *byte = u8::from(*byte != 0));
        for (slot, &mark) in self.marks.iter().enumerate() {
            (0..3).for_each(|k| self.coordinates[3 * slot + k] *= u64::from(mark));
        }
        self
    }

    /// The bytes of its image.
    fn size(&self) -> usize {
        28 + 17 * self.flags.len() + 28 * self.marks[1..].iter().filter(|&&mark| mark != 0).count()
    }
}

/// A map of up to 20 darts, of which free ones may be unused, with any slots; points are finite, other coordinates
/// are not all.
fn any(numbers: &mut Numbers) -> Held {
    let n = 1 + numbers.below(20);
    let mut rows = vec![0; 4 * n];
    let mut flags: Vec<u8> = (0..n).map(|_| numbers.byte()).collect();
    flags[0] = 0;
    for _ in 0..2 * n {
        let link = [model::one_link, model::two_link, model::three_link][numbers.below(3)];
        link(&mut rows, &flags, numbers.below(n) as u32, numbers.below(n) as u32);
    }
    let marks: Vec<u8> = (0..n).map(|_| numbers.byte()).collect();
    let coordinate = |place: usize| match numbers.below(4) {
        0 if place < 3 || marks[place / 3] == 0 => [f64::NAN, f64::INFINITY][numbers.below(2)],
        _ => numbers.finite(),
    };
    let coordinates = (0..3 * n).map(coordinate).map(f64::to_bits).collect();
    Held { rows, flags, marks, coordinates }
}

#[test]
fn a_map_goes_round() {
    let mut numbers = Numbers(1);
    for _ in 0..5000 {
        let held = any(&mut numbers);
        let (n, size) = (held.flags.len(), held.size());
        let (answer, bytes) = held.write(size + numbers.below(3));
        assert_eq!(answer, (0, [0, size as u64, 0]));
        assert!(bytes[size..].iter().all(|&byte| byte == 0xA5));
        assert_eq!(Held::read(&bytes[..size], n), held.read_back());
    }
}

#[test]
fn an_image_goes_round() {
    let mut images = 0;
    for kind in 8..noise::KINDS {
        let mut noise = Noise::new(kind as u32);
        for _ in 0..2000 {
            let bytes = noise::case(kind, 6, &mut noise);
            let n = (bytes.len() - 28) / 17;
            let (mut rows, mut flags, mut marks) = (vec![0; 4 * n], vec![0; n], vec![0; n]);
            let mut coordinates = vec![0.0; 3 * n];
            let answer = read_image(&bytes, &mut flags, &mut marks, &mut coordinates, &mut rows);
            if answer.0 == 0 {
                images += 1;
                let n = answer.1[1] as usize;
                let mut again = vec![0xA5; bytes.len()];
                let answer = write_image(&rows[..4 * n], &flags, &marks, &coordinates, &mut again);
                assert_eq!((answer, again), ((0, [0, bytes.len() as u64, 0]), bytes));
            }
        }
    }
    assert!(images > 1500);
}

#[test]
fn the_triangle() {
    let triangle = [0, 0, 0, 0, 3, 2, 0, 0, 1, 3, 0, 0, 2, 1, 0, 0];
    let mut bytes = [9; 97];
    let answer = write_image(&triangle, &[0; 4], &[0; 4], &[f64::NAN; 12], &mut bytes);
    assert_eq!(answer, (0, [0, 96, 0]));
    let words: Vec<u8> =
        [1, 96, 4, 28, 92, 0, 96].iter().chain(&triangle).flat_map(|w: &u32| w.to_le_bytes()).collect();
    assert_eq!((&bytes[..92], &bytes[92..]), (&words[..], &[0, 0, 0, 0, 9][..]));
}

/// Takes one fault away.
type PutRight = fn(&mut Held);

/// Everything wrong at once, put right one by one: each refusal comes as soon as those before it are gone.
#[test]
fn refusals_in_their_order() {
    let mut held = Held { rows: vec![0; 13], flags: vec![1; 2], marks: vec![1; 2], coordinates: vec![0; 8] };
    held.coordinates[4] = f64::NAN.to_bits();
    held.rows[10] = 2;
    held.rows[5] = 1;
    held.rows[4] = 1;
    let right: [(model::Answer, PutRight); 9] = [
        ((1, [13, 0, 0]), |held| held.rows.truncate(12)),
        ((2, [4, 0, 0]), |held| held.flags.push(1)),
        ((2, [5, 0, 0]), |held| held.marks.push(1)),
        ((2, [6, 0, 0]), |held| held.coordinates.push(0)),
        ((3, [4, 1, 0]), |held| held.flags[1] = 0),
        ((3, [2, 2, 0]), |held| held.rows[10] = 0),
        ((12, [7, 0, 0]), |held| held.flags[0] = 0),
        ((12, [8, 0, 0]), |held| held.coordinates[4] = 0),
        ((14, [135, 0, 0]), |_| {}),
    ];
    for (refusal, put_right) in right {
        assert_eq!(held.write(134), (refusal, vec![0xA5; 134]));
        put_right(&mut held);
    }
    assert_eq!(held.write(135).0, (0, [0, 135, 0]));
    held.rows.clear();
    assert_eq!(held.write(135).0, (1, [0, 0, 0]));
}

#[test]
fn rooms_around_the_size() {
    let mut numbers = Numbers(2);
    for _ in 0..500 {
        let held = any(&mut numbers);
        let size = held.size();
        for room in [0, size - 1] {
            assert_eq!(held.write(room), ((14, [size as u64, 0, 0]), vec![0xA5; room]));
        }
        let (answer, exact) = held.write(size);
        assert_eq!(answer, (0, [0, size as u64, 0]));
        let (_, more) = held.write(size + 1000);
        assert_eq!((&more[..size], &more[size..]), (&exact[..], &[0xA5; 1000][..]));
    }
}

/// A coordinate that is no number refuses where its slot is stored, and nowhere else.
#[test]
fn coordinates_that_are_looked_at() {
    let finite = Held { rows: vec![0; 20], flags: vec![0; 5], marks: vec![1, 1, 0, 2, 0], coordinates: vec![0; 15] };
    for place in 0..15 {
        for odd in [f64::NAN, -f64::NAN, f64::INFINITY, f64::NEG_INFINITY, f64::from_bits(0x7FF0_0000_0000_0001)] {
            let mut held = finite.clone();
            held.coordinates[place] = odd.to_bits();
            let (answer, bytes) = held.write(200);
            if matches!(place / 3, 1 | 3) {
                assert_eq!((answer, bytes), ((12, [8, 0, 0]), vec![0xA5; 200]));
            } else {
                assert_eq!((answer, bytes), finite.write(200));
            }
        }
    }
}
