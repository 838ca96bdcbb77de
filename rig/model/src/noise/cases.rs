//! The cases: noise, of which each kind puts more right than the one before.

/// The kinds there are.
pub const KINDS: usize = 14;

/// What is right in the cases of each kind, and what was done to them.
pub const NAMES: [&str; KINDS] = [
    "noise",
    "form",
    "form, total",
    "form to n",
    "form to row offset",
    "form to flag offset",
    "form to vertex count",
    "header",
    "header, flags",
    "header, flags, darts of vertices",
    "header, flags, darts of vertices, small rows",
    "all but coordinates",
    "all but coordinates, some infinite",
    "all but coordinates, bytes overwritten",
];

/// A linear congruential generator; its upper bits are used.
#[derive(Debug, Clone, Copy)]
pub struct Noise(u32);

impl Noise {
    /// Noise that starts behind `seed`.
    pub fn new(seed: u32) -> Self {
        Self(seed)
    }

    /// Goes on by one number.
    fn go(&mut self) -> Self {
        self.0 = self.0.wrapping_mul(1_664_525).wrapping_add(1_013_904_223);
        *self
    }

    /// The number it stands at, as one below `end`.
    fn below(self, end: usize) -> usize {
        (self.0 >> 16) as usize % end
    }

    /// The number it stands at, as a byte.
    fn byte(self) -> u8 {
        (self.0 >> 24) as u8
    }
}

/// Sets a word; what would lie behind the end is left out.
fn put_word(bytes: &mut [u8], at: usize, word: usize) {
    for (place, byte) in bytes.iter_mut().skip(at).zip((word as u32).to_le_bytes()) {
        *place = byte;
    }
}

/// The rows of a ring of all real darts, with darts 1 and 2 glued by beta `glue` where that is 2 or 3.
fn ring(n: usize, glue: usize) -> Vec<[usize; 4]> {
    let mut rows = vec![[0; 4]; n];
    for (d, row) in rows.iter_mut().enumerate().skip(1) {
        row[0] = if d == 1 { n - 1 } else { d - 1 };
        row[1] = if d == n - 1 { 1 } else { d + 1 };
    }
    if n > 2 && glue > 1 {
        rows[1][glue] = 2;
        rows[2][glue] = 1;
    }
    rows
}

/// Puts flags right: none for dart 0.
fn put_flags(bytes: &mut [u8], n: usize, noise: &mut Noise) {
    let flags = &mut bytes[28 + 16 * n..28 + 17 * n];
    flags[0] = 0;
    for flag in &mut flags[1..] {
        *flag = noise.go().byte() >> 7;
    }
}

/// Puts the darts of the vertices right: one after the other, from any that leaves room for all.
fn put_darts(bytes: &mut [u8], n: usize, v: usize, noise: &mut Noise) {
    let first = 1 + noise.go().below(n - v);
    for j in 0..v {
        put_word(bytes, 28 + 17 * n + 28 * j, first + j);
    }
}

/// Puts images below n into the rows, half of them null, and none into row 0.
fn put_rows(bytes: &mut [u8], n: usize, noise: &mut Noise) {
    for i in 0..4 * n {
        let to = noise.go().below(2 * n);
        put_word(bytes, 28 + 4 * i, if i < 4 || to >= n { 0 } else { to });
    }
}

/// Puts a map into the rows.
fn put_map(bytes: &mut [u8], n: usize, noise: &mut Noise) {
    let rows = ring(n, noise.go().below(4));
    for (i, &to) in rows.iter().flatten().enumerate() {
        put_word(bytes, 28 + 4 * i, to);
    }
}

/// Sets all bits of the exponent of one coordinate in eight: an infinity or a NaN, of either sign.
fn spoil_coordinates(bytes: &mut [u8], n: usize, noise: &mut Noise) {
    for record in bytes[28 + 17 * n..].chunks_exact_mut(28) {
        for coordinate in record[4..].chunks_exact_mut(8) {
            if noise.go().below(8) == 0 {
                // one number ahead, without going on
                let any = noise.clone().go().byte();
                coordinate[6] = 0xF0 | any >> 4;
                coordinate[7] = 0x7F | any & 0x80;
            }
        }
    }
}

/// Overwrites one to three bytes anywhere, with small numbers or with any.
fn overwrite(bytes: &mut [u8], noise: &mut Noise) {
    for _ in 0..1 + noise.go().below(3) {
        let place = noise.go().below(bytes.len());
        let any = noise.go().byte();
        bytes[place] = if any < 128 { any >> 5 } else { any };
    }
}

/// A case of a kind with at most `most` darts.
pub fn case(kind: usize, most: usize, noise: &mut Noise) -> Vec<u8> {
    let n = 1 + noise.go().below(most);
    let v = noise.go().below(n);
    let any = noise.go().below(300);
    let total = if kind < 3 { any } else { 28 + 17 * n + 28 * v };
    let mut bytes: Vec<u8> = (0..total).map(|_| noise.go().byte()).collect();
    let header = [1, total, n, 28, 28 + 16 * n, v, 28 + 17 * n];
    for (at, &word) in header.iter().enumerate().take(kind) {
        put_word(&mut bytes, 4 * at, word);
    }
    if kind >= 8 {
        put_flags(&mut bytes, n, noise);
    }
    if kind >= 9 {
        put_darts(&mut bytes, n, v, noise);
    }
    match kind {
        10 => put_rows(&mut bytes, n, noise),
        11.. => put_map(&mut bytes, n, noise),
        _ => {}
    }
    match kind {
        12 => spoil_coordinates(&mut bytes, n, noise),
        13 => overwrite(&mut bytes, noise),
        _ => {}
    }
    bytes
}
