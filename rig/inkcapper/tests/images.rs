//! Images through the wrapper: the stored examples, and maps there and back.

use std::path::{Path, PathBuf};

use inkcapper::{Image, MOST_DARTS, Refusal, map, read_image, write_image};

#[path = "../examples/images.rs"]
#[allow(dead_code)]
mod examples;

/// The folder `examples`.
fn folder() -> PathBuf {
    Path::new(env!("CARGO_MANIFEST_DIR")).join("../../examples")
}

#[test]
fn the_examples_are_what_is_stored() {
    for (name, bytes) in examples::images().expect("no refusal") {
        assert!(bytes == std::fs::read(folder().join(name)).expect("a file"), "{name} is another");
    }
}

#[test]
fn the_examples_go_round() {
    let mut images = 0;
    for file in std::fs::read_dir(folder()).expect("the folder examples") {
        let bytes = std::fs::read(file.expect("a file").path()).expect("bytes");
        assert!(write_image(&read_image(&bytes).expect("an image")) == Ok(bytes));
        images += 1;
    }
    assert_eq!(images, 3);
}

/// A map of up to 40 darts as the reader gives it, of which the seed decides everything.
fn some_image(seed: u64) -> Image {
    let mut state = seed;
    let mut below = |end: usize| {
        state = state.wrapping_mul(6_364_136_223_846_793_005).wrapping_add(1_442_695_040_888_963_407);
        (state >> 33) as usize % end
    };
    let n = 1 + below(40);
    let mut image =
        Image { rows: vec![0; 4 * n], flags: vec![0; n], vertex_marks: vec![0; n], coordinates: vec![0.0; 3 * n] };
    // an unused dart stays free: links of it are refused
    image.flags[1..].fill_with(|| (below(4) == 0) as u8);
    for _ in 0..2 * n {
        let link = [map::one_link, map::two_link, map::three_link][below(3)];
        // one that is refused is left out
        let _ = link(&mut image.rows, &image.flags, below(n) as u32, below(n) as u32);
    }
    for d in 1..n {
        image.vertex_marks[d] = below(2) as u8;
        if image.vertex_marks[d] == 1 {
            image.coordinates[3 * d..3 * d + 3].fill_with(|| below(9) as f64 / 4.0 - 1.0);
        }
    }
    image
}

#[test]
fn maps_go_round() {
    for seed in 0..2000 {
        let image = some_image(seed);
        let bytes = write_image(&image).expect("a map");
        assert_eq!(read_image(&bytes), Ok(image));
    }
}

#[test]
fn refusals() {
    let mut image =
        Image { rows: vec![0; 20], flags: vec![9; 5], vertex_marks: vec![1; 5], coordinates: vec![0.5; 15] };
    image.coordinates[14] = f64::NAN;
    image.rows[5] = 5;
    assert_eq!(write_image(&image), Err(Refusal::NotAMap { beta: 1, dart: 1 }));
    (image.rows[4], image.rows[5]) = (1, 1);
    assert_eq!(write_image(&image), Err(Refusal::NotAMap { beta: 4, dart: 1 }));
    (image.rows[4], image.rows[5]) = (0, 0);
    assert_eq!(write_image(&image), Err(Refusal::BadImage { part: 7 }));
    image.flags[0] = 0;
    assert_eq!(write_image(&image), Err(Refusal::BadImage { part: 8 }));
    image.vertex_marks.pop();
    assert_eq!(write_image(&image), Err(Refusal::ShortLoan { loan: 5 }));
    image.rows.pop();
    assert_eq!(write_image(&image), Err(Refusal::BadSize { length: 19 }));
    image.rows = vec![0; 4 * MOST_DARTS + 4];
    assert_eq!(write_image(&image), Err(Refusal::BadSize { length: 4_194_308 }));
}
