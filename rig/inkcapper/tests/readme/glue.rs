use inkcapper::{Refusal, map};

fn main() -> Result<(), Refusal> {
    let (mut rows, flags) = (vec![0; 4 * 8], [0; 8]); // darts 1 to 7, all free and none unused
    for (ld, rd) in [(1, 2), (2, 3), (3, 1), (4, 5), (5, 6), (6, 7), (7, 4)] {
        map::one_link(&mut rows, &flags, ld, rd)?; // a triangle 1 2 3 and a quad 4 5 6 7
    }
    map::three_link(&mut rows, &flags, 1, 4)?; // 1-4, 2-7, 3-6
    println!("dart 5 is free: {}", map::is_i_free(&rows, 3, 5)?);
    if let Err(refusal) = map::three_link(&mut rows, &flags, 5, 1) {
        println!("{refusal}"); // refused 7: cannot link 5 to 1: beta 3 of 1 is not free
    }
    Ok(())
}
