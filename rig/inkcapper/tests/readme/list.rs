use inkcapper::{Command, Loans, Refusal, Vertices};

fn main() -> Result<(), Refusal> {
    let (mut rows, flags) = (vec![0; 4 * 8], [0; 8]);
    let no_points = Vertices { marks: &[0; 8], coordinates: &[0.0; 24] };
    let sides = [(1, 2), (2, 3), (3, 1), (4, 5), (5, 6), (6, 7), (7, 4)];
    let mut list = sides.map(|(ld, rd)| Command::OneLink { ld, rd }).to_vec();
    list.push(Command::ThreeLink { ld: 4, rd: 1 }); // refused 7: cannot link 7 to 1: beta 3 of 1 is not free
    list.push(Command::ThreeLink { ld: 1, rd: 4 });
    list.push(Command::ThreeUnsew { ld: 1 });
    for answer in Loans::new().commands(&mut rows, &flags, no_points, &list)? {
        match answer {
            Ok(done) => println!("done: {:?}", done.plan), // what the caller's own stores have to follow
            Err(refusal) => println!("{refusal}"),
        }
    }
    Ok(())
}
