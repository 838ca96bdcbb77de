//! What the program `test_report_noise` must print.

fn main() {
    print!("{}", model::noise::lines());
}
