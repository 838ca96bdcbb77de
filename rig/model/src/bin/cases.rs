//! What the program `test_report_cases` must print: cases from standard input, each a length in four
//! little-endian bytes and then as many bytes; each one's number and the model's report to standard output.

use std::io::{Read, Write};

fn main() -> std::io::Result<()> {
    let mut input = Vec::new();
    std::io::stdin().read_to_end(&mut input)?;
    std::io::stdout().write_all(model::case_reports(&input).as_bytes())
}
