//! compare [run ...]: holds the published Rust and the library behind the C names against the model.
//!
//! Runs, each with its own numbers (a default is used for those left out):
//!
//! - `small K PART PARTS`: all well-formed maps of K real darts, unused ones among them, every call and dart; of
//!   five darts there are 1,045,096 maps and some 560 million calls, so a run can be split into parts
//! - `walks ROUNDS STEPS SEED`: long walks of calls over random maps and grids of cubes
//! - `edges LONGEST ROUNDS SEED`: round and open edges of up to LONGEST darts, then random maps, the edge of
//!   every dart named
//! - `floats ROUNDS SEED`: 2-sews over NaN, infinities, zeros, ties
//! - `refusals ROUNDS SEED`: wrong sizes, loans, rows, flags, darts, betas, plan room
//! - `largest`: the largest map, one dart more, lengths that are no rows, long faces, whole grids, the largest
//!   images
//! - `images ROUNDS SEED`: stored images, right and wrong
//! - `bytes ROUNDS SEED`: plain noise of many lengths, and noise in which more and more of an image is put
//!   right, given to the reader; with a line for each kind, of what came of it
//! - `writes K ROUNDS SEED`: images written: of all maps of up to K real darts with all flags and slots, then
//!   of random ones, right and wrong, into bytes of every length around theirs; and there and back
//! - `lists K ROUNDS SEED`: lists of commands: every single one on all maps of up to K real darts, every pair on
//!   those of one dart fewer, then random ones, right and wrong, with plans that run out; with a line for each
//!   operation, of what came of it
//! - `answers K STRIDE POINTS`: prints the published Rust's own answers over all maps of K real darts,
//!   every STRIDE-th call, one on a line (`runs::answers` says how); with POINTS 1 or 2 of 2-sews with
//!   vertices
//! - `wrong COUNT SEED`: prints the model's refusals 1, 3, 4 and 5 in the same form
//! - `unused COUNT SEED`: prints calls on maps with unused darts in the same form: the published Rust's answers,
//!   and the model's refusals 3 and 4
//! - `listed COUNT SEED`: prints the published Rust's answers to lists of commands in the same form, and the
//!   model's where a whole list is refused
//! - `cases FOLDER COUNT SEED`: writes images, and what the report program must print for each
//!
//! Without a run it does `small 0` to `small 4` and the others with their defaults. It ends with 1 if
//! there is any difference.

use std::io::Write;
use std::path::Path;
use std::process::ExitCode;
use std::time::Instant;

use compare::{Comparison, Kernel, Library, Published, Random, maps, runs};

fn main() -> ExitCode {
    let arguments: Vec<String> = std::env::args().skip(1).collect();
    match arguments.first().map(String::as_str) {
        Some(run @ ("answers" | "wrong" | "unused" | "listed")) => return answers(run, &arguments[1..]),
        Some("cases") => return cases(&arguments[1..]),
        _ => {}
    }
    for (file, bytes, hash) in oracle::TEXT {
        println!("text {file} {bytes} bytes {hash:016x}");
    }
    let mut differences = 0;
    for (run, numbers) in plan(&arguments) {
        let start = Instant::now();
        let (comparison, lines) = perform(&run, &numbers);
        println!("== {run} {numbers:?} in {:.1} s: {}", start.elapsed().as_secs_f64(), comparison.report());
        lines.iter().for_each(|line| println!("  {line}"));
        differences += comparison.differences();
    }
    if differences == 0 { ExitCode::SUCCESS } else { ExitCode::FAILURE }
}

/// The runs to make, each with its numbers: the one that is named, or all.
fn plan(arguments: &[String]) -> Vec<(String, Vec<u64>)> {
    if let Some(run) = arguments.first() {
        return vec![(run.clone(), arguments[1..].iter().map(|word| number(word)).collect())];
    }
    let mut plan: Vec<(String, Vec<u64>)> = (0..5).map(|k| ("small".to_string(), vec![k])).collect();
    // the largest maps last of those that ask the published Rust: its sets stay as large as they ever were
    let others = ["walks", "edges", "lists", "floats", "refusals", "largest", "images", "bytes", "writes"];
    plan.extend(others.map(|run| (run.to_string(), Vec::new())));
    plan
}

/// Makes a run; gives the comparison, and lines to print behind its report.
fn perform(run: &str, numbers: &[u64]) -> (Comparison, Vec<String>) {
    let number = |at: usize, default: u64| numbers.get(at).copied().unwrap_or(default);
    let count = |at: usize, default: u64| number(at, default) as usize;
    let mut kernels: Vec<Box<dyn Kernel>> = vec![Box::new(Published::default())];
    // the longest run is not spent on the model against itself
    if cfg!(feature = "linked") || run != "small" || number(0, 4) < 5 {
        kernels.push(Box::new(Library));
    }
    let mut comparison = Comparison::new(kernels);
    let mut lines = Vec::new();
    match run {
        "small" => runs::small(&mut comparison, count(0, 4), count(1, 0), count(2, 1)),
        "walks" => runs::walks(&mut comparison, count(0, 1500), count(1, 400), number(2, 1)),
        "edges" => runs::edges(&mut comparison, count(0, 300), count(1, 400), number(2, 1)),
        "floats" => runs::floats(&mut comparison, count(0, 1_000_000), number(1, 1)),
        "refusals" => runs::refusals(&mut comparison, count(0, 1_000_000), number(1, 1)),
        "largest" => runs::largest(&mut comparison),
        "images" => runs::images(&mut comparison, count(0, 500_000), number(1, 1)),
        "bytes" => lines = runs::bytes(&mut comparison, count(0, 500_000), number(1, 1)),
        "writes" => runs::writes(&mut comparison, count(0, 3), count(1, 100_000), number(2, 1)),
        "lists" => lines = runs::lists(&mut comparison, count(0, 4), count(1, 100_000), number(2, 1)),
        other => usage(other),
    }
    (comparison, lines)
}

/// A number of the command line.
fn number(word: &str) -> u64 {
    word.parse().unwrap_or_else(|_| usage(word))
}

/// Says which runs there are, and ends with 2.
fn usage<T>(word: &str) -> T {
    eprintln!(
        "compare: {word}? runs are small, walks, edges, floats, refusals, largest, images, bytes, writes, lists, answers, wrong, unused, listed, cases"
    );
    std::process::exit(2)
}

/// Prints the published Rust's answers, to single calls or to lists, or the model's to wrong input.
fn answers(run: &str, arguments: &[String]) -> ExitCode {
    let number = |at: usize, default| arguments.get(at).map_or(default, |word| number(word) as usize);
    let mut lines = std::io::stdout().lock();
    // a reader that has seen enough closes the pipe; that is no fault
    let print = |line: String| {
        if writeln!(lines, "{line}").is_err() {
            std::process::exit(0);
        }
    };
    match run {
        "wrong" => runs::wrong(number(0, 600), number(1, 1) as u64, print),
        "unused" => runs::unused(number(0, 800), number(1, 1) as u64, print),
        "listed" => runs::listed(number(0, 500), number(1, 1) as u64, print),
        _ => runs::answers(&mut Published::default(), number(0, 2), number(1, 1), number(2, 0), print),
    }
    ExitCode::SUCCESS
}

/// An image for the report program, right or wrong; sometimes as long as it takes, or longer.
fn some_image(random: &mut Random, case: u64) -> Vec<u8> {
    let n = match case % 8 {
        0 => 1,
        1 => 1024,
        2 => 1025,
        3 => 1 + random.below(1024),
        _ => 1 + random.below(12),
    };
    let mut rows = if random.percent(50) { maps::wild(random, n) } else { maps::faces(random, n) };
    if random.percent(50) {
        (1..n).step_by(3).for_each(|d| maps::set_free(&mut rows, d));
    }
    let mut image = runs::image_of(random, &rows);
    let faults = *random.pick(&[0, 0, 1, 2]);
    runs::spoil_image(random, &mut image, n, faults);
    if case % 37 == 5 {
        image.resize(*random.pick(&[46_080, 46_081, 60_000]), 0);
    }
    image
}

/// Images for the report program, each beside the text that it must print: `N.image`, `N.text`.
fn cases(arguments: &[String]) -> ExitCode {
    let Some(folder) = arguments.first().map(Path::new) else {
        return usage("cases without a folder");
    };
    let number = |at: usize, default: u64| arguments.get(at).map_or(default, |word| number(word));
    let mut random = Random::new(number(2, 1));
    let mut written = std::fs::create_dir_all(folder);
    for case in 0..number(1, 200) {
        let image = some_image(&mut random, case);
        written = written
            .and_then(|()| std::fs::write(folder.join(format!("{case}.image")), &image))
            .and_then(|()| std::fs::write(folder.join(format!("{case}.text")), model::report(&image)));
    }
    if let Err(e) = written {
        eprintln!("{}: {e}", folder.display());
        return ExitCode::FAILURE;
    }
    ExitCode::SUCCESS
}
