//! docs/benchmark.svg: time against darts, both logarithmic, one panel for each line over whole maps.

use std::fmt::Write;

use crate::clock::human;
use crate::lines::{CELLS, Input, Line, Times, Who};

const PANEL: (f64, f64) = (250.0, 210.0);
const INSIDE: (f64, f64, f64, f64) = (52.0, 30.0, 236.0, 180.0); // left, top, right, bottom

pub fn plot(times: &Times, inputs: &[Input]) -> String {
    let kinds =
        [(Who::Ours, "ours", "#1b6ca8"), (Who::Cgal, "CGAL", "#2d8a4e"), (Who::Text, "published Rust", "#c2571a")];
    let lines: Vec<Line> = [Line::MapTest].into_iter().chain(CELLS.map(Line::List)).collect();
    // one scale for all panels, in whole decades, so that they can be held against each other
    let spreads =
        |line| kinds.iter().flat_map(move |&(who, ..)| inputs.iter().filter_map(move |&i| times.against(who, i, line)));
    let all: Vec<f64> = lines.iter().chain([&Line::Read]).flat_map(|&line| spreads(line)).map(|s| s.median).collect();
    let decade = |ns: f64| ns.log10();
    let low = all.iter().copied().map(decade).fold(f64::MAX, f64::min).floor();
    let high = all.iter().copied().map(decade).fold(f64::MIN, f64::max).ceil();
    let (left, top, right, bottom) = INSIDE;
    let (first, last) = (inputs[0].darts() as f64, inputs[inputs.len() - 1].darts() as f64);
    let x = |darts: f64| left + (darts / first).ln() / (last / first).ln() * (right - left);
    let y = |ns: f64| bottom - (ns.log10() - low) / (high - low) * (bottom - top);

    let (width, height) = (3.0 * PANEL.0, 2.0 * PANEL.1);
    let mut svg = format!(
        "<svg xmlns=\"http://www.w3.org/2000/svg\" viewBox=\"0 0 {width} {height}\" width=\"{width}\" height=\"{height}\" \
         font-family=\"sans-serif\" font-size=\"10\">\n<rect width=\"100%\" height=\"100%\" fill=\"white\"/>\n"
    );
    // writing to a String cannot fail
    let curve = |svg: &mut String, who: Who, line: Line, colour: &str, dashes: &str| {
        let found: Vec<_> =
            inputs.iter().filter_map(|&i| Some((i.darts() as f64, times.against(who, i, line)?))).collect();
        let points: Vec<String> = found.iter().map(|(n, s)| format!("{:.1},{:.1}", x(*n), y(s.median))).collect();
        let _ = writeln!(
            svg,
            "<polyline points=\"{}\" fill=\"none\" stroke=\"{colour}\" stroke-width=\"1.5\"{dashes}/>",
            points.join(" ")
        );
        for (n, s) in found {
            let _ = writeln!(
                svg,
                "<line x1=\"{0:.1}\" x2=\"{0:.1}\" y1=\"{1:.1}\" y2=\"{2:.1}\" stroke=\"{colour}\"/>",
                x(n),
                y(s.least),
                y(s.most)
            );
            let _ = writeln!(svg, "<circle cx=\"{:.1}\" cy=\"{:.1}\" r=\"2.5\" fill=\"{colour}\"/>", x(n), y(s.median));
        }
    };
    for (at, &line) in lines.iter().enumerate() {
        let _ =
            writeln!(svg, "<g transform=\"translate({} {})\">", (at % 3) as f64 * PANEL.0, (at / 3) as f64 * PANEL.1);
        let _ =
            writeln!(svg, "<text x=\"{left}\" y=\"20\" font-size=\"12\" font-weight=\"bold\">{}</text>", line.name());
        for step in 0..=(high - low) as i32 {
            let ns = 10f64.powf(low + f64::from(step));
            let unit = human(ns).replace(".00", "").replace(".0 ", " ");
            let _ = writeln!(
                svg,
                "<line x1=\"{left}\" x2=\"{right}\" y1=\"{0:.1}\" y2=\"{0:.1}\" stroke=\"#ddd\"/>",
                y(ns)
            );
            let _ =
                writeln!(svg, "<text x=\"{}\" y=\"{:.1}\" text-anchor=\"end\">{unit}</text>", left - 5.0, y(ns) + 3.0);
        }
        for &input in inputs {
            let n = input.darts();
            let _ = writeln!(
                svg,
                "<text x=\"{:.1}\" y=\"{}\" text-anchor=\"middle\">{}k</text>",
                x(n as f64),
                bottom + 14.0,
                n / 1000
            );
        }
        if line == Line::MapTest {
            curve(&mut svg, Who::Ours, Line::Read, "#888", " stroke-dasharray=\"4 3\"");
        }
        for (who, _, colour) in kinds {
            curve(&mut svg, who, line, colour, "");
        }
        svg.push_str("</g>\n");
    }
    let _ = writeln!(svg, "<g transform=\"translate({} {})\">", 2.0 * PANEL.0, PANEL.1);
    let legend = kinds.iter().map(|&(_, name, colour)| (name, colour)).chain([("reading the rows once", "#888")]);
    for (at, (name, colour)) in legend.enumerate() {
        let down = 50.0 + 20.0 * at as f64;
        let _ = writeln!(
            svg,
            "<line x1=\"{left}\" x2=\"{}\" y1=\"{down}\" y2=\"{down}\" stroke=\"{colour}\" stroke-width=\"2\"/>",
            left + 24.0
        );
        let _ = writeln!(svg, "<text x=\"{}\" y=\"{}\" font-size=\"11\">{name}</text>", left + 32.0, down + 4.0);
    }
    for (at, words) in
        ["time against darts, median, bar from", "least to most; CGAL's map test is is_valid"].iter().enumerate()
    {
        let _ = writeln!(svg, "<text x=\"{left}\" y=\"{}\" fill=\"#555\">{words}</text>", 150.0 + 14.0 * at as f64);
    }
    svg.push_str("</g>\n</svg>\n");
    svg
}
