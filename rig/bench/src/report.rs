//! docs/BENCHMARK.md: the tables, and which goals they meet.

use std::fmt::Write;

use inkcapper::Cell;

use crate::clock::{Spread, human};
use crate::edges;
use crate::images;
use crate::lines::{CALLS, CELLS, IMAGES, Input, Line, PASSES, Times, Who, cell_name};
use crate::lists;

/// What the report says of where it was made.
pub struct Machine {
    pub processor: String,
    pub cores: usize,
    pub compilers: String,
    /// The version, or why there are no lines of CGAL.
    pub cgal: Result<String, String>,
}

/// The grids of the large tables, the small grid of single calls, and the ring.
pub struct Inputs {
    pub grids: [Input; 3],
    pub small: Input,
    pub ring: Input,
}

pub fn thousands(n: usize) -> String {
    let digits = n.to_string();
    let mut text = String::new();
    for (at, digit) in digits.chars().enumerate() {
        if at > 0 && (digits.len() - at).is_multiple_of(3) {
            text.push(',');
        }
        text.push(digit);
    }
    text
}

pub fn cell(spread: Option<Spread>) -> String {
    spread.map_or("–".into(), |s| format!("{} ({}..{})", human(s.median), human(s.least), human(s.most)))
}

/// How many times ours goes into a peer's.
pub fn ratio(peer: Option<Spread>, ours: Option<Spread>) -> Option<f64> {
    Some(peer?.median / ours?.median)
}

pub fn times_text(ratio: Option<f64>) -> String {
    let said = ratio.filter(|&r| r > 0.0);
    said.map_or("–".into(), |r| if r < 9.95 { format!("{r:.2}") } else { format!("{r:.0}") })
}

/// A time that may be below zero, being a difference.
fn signed(ns: f64) -> String {
    if ns < 0.0 { format!("−{}", human(-ns)) } else { human(ns) }
}

/// A spread of such times.
pub fn signed_cell(spread: Option<Spread>) -> String {
    spread.map_or("–".into(), |s| format!("{} ({}..{})", signed(s.median), signed(s.least), signed(s.most)))
}

struct Report<'a> {
    times: &'a Times,
    inputs: &'a Inputs,
    text: String,
}

impl Report<'_> {
    fn say(&mut self, line: impl AsRef<str>) {
        self.text.push_str(line.as_ref());
        self.text.push('\n');
    }

    fn ours(&self, input: Input, line: Line) -> Option<Spread> {
        self.times.get(Who::Ours, input, line)
    }

    fn peer(&self, who: Who, input: Input, line: Line) -> Option<Spread> {
        self.times.against(who, input, line)
    }

    /// How time grows with darts between the smallest and largest grid: n to this power.
    fn growth(&self, who: Who, line: Line) -> String {
        let [first, .., last] = self.inputs.grids;
        let power =
            |a: Spread, b: Spread| (b.median / a.median).ln() / (last.darts() as f64 / first.darts() as f64).ln();
        let ends = (self.peer(who, first, line), self.peer(who, last, line));
        if let (Some(a), Some(b)) = ends { format!("n^{:.2}", power(a, b)) } else { "–".into() }
    }

    fn whole_map_tables(&mut self) {
        for input in self.inputs.grids {
            self.say(format!("\n### {} darts\n", thousands(input.darts())));
            self.say("| line | ours | published Rust | CGAL | Rust / ours | CGAL / ours |");
            self.say("|---|---|---|---|---|---|");
            for line in PASSES.into_iter().chain(CELLS.map(Line::List)) {
                let [ours, text, cgal] = [Who::Ours, Who::Text, Who::Cgal].map(|who| self.peer(who, input, line));
                self.say(format!(
                    "| {} | {} | {} | {} | {} | {} |",
                    line.name(),
                    cell(ours),
                    cell(text),
                    cell(cgal),
                    times_text(ratio(text, ours)),
                    times_text(ratio(cgal, ours)),
                ));
            }
        }
        self.say("\n### Growth\n");
        self.say("Between the smallest and the largest grid a line's time grows as this power of the darts. A power somewhat above 1 is to be expected of a map that outgrows a cache.\n");
        self.say("| line | ours | published Rust | CGAL |");
        self.say("|---|---|---|---|");
        for line in PASSES.into_iter().chain(CELLS.map(Line::List)) {
            let [a, b, c] = [Who::Ours, Who::Text, Who::Cgal].map(|who| self.growth(who, line));
            self.say(format!("| {} | {a} | {b} | {c} |", line.name()));
        }
    }

    fn cgal_ways(&mut self) {
        self.say("\n### CGAL's two ways\n");
        self.say("`one_dart_per_cell` gives the dart that comes first in storage, which in a map that never lost a dart is the least; the other way walks each cell once under a mark and takes the least number, and holds in every map. The tables above take the faster of the two each time.\n");
        self.say("| darts | list of | `one_dart_per_cell` | least numbers |");
        self.say("|---|---|---|---|");
        for input in self.inputs.grids {
            for class in CELLS {
                let [first, least] = [Line::FirstDarts(class), Line::List(class)];
                let [first, least] = [first, least].map(|line| cell(self.times.get(Who::Cgal, input, line)));
                self.say(format!("| {} | {} | {first} | {least} |", thousands(input.darts()), cell_name(class).1));
            }
        }
    }

    fn call_table(&mut self, input: Input) {
        self.say(format!("\n### One call, {} darts\n", thousands(input.darts())));
        self.say("| call | ours | map test beside it | beyond the map test | published Rust | CGAL |");
        self.say("|---|---|---|---|---|---|");
        for (at, line) in CALLS.into_iter().enumerate() {
            self.say(format!(
                "| {} | {} | {} | {} | {} | {} |",
                line.name(),
                cell(self.ours(input, line)),
                cell(self.ours(input, Line::TestBeside(at))),
                signed_cell(self.ours(input, Line::Beyond(at))),
                cell(self.peer(Who::Text, input, line)),
                cell(self.peer(Who::Cgal, input, line)),
            ));
        }
        let tested = self.times.get(Who::Cgal, input, Line::TestedSew);
        if tested.is_some() {
            self.say(format!("\nCGAL's `is_sewable<3>` and `sew<3>` together: {} a face.", cell(tested)));
        }
    }

    fn ring_table(&mut self) {
        let ring = self.inputs.ring;
        self.say("| line | ours | published Rust | CGAL |");
        self.say("|---|---|---|---|");
        for line in PASSES.into_iter().chain(CELLS.map(Line::List)) {
            let [ours, text, cgal] = [Who::Ours, Who::Text, Who::Cgal].map(|who| cell(self.peer(who, ring, line)));
            self.say(format!("| {} | {ours} | {text} | {cgal} |", line.name()));
        }
    }

    /// A goal on ratios for every grid: the verdict, then its table.
    fn goal(&mut self, name: &str, least: f64, rows: &[(String, [Option<Ratios>; 3])]) {
        let known: Vec<Ratios> = rows.iter().flat_map(|(_, ratios)| ratios.iter().flatten().copied()).collect();
        let met = |of: fn(&Ratios) -> f64| known.iter().filter(|ratios| of(ratios) >= least).count();
        let (medians, leasts, all) = (met(|r| r.medians), met(|r| r.leasts), known.len());
        let verdict = match all {
            0 => "not measured".to_string(),
            _ if medians == all => format!("met by medians at all {all} places, by least times at {leasts}"),
            _ => format!("**not met**: by medians at {medians} of {all} places, by least times at {leasts}"),
        };
        self.say(format!("\n**{name}**: {verdict}.\n"));
        let heads = self.inputs.grids.map(|input| thousands(input.darts()));
        self.say(format!("| | {} |", heads.join(" | ")));
        self.say("|---|---|---|---|");
        for (name, ratios) in rows {
            let cells = ratios.map(|ratios| {
                let Some(Ratios { medians, leasts }) = ratios else { return "–".to_string() };
                let [medians_text, leasts] = [medians, leasts].map(|ratio| times_text(Some(ratio)));
                if medians < least {
                    format!("**{medians_text}** / {leasts}")
                } else {
                    format!("{medians_text} / {leasts}")
                }
            });
            self.say(format!("| {name} | {} |", cells.join(" | ")));
        }
    }

    /// A peer's lists against ours, each after the peer's own map test where `tested`.
    fn list_ratios(&self, who: Who, tested: bool) -> Vec<(String, [Option<Ratios>; 3])> {
        let of = |class: Cell| {
            let line = Line::List(class);
            let ratios = |input| {
                let (mut peer, ours) = (self.peer(who, input, line)?, self.ours(input, line)?);
                if tested {
                    let test = self.peer(who, input, Line::MapTest)?;
                    peer.median += test.median;
                    peer.least += test.least;
                }
                Some(Ratios::of(peer, ours))
            };
            (line.name(), self.inputs.grids.map(ratios))
        };
        CELLS.map(of).to_vec()
    }

    fn goals(&mut self) {
        self.say("\n## Goals\n");
        self.say("Each ratio twice: of medians / of least times. The least times are what the machine's other work disturbed least; the verdict is by medians. Bold where a goal is missed.");
        let rows = self.list_ratios(Who::Cgal, false);
        self.goal("Every list at least twice as fast as CGAL's (the faster of its two ways)", 2.0, &rows);
        let rows = self.list_ratios(Who::Cgal, true);
        self.goal("The same where CGAL tests its map too, by `is_valid` before each list", 2.0, &rows);
        let rows = self.list_ratios(Who::Text, false);
        self.goal("Every list at least 20 times as fast as the published Rust's", 20.0, &rows);
        let grids = self.inputs.grids;
        let valid = grids.map(|input| {
            Some(Ratios::of(self.peer(Who::Cgal, input, Line::MapTest)?, self.ours(input, Line::MapTest)?))
        });
        self.goal("The map test faster than CGAL's `is_valid`", 1.0, &[("is_valid / map test".into(), valid)]);
        for (line, how) in [(Line::ReadEach, "image by image"), (Line::Read, "by vector instructions")] {
            let read = grids.map(|input| {
                let ratios = Ratios::of(self.ours(input, line)?, self.ours(input, Line::MapTest)?);
                Some(Ratios { medians: 3.0 * ratios.medians, leasts: 3.0 * ratios.leasts })
            });
            let row = ("three times reading / map test".to_string(), read);
            self.goal(&format!("The map test within three times of reading the rows once, {how}"), 1.0, &[row]);
        }
        self.promise();
    }

    /// What a call of ours does beside its line and a peer's does not, each timed apart.
    fn beside(&self, who: Who, input: Input, line: Line) -> Option<Spread> {
        let call = CALLS.iter().position(|&call| call == line);
        let mut beside = match (who, call) {
            (Who::Cgal, _) => self.peer(who, input, Line::MapTest)?,
            // the published Rust has no such test, so it is given ours, as timed beside the call
            (_, Some(at)) => self.ours(input, Line::TestBeside(at))?,
            _ => self.ours(input, Line::MapTest)?,
        };
        let cleared = match line {
            Line::Orbit(_) => Some(Line::ClearMarks),
            Line::Id(_) | Line::TwoSew | Line::TwoUnsew => Some(Line::ClearScratch),
            _ => None,
        };
        if let Some(cleared) = cleared {
            let cleared = self.ours(input, cleared)?;
            beside.median += cleared.median;
            beside.least += cleared.least;
        }
        Some(beside)
    }

    /// Peers' lines with a map test put on top, against ours, which has one inside.
    fn promise(&mut self) {
        let mut rows = Vec::new();
        let mut bare = Vec::new();
        for line in CELLS.map(Line::List).into_iter().chain(CALLS) {
            for (who, name) in [(Who::Cgal, "CGAL"), (Who::Text, "published Rust")] {
                let mut slower = Vec::new();
                let ratios = self.inputs.grids.map(|input| {
                    let (mut peer, ours) = (self.peer(who, input, line)?, self.ours(input, line)?);
                    if peer.median < ours.median {
                        // would it be slower still if its own map test cost nothing?
                        let without = ours.median - self.ours(input, Line::MapTest)?.median;
                        let reason = if without <= peer.median { "is the reason" } else { "is not the whole reason" };
                        slower.push(format!("{} darts (the map test {reason})", thousands(input.darts())));
                    }
                    let beside = self.beside(who, input, line)?;
                    peer.median += beside.median;
                    peer.least += beside.least;
                    Some(Ratios::of(peer, ours))
                });
                if ratios.iter().any(Option::is_some) {
                    rows.push((format!("{}, {name}", line.name()), ratios));
                }
                if !slower.is_empty() && matches!(line, Line::List(_)) {
                    bare.push(format!("the {} against {name} at {}", line.name(), slower.join(" and ")));
                }
            }
        }
        self.goal("No line slower than a peer's at the same promise", 1.0, &rows);
        self.say("\nThe same promise is: the map is tested, then the line, and lent scratch is left at 0. A peer's time is its own line plus a map test, for CGAL its `is_valid`; the published Rust has none and is given ours. To a single call the clearing is added which the scope asks for and a peer does not make, as timed apart: n marks and n places of the queue for identifiers and sews, n marks for orbits, nothing for links. Against the published Rust a single call is therefore about even by construction.");
        let text = if bare.is_empty() {
            "no list is slower than a peer's".to_string()
        } else {
            format!("slower are: {}", bare.join("; "))
        };
        self.say(format!("\nWithout any test on the peers' side, by medians, {text}. Every single call on these grids is slower than a peer's bare call, since it contains a map test and theirs do not."));
    }
}

/// How many times ours goes into a peer's.
#[derive(Clone, Copy)]
struct Ratios {
    medians: f64,
    leasts: f64,
}

impl Ratios {
    fn of(peer: Spread, ours: Spread) -> Self {
        Self { medians: peer.median / ours.median, leasts: peer.least / ours.least }
    }
}

/// The report.
pub fn report(times: &Times, inputs: &Inputs, machine: &Machine) -> String {
    let mut r = Report { times, inputs, text: String::new() };
    r.say("# Benchmark\n");
    r.say("Written by `rig/bench` (its README has the command). Inkcapper through its C linkage, linked statically; the published Rust of honeycomb-core's 3-map, compiled as it stands (`rig/oracle`); CGAL's `Combinatorial_map`. The same machine, the same maps, one run.\n");
    let cores = machine.cores;
    r.say(format!("- Processor: {}, {cores} cores.", machine.processor));
    r.say(format!("- Compilers: {}", machine.compilers));
    match &machine.cgal {
        Ok(version) => {
            r.say(format!("- CGAL {version}, `-O3 -DNDEBUG -DCGAL_NO_ASSERTIONS`: its preconditions are not tested."))
        }
        Err(why) => r.say(format!("- No lines of CGAL: {why}.")),
    }
    r.say("- Times are the thread's own processor time: median of several runs spread over the whole time, then least..most. Whoever else uses the machine still takes cache and memory from it, which the spread shows.");
    r.say("- The maps are grids of cubes with 10, 20 and 34 cubes a side, dart by dart the same in all three: the program compares the rows, every list and every identifier, and ends if any differs.");
    r.say("- The published Rust reads and writes through transactions. Its transaction crate is not at hand; a stand-in for one thread is used, which does less than the real one. Its merges and splits of attributes are recorded and not carried out.");
    r.say("- Ours tests the whole map in every call below and says so if it is none; neither peer does. CGAL's `is_valid` is the nearest: it does not have to test that images are in range, and it does test that beta 3 reverses faces, which the scope does not ask of a map.");
    r.say("\n![time against darts](benchmark.svg)\n");
    r.say("## Whole map");
    r.say("\nA list of ours contains one map test, which stands in its own line, and leaves its scratch at 0. Ratios above 1 mean that ours is faster.");
    r.whole_map_tables();
    r.cgal_ways();
    r.say("\n## Single calls");
    r.say("\nEvery call of ours contains one map test, so its cost grows with the map where the peers' does not: that is the reason for these lines' cost, and a caller with many small changes to a large map pays it each time. The second column has a map test timed right before the call, the third the difference within each run: walking the cells, clearing marks and queue where the call has them, and noise. The means are over up to 16 darts far apart; the peers find them in the cache. CGAL's `sew<3>` and `unsew<3>` are means over all inner faces. CGAL's 2-sew also sews the neighbours across beta 3, which is another operation; it isn't measured.");
    for input in inputs.grids {
        r.call_table(input);
    }
    r.say("\nOn a small map the test is small too:");
    r.call_table(inputs.small);
    r.say(format!("\n## One closed face of {} darts\n", thousands(inputs.ring.darts())));
    r.say("One face, one volume, every dart a vertex and an edge of its own: the longest walks there are. The published Rust walks the whole face or volume again for each of its darts, some 10¹² steps here; those two lines are not measured.\n");
    r.ring_table();
    r.say("\n## Stored images\n");
    r.say("The same grids as images of form 1, with a point at the dart that names each vertex, and with one in every slot. Reader and writer each contain one map test, and refuse before they write anything; a plain copy of as many bytes stands beside them. Neither peer has such images.\n");
    r.say(images::table(times, &inputs.grids).trim_end());
    r.say("\n## Lists of commands\n");
    r.say("One call makes thousands of joins under one map test and one clearing of scratch, which every time of ours below contains. The published Rust makes the same commands as single calls, without a map test; what it asks of its stores is written down as our plan is. Every command is done, and rows and plans are the same on all sides, but for the sizes of cells, which the Rust does not say. CGAL's times are its `is_sewable<3>` and `sew<3>` together.\n");
    r.say(lists::tables(times, &inputs.grids).trim_end());
    r.say("\n## Edge names\n");
    r.say(edges::tables(times, &inputs.grids).trim_end());
    r.goals();
    r.text
}

/// The same for the terminal: the tables without their bars would be no easier to read.
pub fn summary(times: &Times, inputs: &Inputs) -> String {
    let mut text = String::new();
    for input in inputs.grids.into_iter().chain([inputs.small, inputs.ring]) {
        let _ = writeln!(text, "\n{} darts", thousands(input.darts()));
        let _ = writeln!(
            text,
            "{:28}{:>10}{:>22}{:>12}{:>12}{:>9}{:>9}",
            "", "ours", "least..most", "Rust", "CGAL", "Rust/", "CGAL/"
        );
        for line in PASSES.into_iter().chain(CELLS.map(Line::List)).chain(CALLS).chain(IMAGES) {
            let [ours, rust, cgal] = [Who::Ours, Who::Text, Who::Cgal].map(|who| times.against(who, input, line));
            let Some(s) = ours else { continue };
            let short = |s: Option<Spread>| s.map_or("–".into(), |s| human(s.median));
            let _ = writeln!(
                text,
                "{:28}{:>10}{:>22}{:>12}{:>12}{:>9}{:>9}",
                line.name(),
                human(s.median),
                format!("{}..{}", human(s.least), human(s.most)),
                short(rust),
                short(cgal),
                times_text(ratio(rust, ours)),
                times_text(ratio(cgal, ours)),
            );
        }
    }
    text
}
