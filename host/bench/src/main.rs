//! `bench [--markdown] [CALL]..`: what a call costs here and in the given Rust text, in one process, both as release builds.
//!
//! Every join has its names in the root, which import has loaded, so that no measured call but import loads. A call that writes is made on a
//! copy of its own, made outside the time. Times are nanoseconds a call, the best of several rounds of many calls; only ratios of one
//! run count.

mod case;
mod clock;
mod ours;
mod report;
mod rust;

use case::Case;
use clock::Side;
use overlay::Kind;
use report::Row;
use std::process::ExitCode;

/// A call with its two sides.
struct Measure {
    call: &'static str,
    cases: fn() -> Vec<Case>,
    ours: fn(&Case) -> Side<'_>,
    rust: fn(&Case) -> Side<'_>,
    /// The most that ours may be of the Rust's, by how many names there are.
    target: fn(usize) -> Option<f64>,
    cleared: &'static str,
}

const NO: &str = "no";

const COPIED: &str = "copied, untimed";

static MEASURES: [Measure; 13] = [
    Measure { call: "import", cases: import_cases, ours: ours::import, rust: rust::import, target: |_| Some(0.5), cleared: "by import" },
    Measure { call: "lookup, hit", cases, ours: ours::lookup_hit, rust: rust::lookup_hit, target: lookup_target, cleared: NO },
    Measure { call: "lookup, miss", cases, ours: ours::lookup_miss, rust: rust::lookup_miss, target: lookup_target, cleared: NO },
    Measure { call: "lookup, near miss", cases, ours: ours::lookup_near, rust: rust::lookup_near, target: lookup_target, cleared: NO },
    Measure { call: "count", cases, ours: ours::count, rust: rust::count, target: |_| Some(0.5), cleared: NO },
    Measure { call: "listing", cases, ours: ours::listing, rust: rust::listing, target: |_| Some(0.25), cleared: NO },
    Measure { call: "forget", cases, ours: ours::forget, rust: rust::forget, target: |_| None, cleared: NO },
    Measure { call: "create", cases: new_cases, ours: ours::create, rust: rust::create, target: write_target, cleared: COPIED },
    Measure { call: "mknod", cases: new_cases, ours: ours::mknod, rust: rust::mknod, target: write_target, cleared: COPIED },
    Measure { call: "symlink", cases: new_cases, ours: ours::symlink, rust: rust::symlink, target: write_target, cleared: COPIED },
    Measure { call: "link", cases: new_cases, ours: ours::link, rust: rust::link, target: write_target, cleared: COPIED },
    Measure {
        call: "copy-up, directory",
        cases: directories,
        ours: ours::copy_up,
        rust: rust::copy_up,
        target: write_target,
        cleared: COPIED,
    },
    Measure { call: "copy-up, file", cases: files, ours: ours::copy_up, rust: rust::copy_up, target: write_target, cleared: COPIED },
];

fn lookup_target(names: usize) -> Option<f64> {
    match names {
        10 => Some(0.5),
        100 => Some(1.0),
        _ => None,
    }
}

fn write_target(names: usize) -> Option<f64> {
    (names >= 10).then_some(0.3)
}

/// The Rust's side is measured up to so many names.
const RUST: usize = 100;
const PASSES: usize = 5;

fn cases() -> Vec<Case> {
    vec![Case::spread(1, 1), Case::spread(10, 1), Case::spread(100, 4), Case::spread(250, 4)]
}

/// Also with each name in every layer, which is more to merge.
fn import_cases() -> Vec<Case> {
    let mut all = cases();
    all.insert(3, Case::stacked(100, 4));
    all
}

/// For calls that make a name.
fn new_cases() -> Vec<Case> {
    vec![Case::spaced(1, 1), Case::spaced(10, 1), Case::spaced(100, 4)]
}

fn directories() -> Vec<Case> {
    [(1, 1), (10, 1), (100, 3)].map(|(names, lower)| Case::below(names, lower, Kind::Directory)).into()
}

fn files() -> Vec<Case> {
    [(1, 1), (10, 1), (100, 3)].map(|(names, lower)| Case::below(names, lower, Kind::Regular)).into()
}

/// Nanoseconds a call: ours, then the Rust's where it is measured.
fn times(measure: &Measure, case: &Case) -> Vec<f64> {
    let mut sides = vec![(measure.ours)(case)];
    if oracle::available() && case.names.len() <= RUST {
        sides.push((measure.rust)(case));
    }
    clock::best(&mut sides)
}

fn row(measure: &Measure, case: &Case, times: &[f64]) -> Row {
    let names = case.names.len();
    let (call, cleared, target) = (measure.call, measure.cleared, (measure.target)(names).filter(|_| names <= RUST));
    Row { call, names, layers: case.form.clone(), ours: times[0], rust: times.get(1).copied(), target, cleared }
}

/// The best of several passes over all of them, so that no row is measured only while the machine is busy.
fn measured(measures: &[&Measure]) -> Vec<Row> {
    let work: Vec<(&Measure, Case)> = measures.iter().flat_map(|m| (m.cases)().into_iter().map(move |c| (*m, c))).collect();
    let mut least: Vec<Vec<f64>> = work.iter().map(|(m, c)| times(m, c)).collect();
    for _ in 1..PASSES {
        for ((m, c), so_far) in work.iter().zip(&mut least) {
            so_far.iter_mut().zip(times(m, c)).for_each(|(a, b)| *a = a.min(b));
        }
    }
    work.iter().zip(&least).map(|((m, c), times)| row(m, c, times)).collect()
}

/// What the command line asks for: the table's form, and the calls that are measured, all of them where none is named.
fn asked() -> Result<(bool, Vec<&'static Measure>), String> {
    let (flags, calls): (Vec<String>, Vec<String>) = std::env::args().skip(1).partition(|w| w.starts_with('-'));
    if flags.iter().any(|f| f != "--markdown") || calls.iter().any(|c| !MEASURES.iter().any(|m| m.call.starts_with(c))) {
        let known: Vec<&str> = MEASURES.iter().map(|m| m.call).collect();
        return Err(format!("usage: bench [--markdown] [CALL]..\na CALL is the start of one of: {}", known.join("; ")));
    }
    let named = |m: &&Measure| calls.is_empty() || calls.iter().any(|c| m.call.starts_with(c));
    Ok((!flags.is_empty(), MEASURES.iter().filter(named).collect()))
}

fn main() -> ExitCode {
    let (markdown, measures) = match asked() {
        Ok(asked) => asked,
        Err(usage) => {
            eprintln!("{usage}");
            return ExitCode::from(2);
        }
    };
    print!("{}", report::table(&measured(&measures), markdown));
    if !oracle::available() {
        println!("skipped: {}", oracle::SKIPPED);
    }
    ExitCode::SUCCESS
}
