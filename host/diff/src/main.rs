//! `diff`: differential runs of the library against the Rust text and against the kernel. The status is 0 where nothing diverges that is
//! on no list, 1 where something does, 2 where the options are not understood.

use diff::case::Layers;
use diff::cases::{Diverged, Plan, random_runs};
use diff::exhaustive::exhaustive_runs;
use diff::options::{Options, Run, USAGE};
use diff::ours::Ours;
use diff::run::run_case;
use diff::rust::Rust;
use diff::shrink::shrink;
use diff::side::{Side, Sides};
use diff::tally::Tally;
use diff::text::{read_case, told};
use std::process::ExitCode;
use std::rc::Rc;

fn main() -> ExitCode {
    match Options::read(std::env::args().skip(1)).and_then(|options| run(&options)) {
        Ok(diverged) => ExitCode::from(u8::from(diverged)),
        Err(words) => {
            eprintln!("{words}\n{USAGE}");
            ExitCode::from(2)
        }
    }
}

/// Whether something diverged.
fn run(options: &Options) -> Result<bool, String> {
    if options.run == Run::Kernel {
        return Ok(diff::kernel::run(options));
    }
    if !oracle::available() {
        println!("skipped: {}", oracle::SKIPPED);
        return Ok(false);
    }
    let ours =
        |layers: &Rc<Layers>| -> Box<dyn Side> { options.planted.map_or_else(|| Ours::side(layers), |planted| planted.side(layers)) };
    let sides = Sides { ours: &ours, rust: &Rust::side };
    match &options.run {
        Run::Case(file) => one_case(sides, file),
        _ => Ok(many_cases(sides, options)),
    }
}

fn many_cases(sides: Sides, options: &Options) -> bool {
    let mut tally = Tally::default();
    let plan = Plan { cases: options.cases, seed: options.seed, time: options.time, calls: options.calls.clone() };
    let diverged = match options.run {
        Run::Exhaustive => exhaustive_runs(sides, &options.calls, &mut tally),
        _ => random_runs(sides, &plan, &mut tally),
    };
    print!("{tally}");
    if let Some(diverged) = &diverged {
        print_diverged(sides, diverged);
    }
    println!("{}", tally.last_line(if options.run == Run::Exhaustive { "diff, exhaustive" } else { "diff" }));
    diverged.is_some()
}

fn print_diverged(sides: Sides, diverged: &Diverged) {
    let small = shrink(sides, &diverged.case, &diverged.found);
    println!("case {} diverges. Shrunk as long as it does so in the same way, as lines for replay:\n", diverged.number);
    println!("{}", told(sides, &small));
}

/// One case from a file, told with both sides' answers.
fn one_case(sides: Sides, file: &str) -> Result<bool, String> {
    let lines = std::fs::read_to_string(file).map_err(|e| format!("{file} cannot be read ({e})"))?;
    let case = read_case(&lines).map_err(|e| format!("{file}, {e}"))?;
    print!("{}", told(sides, &case));
    Ok(run_case(sides, &case, |_, _| {}).is_some())
}
