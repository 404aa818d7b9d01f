//! Compares the product with the oracle over many cases and names the seed of each that differs; the last line
//! is 'N passed, M failed'.

mod library;

use compare::calls::Calls;
use compare::cases::{Group, GROUPS};
use compare::random::Random;
use compare::run_case;
use std::process::ExitCode;

const USAGE: &str = "usage: compare [OPTIONS]
  (nothing)       the fixed seeds of every group
  --seeds N       N fresh seeds for each group, or those from --from on
  --from S        the first of them
  --seed S        this seed alone, for each group
  --only GROUP    one group
  --fit PATH      the program fit
  --bus PATH      the program bus
  --trace         name each case before it is run";

struct Options {
    seeds: Option<u64>,
    from: Option<u64>,
    only: Option<String>,
    fit: String,
    bus: String,
    trace: bool,
}

fn options() -> Result<Options, String> {
    let mut options =
        Options { seeds: None, from: None, only: None, fit: "fit".to_string(), bus: "bus".to_string(), trace: false };
    let mut words = std::env::args().skip(1);
    while let Some(word) = words.next() {
        let mut value = || words.next().ok_or(format!("{word} needs a value"));
        let number = |text: String| text.parse().map_err(|_| format!("{text} is not a number"));
        match word.as_str() {
            "--seeds" => options.seeds = Some(number(value()?)?),
            "--from" => options.from = Some(number(value()?)?),
            "--seed" => (options.seeds, options.from) = (Some(1), Some(number(value()?)?)),
            "--only" => options.only = Some(value()?),
            "--fit" => options.fit = value()?,
            "--bus" => options.bus = value()?,
            "--trace" => options.trace = true,
            _ => return Err(format!("unknown option {word}")),
        }
    }
    match &options.only {
        Some(only) if GROUPS.iter().all(|group| group.name != only) => Err(format!("no group {only}")),
        _ => Ok(options),
    }
}

/// A seed that no earlier run has had.
fn fresh_seed() -> u64 {
    let since = std::time::SystemTime::now().duration_since(std::time::UNIX_EPOCH);
    Random::new(since.map_or(0, |time| time.as_nanos() as u64)).next() >> 16
}

/// Runs a group and counts; the first failures are printed whole.
fn run_group(calls: &dyn Calls, group: &Group, seeds: std::ops::Range<u64>, trace: bool) -> (u64, u64) {
    let (mut passed, mut failed) = (0, 0);
    for seed in seeds {
        if trace {
            eprintln!("{} seed {seed}", group.name);
        }
        match run_case(calls, group, seed) {
            Ok(()) => passed += 1,
            Err(report) => {
                failed += 1;
                match failed {
                    1..=5 => println!("FAILED {} --seed {seed}\n  {report}", group.name),
                    _ => println!("FAILED {} --seed {seed}", group.name),
                }
            }
        }
    }
    println!("{}: {passed} passed, {failed} failed", group.name);
    (passed, failed)
}

/// Runs the groups that the options name and counts their cases.
fn run(options: Options) -> (u64, u64) {
    let calls = library::Library { fit: options.fit, bus: options.bus };
    let from = options.from.unwrap_or_else(|| if options.seeds.is_some() { fresh_seed() } else { 0 });
    if options.seeds.is_some() {
        println!("seeds from {from}");
    }
    let (mut passed, mut failed) = (0, 0);
    for group in GROUPS.iter().filter(|group| options.only.as_ref().is_none_or(|only| group.name == only)) {
        // A group of one case does not use its seed.
        let count = if group.cases == 1 { 1 } else { options.seeds.unwrap_or(group.cases) };
        let (more_passed, more_failed) = run_group(&calls, group, from..from + count, options.trace);
        passed += more_passed;
        failed += more_failed;
    }
    (passed, failed)
}

fn main() -> ExitCode {
    let options = match options() {
        Ok(options) => options,
        Err(message) => {
            eprintln!("{message}\n{USAGE}");
            return ExitCode::from(2);
        }
    };
    let (passed, failed) = run(options);
    println!("{passed} passed, {failed} failed");
    if failed == 0 {
        ExitCode::SUCCESS
    } else {
        ExitCode::FAILURE
    }
}
