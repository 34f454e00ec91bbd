//! Compares house mode with the original Rust. See `--help`.

use std::path::PathBuf;
use std::process::ExitCode;
use std::thread;

use differential::original;
use differential::report;
use differential::run::{run, Plan, Summary};
use differential::sabotage::{self, Sabotage};
use differential::tally::grouped;

const HELP: &str = "\
differential: plays the same calls on the exported library (house mode) and on the original Rust, and compares

  differential                        the gate's run: fixed seeds, the same calls every time; it fails too where it
                                      has compared fewer than 20 million calls, or fewer than 4 million on a board,
                                      in all or of those that are made through the wrapper and the map of pages
                                      too; fewer than 1,000 of these refused with each of 11 to 14; or fewer than a
                                      million bytes of RAM read both through their page and by the call
  differential --minutes N [--seed S] the exhaustive parts, more of them, and random histories; N may have a point;
                                      its last line tells how many of the exhaustive jobs came to their end
  differential --sabotage NAME        the gate's run with one of our answers altered: it has to fail
  options: --threads N (default: all), --trace FILE (where a failing case is written)";

/// The one that this program links, as docs/DIFFERENCES.md names it beside a long run.
const LIBRARY: &str = env!("LIBRARY");

struct Options {
    plan: Plan,
    threads: usize,
    sabotage: Sabotage,
    trace: PathBuf,
}

fn main() -> ExitCode {
    let arguments: Vec<String> = std::env::args().skip(1).collect();
    if arguments.iter().any(|argument| argument == "--help") {
        println!("{HELP}");
        return ExitCode::SUCCESS;
    }
    let options = match parse(&arguments) {
        Ok(options) => options,
        Err(problem) => {
            eprintln!("differential: {problem}\n{HELP}");
            return ExitCode::from(2);
        }
    };
    original::silence_panics();
    if !original::has_overflow_checks() {
        eprintln!("differential: the original is built without overflow checks; build with --release");
        return ExitCode::from(2);
    }
    let by_hand = matches!(options.plan, Plan::Minutes { .. });
    let summary = run(options.plan, options.threads, options.sabotage, by_hand);
    conclude(&options, &summary)
}

fn conclude(options: &Options, summary: &Summary) -> ExitCode {
    println!("{}", summary.tally.table());
    let calls = grouped(summary.tally.calls());
    let (done, all) = summary.jobs;
    let extent = format!("exhaustive jobs {done} of {all}, {} rounds, {:.1} s", summary.rounds, summary.seconds);
    match (&summary.failure, summary.shortfall(options.plan)) {
        (None, None) => {
            let paged = grouped(summary.tally.paged());
            println!("{extent}: {calls} calls compared, {paged} of them through the wrapper too, no mismatch; library {LIBRARY}");
            ExitCode::SUCCESS
        }
        (None, Some(what)) => {
            println!("{extent}: no mismatch, but too little was compared: {what}");
            ExitCode::FAILURE
        }
        (Some(failure), _) => {
            let small = report::shrunk(failure, options.sabotage);
            print!("{}", report::describe_failure(&small, options.sabotage, &options.trace));
            println!("{extent}: {calls} calls compared, then a mismatch");
            ExitCode::FAILURE
        }
    }
}

fn parse(arguments: &[String]) -> Result<Options, String> {
    let all = thread::available_parallelism().map_or(1, |count| count.get());
    let mut options = Options {
        plan: Plan::Gate,
        threads: all,
        sabotage: Sabotage::None,
        trace: "differential-failure.trace".into(),
    };
    let (mut minutes, mut seed) = (None, None);
    let mut rest = arguments.iter();
    while let Some(name) = rest.next() {
        let value = rest.next().ok_or(format!("{name} needs a value, or is no option"))?;
        match name.as_str() {
            "--minutes" => minutes = Some(positive(name, value)?),
            "--seed" => seed = Some(number(name, value)?),
            "--threads" => options.threads = number(name, value)?.clamp(1, 256) as usize,
            "--trace" => options.trace = value.into(),
            "--sabotage" => options.sabotage = Sabotage::named(value).ok_or_else(|| unknown_sabotage(value))?,
            _ => return Err(format!("no option {name}")),
        }
    }
    match (minutes, seed) {
        (Some(minutes), seed) => options.plan = Plan::Minutes { minutes, seed: seed.unwrap_or(1) },
        (None, Some(_)) => return Err("--seed goes with --minutes: the gate's seeds are fixed".into()),
        (None, None) => {}
    }
    Ok(options)
}

fn number(name: &str, value: &str) -> Result<u64, String> {
    value.parse().map_err(|_| format!("{name} needs a whole number, not {value:?}"))
}

fn positive(name: &str, value: &str) -> Result<f64, String> {
    let parsed: Option<f64> = value.parse().ok();
    parsed
        .filter(|number| *number > 0.0 && number.is_finite())
        .ok_or(format!("{name} needs a number above 0, not {value:?}"))
}

fn unknown_sabotage(value: &str) -> String {
    let known: Vec<&str> = sabotage::ALL.iter().map(|(name, _)| *name).collect();
    format!("no sabotage {value:?}; there are {}", known.join(", "))
}
