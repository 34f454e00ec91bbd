//! Plays a trace and prints each answer, as the program `tracerun` does.
//!
//!     cargo run --offline --manifest-path rust/Cargo.toml --example replay -- FILE
//!
//! Status: 0 played (refused events are part of the text); 1 the trace is malformed or its image is
//! refused, which stands on standard output as `refused N` and in words on standard error; 2 no trace
//! could be read, or the text could not be written.

mod common;

use std::ffi::OsStr;
use std::process::ExitCode;

use biekkarul::trace::{Trace, LONGEST};
use common::{asked, contents, name, print, Asked};

const USAGE: &str = "usage: replay FILE, where - is standard input";

const HELP: &str = "\
Plays a trace and prints a line for each answer, as the program tracerun does.

usage: replay FILE
       replay -         plays the trace on standard input
       replay --help    shows this

A trace holds an iNES image of at most 40976 bytes, a mode (house or board) and at most 1024 calls.

status: 0  played; events that are refused are lines of the text, as '11 W !14'
        1  the trace is malformed or its image is refused: 'refused N' on standard output, and why on
           standard error
        2  no trace could be read, or the text could not be written
";

/// What goes to standard output, and what is wrong with the trace, if anything is.
struct Outcome {
    text: String,
    fault: Option<String>,
}

fn main() -> ExitCode {
    match run() {
        Ok(None) => ExitCode::SUCCESS,
        Ok(Some(fault)) => complain(&fault, 1),
        Err(message) => complain(&message, 2),
    }
}

fn complain(message: &str, status: u8) -> ExitCode {
    eprintln!("replay: {message}");
    ExitCode::from(status)
}

fn run() -> Result<Option<String>, String> {
    match asked(USAGE)? {
        Asked::Help => print(HELP).map(|()| None),
        Asked::File(file) => play_file(&file),
    }
}

fn play_file(file: &OsStr) -> Result<Option<String>, String> {
    let name = name(file);
    // A longer file is malformed.
    let bytes = contents(file, LONGEST).map_err(|why| format!("{name} {why}"))?;
    let outcome = play(&bytes);
    print(&outcome.text)?;
    Ok(outcome.fault.map(|fault| format!("{name} {fault}")))
}

fn play(bytes: &[u8]) -> Outcome {
    let trace = match Trace::parse(bytes) {
        Ok(trace) => trace,
        Err(malformed) => {
            let why = what_else(bytes).unwrap_or_else(|| format!("is no trace: {malformed}"));
            return refused(malformed.refusal().number(), why);
        }
    };
    match trace.play() {
        Ok(text) => Outcome { text, fault: None },
        Err(refusal) => refused(refusal.number(), format!("has an image that is {refusal}")),
    }
}

/// What bytes are that are no trace, where that can be told.
fn what_else(bytes: &[u8]) -> Option<String> {
    if bytes.is_empty() {
        return Some("is empty".to_string());
    }
    if bytes.starts_with(b"NES\x1A") {
        return Some(
            "is an iNES image, a game's header, program and tiles, and no trace: a trace holds such an \
             image, a mode and the calls to be made on it; the example inspect looks at images"
                .to_string(),
        );
    }
    None
}

fn refused(number: u8, fault: String) -> Outcome {
    Outcome {
        text: format!("refused {number}\n"),
        fault: Some(fault),
    }
}
