//! Writes the recorded sample of the original's answers. See `--help`.

use std::path::Path;
use std::process::ExitCode;
use std::{env, fs};

use differential::events::REFUSED;
use differential::original;
use differential::recording::{cases, encode, headers, record, Recorded};
use differential::tally::grouped;

const HELP: &str = "record: writes the original's answers to a fixed sample of calls\n\n  record FILE";

fn main() -> ExitCode {
    let arguments: Vec<String> = env::args().skip(1).collect();
    let file = match &arguments[..] {
        [file] => file,
        _ => {
            eprintln!("{HELP}");
            return ExitCode::from(2);
        }
    };
    if file == "--help" {
        println!("{HELP}");
        return ExitCode::SUCCESS;
    }
    original::silence_panics();
    let recorded: Vec<Recorded> = cases().into_iter().map(record).collect();
    let headers = headers();
    let bytes = encode(&recorded, &headers);
    if let Err(error) = fs::write(Path::new(file), &bytes) {
        eprintln!("record: cannot write {file}: {error}");
        return ExitCode::FAILURE;
    }
    println!("{file}: {}", summary(&recorded, headers.len(), bytes.len()));
    ExitCode::SUCCESS
}

fn summary(recorded: &[Recorded], headers: usize, bytes: usize) -> String {
    let events: usize = recorded.iter().map(|one| one.answers.len()).sum();
    let refused_loads = recorded.iter().filter(|one| one.load >= REFUSED).count();
    let refused = recorded.iter().filter(|one| one.answers.last().map_or(false, |&last| last >= REFUSED)).count();
    let greatest = recorded.iter().map(|one| one.case.image.length).max().unwrap_or(0);
    format!(
        "{} cases ({refused_loads} refused loads, {refused} refused calls), {} events, {headers} headers, \
         {} bytes; the greatest image has {}",
        recorded.len(),
        grouped(events as u64),
        grouped(bytes as u64),
        grouped(greatest as u64)
    )
}
