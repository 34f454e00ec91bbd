//! A failing case in words: its image, its events with both sides' answers, and a trace file.

use std::path::Path;
use std::{fs, io};

use crate::events::{describe, Event};
use crate::images::Bytes;
use crate::mapped::Mapped;
use crate::original::Original;
use crate::ours::Ours;
use crate::sabotage::Sabotage;
use crate::shrink::{shrink, Case};
use crate::trace;
use crate::worker::{check, Failure};
use crate::wrapped::Wrapped;

/// How often a case is tried while it is made small.
const TRIES: usize = 20_000;

/// The failing case made small, with what is wrong with it then.
pub fn shrunk(failure: &Failure, sabotage: Sabotage) -> Failure {
    let mut tries = 0;
    let mut fails = |case: &Case| {
        tries += 1;
        tries < TRIES && check(case, sabotage).map(|mismatch| mismatch.fault) == Some(failure.mismatch.fault)
    };
    if !fails(&failure.case) {
        return failure.clone();
    }
    let case = shrink(&failure.case, &mut fails);
    let mismatch = check(&case, sabotage).unwrap_or_else(|| failure.mismatch.clone());
    Failure { case, mismatch }
}

/// The report's lines. The trace, where the case fits into one, is also written to `file`.
pub fn describe_failure(failure: &Failure, sabotage: Sabotage, file: &Path) -> String {
    let Failure { case, mismatch } = failure;
    let image = &case.image;
    let mut text = format!("MISMATCH: {}\n", mismatch.what);
    text +=
        &format!("header {}; {} bytes; fill {:?}\n", trace::hex(&image.header).trim_end(), image.length, image.fill);
    text += &event_lines(case, sabotage, mismatch.event);
    match trace::encode(case) {
        None => text += "(too large for a trace)\n",
        Some(bytes) => {
            text += "as a trace, in hex:\n";
            text += &trace::hex(&bytes);
            text += &written(file, &bytes);
        }
    }
    text
}

fn written(file: &Path, bytes: &[u8]) -> String {
    let write = || -> io::Result<()> {
        fs::create_dir_all(file.parent().unwrap_or(Path::new(".")))?;
        fs::write(file, bytes)
    };
    match write() {
        Ok(()) => format!("the trace is in {}\n", file.display()),
        Err(error) => format!("the trace could not be written to {}: {error}\n", file.display()),
    }
}

/// A board on every side.
struct All {
    ours: Ours,
    wrapped: Wrapped,
    mapped: Mapped,
    original: Original,
}

impl All {
    fn load(image: &Bytes, sabotage: Sabotage) -> Option<All> {
        let mut ours = Ours::new(sabotage);
        let accepted = ours.load(image) == 0;
        let (wrapped, mapped) = (Wrapped::load(image).ok()?, Mapped::load(image, sabotage).ok()?);
        let original = Original::load(image).ok()?;
        accepted.then(|| All { ours, wrapped, mapped, original })
    }

    /// Every answer to an event; those through pages only where they are others than the call's.
    fn line(&mut self, number: usize, event: &Event) -> String {
        let ours = self.ours.call(event);
        let told = |answer| describe(event.kind, answer);
        let mut line = format!("{number:4} {:16} ours: {:12}", event.to_string(), told(ours));
        for (side, answer) in [("the wrapper", self.wrapped.call(event)), ("the map", self.mapped.call(event))] {
            if answer != ours {
                line += &format!(" {side}: {:12}", told(answer));
            }
        }
        line + &format!(" the original: {}\n", told(self.original.call(event)))
    }
}

/// A line for each event up to the failing one.
fn event_lines(case: &Case, sabotage: Sabotage, failing: Option<usize>) -> String {
    let last = failing.unwrap_or(case.events.len());
    let events = case.events.iter().enumerate().take(last + 1);
    match All::load(&case.image.bytes, sabotage) {
        None => String::new(),
        Some(mut all) => events.map(|(number, event)| all.line(number, event)).collect(),
    }
}
