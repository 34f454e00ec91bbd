//! The harness itself: it passes on the library as it is, and fails on every fault that is put in, with a small case.

use differential::events::{describe, Kind, REFUSED};
use differential::images::{banked, Fill, Image};
use differential::original;
use differential::ours::{self, Ours};
use differential::report;
use differential::run::{run, Plan};
use differential::sabotage::{Sabotage, ALL};

/// The most events that a small case of each fault needs.
fn most_events(sabotage: Sabotage) -> usize {
    match sabotage {
        Sabotage::ShortImage | Sabotage::HeaderByte => 0,
        Sabotage::Refuses | Sabotage::OtherNumber | Sabotage::PanicNumber | Sabotage::StrayStore => 1,
        Sabotage::StateAfterRefusal | Sabotage::RamAfterRefusal => 1,
        Sabotage::ReloadClock => 2,
        Sabotage::ReadByte => 3,
        Sabotage::Notice => 5,
        Sabotage::PastEnd => 6,
        // A page is moved by five writes on MMC1, and seen by a read; its second CHR bank is moved in another mode.
        Sabotage::StalePrgPages => 6,
        Sabotage::StaleChrPages => 11,
        Sabotage::PageOneOff => 1,
        Sabotage::RamPageAsRom | Sabotage::RamPageAsNowhere => 2,
        Sabotage::RefusedPageServed => 6,
        Sabotage::None => 0,
    }
}

#[test]
fn the_original_has_overflow_checks() {
    original::silence_panics();
    assert!(original::has_overflow_checks());
}

#[test]
fn without_a_fault_nothing_is_found() {
    original::silence_panics();
    let summary = run(Plan::Short, 2, Sabotage::None, false);
    let found = summary.failure.as_ref().map(|failure| &failure.mismatch.what);
    assert_eq!(found, None);
    assert!(summary.tally.boards.iter().all(|board| board.calls() > 50_000 && board.paged > 50_000));
    assert_eq!(summary.shortfall(Plan::Short), None);
    assert!(summary.shortfall(Plan::Gate).is_some(), "a short run would pass for the gate's");
}

#[test]
fn every_fault_is_found_and_made_small() {
    original::silence_panics();
    for (name, sabotage) in ALL {
        let summary = run(Plan::Short, 2, sabotage, false);
        let failure = summary.failure.unwrap_or_else(|| panic!("{name} is not found"));
        let small = report::shrunk(&failure, sabotage);
        assert!(small.case.events.len() <= most_events(sabotage), "{name} is not made small: {:?}", small.case.events);
        assert_eq!(small.mismatch.fault, failure.mismatch.fault, "{name} is made into another fault");
    }
}

/// Reads big-endian numbers from the recorded sample.
struct Reader<'a>(&'a [u8]);

impl<'a> Reader<'a> {
    fn take(&mut self, count: usize) -> &'a [u8] {
        let (taken, rest) = self.0.split_at(count);
        self.0 = rest;
        taken
    }

    fn number(&mut self, count: usize) -> usize {
        self.take(count).iter().fold(0, |number, &byte| number << 8 | usize::from(byte))
    }
}

/// The recorded sample, played on the library: the file is whole, and its answers are ours.
#[test]
fn the_recorded_answers_are_ours() {
    let bytes = include_bytes!("../../crates/replay/stdin");
    let mut reader = Reader(bytes);
    assert_eq!(reader.take(4), b"BKR1");
    for number in 0..reader.number(2) {
        play_recorded(number, &mut reader);
    }
    for number in 0..reader.number(2) {
        let length = reader.number(1);
        let image = reader.take(length);
        let (answer, size) = (reader.number(2), reader.number(4));
        let ours = ours::header(image, Sabotage::None)
            .map(|fields| usize::from(fields[0]) * 16_384 + usize::from(fields[1]) * 8_192);
        let recorded = if answer == 0 { Ok(size) } else { Err(answer as u16) };
        assert_eq!(ours, recorded, "header {number}");
    }
    assert!(reader.0.is_empty(), "bytes are left over");
}

fn play_recorded(number: usize, reader: &mut Reader) {
    let header = reader.take(16).try_into().expect("sixteen bytes");
    let image = Image::new(header, reader.number(4), Fill::Banks);
    let mut ours = Ours::new(Sabotage::None);
    assert_eq!(usize::from(ours.load(&image.bytes)), reader.number(2), "the load of case {number}");
    for event in 0..reader.number(2) {
        let (kind, address, value) = (reader.number(1), reader.number(2) as u16, reader.number(1) as u8);
        let (kind, answer) = match kind {
            0 => (Kind::Read, ours.read(address)),
            1 => (Kind::Write, ours.write(address, value)),
            _ => (Kind::Clock, ours.clock()),
        };
        let recorded = reader.number(2) as u16;
        assert_eq!(answer, recorded, "case {number}, event {event}: {}", describe(kind, recorded));
        assert!(recorded < REFUSED + 16);
    }
}

/// The rule of the recorded images, as its page states it.
#[test]
fn the_fill_rule() {
    assert_eq!([0, 1, 250, 251, 1023].map(banked), [0, 1, 250, 0, 19]);
    assert_eq!([1024, 2048, 16_384, 262_143].map(banked), [37, 74, 80, (255 * 37 + 19) as u8]);
}
