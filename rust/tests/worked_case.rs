//! The worked MMC3 case of document 01, call by call and as a trace.

mod common;

use biekkarul::trace::Trace;
use biekkarul::{Board, Mirroring, Mode, Refusal, Snapshot};

const TRACE: &[u8] = include_bytes!("../examples/worked_case.trace");
const TEXT: &str = include_str!("../examples/worked_case.txt");
const SNAPSHOT: &[u8] = include_bytes!("../examples/worked_case.snapshot");

const EXPECTED: [&str; 17] = [
    "load 4 V 1 1",
    "0 R 00",
    "1 R 01",
    "2 W -",
    "3 W -",
    "4 R 85",
    "5 W H",
    "6 W -",
    "7 W -",
    "8 W -",
    "9 W -",
    "10 C 0",
    "11 W !14",
    "12 C 0",
    "13 C 1",
    "14 W -",
    "15 R !11",
];

const EVENTS: [[u8; 4]; 16] = [
    [0, 0x80, 0x00, 0],
    [0, 0xE0, 0x00, 0],
    [1, 0x80, 0x00, 0x02],
    [1, 0x80, 0x01, 0x05],
    [0, 0x10, 0x00, 0],
    [1, 0xA0, 0x00, 0x01],
    [1, 0xA0, 0x00, 0x00],
    [1, 0xC0, 0x00, 0x01],
    [1, 0xC0, 0x01, 0x00],
    [1, 0xE0, 0x01, 0x00],
    [2, 0, 0, 0],
    [1, 0xE0, 0x00, 0x00],
    [2, 0, 0, 0],
    [2, 0, 0, 0],
    [1, 0x80, 0x01, 0x08],
    [0, 0x10, 0x00, 0],
];

/// 8 KB PRG banks filled with 00, 01; 1 KB CHR banks with 80 to 87.
fn image() -> Vec<u8> {
    let mut image = vec![0x4E, 0x45, 0x53, 0x1A, 1, 1, 0x41];
    image.resize(16, 0);
    for bank in 0..2 {
        image.extend([bank; 8_192]);
    }
    for bank in 0x80..0x88 {
        image.extend([bank; 1_024]);
    }
    image
}

fn trace() -> Vec<u8> {
    trace_of(0, &EVENTS)
}

fn trace_of(mode: u8, events: &[[u8; 4]]) -> Vec<u8> {
    let image = image();
    let mut trace = vec![1];
    trace.extend((image.len() as u32).to_be_bytes());
    trace.push(mode);
    trace.extend(image);
    trace.extend((events.len() as u16).to_be_bytes());
    trace.extend(events.concat());
    trace
}

#[test]
fn the_sample_is_the_case() {
    assert!(
        TRACE == trace(),
        "examples/worked_case.trace is another trace"
    );
    assert_eq!(TEXT.lines().collect::<Vec<_>>(), EXPECTED);
    assert!(TEXT.ends_with('\n'));
}

#[test]
fn all_17_lines() {
    assert_eq!(Trace::parse(TRACE).unwrap().play().unwrap(), TEXT);
}

#[test]
fn call_by_call() {
    let mut board = Board::load(image(), Mode::House).unwrap();
    assert_eq!((board.mapper(), board.mode()), (4, Mode::House));
    assert_eq!(board.header_mirroring(), Mirroring::Vertical);
    assert_eq!((board.prg_count(), board.chr_count()), (1, 1));
    assert_eq!(board.read(0x8000), Ok(0x00));
    assert_eq!(board.read(0xE000), Ok(0x01));
    assert_eq!(board.write(0x8000, 0x02), Ok(None));
    assert_eq!(board.write(0x8001, 0x05), Ok(None));
    assert_eq!(board.read(0x1000), Ok(0x85));
    assert_eq!(board.write(0xA000, 0x01), Ok(Some(Mirroring::Horizontal)));
    assert_eq!(board.write(0xA000, 0x00), Ok(None));
    assert_eq!(board.write(0xC000, 0x01), Ok(None));
    assert_eq!(board.write(0xC001, 0x00), Ok(None));
    assert_eq!(board.write(0xE001, 0x00), Ok(None));
    assert_eq!(board.clock(), Ok(false));
    let before = common::kept(&board);
    assert_eq!(board.write(0xE000, 0x00), Err(Refusal::IrqPending));
    assert!(
        common::kept(&board) == before,
        "a refused write left traces"
    );
    assert_eq!(board.clock(), Ok(false));
    assert_eq!(board.clock(), Ok(true));
    assert_eq!(board.write(0x8001, 0x08), Ok(None));
    assert_eq!(board.read(0x1000), Err(Refusal::BankPastData));
    assert_eq!(board.state(), STATE_AT_THE_END);
}

/// docs/ABI.md decodes these bytes by hand.
#[rustfmt::skip]
const STATE_AT_THE_END: [u8; 40] = [
    0x01, 0x04, 0x54, 0x01, 0x10, 0, 0, 0,
    0x10, 0x60, 0, 0, 0, 0, 0, 0,
    0, 0, 0, 0, 0, 0, 0, 0,
    0, 0, 0x08, 0, 0, 0, 0, 0,
    0x01, 0x01, 0x22, 0x01, 0, 0, 0, 0,
];

/// In board mode the same events give other answers: the reload clock counts, the disabling write is
/// taken, so that the counter's 0 at event 12 does not raise the line, a notice is compared with the current
/// mirroring, and bank 8 of 8 is bank 0.
#[test]
fn in_board_mode() {
    let bytes = trace_of(1, &EVENTS);
    let text = Trace::parse(&bytes).unwrap().play().unwrap();
    let lines: Vec<&str> = text.lines().collect();
    let expected: Vec<&str> = EXPECTED
        .iter()
        .map(|&line| match line {
            "6 W -" => "6 W V",
            "11 W !14" => "11 W -",
            "13 C 1" => "13 C 0",
            "15 R !11" => "15 R 80",
            line => line,
        })
        .collect();
    assert_eq!(lines, expected);
}

/// With an enabling write for the disabling one, event 12 raises the line, and it is up at event 13 too, where the
/// counter takes the latch again.
#[test]
fn in_board_mode_with_the_line_up() {
    let mut events = EVENTS;
    events[11] = [1, 0xE0, 0x01, 0x00];
    let bytes = trace_of(1, &events);
    let trace = Trace::parse(&bytes).unwrap();
    let text = trace.play().unwrap();
    let lines: Vec<&str> = text.lines().collect();
    assert_eq!(lines[11..15], ["10 C 0", "11 W -", "12 C 1", "13 C 1"]);

    let mut board = Board::load(trace.image(), Mode::Board).unwrap();
    for event in trace.events() {
        let _ = event.play(&mut board);
    }
    let mut wanted = STATE_AT_THE_END;
    wanted[2] = 0x55; // board mode; the screens are the header's again
    wanted[34] = 0xA2; // the line is up
    assert_eq!(board.state(), wanted);
}

#[test]
fn a_refused_load_gives_its_number() {
    let mut bytes = trace();
    bytes[6] = 0;
    assert_eq!(
        Trace::parse(&bytes).unwrap().play(),
        Err(Refusal::ImageNotInes)
    );
}

/// The kept snapshot was written by another program, from the table of the format. Where this fails, the format
/// has changed, and so must its version.
#[test]
fn a_snapshot_that_was_kept_is_still_read() {
    let trace = Trace::parse(TRACE).unwrap();
    let mut board = Board::load(trace.image(), Mode::House).unwrap();
    for event in trace.events() {
        let _ = event.play(&mut board);
    }
    assert!(board.snapshot().to_bytes() == SNAPSHOT);
    let snapshot = Snapshot::from_bytes(SNAPSHOT).unwrap();
    let mut fresh = Board::load(trace.image(), Mode::House).unwrap();
    assert_eq!(fresh.restore(&snapshot), Ok(Mirroring::Horizontal));
    assert_eq!(fresh, board);
}
