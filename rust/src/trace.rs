//! Recorded traces: an image, a mode, and the calls made on it.
//!
//! The format is that of the program `tracerun`, and so is the text. Numbers are big-endian: version byte
//! 1; length of the image (4 bytes, at most 40,976); mode (0 house, 1 board); the image; count of events
//! (2 bytes, at most 1,024); events of four bytes: kind (0 read, 1 write, 2 clock), address (2), value.
//! What an event does not use is 0, and nothing follows the last one.
//!
//! ```
//! use biekkarul::trace::{Answer, Event, Trace};
//! use biekkarul::Mode;
//!
//! let mut image = b"NES\x1A\x01\x00\0\0\0\0\0\0\0\0\0\0".to_vec(); // NROM, one PRG block, CHR RAM
//! image.resize(16_400, 0xEA);
//!
//! let mut trace = Trace::new(Mode::House, &image)?;
//! trace.push(Event::Write { address: 0x0010, value: 0x2A })?;
//! trace.push(Event::Read { address: 0x0010 })?;
//! trace.push(Event::Clock)?;
//! let bytes = trace.to_bytes();
//! assert_eq!(Trace::parse(&bytes)?, trace);
//!
//! let run = trace.run()?;
//! assert_eq!(run.answers[1], Answer::Read(Ok(0x2A)));
//! assert_eq!(run.to_string(), "load 0 H 1 0\n0 W -\n1 R 2A\n2 C 0\n");
//!
//! let cut = Trace::parse(&bytes[..20]).unwrap_err();
//! assert_eq!(cut.to_string(), "byte 6: the image has 16400 bytes, but only 14 bytes are left");
//! assert_eq!(cut.refusal().number(), 15);
//! # Ok::<(), Box<dyn std::error::Error>>(())
//! ```

use alloc::format;
use alloc::string::{String, ToString};
use alloc::vec::Vec;
use core::fmt;

use crate::board::Board;
use crate::mirroring::Mirroring;
use crate::mode::Mode;
use crate::refusal::Refusal;

/// The count of bytes that a trace's image has at most. A [`Board`] has no such limit.
pub const LONGEST_IMAGE: usize = 40_976;

/// The count of events that a trace has at most.
pub const MOST_EVENTS: usize = 1_024;

/// The longest trace: the greatest image and the greatest count of events.
pub const LONGEST: usize = 1 + 4 + 1 + LONGEST_IMAGE + 2 + EVENT_LENGTH * MOST_EVENTS;

const VERSION: u8 = 1;
const EVENT_LENGTH: usize = 4;

/// One call of a trace. It is written as document 01 does: `read 8000`, `write A000=01`, `clock`.
#[derive(Clone, Copy, Debug, PartialEq, Eq, Hash)]
pub enum Event {
    /// A read.
    Read {
        /// Where.
        address: u16,
    },
    /// A write.
    Write {
        /// Where.
        address: u16,
        /// What.
        value: u8,
    },
    /// A clock.
    Clock,
}

impl Event {
    /// Makes this call.
    pub fn play<I: AsRef<[u8]>>(self, board: &mut Board<I>) -> Answer {
        match self {
            Event::Read { address } => Answer::Read(board.read(address)),
            Event::Write { address, value } => Answer::Write(board.write(address, value)),
            Event::Clock => Answer::Clock(board.clock()),
        }
    }

    fn to_bytes(self) -> [u8; EVENT_LENGTH] {
        let (kind, address, value) = match self {
            Event::Read { address } => (0, address, 0),
            Event::Write { address, value } => (1, address, value),
            Event::Clock => (2, 0, 0),
        };
        let [high, low] = address.to_be_bytes();
        [kind, high, low, value]
    }
}

impl fmt::Display for Event {
    fn fmt(&self, f: &mut fmt::Formatter<'_>) -> fmt::Result {
        match self {
            Event::Read { address } => write!(f, "read {address:04X}"),
            Event::Write { address, value } => write!(f, "write {address:04X}={value:02X}"),
            Event::Clock => f.write_str("clock"),
        }
    }
}

/// What an event was answered. Written, it is what a line of the text has behind the event's number.
#[derive(Clone, Copy, Debug, PartialEq, Eq, Hash)]
#[must_use]
pub enum Answer {
    /// The byte that a read gave.
    Read(Result<u8, Refusal>),
    /// The notice that a write gave.
    Write(Result<Option<Mirroring>, Refusal>),
    /// In house mode whether a clock brought an IRQ, in board mode whether the interrupt line was up after it.
    Clock(Result<bool, Refusal>),
}

impl Answer {
    /// The refusal, where the event was refused.
    #[must_use]
    pub fn refusal(self) -> Option<Refusal> {
        match self {
            Answer::Read(answer) => answer.err(),
            Answer::Write(answer) => answer.err(),
            Answer::Clock(answer) => answer.err(),
        }
    }

    fn letter(self) -> char {
        match self {
            Answer::Read(_) => 'R',
            Answer::Write(_) => 'W',
            Answer::Clock(_) => 'C',
        }
    }
}

impl fmt::Display for Answer {
    fn fmt(&self, f: &mut fmt::Formatter<'_>) -> fmt::Result {
        let text = match *self {
            Answer::Read(Ok(byte)) => format!("{byte:02X}"),
            Answer::Write(Ok(notice)) => notice.map_or('-', Mirroring::letter).to_string(),
            Answer::Clock(Ok(yes)) => u8::from(yes).to_string(),
            Answer::Read(Err(refusal))
            | Answer::Write(Err(refusal))
            | Answer::Clock(Err(refusal)) => format!("!{}", refusal.number()),
        };
        f.pad(&format!("{} {text}", self.letter()))
    }
}

/// What a trace's load and events were answered. Written, it is the text that `tracerun` prints.
#[derive(Clone, Debug, PartialEq, Eq)]
#[must_use]
pub struct Run {
    /// The mapper.
    pub mapper: u16,
    /// The header's mirroring.
    pub header_mirroring: Mirroring,
    /// The count of PRG blocks.
    pub prg_count: u16,
    /// The count of CHR blocks.
    pub chr_count: u16,
    /// An answer for each event, in order.
    pub answers: Vec<Answer>,
}

impl fmt::Display for Run {
    fn fmt(&self, f: &mut fmt::Formatter<'_>) -> fmt::Result {
        writeln!(
            f,
            "load {} {} {} {}",
            self.mapper,
            self.header_mirroring.letter(),
            self.prg_count,
            self.chr_count
        )?;
        for (number, answer) in self.answers.iter().enumerate() {
            writeln!(f, "{number} {answer}")?;
        }
        Ok(())
    }
}

/// A trace that is well formed. Its image may still be refused.
#[derive(Clone, Debug, PartialEq, Eq)]
#[must_use]
pub struct Trace<'a> {
    mode: Mode,
    image: &'a [u8],
    events: Vec<Event>,
}

impl<'a> Trace<'a> {
    /// A trace without events yet.
    ///
    /// # Errors
    ///
    /// An image of more than [`LONGEST_IMAGE`] bytes.
    pub fn new(mode: Mode, image: &'a [u8]) -> Result<Trace<'a>, OverLimit> {
        if image.len() > LONGEST_IMAGE {
            return Err(OverLimit::Image {
                length: image.len(),
            });
        }
        Ok(Trace {
            mode,
            image,
            events: Vec::new(),
        })
    }

    /// Adds a call at the end.
    ///
    /// # Errors
    ///
    /// The trace has [`MOST_EVENTS`] events already; it stays as it is.
    pub fn push(&mut self, event: Event) -> Result<(), OverLimit> {
        if self.events.len() == MOST_EVENTS {
            return Err(OverLimit::Events);
        }
        self.events.push(event);
        Ok(())
    }

    /// Reads a trace, all of it or nothing.
    ///
    /// # Errors
    ///
    /// What is wrong first, and at which byte.
    pub fn parse(bytes: &'a [u8]) -> Result<Trace<'a>, Malformed> {
        let mut rest = Rest { bytes, at: 0 };
        rest.version()?;
        let image_length = rest.image_length()?;
        let mode = rest.mode()?;
        let image = rest.take(image_length, "the image")?;
        let events = rest.events()?;
        rest.end()?;
        Ok(Trace {
            mode,
            image,
            events,
        })
    }

    /// The trace as bytes, which [`parse`](Trace::parse) and `tracerun` read.
    #[must_use]
    pub fn to_bytes(&self) -> Vec<u8> {
        // Neither number is above its limit, so each fits its bytes.
        let image_length = self.image.len() as u32;
        let event_count = self.events.len() as u16;
        let mut bytes = Vec::new();
        bytes.push(VERSION);
        bytes.extend(image_length.to_be_bytes());
        bytes.push(self.mode.number());
        bytes.extend(self.image);
        bytes.extend(event_count.to_be_bytes());
        bytes.extend(self.events.iter().flat_map(|event| event.to_bytes()));
        bytes
    }

    /// The same calls on the same image in a mode that may be the other one.
    pub fn in_mode(&self, mode: Mode) -> Trace<'a> {
        Trace {
            mode,
            ..self.clone()
        }
    }

    /// The mode that the image is loaded in.
    #[must_use]
    pub fn mode(&self) -> Mode {
        self.mode
    }

    /// The image, header included.
    #[must_use]
    pub fn image(&self) -> &'a [u8] {
        self.image
    }

    /// The calls, in order.
    #[must_use]
    pub fn events(&self) -> &[Event] {
        &self.events
    }

    /// Loads the image and makes every call. A refused event is an answer, and the events after it go on.
    ///
    /// # Errors
    ///
    /// The load's refusal.
    pub fn run(&self) -> Result<Run, Refusal> {
        let mut board = Board::load(self.image, self.mode)?;
        let mut run = Run {
            mapper: board.mapper(),
            header_mirroring: board.header_mirroring(),
            prg_count: board.prg_count(),
            chr_count: board.chr_count(),
            answers: Vec::with_capacity(self.events.len()),
        };
        for event in &self.events {
            run.answers.push(event.play(&mut board));
        }
        Ok(run)
    }

    /// The text that `tracerun` prints of this trace: that of [`run`](Trace::run).
    ///
    /// # Errors
    ///
    /// The load's refusal.
    pub fn play(&self) -> Result<String, Refusal> {
        self.run().map(|run| run.to_string())
    }
}

/// Why something does not go into a trace.
#[derive(Clone, Copy, Debug, PartialEq, Eq, Hash)]
#[non_exhaustive]
pub enum OverLimit {
    /// The image is too long.
    Image {
        /// How many bytes it has.
        length: usize,
    },
    /// There are too many events.
    Events,
}

impl fmt::Display for OverLimit {
    fn fmt(&self, f: &mut fmt::Formatter<'_>) -> fmt::Result {
        match self {
            OverLimit::Image { length } => write!(
                f,
                "the image has {length} bytes, and a trace holds {LONGEST_IMAGE} at most"
            ),
            OverLimit::Events => write!(f, "a trace holds {MOST_EVENTS} events at most"),
        }
    }
}

#[cfg(feature = "std")]
impl std::error::Error for OverLimit {}

/// Why bytes are no trace, and at which of them that shows. Its number is 15.
#[derive(Clone, Debug, PartialEq, Eq)]
pub struct Malformed {
    at: usize,
    what: String,
}

impl Malformed {
    /// The place of the byte, from 0.
    #[must_use]
    pub fn at(&self) -> usize {
        self.at
    }

    /// The refusal that a malformed trace has.
    #[must_use]
    pub fn refusal(&self) -> Refusal {
        Refusal::TraceMalformed
    }
}

impl fmt::Display for Malformed {
    fn fmt(&self, f: &mut fmt::Formatter<'_>) -> fmt::Result {
        write!(f, "byte {}: {}", self.at, self.what)
    }
}

#[cfg(feature = "std")]
impl std::error::Error for Malformed {}

/// What is left to read of a trace.
struct Rest<'a> {
    bytes: &'a [u8],
    at: usize,
}

impl<'a> Rest<'a> {
    fn version(&mut self) -> Result<(), Malformed> {
        match self.number(1, "the version")? {
            version if version == usize::from(VERSION) => Ok(()),
            version => Err(self.wrong(1, format!("the version is {version}, not {VERSION}"))),
        }
    }

    fn image_length(&mut self) -> Result<usize, Malformed> {
        let length = self.number(4, "the length of the image")?;
        if length <= LONGEST_IMAGE {
            return Ok(length);
        }
        Err(self.wrong(
            4,
            format!("the length of the image is {length}, above {LONGEST_IMAGE}"),
        ))
    }

    fn mode(&mut self) -> Result<Mode, Malformed> {
        let byte = self.take(1, "the mode")?[0];
        Mode::try_from(byte).map_err(|unknown| self.wrong(1, unknown.to_string()))
    }

    fn events(&mut self) -> Result<Vec<Event>, Malformed> {
        let count = self.number(2, "the count of events")?;
        if count > MOST_EVENTS {
            return Err(self.wrong(
                2,
                format!("the count of events is {count}, above {MOST_EVENTS}"),
            ));
        }
        (0..count).map(|number| self.event(number)).collect()
    }

    fn event(&mut self, number: usize) -> Result<Event, Malformed> {
        let bytes = self.take(EVENT_LENGTH, &format!("event {number}"))?;
        let address = u16::from_be_bytes([bytes[1], bytes[2]]);
        match (bytes[0], address, bytes[3]) {
            (0, address, 0) => Ok(Event::Read { address }),
            (1, address, value) => Ok(Event::Write { address, value }),
            (2, 0, 0) => Ok(Event::Clock),
            (0, ..) => Err(self.wrong(1, format!("event {number} is a read with a value"))),
            (2, ..) => Err(self.wrong(
                3,
                format!("event {number} is a clock with an address or a value"),
            )),
            (kind, ..) => Err(self.wrong(
                EVENT_LENGTH,
                format!(
                    "event {number} has kind {kind}, neither 0 (read), 1 (write) nor 2 (clock)"
                ),
            )),
        }
    }

    fn end(&self) -> Result<(), Malformed> {
        match self.bytes.len() - self.at {
            0 => Ok(()),
            left => Err(self.wrong(0, format!("{} after the last event", bytes_of(left)))),
        }
    }

    /// A number of so many bytes, the highest first.
    fn number(&mut self, length: usize, name: &str) -> Result<usize, Malformed> {
        let digits = self.take(length, name)?;
        Ok(digits
            .iter()
            .fold(0, |number, &digit| number * 256 + usize::from(digit)))
    }

    fn take(&mut self, length: usize, name: &str) -> Result<&'a [u8], Malformed> {
        let left = &self.bytes[self.at..];
        match left.get(..length) {
            Some(taken) => {
                self.at += length;
                Ok(taken)
            }
            None => Err(self.wrong(0, ends_early(name, length, left.len()))),
        }
    }

    /// What is wrong with what began so many bytes ago.
    fn wrong(&self, ago: usize, what: String) -> Malformed {
        Malformed {
            at: self.at - ago,
            what,
        }
    }
}

fn ends_early(name: &str, length: usize, left: usize) -> String {
    let left = match left {
        0 => "nothing is".to_string(),
        1 => "only 1 byte is".to_string(),
        left => format!("only {left} bytes are"),
    };
    format!("{name} has {}, but {left} left", bytes_of(length))
}

fn bytes_of(count: usize) -> String {
    match count {
        1 => "1 byte".to_string(),
        count => format!("{count} bytes"),
    }
}

#[cfg(test)]
mod tests {
    use super::*;
    use alloc::vec;

    fn small(events: &[[u8; 4]]) -> Vec<u8> {
        let mut bytes = vec![1, 0, 0, 0, 2, 1, 0xAA, 0xBB, 0, events.len() as u8];
        bytes.extend(events.concat());
        bytes
    }

    fn fault(bytes: &[u8]) -> String {
        let fault = Trace::parse(bytes).unwrap_err();
        assert_eq!(fault.refusal(), Refusal::TraceMalformed);
        fault.to_string()
    }

    #[test]
    fn a_small_trace() {
        let bytes = small(&[[0, 0x80, 0x01, 0], [1, 0xFF, 0xFE, 3], [2, 0, 0, 0]]);
        let trace = Trace::parse(&bytes).unwrap();
        assert_eq!(
            (trace.mode(), trace.image()),
            (Mode::Board, &[0xAA, 0xBB][..])
        );
        let write = Event::Write {
            address: 0xFFFE,
            value: 3,
        };
        let expected = [Event::Read { address: 0x8001 }, write, Event::Clock];
        assert_eq!(trace.events(), expected);
        assert_eq!(trace.play(), Err(Refusal::ImageNotInes));
    }

    #[test]
    fn every_shorter_and_longer_trace_is_malformed() {
        let bytes = small(&[[0, 0x80, 0x01, 0], [2, 0, 0, 0]]);
        for length in 0..bytes.len() {
            assert!(Trace::parse(&bytes[..length]).is_err(), "{length} bytes");
        }
        assert_eq!(
            fault(&[&bytes[..], &[0]].concat()),
            "byte 18: 1 byte after the last event"
        );
        assert_eq!(
            fault(&[]),
            "byte 0: the version has 1 byte, but nothing is left"
        );
        assert_eq!(
            fault(&bytes[..15]),
            "byte 14: event 1 has 4 bytes, but only 1 byte is left"
        );
    }

    #[test]
    fn every_field_has_its_range() {
        let with = |place: usize, byte: u8| {
            let mut bytes = small(&[[0, 0, 0, 0], [2, 0, 0, 0]]);
            bytes[place] = byte;
            bytes
        };
        assert_eq!(fault(&with(0, 2)), "byte 0: the version is 2, not 1");
        assert_eq!(
            fault(&with(1, 0xFF)),
            "byte 1: the length of the image is 4278190082, above 40976"
        );
        assert_eq!(
            fault(&with(5, 2)),
            "byte 5: the mode is 2, neither 0 (house) nor 1 (board)"
        );
        assert_eq!(
            fault(&with(8, 4)),
            "byte 8: the count of events is 1026, above 1024"
        );
        assert_eq!(
            fault(&with(10, 3)),
            "byte 10: event 0 has kind 3, neither 0 (read), 1 (write) nor 2 (clock)"
        );
        assert_eq!(
            fault(&with(13, 1)),
            "byte 13: event 0 is a read with a value"
        );
        for place in 15..18 {
            assert_eq!(
                fault(&with(place, 1)),
                "byte 15: event 1 is a clock with an address or a value"
            );
        }
    }

    #[test]
    fn the_longest_trace() {
        assert_eq!(LONGEST, 45_080);
        let mut bytes = vec![1, 0, 0, 0xA0, 0x10, 0];
        bytes.resize(6 + LONGEST_IMAGE, 0);
        bytes.extend([4, 0]);
        bytes.resize(LONGEST, 0);
        assert_eq!(Trace::parse(&bytes).unwrap().events().len(), MOST_EVENTS);
        bytes[4] = 0x11;
        assert!(fault(&bytes).ends_with("above 40976"));
    }

    #[test]
    fn what_is_written_is_read_back() {
        let events = [
            Event::Read { address: 0x8001 },
            Event::Write {
                address: 0xFFFE,
                value: 3,
            },
            Event::Clock,
        ];
        for mode in Mode::ALL {
            let mut trace = Trace::new(mode, &[0xAA, 0xBB]).unwrap();
            for event in events {
                trace.push(event).unwrap();
            }
            let bytes = trace.to_bytes();
            assert_eq!(Trace::parse(&bytes), Ok(trace.clone()));
            let other = trace.in_mode(Mode::House);
            assert_eq!((other.mode(), other.events()), (Mode::House, &events[..]));
        }
        let house = Trace::new(Mode::House, &[]).unwrap();
        assert_eq!(house.to_bytes(), [1, 0, 0, 0, 0, 0, 0, 0]);
    }

    #[test]
    fn nothing_goes_in_above_the_limits() {
        let image = vec![0; LONGEST_IMAGE + 1];
        let too_long = Trace::new(Mode::House, &image).unwrap_err();
        assert_eq!(
            too_long.to_string(),
            "the image has 40977 bytes, and a trace holds 40976 at most"
        );
        let mut trace = Trace::new(Mode::House, &image[1..]).unwrap();
        for _ in 0..MOST_EVENTS {
            trace.push(Event::Clock).unwrap();
        }
        let full = trace.clone();
        let too_many = trace.push(Event::Clock).unwrap_err();
        assert_eq!(too_many.to_string(), "a trace holds 1024 events at most");
        assert_eq!(trace, full);
        let bytes = trace.to_bytes();
        assert_eq!(bytes.len(), LONGEST);
        assert_eq!(Trace::parse(&bytes), Ok(full));
    }

    #[test]
    fn events_and_answers_as_they_are_written() {
        let write = Event::Write {
            address: 0xA000,
            value: 1,
        };
        let events = [Event::Read { address: 0x10 }, write, Event::Clock];
        assert_eq!(
            events.map(|event| event.to_string()),
            ["read 0010", "write A000=01", "clock"]
        );
        let upper = Some(Mirroring::SingleScreenUpper);
        for (answer, text) in [
            (Answer::Read(Ok(0x0A)), "R 0A"),
            (Answer::Write(Ok(None)), "W -"),
            (Answer::Write(Ok(upper)), "W U"),
            (Answer::Clock(Ok(true)), "C 1"),
        ] {
            assert_eq!(
                (answer.to_string().as_str(), answer.refusal()),
                (text, None)
            );
        }
        let pending = Answer::Write(Err(Refusal::IrqPending));
        assert_eq!(pending.to_string(), "W !14");
        assert_eq!(pending.refusal(), Some(Refusal::IrqPending));
    }
}
