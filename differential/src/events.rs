//! The calls on a board, and their answers as the exported functions number them.

use std::fmt;

/// What a call answers: a read its byte; a write 0 or the letter of its notice; a clock 0 or 1;
/// each of them `REFUSED` + N for refusal N.
pub type Answer = u16;

/// An answer from here on is a refusal.
pub const REFUSED: Answer = 256;

/// What stands for a panic of the original. No call of the library answers this.
pub const PANICKED: Answer = 0xffff;

#[derive(Clone, Copy, PartialEq, Eq, Debug)]
pub enum Kind {
    Read,
    Write,
    Clock,
}

#[derive(Clone, Copy, PartialEq, Eq, Debug)]
pub struct Event {
    pub kind: Kind,
    pub address: u16,
    pub value: u8,
}

pub fn read(address: u16) -> Event {
    Event { kind: Kind::Read, address, value: 0 }
}

pub fn write(address: u16, value: u8) -> Event {
    Event { kind: Kind::Write, address, value }
}

pub fn clock() -> Event {
    Event { kind: Kind::Clock, address: 0, value: 0 }
}

impl Event {
    /// The four bytes of an event in a trace.
    pub fn bytes(&self) -> [u8; 4] {
        let [high, low] = self.address.to_be_bytes();
        [self.kind as u8, high, low, self.value]
    }
}

impl fmt::Display for Event {
    fn fmt(&self, f: &mut fmt::Formatter<'_>) -> fmt::Result {
        match self.kind {
            Kind::Read => write!(f, "read  {:04X}", self.address),
            Kind::Write => write!(f, "write {:04X} = {:02X}", self.address, self.value),
            Kind::Clock => write!(f, "clock"),
        }
    }
}

/// An answer in words, for a report.
pub fn describe(kind: Kind, answer: Answer) -> String {
    match (kind, answer) {
        (_, PANICKED) => "a panic".into(),
        (_, REFUSED..) => format!("refusal {}", answer - REFUSED),
        (Kind::Read, _) => format!("{answer:02X}"),
        (Kind::Write, 0) => "quiet".into(),
        (Kind::Write, _) => format!("notice {}", answer as u8 as char),
        (Kind::Clock, 0) => "no".into(),
        (Kind::Clock, 1) => "yes".into(),
        (Kind::Clock, _) => format!("{answer} (no clock answer)"),
    }
}
