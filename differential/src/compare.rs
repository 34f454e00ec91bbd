//! Plays a history on both sides and compares every answer. Our side may be played through pages too.

use crate::events::{describe, Answer, Event, Kind, PANICKED, REFUSED};
use crate::images::Image;
use crate::library::{RAM, STATE};
use crate::original::Original;
use crate::ours::Ours;
use crate::paged::Paged;
use crate::sabotage::Sabotage;
use crate::tally::{Board, Tally};

/// Where the two sides part.
#[derive(Clone, Debug, PartialEq, Eq)]
pub struct Mismatch {
    pub fault: Fault,
    /// The event's number in its history; none for a load, a header, or the end of a history.
    pub event: Option<usize>,
    pub what: String,
}

/// The kind of a mismatch. A case is made smaller only as long as it fails in the same kind.
#[derive(Clone, Copy, Debug, PartialEq, Eq)]
pub enum Fault {
    Header,
    Load,
    /// Two answers that are not the same.
    Answer,
    /// One side refuses and the other serves.
    Refusal,
    /// A refusal with another number than the paper's.
    Number,
    State,
    Ram,
    /// The wrapper, which serves from pages, parts from the calls.
    Wrapper,
    /// What is read and stored through the map of pages parts from the calls.
    Map,
}

impl Fault {
    /// A mismatch of this kind that belongs to no event.
    pub fn found(self, what: impl Into<String>) -> Mismatch {
        Mismatch { fault: self, event: None, what: what.into() }
    }
}

/// What both RAMs must hold: the paper's stores, made beside each accepted write. It stands in for the bytes as they
/// were before a refusal, and for CNROM's PRG RAM, which the original never lets anyone read.
pub struct Shadow {
    prg_ram: Box<[u8; RAM]>,
    chr_ram: Box<[u8; RAM]>,
}

impl Shadow {
    fn clear(&mut self) {
        self.prg_ram.fill(0);
        self.chr_ram.fill(0);
    }

    #[inline]
    fn store(&mut self, mapper: u8, chr_is_ram: bool, address: u16, value: u8) {
        match (mapper, address) {
            (0..=2, 0x0000..=0x1fff) if chr_is_ram => self.chr_ram[address as usize] = value,
            (3, 0x0000..=0x1fff) => self.prg_ram[address as usize] = value,
            (1 | 4, 0x6000..=0x7fff) => self.prg_ram[address as usize - 0x6000] = value,
            _ => {}
        }
    }

    /// Whether two RAMs hold this.
    pub fn check(&self, prg_ram: &[u8; RAM], chr_ram: &[u8; RAM], when: &str, fault: Fault) -> Result<(), Mismatch> {
        for (name, held, wanted) in [("PRG RAM", prg_ram, &*self.prg_ram), ("CHR RAM", chr_ram, &*self.chr_ram)] {
            if held != wanted {
                let place = (0..RAM).find(|&place| held[place] != wanted[place]).unwrap_or(0);
                let (held, wanted) = (held[place], wanted[place]);
                let what = format!("{name} {when} holds {held:02X} at {place:04X} instead of {wanted:02X}");
                return Err(fault.found(what));
            }
        }
        Ok(())
    }
}

/// Whether a history is played through pages too, beside the calls one by one.
#[derive(Clone, Copy, PartialEq, Eq)]
pub enum Sides {
    CallsAlone,
    PagesToo,
}

/// Both sides, with buffers that serve one history after another.
pub struct Pair {
    pub ours: Ours,
    paged: Option<Paged>,
    shadow: Shadow,
    sabotage: Sabotage,
}

impl Pair {
    pub fn new(sabotage: Sabotage) -> Pair {
        let shadow = Shadow { prg_ram: Box::new([0; RAM]), chr_ram: Box::new([0; RAM]) };
        Pair { ours: Ours::new(sabotage), paged: None, shadow, sabotage }
    }

    /// Loads an image that must be accepted and plays the events. Answers how many were played: all, or up to and
    /// with the first refused write. (A refused read ends nothing: the original's read takes its board by shared
    /// reference and has nothing inside that could have changed.)
    ///
    /// Halfway the wrapper goes on from the parts that the calls have left.
    pub fn play(
        &mut self,
        image: &Image,
        events: &[Event],
        sides: Sides,
        tally: &mut Tally,
    ) -> Result<usize, Mismatch> {
        let mut original = self.load(image, sides)?;
        tally.count_load(0);
        let board = &mut tally.boards[usize::from(image.mapper())];
        board.histories += 1;
        let mut played = events.len();
        for (number, event) in events.iter().enumerate() {
            if let (Some(paged), true) = (&mut self.paged, number == events.len() / 2) {
                paged.take_up(&self.ours)?;
            }
            let step = self.step(image, &mut original, event, board);
            if step.map_err(|mismatch| Mismatch { event: Some(number), ..mismatch })? {
                played = number + 1;
                break;
            }
        }
        self.check_rams("at the end of the history")?;
        Ok(played)
    }

    fn load(&mut self, image: &Image, sides: Sides) -> Result<Original, Mismatch> {
        let answer = self.ours.load(&image.bytes);
        if answer != 0 {
            return Err(Fault::Load.found(format!("the load of a valid image answers {answer}")));
        }
        let original = Original::load(&image.bytes)
            .map_err(|error| Fault::Load.found(format!("the original does not load a valid image: {error:?}")))?;
        self.paged = match sides {
            Sides::CallsAlone => None,
            Sides::PagesToo => Some(Paged::load(&image.bytes, self.sabotage)?),
        };
        self.shadow.clear();
        self.check_rams("after the load")?;
        Ok(original)
    }

    /// One event on both sides. Answers whether the history is at its end.
    #[inline]
    fn step(
        &mut self,
        image: &Image,
        original: &mut Original,
        event: &Event,
        board: &mut Board,
    ) -> Result<bool, Mismatch> {
        let before = self.ours.state;
        let (ours, theirs) = (self.ours.call(event), original.call(event));
        board.count(event.kind, ours);
        let is_refused = ours != theirs || theirs == PANICKED;
        if is_refused {
            self.check_refusal(image.mapper(), event, ours, theirs, &before)?;
            board.count_refusal(ours);
        }
        if let Some(paged) = &mut self.paged {
            paged.step(event, &self.ours, ours, board)?;
        }
        if is_refused {
            self.check_rams("after a refusal")?;
            return Ok(event.kind == Kind::Write);
        }
        match event.kind {
            Kind::Write => self.shadow.store(image.mapper(), image.chr() == 0, event.address, event.value),
            Kind::Read if self.ours.state != before => return Err(Fault::State.found("a read changed the state")),
            _ => {}
        }
        Ok(false)
    }

    /// Different answers agree in one way only: ours is the paper's refusal and the original panicked. The number that
    /// stands for a panic is no answer of ours.
    #[cold]
    fn check_refusal(
        &self,
        mapper: u8,
        event: &Event,
        ours: Answer,
        theirs: Answer,
        before: &[u8; STATE],
    ) -> Result<(), Mismatch> {
        if theirs != PANICKED || ours < REFUSED {
            let fault = if theirs != PANICKED && ours < REFUSED { Fault::Answer } else { Fault::Refusal };
            let (ours, theirs) = (describe(event.kind, ours), describe(event.kind, theirs));
            return Err(fault.found(format!("ours: {ours}, the original: {theirs}")));
        }
        let expected = refusal(mapper, event);
        if ours != REFUSED + expected {
            let ours = describe(event.kind, ours);
            return Err(Fault::Number.found(format!("both refuse; ours: {ours}, by the paper: refusal {expected}")));
        }
        if self.ours.state != *before {
            return Err(Fault::State.found(format!("after refusal {expected} the state is not as before")));
        }
        Ok(())
    }

    fn check_rams(&self, when: &str) -> Result<(), Mismatch> {
        self.shadow.check(&self.ours.prg_ram, &self.ours.chr_ram, when, Fault::Ram)?;
        self.paged.as_ref().map_or(Ok(()), |paged| paged.check_rams(&self.shadow, when))
    }
}

/// The number that the paper gives to a refused call, by board and place. 0 for a call that is never refused.
pub fn refusal(mapper: u8, event: &Event) -> Answer {
    match (event.kind, mapper, event.address) {
        (Kind::Read, 3, 0x2000..) => 13,
        (Kind::Read, ..) => 11,
        (Kind::Write, 0..=2, 0x0000..=0x1fff) => 12,
        (Kind::Write, 3, 0x2000..=0x7fff) => 13,
        (Kind::Write, 4, 0xe000..) => 14,
        _ => 0,
    }
}
