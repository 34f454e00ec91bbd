//! The two sides of ours that serve from pages, the wrapper and the map, held to the side that makes each call: what that
//! one answers has been compared with the original before.

use crate::compare::{Fault, Mismatch, Shadow};
use crate::events::{describe, Answer, Event, Kind};
use crate::images::Bytes;
use crate::library;
use crate::mapped::Mapped;
use crate::ours::Ours;
use crate::sabotage::Sabotage;
use crate::tally::Board;
use crate::wrapped::Wrapped;

pub struct Paged {
    image: Bytes,
    wrapped: Wrapped,
    mapped: Mapped,
}

impl Paged {
    pub fn load(image: &Bytes, sabotage: Sabotage) -> Result<Paged, Mismatch> {
        let refused = |answer| Fault::Load.found(format!("a valid image, to be served from pages: {answer}"));
        let wrapped = Wrapped::load(image).map_err(refused)?;
        let mapped = Mapped::load(image, sabotage).map_err(refused)?;
        Ok(Paged { image: image.clone(), wrapped, mapped })
    }

    /// The wrapper goes on from what the calls have left, so that it reads through pages what they have stored.
    pub fn take_up(&mut self, ours: &Ours) -> Result<(), Mismatch> {
        let refused = |answer| Fault::Wrapper.found(format!("what the calls have left, in the wrapper: {answer}"));
        self.wrapped = Wrapped::of(&self.image, ours).map_err(refused)?;
        Ok(())
    }

    /// One event on both, which have to answer as the call has.
    #[inline]
    pub fn step(&mut self, event: &Event, ours: &Ours, answer: Answer, board: &mut Board) -> Result<(), Mismatch> {
        let (wrapped, mapped) = (self.wrapped.call(event), self.mapped.call(event));
        board.count_paged(answer);
        if wrapped != answer {
            return Err(parted(Fault::Wrapper, event, wrapped, answer));
        }
        if mapped != answer {
            return Err(parted(Fault::Map, event, mapped, answer));
        }
        match event.kind {
            Kind::Read if self.mapped.reads_ram(event.address) => self.read_by_the_call(event, answer, board),
            Kind::Read => Ok(()),
            _ => self.check_states(ours),
        }
    }

    /// A byte of RAM once more, by the call, which is lent the buffers of either side.
    fn read_by_the_call(&self, event: &Event, answer: Answer, board: &mut Board) -> Result<(), Mismatch> {
        let (image, wrapped, mapped) = (self.image.get(), &self.wrapped.board, &self.mapped);
        board.both_ways += 1;
        let called = library::read(&mapped.state, image, &mapped.prg_ram[..], &mapped.chr_ram[..], event.address);
        if called != answer {
            return Err(parted(Fault::Map, event, answer, called));
        }
        let called = library::read(&wrapped.state(), image, wrapped.prg_ram(), wrapped.chr_ram(), event.address);
        if called != answer {
            return Err(parted(Fault::Wrapper, event, answer, called));
        }
        Ok(())
    }

    fn check_states(&self, ours: &Ours) -> Result<(), Mismatch> {
        let what = "its state is not the one that the calls have";
        if self.wrapped.board.state() != ours.state {
            return Err(Fault::Wrapper.found(format!("the wrapper: {what}")));
        }
        if self.mapped.state != ours.state {
            return Err(Fault::Map.found(format!("the map: {what}")));
        }
        Ok(())
    }

    pub fn check_rams(&self, shadow: &Shadow, when: &str) -> Result<(), Mismatch> {
        let (wrapped, mapped) = (&self.wrapped.board, &self.mapped);
        shadow.check(wrapped.prg_ram(), wrapped.chr_ram(), when, Fault::Wrapper)?;
        shadow.check(&mapped.prg_ram, &mapped.chr_ram, when, Fault::Map)
    }
}

#[cold]
fn parted(fault: Fault, event: &Event, paged: Answer, called: Answer) -> Mismatch {
    let side = if fault == Fault::Wrapper { "the wrapper" } else { "the map" };
    let (paged, called) = (describe(event.kind, paged), describe(event.kind, called));
    fault.found(format!("through {side}: {paged}, by the call: {called}"))
}
