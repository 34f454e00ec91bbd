//! Parts that leave nothing out: every address read from many states, every address and every byte written from
//! several, every register value in every window, every state of the interrupt unit.

use std::ops::Range;

use biekkarul::Digits;

use crate::compare::Sides;
use crate::events::{clock, read, write, Event, Kind, REFUSED};
use crate::histories;
use crate::images::{header, random_valid, Fill, Image};
use crate::ours::Ours;
use crate::random::Random;
use crate::restore::{self, Irq};
use crate::sabotage::Sabotage;
use crate::worker::{Outcome, Worker};

/// A state to start from: an image and events that lead there, none of them refused.
#[derive(Clone)]
pub struct Base {
    image: Image,
    prelude: Vec<Event>,
    digits: Digits,
}

impl Base {
    pub fn new(image: Image, events: &[Event]) -> Base {
        let mut ours = Ours::new(Sabotage::None);
        ours.load(&image.bytes);
        let can_change = |kind| kind == Kind::Write || kind == Kind::Clock && image.mapper() == 4;
        let served = |event: &&Event| can_change(event.kind) && ours.call(event) < REFUSED;
        let prelude = events.iter().filter(served).copied().collect();
        Base { image, prelude, digits: ours.digits() }
    }

    /// Any state that a random history reaches, on an image of any shape.
    pub fn random(random: &mut Random, mapper: u8) -> Base {
        let image = random_valid(random, mapper);
        Base::reached(random, image)
    }

    /// Any state on an image whose banks are nearly all there, so that few probes are refused; with CHR ROM or RAM.
    pub fn random_roomy(random: &mut Random, mapper: u8, chr_rom: bool) -> Base {
        let (prg, chr) = match mapper {
            0 => (random.pick(&[1, 2]), 1),
            1 => (16, 16),
            2 => (255, 1),
            3 => (random.pick(&[1, 2]), 4),
            _ => (32, 32),
        };
        // Behind the banks of CNROM and MMC3, CHR RAM would be past its end nearly everywhere.
        let chr = if chr_rom || mapper >= 3 { chr } else { 0 };
        let image = Image::exact(header(mapper, prg, chr, random.byte() & 3), Fill::Random(random.next()));
        Base::reached(random, image)
    }

    fn reached(random: &mut Random, image: Image) -> Base {
        let mut events = Vec::new();
        let length = 1 + random.below(150);
        histories::compose(random, &image, length, &mut events);
        Base::new(image, &events)
    }

    fn mapper(&self) -> u8 {
        self.image.mapper()
    }
}

/// Every address, read from one state.
pub fn every_read(worker: &mut Worker, base: &Base) -> Outcome {
    worker.events.clear();
    worker.events.extend_from_slice(&base.prelude);
    worker.events.extend((0..=0xffff).map(read));
    worker.play_events(&base.image).map(|_| ())
}

/// Which bytes are written where every write of a window is refused: each of them costs a panic and a new board.
#[derive(Clone, Copy, PartialEq, Eq)]
pub enum Depth {
    /// Every byte at the window's first and last addresses, and three bytes at all others.
    Gate,
    /// Every byte at every address.
    Full,
}

/// The bytes at an address that refuses, in the gate.
fn few(address: u16, value: u8) -> bool {
    let edge = matches!(address & 0x1fff, 0 | 1 | 0x1ffe | 0x1fff);
    edge || matches!(value, 0 | 0x7f | 0xff)
}

/// Pages take all of their addresses alike: their ends are tried, and of the others one in sixteen, by turns.
fn sides_at(address: u16) -> Sides {
    let is_end = matches!(address % 1024, 0 | 1023);
    sides_if(is_end || address % 16 == address / 1024 % 16)
}

fn sides_if(pages_too: bool) -> Sides {
    if pages_too {
        Sides::PagesToo
    } else {
        Sides::CallsAlone
    }
}

/// Every byte written to each of these addresses, each time from the same state, with probes that show the effect.
pub fn every_write(worker: &mut Worker, base: &Base, addresses: Range<u32>, depth: Depth) -> Outcome {
    for address in addresses {
        worker.sides = sides_at(address as u16);
        every_byte(worker, base, address as u16, depth)?;
    }
    worker.sides = Sides::PagesToo;
    Ok(())
}

fn every_byte(worker: &mut Worker, base: &Base, address: u16, depth: Depth) -> Outcome {
    let mut value = 0;
    let mut refuses = false;
    while value < 256 {
        let last = if refuses { value + 1 } else { 256 };
        let trial_length = lay_out(worker, base, address, value..last);
        let played = worker.play_events(&base.image)?;
        if played == worker.events.len() {
            value = last;
            continue;
        }
        // A refused write ended the history: go on behind it, on a new board.
        let refused = played - 1 - base.prelude.len();
        assert_eq!(refused % trial_length, 0, "a write that leads back to the state is refused");
        value += refused / trial_length + 1;
        refuses = true;
        while depth == Depth::Gate && value < 256 && !few(address, value as u8) {
            value += 1;
        }
    }
    Ok(())
}

/// Fills the worker's events: the way to the state, then for each byte the write, its probes and the way back.
/// Answers how many events each of these trials has; it is the same for all bytes.
fn lay_out(worker: &mut Worker, base: &Base, address: u16, values: Range<usize>) -> usize {
    let events = &mut worker.events;
    events.clear();
    events.extend_from_slice(&base.prelude);
    let count = values.len();
    for value in values {
        events.push(write(address, value as u8));
        probe(base, address, value, events);
        restore::after_write(&base.digits, address, events);
    }
    (events.len() - base.prelude.len()) / count
}

/// Calls whose answers depend on what a write to `address` can change.
fn probe(base: &Base, address: u16, value: usize, events: &mut Vec<Event>) {
    let turn = value + usize::from(address);
    let noise = (turn * 97) as u16;
    match (base.mapper(), address) {
        (3, 0x0000..=0x1fff) => {}
        (_, 0x0000..=0x1fff) | (1 | 4, 0x6000..=0x7fff) => events.push(read(address)),
        (4, 0xc000..) => events.extend([clock(), clock()]),
        (3, 0x8000..) => events.extend([read(noise & 0x1fff), read(0xc000 | noise)]),
        (2, 0x8000..) => events.extend([read(0x8000 | noise & 0x3fff), read(0xc000 | noise)]),
        (1 | 4, 0x8000..) => {
            // The eight CHR windows of 1 KB and the four PRG windows of 8 KB, one of each in turn.
            events.push(read((turn % 8) as u16 * 0x400 | noise & 0x3ff));
            events.push(read(0x8000 | (turn % 4) as u16 * 0x2000 | noise & 0x1fff));
        }
        _ => events.push(read(address)),
    }
}

/// UxROM: every bank, every address.
pub fn uxrom_banks(worker: &mut Worker, image: &Image, banks: Range<u16>) -> Outcome {
    for bank in banks {
        every_read(worker, &Base::new(image.clone(), &[write(0x8000, bank as u8)]))?;
    }
    Ok(())
}

/// The first and last address of the window that starts at `window`.
fn ends(window: u16, size: u16) -> [Event; 2] {
    [read(window), read(window + (size - 1))]
}

/// MMC1 under one control value: every PRG value, and every pair of CHR values, stored in either CHR mode.
pub fn mmc1_registers(worker: &mut Worker, image: &Image, control: u8) -> Outcome {
    let chr: Vec<Event> = [0x0000, 0x1000].into_iter().flat_map(|window| ends(window, 0x1000)).collect();
    let prg: Vec<Event> = [0x8000, 0xc000].into_iter().flat_map(|window| ends(window, 0x4000)).collect();
    for stored_in in [control & 0x0f, control | 0x10] {
        let events = &mut worker.events;
        events.clear();
        for (chr_0, chr_1) in (0..32).flat_map(|chr_0| (0..32).map(move |chr_1| (chr_0, chr_1))) {
            restore::mmc1_load(0x8000, stored_in, events);
            restore::mmc1_load(0xa000, chr_0, events);
            restore::mmc1_load(0xc000, chr_1, events);
            restore::mmc1_load(0x8000, control, events);
            events.extend_from_slice(&chr);
        }
        for value in 0..32 {
            restore::mmc1_load(0xe000, value, events);
            events.extend_from_slice(&prg);
        }
        worker.play_events(image)?;
    }
    Ok(())
}

/// MMC3: every byte in every register, seen through every window in the four modes.
pub fn mmc3_registers(worker: &mut Worker, image: &Image, select: u8) -> Outcome {
    let mut seen: Vec<Event> = (0..8).flat_map(|slot| ends(slot * 0x400, 0x400)).collect();
    seen.extend((4..8).flat_map(|slot| ends(slot * 0x2000, 0x2000)));
    for modes in [0x00, 0x40, 0x80, 0xc0] {
        let events = &mut worker.events;
        events.clear();
        for value in 0..=255 {
            events.extend([write(0x8000, modes | select), write(0x8001, value)]);
            events.extend_from_slice(&seen);
        }
        worker.play_events(image)?;
    }
    Ok(())
}

/// MMC3: every state of the interrupt unit with this counter, each followed by each call that it answers to.
pub fn mmc3_irq(worker: &mut Worker, image: &Image, counter: u8) -> Outcome {
    // No page hangs on the interrupt unit.
    worker.sides = sides_if(counter % 16 == 0);
    let trials = [clock(), write(0xc000, 0), write(0xc000, 3), write(0xc001, 0), write(0xe001, 0), write(0xe000, 0)];
    for trial in trials {
        let mut refused = Vec::new();
        worker.events.clear();
        for irq in every_irq(counter) {
            let is_refused = trial == write(0xe000, 0) && irq.enabled && irq.counter <= 1;
            if is_refused {
                refused.push(irq);
            } else {
                lay_out_irq(irq, trial, &mut worker.events);
            }
        }
        worker.play_events(image)?;
        for irq in refused {
            worker.events.clear();
            lay_out_irq(irq, trial, &mut worker.events);
            worker.play_events(image)?;
        }
    }
    worker.sides = Sides::PagesToo;
    Ok(())
}

fn every_irq(counter: u8) -> impl Iterator<Item = Irq> {
    let flags = [(false, false), (false, true), (true, false), (true, true)];
    (0..=255).flat_map(move |latch| flags.map(|(enabled, reload)| Irq { latch, counter, enabled, reload }))
}

fn lay_out_irq(irq: Irq, trial: Event, events: &mut Vec<Event>) {
    restore::mmc3_irq(irq, events);
    events.push(trial);
    events.extend([clock(); 4]);
}

/// MMC3: reload and enable with each latch, and clocks until the third yes; the counter seen through all its values.
pub fn mmc3_periods(worker: &mut Worker, image: &Image) -> Outcome {
    for latch in 0..=255 {
        worker.events.clear();
        worker.events.extend([write(0xc000, latch), write(0xc001, 0), write(0xe001, 0)]);
        let clocks = 3 * (usize::from(latch) + 1) + 2;
        worker.events.extend(vec![clock(); clocks]);
        worker.play_events(image)?;
    }
    Ok(())
}

#[cfg(test)]
mod tests {
    use super::*;

    /// The way back leads back: from many states of each board, for writes to every window, on our side alone.
    #[test]
    fn restores() {
        for round in 0..200 {
            let mut random = Random::new(7, round);
            for mapper in 0..5 {
                let base = Base::random_roomy(&mut random, mapper, round % 2 == 0);
                for address in (0..=0xffff).step_by(0x0fff) {
                    check_restore(&base, address, random.byte());
                }
            }
        }
    }

    fn check_restore(base: &Base, address: u16, value: u8) {
        let mut ours = Ours::new(Sabotage::None);
        ours.load(&base.image.bytes);
        base.prelude.iter().for_each(|event| assert!(ours.call(event) < REFUSED));
        assert_eq!(ours.digits(), base.digits);
        if ours.write(address, value) >= REFUSED {
            return;
        }
        let mut back = Vec::new();
        restore::after_write(&base.digits, address, &mut back);
        back.iter().for_each(|event| assert!(ours.call(event) < REFUSED, "{event}"));
        assert_eq!(ours.digits(), base.digits, "mapper {} {address:04x} {value:02x}", base.mapper());
    }
}
