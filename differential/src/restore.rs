//! From our state's digits: the writes that lead back to what a board's registers hold. With these, a single write can
//! be tried from the same state many times over, though the original's board cannot be copied.

use biekkarul::{Digit, Digits};

use crate::events::{clock, write, Event};

/// A register, as a byte that is written to it.
fn byte(digits: &Digits, digit: Digit) -> u8 {
    digits[digit] as u8
}

/// MMC1's bits that have entered, in their order: they stand from bit 4 down, the last one highest.
fn serial_bits(digits: &Digits) -> Vec<u8> {
    let count = byte(digits, Digit::Mmc1SerialCount);
    let entered = byte(digits, Digit::Mmc1SerialValue) >> (5 - count);
    (0..count).map(|bit| entered >> bit & 1).collect()
}

fn mmc1_control(digits: &Digits) -> u8 {
    // House mode keeps no mirroring, so any will do; this is the one that the header asks for.
    let mirroring = if digits[Digit::HeaderMirroring] == 1 { 2 } else { 3 };
    mirroring | byte(digits, Digit::Mmc1PrgMode) << 2 | byte(digits, Digit::Mmc1ChrMode) << 4
}

/// MMC3's interrupt unit.
#[derive(Clone, Copy)]
pub struct Irq {
    pub latch: u8,
    pub counter: u8,
    pub enabled: bool,
    pub reload: bool,
}

fn irq(digits: &Digits) -> Irq {
    Irq {
        latch: byte(digits, Digit::Mmc3Latch),
        counter: byte(digits, Digit::Mmc3Counter),
        enabled: digits[Digit::Mmc3IrqEnabled] == 1,
        reload: digits[Digit::Mmc3Reload] == 1,
    }
}

fn mmc3_select(digits: &Digits) -> u8 {
    let modes = byte(digits, Digit::Mmc3PrgMode) << 6 | byte(digits, Digit::Mmc3ChrMode) << 7;
    modes | byte(digits, Digit::Mmc3Select)
}

/// The register that the next data write goes to.
fn mmc3_selected(digits: &Digits) -> u8 {
    let registers = &digits.all()[Digit::Mmc3R0 as usize..];
    registers[digits[Digit::Mmc3Select] as usize] as u8
}

/// After a write to `address` from a state (and clocks, if it was to MMC3's interrupt unit): events that lead back to
/// it, RAM left aside.
pub fn after_write(digits: &Digits, address: u16, events: &mut Vec<Event>) {
    match (digits[Digit::Mapper], address) {
        (1, 0x8000..) => mmc1(digits, address, events),
        (2, 0x8000..) => events.push(write(0x8000, byte(digits, Digit::UxromBank))),
        (3, 0x8000..) => events.push(write(0x8000, byte(digits, Digit::CnromBank))),
        (4, 0x8000..) => mmc3(digits, address, events),
        _ => {}
    }
}

/// The serial register is cleared and its bits entered again; the fifth bit has also loaded a register.
fn mmc1(digits: &Digits, address: u16, events: &mut Vec<Event>) {
    let bits = serial_bits(digits);
    events.push(write(0x8000, 0x80));
    if bits.len() == 4 {
        mmc1_reload(digits, address & 0xe000, events);
    }
    events.extend(bits.into_iter().map(|bit| write(0x8000, bit)));
}

fn mmc1_reload(digits: &Digits, register: u16, events: &mut Vec<Event>) {
    let four_kb = digits[Digit::Mmc1ChrMode] == 1;
    let value = match register {
        0x8000 => mmc1_control(digits),
        0xa000 => byte(digits, Digit::Mmc1Chr0) << u8::from(!four_kb),
        // CHR 1 is ignored in 8 KB mode: it has not changed.
        0xc000 => byte(digits, Digit::Mmc1Chr1),
        _ => byte(digits, Digit::Mmc1Prg),
    };
    // CHR 0 above 15 can only be stored whole, and is halved in 8 KB mode: it is led back through 4 KB mode.
    let through_4k = register == 0xa000 && !four_kb && value > 31;
    if through_4k {
        mmc1_load(0x8000, mmc1_control(digits) | 0x10, events);
        mmc1_load(0xa000, byte(digits, Digit::Mmc1Chr0), events);
        mmc1_load(0x8000, mmc1_control(digits), events);
    } else {
        mmc1_load(register, value, events);
    }
}

pub fn mmc1_load(register: u16, value: u8, events: &mut Vec<Event>) {
    events.extend((0..5).map(|bit| write(register, value >> bit & 1)));
}

fn mmc3(digits: &Digits, address: u16, events: &mut Vec<Event>) {
    match (address & 0xe000, address & 1) {
        (0x8000, 0) => events.push(write(0x8000, mmc3_select(digits))),
        (0x8000, _) => events.push(write(0x8001, mmc3_selected(digits))),
        (0xa000, _) => {}
        _ => mmc3_irq(irq(digits), events),
    }
}

/// The interrupt unit as given, from any other: it is disabled by way of a counter where this is served.
pub fn mmc3_irq(irq: Irq, events: &mut Vec<Event>) {
    events.extend([write(0xc000, 2), write(0xc001, 0), clock(), write(0xe000, 0)]);
    events.extend([write(0xc000, irq.counter), write(0xc001, 0), clock(), write(0xc000, irq.latch)]);
    if irq.enabled {
        events.push(write(0xe001, 0));
    }
    if irq.reload {
        events.push(write(0xc001, 0));
    }
}
