//! Random histories, made of short phrases that lead where a board could go wrong: banks at and past the end, serial
//! sequences cut by a bit 7 write, IRQ sequences, the edges of windows.

use crate::events::{clock, read, write, Event};
use crate::images::Image;
use crate::random::Random;
use crate::restore;

/// The last address of every window of any board, and the first of the next.
pub const EDGES: [u16; 34] = [
    0x0000, 0x03ff, 0x0400, 0x07ff, 0x0800, 0x0bff, 0x0c00, 0x0fff, 0x1000, 0x13ff, 0x1400, 0x17ff, 0x1800, 0x1bff,
    0x1c00, 0x1fff, 0x2000, 0x3fff, 0x4000, 0x4020, 0x5fff, 0x6000, 0x6001, 0x7ffe, 0x7fff, 0x8000, 0x9fff, 0xa000,
    0xbfff, 0xc000, 0xdfff, 0xe000, 0xfffe, 0xffff,
];

struct Composer<'a> {
    random: &'a mut Random,
    events: &'a mut Vec<Event>,
    image: &'a Image,
    mapper: u8,
}

/// Fills `events` with a history of about `length` events for a board of this image.
pub fn compose(random: &mut Random, image: &Image, length: usize, events: &mut Vec<Event>) {
    events.clear();
    let mut composer = Composer { random, events, image, mapper: image.mapper() };
    while composer.events.len() < length {
        composer.phrase();
    }
}

/// Ends a history with reads of every byte of RAM that its board lets anyone read.
pub fn read_back(image: &Image, events: &mut Vec<Event>) {
    let mapper = image.mapper();
    if mapper == 1 {
        // 8 KB mode and bank 0: CHR RAM shows whole.
        events.push(write(0x8000, 0x80));
        restore::mmc1_load(0x8000, 0x0c, events);
        restore::mmc1_load(0xa000, 0, events);
    }
    if mapper <= 2 && image.chr() == 0 {
        events.extend((0x0000..0x2000).map(read));
    }
    if mapper == 1 || mapper == 4 {
        events.extend((0x6000..0x8000).map(read));
    }
}

impl Composer<'_> {
    fn phrase(&mut self) {
        match self.random.below(32) {
            0..=8 => self.read_anywhere(),
            9..=12 => self.read_in_sequence(),
            13..=16 => self.read_edge(),
            17..=19 => self.use_ram(),
            20 => self.write_anywhere(),
            21 => self.clocks(),
            _ => self.registers(),
        }
    }

    /// A read, turned away from the places where CNROM refuses every time; now and then it goes there.
    fn read(&mut self, address: u16) {
        let hole = self.mapper == 3 && (0x2000..0x8000).contains(&address);
        let one_block = self.mapper == 3 && self.image.prg() == 1 && (0x8000..0xc000).contains(&address);
        let turned = if (hole || one_block) && !self.random.once_in(40) { address | 0xc000 } else { address };
        self.events.push(read(turned));
    }

    fn read_anywhere(&mut self) {
        let address = self.random.address();
        self.read(address);
    }

    fn read_in_sequence(&mut self) {
        let start = self.random.address();
        for step in 0..2 + self.random.below(12) as u16 {
            self.read(start.wrapping_add(step));
        }
    }

    fn read_edge(&mut self) {
        let address = self.random.pick(&EDGES);
        self.read(address);
    }

    /// A store where this board has RAM, mostly at few addresses so that they meet again, and a look at it.
    fn use_ram(&mut self) {
        let offset = if self.random.once_in(2) {
            self.random.pick(&[0, 1, 0xfff, 0x1000, 0x1fff])
        } else {
            self.random.address() & 0x1fff
        };
        let base = if self.mapper == 4 || self.mapper == 1 && self.random.once_in(2) { 0x6000 } else { 0 };
        if base == 0 && !self.ppu_write_is_served() && !self.random.once_in(100) {
            return;
        }
        let value = self.random.byte();
        self.events.push(write(base + offset, value));
        self.read(base + offset);
    }

    fn ppu_write_is_served(&self) -> bool {
        self.mapper >= 3 || self.image.chr() == 0
    }

    /// A write to any address, but seldom to one where every write is refused.
    fn write_anywhere(&mut self) {
        let address = if self.random.once_in(2) { self.random.address() } else { self.random.pick(&EDGES) };
        let refused = match (self.mapper, address) {
            (_, 0x0000..=0x1fff) => !self.ppu_write_is_served(),
            (3, 0x2000..=0x7fff) => true,
            _ => false,
        };
        if !refused || self.random.once_in(60) {
            let value = self.random.byte();
            self.events.push(write(address, value));
        }
    }

    fn clocks(&mut self) {
        for _ in 0..1 + self.random.below(5) {
            self.events.push(clock());
        }
    }

    fn registers(&mut self) {
        match self.mapper {
            0 => self.write_rom(),
            1 => self.serial(),
            2 => self.uxrom_bank(),
            3 => self.cnrom_bank(),
            _ => self.mmc3_register(),
        }
    }

    /// NROM has no register: writes to ROM do nothing.
    fn write_rom(&mut self) {
        let (address, value) = (self.random.address() | 0x8000, self.random.byte());
        self.events.push(write(address, value));
        self.read(address);
    }

    /// A bank number: mostly one that is there, else one at the end, one or two past it, or any.
    fn bank(&mut self, banks: usize) -> u8 {
        let bank = match self.random.below(24) {
            0 => banks,
            1 => banks + self.random.below(3),
            2 | 3 => banks - 1,
            4 => usize::from(self.random.byte()),
            _ => self.random.below(banks),
        };
        bank.min(255) as u8
    }

    fn uxrom_bank(&mut self) {
        let banks = self.image.prg();
        let value = self.bank(banks);
        self.events.push(write(0x8000 | self.random.address(), value));
        let offset = self.random.address() & 0x3fff;
        self.read(0x8000 | offset);
        if usize::from(value) >= banks && !self.random.once_in(8) {
            let back = self.random.below(banks) as u8;
            self.events.push(write(0x8000 | self.random.address(), back));
        }
    }

    fn cnrom_bank(&mut self) {
        let banks = self.image.chr().max(1);
        let value = if self.random.once_in(6) { self.random.byte() } else { self.bank(banks) };
        self.events.push(write(0x8000 | self.random.address(), value));
        let address = self.random.address() & 0x1fff;
        self.read(address);
        if usize::from(value & 3) >= banks && !self.random.once_in(8) {
            let back = self.random.below(banks).min(3) as u8 | self.random.byte() & 0xfc;
            self.events.push(write(0x8000 | self.random.address(), back));
        }
    }

    /// MMC1: a whole load, a cut one, or a few loose bits.
    fn serial(&mut self) {
        match self.random.below(12) {
            0 => self.serial_bits(4),
            1 | 2 => {
                self.serial_bits(4);
                self.serial_reset();
            }
            3 => self.serial_reset(),
            _ => self.serial_load(),
        }
    }

    /// Up to `most` bits at addresses of any register.
    fn serial_bits(&mut self, most: usize) {
        for _ in 0..1 + self.random.below(most) {
            let (address, value) = (self.random.address() | 0x8000, self.random.byte() & 0x7f);
            self.events.push(write(address, value));
        }
    }

    fn serial_reset(&mut self) {
        let (address, value) = (self.random.address() | 0x8000, self.random.byte() | 0x80);
        self.events.push(write(address, value));
    }

    fn serial_load(&mut self) {
        if !self.random.once_in(6) {
            self.serial_reset();
        }
        let register = self.random.pick(&[0x8000, 0xa000, 0xa000, 0xc000, 0xe000, 0xe000]);
        let value = match register {
            0x8000 => self.random.pick(&[0, 4, 8, 12, 12]) | self.random.byte() & 0x13,
            0xe000 => self.bank(self.image.prg().min(16)),
            _ => self.bank(self.image.chr_banks_1k() / 4),
        };
        for bit in 0..5 {
            let any = self.random.address();
            let address = if bit == 4 { register | any & 0x1fff } else { 0x8000 | any };
            let noise = self.random.byte() & 0x7e;
            self.events.push(write(address, noise | value >> bit & 1));
        }
        let shown = if register >= 0xe000 { self.random.address() | 0x8000 } else { self.random.address() & 0x1fff };
        self.read(shown);
    }

    fn mmc3_register(&mut self) {
        match self.random.below(12) {
            0..=5 => self.mmc3_bank(),
            6 | 7 => self.mmc3_mirroring(),
            8 => self.mmc3_select_only(),
            _ => self.mmc3_irq(),
        }
    }

    fn even(&mut self, window: u16) -> u16 {
        window | self.random.address() & 0x1ffe
    }

    fn mmc3_bank(&mut self) {
        let select = self.random.below(8) as u8;
        let modes = if self.random.once_in(3) { self.random.byte() & 0xf8 } else { 0 };
        let banks = if select < 6 { self.image.chr_banks_1k() } else { self.image.prg_banks_8k() };
        let value = self.bank(banks);
        let (even, odd) = (self.even(0x8000), self.even(0x8000) + 1);
        self.events.extend([write(even, modes | select), write(odd, value)]);
        let shown = if select < 6 { self.random.address() & 0x1fff } else { self.random.address() | 0x8000 };
        self.read(shown);
        if usize::from(value) >= banks && !self.random.once_in(8) {
            let back = self.random.below(banks).min(255) as u8;
            self.events.push(write(odd, back));
        }
    }

    fn mmc3_select_only(&mut self) {
        let (address, value) = (self.even(0x8000), self.random.byte());
        self.events.push(write(address, value));
    }

    fn mmc3_mirroring(&mut self) {
        let (address, value) = (self.even(0xa000) + self.random.below(8) as u16 / 7, self.random.byte());
        self.events.push(write(address, value));
    }

    /// Parts of an IRQ sequence in any order, so that counters of every kind meet every write.
    fn mmc3_irq(&mut self) {
        let latch = if self.random.once_in(3) { self.random.byte() } else { self.random.below(9) as u8 };
        for _ in 0..1 + self.random.below(5) {
            let event = match self.random.below(8) {
                0 | 1 => write(self.even(0xc000), latch),
                2 | 3 => write(self.even(0xc000) + 1, self.random.byte()),
                4 | 5 => write(self.even(0xe000) + 1, self.random.byte()),
                _ => clock(),
            };
            self.events.push(event);
        }
        for _ in 0..self.random.below(usize::from(latch.min(20)) + 4) {
            self.events.push(clock());
        }
        if self.random.once_in(3) {
            self.irq_disable();
        }
    }

    /// Acknowledges: mostly with the counter led above 1 first, where it is served.
    fn irq_disable(&mut self) {
        if !self.random.once_in(8) {
            let latch = 2 + self.random.below(250) as u8;
            let (even, odd) = (self.even(0xc000), self.even(0xc000) + 1);
            self.events.extend([write(even, latch), write(odd, 0), clock()]);
        }
        let (address, value) = (self.even(0xe000), self.random.byte());
        self.events.push(write(address, value));
    }
}
