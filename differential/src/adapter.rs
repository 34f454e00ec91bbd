//! The wrapper's adapter in the place of the original's mappers: behind the original's own traits, as its bus holds a
//! board.

use biekkarul::bus::BusBoard;
use mos6502::memory::Bus;
use nes::cartridge::Mirroring;
use nes::mappers::Mapper;

/// The adapter, as the original's bus takes it.
pub struct Proved(pub BusBoard);

impl Bus for Proved {
    #[inline]
    fn read8(&self, address: u16) -> u8 {
        self.0.read8(address)
    }

    #[inline]
    fn write8(&mut self, val: u8, address: u16) {
        self.0.write8(val, address)
    }
}

impl Mapper for Proved {
    #[inline]
    fn irq(&mut self) -> bool {
        self.0.irq()
    }

    fn on_runtime_mirroring(&mut self, mut callback: Box<dyn FnMut(&Mirroring)>) {
        self.0.on_runtime_mirroring(Box::new(move |mirroring| callback(&theirs(*mirroring))));
    }
}

fn theirs(mirroring: biekkarul::Mirroring) -> Mirroring {
    match mirroring {
        biekkarul::Mirroring::Horizontal => Mirroring::Horizontal,
        biekkarul::Mirroring::Vertical => Mirroring::Vertical,
        biekkarul::Mirroring::SingleScreenUpper => Mirroring::SingleScreenUpper,
        biekkarul::Mirroring::SingleScreenLower => Mirroring::SingleScreenLower,
    }
}
