//! What a state holds, as numbers.

use core::ops::Index;

use crate::ffi;
use crate::mirroring::Mirroring;
use crate::mode::Mode;
use crate::refusal::{accepted, Refusal};

/// The count of digits in a state.
pub const DIGITS: usize = 40;

/// The places of a state's digits, in the order of docs/ABI.md, which has the range of each.
#[derive(Clone, Copy, Debug, PartialEq, Eq, Hash)]
pub enum Digit {
    /// The version of the state's layout: 1.
    Version,
    /// 0 NROM, 1 MMC1, 2 UxROM, 3 CNROM, 4 MMC3.
    Mapper,
    /// 0 house, 1 board.
    Mode,
    /// The header's NES 2.0 mark, which board mode goes by.
    Nes2,
    /// 0 horizontal, 1 vertical.
    HeaderMirroring,
    /// 0 horizontal, 1 vertical, 2 upper screen, 3 lower screen.
    Mirroring,
    /// 1: there are 8 KB of PRG RAM. 0: there is none, as only NES 2.0 in board mode can say.
    PrgRam,
    /// The count of 16,384-byte PRG blocks; above 255 only with NES 2.0 in board mode.
    PrgCount,
    /// The count of 8,192-byte CHR blocks; above 255 only with NES 2.0 in board mode.
    ChrCount,
    /// The length of the image that was loaded.
    ImageLength,
    /// UxROM's bank.
    UxromBank,
    /// CNROM's bank.
    CnromBank,
    /// Reserved: 0.
    AxromBank,
    /// Reserved: 0.
    GxromPrgBank,
    /// Reserved: 0.
    GxromChrBank,
    /// How many bits MMC1's serial register has.
    Mmc1SerialCount,
    /// These bits, from bit 4 down, the last one highest.
    Mmc1SerialValue,
    /// MMC1's PRG mode.
    Mmc1PrgMode,
    /// MMC1's CHR mode: 0 8 KB, 1 4 KB.
    Mmc1ChrMode,
    /// MMC1's CHR 0.
    Mmc1Chr0,
    /// MMC1's CHR 1.
    Mmc1Chr1,
    /// MMC1's PRG.
    Mmc1Prg,
    /// MMC3's R0.
    Mmc3R0,
    /// MMC3's R1.
    Mmc3R1,
    /// MMC3's R2.
    Mmc3R2,
    /// MMC3's R3.
    Mmc3R3,
    /// MMC3's R4.
    Mmc3R4,
    /// MMC3's R5.
    Mmc3R5,
    /// MMC3's R6.
    Mmc3R6,
    /// MMC3's R7.
    Mmc3R7,
    /// MMC3's latch.
    Mmc3Latch,
    /// MMC3's counter.
    Mmc3Counter,
    /// Which register MMC3's next data write goes to.
    Mmc3Select,
    /// MMC3's PRG mode.
    Mmc3PrgMode,
    /// MMC3's CHR mode.
    Mmc3ChrMode,
    /// Whether MMC3's IRQ is enabled.
    Mmc3IrqEnabled,
    /// MMC3's reload mark.
    Mmc3Reload,
    /// MMC3's interrupt line: 1 up, 0 low. In house mode it is always 0.
    Mmc3IrqLine,
    /// Whether PRG RAM is enabled: 1, and 0 only on MMC3 in board mode.
    RamEnabled,
    /// Whether PRG RAM takes no writes: 0, and 1 only on MMC3 in board mode.
    RamWritesDenied,
}

/// The digits of a state.
///
/// ```
/// use biekkarul::{Board, Digit, Digits, Mode, Refusal};
///
/// let mut image = vec![0x4E, 0x45, 0x53, 0x1A, 1, 1, 0x41, 0];
/// image.resize(16 + 16_384 + 8_192, 0);
/// let mut board = Board::load(image, Mode::Board)?;
/// board.write(0xC000, 7)?;
/// let digits = Digits::of(&board.state())?;
/// assert_eq!(digits, board.digits());
/// assert_eq!((digits[Digit::Mapper], digits[Digit::Mmc3Latch]), (4, 7));
/// assert_eq!(Digits::of(&[0; 40]), Err(Refusal::StateOutOfRange));
/// # Ok::<(), Refusal>(())
/// ```
#[derive(Clone, Copy, Debug, PartialEq, Eq, Hash)]
pub struct Digits([u64; DIGITS]);

impl Digits {
    /// Reads a state.
    ///
    /// # Errors
    ///
    /// Refused with 10 where no board could have this state.
    pub fn of(state: &[u8]) -> Result<Digits, Refusal> {
        let mut digits = [0; DIGITS];
        accepted(ffi::digits(state, &mut digits))?;
        Ok(Digits(digits))
    }

    /// All of them, in their order.
    #[must_use]
    pub const fn all(&self) -> &[u64; DIGITS] {
        &self.0
    }

    /// The mode.
    #[must_use]
    pub fn mode(&self) -> Mode {
        Mode::of_digit(self[Digit::Mode])
    }

    /// Whether the cartridge has PRG RAM.
    #[must_use]
    pub fn has_prg_ram(&self) -> bool {
        self[Digit::PrgRam] == 1
    }

    pub(crate) fn irq_line(&self) -> bool {
        self[Digit::Mmc3IrqLine] == 1
    }

    pub(crate) fn header_mirroring(&self) -> Mirroring {
        Mirroring::of_digit(self[Digit::HeaderMirroring])
    }

    pub(crate) fn mirroring(&self) -> Mirroring {
        Mirroring::of_digit(self[Digit::Mirroring])
    }

    /// Where a board mode's state says that the screens are turned to, if that is not the header's.
    pub(crate) fn turned_to(&self) -> Option<Mirroring> {
        Some(self.mirroring()).filter(|&mirroring| mirroring != self.header_mirroring())
    }

    /// Whether both are of one image's cartridge in one mode.
    pub(crate) fn same_cartridge(&self, other: &Digits) -> bool {
        CARTRIDGE.iter().all(|&digit| self[digit] == other[digit])
    }
}

/// What a load fixes for good.
const CARTRIDGE: &[Digit] = &[
    Digit::Version,
    Digit::Mapper,
    Digit::Mode,
    Digit::Nes2,
    Digit::HeaderMirroring,
    Digit::PrgRam,
    Digit::PrgCount,
    Digit::ChrCount,
    Digit::ImageLength,
];

impl Index<Digit> for Digits {
    type Output = u64;

    fn index(&self, digit: Digit) -> &u64 {
        &self.0[digit as usize]
    }
}

#[cfg(test)]
mod tests {
    use super::*;

    #[test]
    fn as_many_places_as_digits() {
        assert_eq!(Digit::RamWritesDenied as usize + 1, DIGITS);
    }
}
