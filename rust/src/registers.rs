//! What a board's registers hold, decoded.

use crate::digits::{Digit, Digits};

/// The registers of a board, by its kind.
///
/// ```
/// use biekkarul::{Board, Mode, Refusal, Registers};
///
/// let mut image = vec![0x4E, 0x45, 0x53, 0x1A, 1, 1, 0x41, 0]; // MMC3
/// image.resize(16 + 16_384 + 8_192, 0);
/// let mut board = Board::load(image, Mode::Board)?;
/// board.write(0x8000, 0x42)?; // selects R2, sets PRG mode 1
/// board.write(0x8001, 5)?;
/// match board.registers() {
///     Registers::Mmc3(mmc3) => assert_eq!((mmc3.prg_mode, mmc3.banks[2]), (1, 5)),
///     others => panic!("{others:?}"),
/// }
/// # Ok::<(), Refusal>(())
/// ```
#[derive(Clone, Copy, Debug, PartialEq, Eq, Hash)]
#[non_exhaustive]
pub enum Registers {
    /// Mapper 0, which has none.
    Nrom,
    /// Mapper 1.
    Mmc1(Mmc1Registers),
    /// Mapper 2.
    Uxrom {
        /// The 16 KB bank that 8000-BFFF shows.
        bank: u8,
    },
    /// Mapper 3.
    Cnrom {
        /// The 8 KB bank that the picture unit sees.
        bank: u8,
    },
    /// Mapper 4.
    Mmc3(Mmc3Registers),
}

/// The registers of MMC1.
#[derive(Clone, Copy, Debug, PartialEq, Eq, Hash)]
#[non_exhaustive]
pub struct Mmc1Registers {
    /// How many bits the serial register has.
    pub serial_count: u8,
    /// These bits, from bit 4 down, the last one highest.
    pub serial_value: u8,
    /// 0 and 1 switch 32 KB, 2 the upper and 3 the lower 16 KB.
    pub prg_mode: u8,
    /// 0 switches 8 KB, 1 twice 4 KB.
    pub chr_mode: u8,
    /// CHR 0; house mode keeps it halved when it is stored in CHR mode 0.
    pub chr_0: u8,
    /// CHR 1.
    pub chr_1: u8,
    /// PRG.
    pub prg: u8,
}

/// The registers of MMC3, with its interrupt unit and the marks that protect its PRG RAM.
#[derive(Clone, Copy, Debug, PartialEq, Eq, Hash)]
#[non_exhaustive]
pub struct Mmc3Registers {
    /// R0 to R7.
    pub banks: [u8; 8],
    /// Which of them the next data write goes to.
    pub select: u8,
    /// 0 or 1: which 8 KB of PRG are switched.
    pub prg_mode: u8,
    /// 0 or 1: which half the two pairs of CHR banks stand in.
    pub chr_mode: u8,
    /// What the counter starts from.
    pub latch: u8,
    /// The counter.
    pub counter: u8,
    /// Whether an IRQ may come.
    pub irq_enabled: bool,
    /// Whether the next clock takes the latch.
    pub reload: bool,
    /// The interrupt line's level: whether it is up. In house mode it is always low.
    pub irq_line: bool,
    /// Whether PRG RAM is enabled. Where it is not, 6000-7FFF reads 0 and ignores writes, and the bytes are kept. In
    /// house mode it always is.
    pub ram_enabled: bool,
    /// Whether writes to PRG RAM are denied: 6000-7FFF ignores them, and is still read while it is enabled. In house
    /// mode they never are.
    pub ram_writes_denied: bool,
}

impl Digits {
    /// The registers that these digits hold.
    #[must_use]
    pub fn registers(&self) -> Registers {
        match self[Digit::Mapper] {
            0 => Registers::Nrom,
            1 => Registers::Mmc1(self.mmc1()),
            2 => Registers::Uxrom {
                bank: self.byte(Digit::UxromBank),
            },
            3 => Registers::Cnrom {
                bank: self.byte(Digit::CnromBank),
            },
            4 => Registers::Mmc3(self.mmc3()),
            mapper => panic!("the linked library took mapper {mapper}: it is another one"),
        }
    }

    fn mmc1(&self) -> Mmc1Registers {
        Mmc1Registers {
            serial_count: self.byte(Digit::Mmc1SerialCount),
            serial_value: self.byte(Digit::Mmc1SerialValue),
            prg_mode: self.byte(Digit::Mmc1PrgMode),
            chr_mode: self.byte(Digit::Mmc1ChrMode),
            chr_0: self.byte(Digit::Mmc1Chr0),
            chr_1: self.byte(Digit::Mmc1Chr1),
            prg: self.byte(Digit::Mmc1Prg),
        }
    }

    fn mmc3(&self) -> Mmc3Registers {
        Mmc3Registers {
            banks: MMC3_BANKS.map(|digit| self.byte(digit)),
            select: self.byte(Digit::Mmc3Select),
            prg_mode: self.byte(Digit::Mmc3PrgMode),
            chr_mode: self.byte(Digit::Mmc3ChrMode),
            latch: self.byte(Digit::Mmc3Latch),
            counter: self.byte(Digit::Mmc3Counter),
            irq_enabled: self[Digit::Mmc3IrqEnabled] == 1,
            reload: self[Digit::Mmc3Reload] == 1,
            irq_line: self.irq_line(),
            ram_enabled: self[Digit::RamEnabled] == 1,
            ram_writes_denied: self[Digit::RamWritesDenied] == 1,
        }
    }

    /// Every digit of a register is below 256.
    fn byte(&self, digit: Digit) -> u8 {
        self[digit] as u8
    }
}

const MMC3_BANKS: [Digit; 8] = [
    Digit::Mmc3R0,
    Digit::Mmc3R1,
    Digit::Mmc3R2,
    Digit::Mmc3R3,
    Digit::Mmc3R4,
    Digit::Mmc3R5,
    Digit::Mmc3R6,
    Digit::Mmc3R7,
];
