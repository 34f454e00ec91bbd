//! Why a call was refused.

use core::fmt;

/// A refusal: its number, a name and a sentence. A refused call has changed nothing.
///
/// ```
/// use biekkarul::{Board, Mode, Refusal};
///
/// let refusal = Board::load(vec![0; 100], Mode::House).unwrap_err();
/// assert_eq!(refusal, Refusal::ImageNotInes);
/// assert_eq!(refusal.number(), 3);
/// assert_eq!(
///     refusal.to_string(),
///     "refused 3 (ImageNotInes): the image has fewer than 16,400 bytes or does not begin with 4E 45 53 1A"
/// );
/// ```
#[derive(Clone, Copy, Debug, PartialEq, Eq, Hash)]
#[non_exhaustive]
#[repr(u8)]
pub enum Refusal {
    /// Header reader: fewer than 16 bytes.
    HeaderTooShort = 1,
    /// Header reader: bytes 0-3 are not 4E 45 53 1A.
    HeaderNotInes = 2,
    /// Load: fewer than 16,400 bytes, or bytes 0-3 wrong.
    ImageNotInes = 3,
    /// Load: a mapper above 4; in board mode NES 2.0's longer number is judged.
    MapperNotTaken = 4,
    /// Load: byte 6 has bit 2 or bit 3.
    TrainerOrFourScreen = 5,
    /// Load: PRG count 0, or above 2 for mappers 0 and 3.
    PrgCountNotTaken = 6,
    /// Load: the image is shorter than its header says.
    ImageTooShort = 7,
    /// Load in board mode: a count is no power of two.
    CountNoPowerOfTwo = 8,
    /// Load, read, write: a RAM is not exactly 8,192 bytes.
    RamNot8K = 9,
    /// Read, write, clock, digits: the state is none that a board could have. Read, write: or the image
    /// has another length than the one loaded. [`Board::from_parts`](crate::Board::from_parts): or the state
    /// is another cartridge's or of the other mode.
    StateOutOfRange = 10,
    /// House read: the bank ends past the data.
    BankPastData = 11,
    /// House write: no CHR RAM at 0000-1FFF.
    NoChrRam = 12,
    /// House CNROM: no such place.
    NoSuchPlace = 13,
    /// House MMC3 write: IRQ disabled while one is due.
    IrqPending = 14,
    /// Trace: malformed.
    TraceMalformed = 15,
    /// Load in board mode of an image that is marked NES 2.0: a submapper, a count in exponent form, a RAM of
    /// another size than 8,192 bytes, or CHR RAM beside CHR ROM or missing without it.
    Nes2NotTaken = 16,
}

impl Refusal {
    /// Every refusal, in the order of the numbers.
    pub const ALL: &'static [Refusal] = &[
        Refusal::HeaderTooShort,
        Refusal::HeaderNotInes,
        Refusal::ImageNotInes,
        Refusal::MapperNotTaken,
        Refusal::TrainerOrFourScreen,
        Refusal::PrgCountNotTaken,
        Refusal::ImageTooShort,
        Refusal::CountNoPowerOfTwo,
        Refusal::RamNot8K,
        Refusal::StateOutOfRange,
        Refusal::BankPastData,
        Refusal::NoChrRam,
        Refusal::NoSuchPlace,
        Refusal::IrqPending,
        Refusal::TraceMalformed,
        Refusal::Nes2NotTaken,
    ];

    /// The refusal of this number, if there is one.
    #[must_use]
    pub const fn from_number(number: u16) -> Option<Refusal> {
        match number {
            1 => Some(Refusal::HeaderTooShort),
            2 => Some(Refusal::HeaderNotInes),
            3 => Some(Refusal::ImageNotInes),
            4 => Some(Refusal::MapperNotTaken),
            5 => Some(Refusal::TrainerOrFourScreen),
            6 => Some(Refusal::PrgCountNotTaken),
            7 => Some(Refusal::ImageTooShort),
            8 => Some(Refusal::CountNoPowerOfTwo),
            9 => Some(Refusal::RamNot8K),
            10 => Some(Refusal::StateOutOfRange),
            11 => Some(Refusal::BankPastData),
            12 => Some(Refusal::NoChrRam),
            13 => Some(Refusal::NoSuchPlace),
            14 => Some(Refusal::IrqPending),
            15 => Some(Refusal::TraceMalformed),
            16 => Some(Refusal::Nes2NotTaken),
            _ => None,
        }
    }

    /// The number, from 1 to 255; not every number has a refusal.
    #[must_use]
    pub const fn number(self) -> u8 {
        self as u8
    }

    /// The name, as it is written in code.
    #[must_use]
    pub const fn name(self) -> &'static str {
        match self {
            Refusal::HeaderTooShort => "HeaderTooShort",
            Refusal::HeaderNotInes => "HeaderNotInes",
            Refusal::ImageNotInes => "ImageNotInes",
            Refusal::MapperNotTaken => "MapperNotTaken",
            Refusal::TrainerOrFourScreen => "TrainerOrFourScreen",
            Refusal::PrgCountNotTaken => "PrgCountNotTaken",
            Refusal::ImageTooShort => "ImageTooShort",
            Refusal::CountNoPowerOfTwo => "CountNoPowerOfTwo",
            Refusal::RamNot8K => "RamNot8K",
            Refusal::StateOutOfRange => "StateOutOfRange",
            Refusal::BankPastData => "BankPastData",
            Refusal::NoChrRam => "NoChrRam",
            Refusal::NoSuchPlace => "NoSuchPlace",
            Refusal::IrqPending => "IrqPending",
            Refusal::TraceMalformed => "TraceMalformed",
            Refusal::Nes2NotTaken => "Nes2NotTaken",
        }
    }

    /// What is wrong, for the reader of a log.
    #[must_use]
    pub const fn sentence(self) -> &'static str {
        match self {
            Refusal::HeaderTooShort => "the header has fewer than 16 bytes",
            Refusal::HeaderNotInes => "the header does not begin with 4E 45 53 1A",
            Refusal::ImageNotInes => {
                "the image has fewer than 16,400 bytes or does not begin with 4E 45 53 1A"
            }
            Refusal::MapperNotTaken => "the mapper number is above 4",
            Refusal::TrainerOrFourScreen => "the header asks for a trainer or for four screens",
            Refusal::PrgCountNotTaken => "the board has no such count of PRG blocks",
            Refusal::ImageTooShort => "the image is shorter than its header says",
            Refusal::CountNoPowerOfTwo => "a block count is no power of two",
            Refusal::RamNot8K => "a RAM is not exactly 8,192 bytes",
            Refusal::StateOutOfRange => {
                "the state is none that a board of this image and mode could have, or the image has another length than the one loaded"
            }
            Refusal::BankPastData => "the bank this read uses ends past the PRG or CHR data",
            Refusal::NoChrRam => "there is no CHR RAM to write to",
            Refusal::NoSuchPlace => "the CNROM board has nothing at this address",
            Refusal::IrqPending => "the IRQ is disabled while its counter is 0 or 1",
            Refusal::TraceMalformed => "the trace is malformed",
            Refusal::Nes2NotTaken => {
                "the NES 2.0 header has a submapper, a count in exponent form or RAM that is not taken"
            }
        }
    }
}

impl fmt::Display for Refusal {
    fn fmt(&self, f: &mut fmt::Formatter<'_>) -> fmt::Result {
        let (number, name) = (self.number(), self.name());
        write!(f, "refused {number} ({name}): {}", self.sentence())
    }
}

#[cfg(feature = "std")]
impl std::error::Error for Refusal {}

/// The byte that an exported function answered, or its refusal (256 and the number).
#[inline]
pub(crate) fn accepted(answer: u16) -> Result<u8, Refusal> {
    match u8::try_from(answer) {
        Ok(byte) => Ok(byte),
        Err(_) => Err(refused(answer)),
    }
}

#[cold]
fn refused(answer: u16) -> Refusal {
    Refusal::from_number(answer - 256).unwrap_or_else(|| foreign(answer.into()))
}

/// The library's promise has no such answer: another library than this crate's was linked.
#[cold]
pub(crate) fn foreign(answer: u32) -> ! {
    panic!(
        "the linked library answered {answer}, which docs/ABI.md does not have: it is another one"
    )
}

#[cfg(test)]
mod tests {
    use super::*;
    use alloc::format;

    #[test]
    fn a_number_leads_to_the_refusal_that_has_it() {
        for number in 0..=u16::MAX {
            let wanted = Refusal::ALL
                .iter()
                .find(|refusal| u16::from(refusal.number()) == number);
            assert_eq!(Refusal::from_number(number), wanted.copied(), "{number}");
        }
        assert_eq!(Refusal::ALL.len(), 16);
    }

    #[test]
    fn every_refusal_has_its_name_and_a_sentence() {
        for refusal in Refusal::ALL {
            assert_eq!(refusal.name(), format!("{refusal:?}"));
            assert!(!refusal.sentence().is_empty());
        }
        for pair in Refusal::ALL.windows(2) {
            assert!(pair[0].number() < pair[1].number());
        }
    }

    #[test]
    fn an_answer_is_a_byte_or_a_refusal() {
        assert_eq!(accepted(0), Ok(0));
        assert_eq!(accepted(255), Ok(255));
        assert_eq!(accepted(256 + 14), Err(Refusal::IrqPending));
        assert_eq!(accepted(256 + 16), Err(Refusal::Nes2NotTaken));
    }

    #[test]
    #[should_panic(expected = "it is another one")]
    fn an_answer_outside_the_abi_is_not_passed_on() {
        let _ = accepted(256);
    }
}
