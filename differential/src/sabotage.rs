//! Faults that the harness puts into our side's answers to prove that the comparison finds them.
//! Nothing here touches the library: an answer, a buffer or a map of pages is altered after the call.

use biekkarul::{Digit, Digits};

use crate::events::{Answer, PANICKED, REFUSED};
use crate::library::STATE;
use crate::mapped::{CHR_RAM, IMAGE, NOWHERE, PAGES, PRG_RAM, REFUSAL};

/// Any place in PRG RAM.
const PRG_RAM_MARK: usize = 5_000;

/// The page before the last of 8000-BFFF.
const PAGE_MARK: usize = 46;

#[derive(Clone, Copy, PartialEq, Eq, Debug)]
pub enum Sabotage {
    None,
    /// MMC3: a read of A000-BFFF with R7 at 3 or more answers another byte.
    ReadByte,
    /// A bank past the end is answered as 0 instead of refused.
    PastEnd,
    /// A read that should be served is refused: UxROM's last byte.
    Refuses,
    /// A refused read answers another number.
    OtherNumber,
    /// A refused read answers the number that stands for a panic of the original.
    PanicNumber,
    /// A notice of the upper screen is answered as the lower one.
    Notice,
    /// MMC3: a clock with the reload mark and latch 0 answers yes.
    ReloadClock,
    /// A refused write changes the state.
    StateAfterRefusal,
    /// A refused write changes PRG RAM.
    RamAfterRefusal,
    /// A write to CHR RAM lands one byte further.
    StrayStore,
    /// A load refused with 7 is accepted.
    ShortImage,
    /// The header reader answers byte 15 as 0.
    HeaderByte,
    /// Pages 32 to 63 are not made anew after a write that moves them.
    StalePrgPages,
    /// Pages 0 to 7 are not.
    StaleChrPages,
    /// A page stands where the next one is.
    PageOneOff,
    /// A page that is read from a RAM is taken for one of the image.
    RamPageAsRom,
    /// A byte that is stored through a page of a RAM goes nowhere.
    RamPageAsNowhere,
    /// A refused page is taken for one that is nowhere.
    RefusedPageServed,
}

pub const ALL: [(&str, Sabotage); 18] = [
    ("read-byte", Sabotage::ReadByte),
    ("past-end", Sabotage::PastEnd),
    ("refuses", Sabotage::Refuses),
    ("other-number", Sabotage::OtherNumber),
    ("panic-number", Sabotage::PanicNumber),
    ("notice", Sabotage::Notice),
    ("reload-clock", Sabotage::ReloadClock),
    ("state-after-refusal", Sabotage::StateAfterRefusal),
    ("ram-after-refusal", Sabotage::RamAfterRefusal),
    ("stray-store", Sabotage::StrayStore),
    ("short-image", Sabotage::ShortImage),
    ("header-byte", Sabotage::HeaderByte),
    ("stale-prg-pages", Sabotage::StalePrgPages),
    ("stale-chr-pages", Sabotage::StaleChrPages),
    ("page-one-off", Sabotage::PageOneOff),
    ("ram-page-as-rom", Sabotage::RamPageAsRom),
    ("ram-page-as-nowhere", Sabotage::RamPageAsNowhere),
    ("refused-page-served", Sabotage::RefusedPageServed),
];

impl Sabotage {
    pub fn named(name: &str) -> Option<Sabotage> {
        ALL.iter().find(|(known, _)| *known == name).map(|(_, sabotage)| *sabotage)
    }

    pub fn read(self, answer: Answer, address: u16, state: &[u8; STATE]) -> Answer {
        match self {
            Sabotage::ReadByte if address & 0xe000 == 0xa000 && digit(state, Digit::Mmc3R7) >= 3 => {
                answer ^ (answer < REFUSED) as Answer
            }
            Sabotage::PastEnd if answer == REFUSED + 11 => 0,
            Sabotage::Refuses if address == 0xffff && digit(state, Digit::Mapper) == 2 => REFUSED + 11,
            Sabotage::OtherNumber if answer == REFUSED + 13 => REFUSED + 11,
            Sabotage::PanicNumber if answer == REFUSED + 13 => PANICKED,
            _ => answer,
        }
    }

    pub fn write(
        self,
        answer: Answer,
        address: u16,
        state: &mut [u8; STATE],
        prg_ram: &mut [u8],
        chr_ram: &mut [u8],
    ) -> Answer {
        match self {
            Sabotage::Notice if answer == b'U' as Answer => return b'L' as Answer,
            Sabotage::StateAfterRefusal if answer >= REFUSED => state[39] ^= 1,
            Sabotage::RamAfterRefusal if answer >= REFUSED => prg_ram[PRG_RAM_MARK] ^= 1,
            Sabotage::StrayStore if address < 0x1fff && answer == 0 => {
                let at = address as usize;
                chr_ram[at + 1] ^= chr_ram[at] & 1;
            }
            _ => {}
        }
        answer
    }

    pub fn clock(self, answer: Answer, before: &[u8; STATE]) -> Answer {
        let reload_with_latch_0 = || digit(before, Digit::Mmc3Latch) == 0 && digit(before, Digit::Mmc3Reload) == 1;
        if self == Sabotage::ReloadClock && reload_with_latch_0() {
            return 1;
        }
        answer
    }

    pub fn load(self, answer: Answer) -> Answer {
        if self == Sabotage::ShortImage && answer == REFUSED + 7 {
            return 0;
        }
        answer
    }

    /// The pages of reads, as they have just been told.
    pub fn filled(self, reads: &mut [u32; PAGES]) {
        if self == Sabotage::PageOneOff {
            reads[PAGE_MARK] = reads[PAGE_MARK + 1];
        }
    }

    /// What a page that is read is taken for.
    #[inline]
    pub fn read_kind(self, kind: u32) -> u32 {
        match (self, kind) {
            (Sabotage::RamPageAsRom, PRG_RAM | CHR_RAM) => IMAGE,
            (Sabotage::RefusedPageServed, REFUSAL) => NOWHERE,
            _ => kind,
        }
    }

    /// What a page that is written is taken for.
    #[inline]
    pub fn write_kind(self, kind: u32) -> u32 {
        match (self, kind) {
            (Sabotage::RamPageAsNowhere, PRG_RAM | CHR_RAM) | (Sabotage::RefusedPageServed, REFUSAL) => NOWHERE,
            _ => kind,
        }
    }

    pub fn header(self, fields: &mut [u8]) {
        if let (Sabotage::HeaderByte, Some(last)) = (self, fields.last_mut()) {
            *last = 0;
        }
    }
}

/// What the state holds; on a board that has no such digit, and without a board, 0.
fn digit(state: &[u8; STATE], digit: Digit) -> u64 {
    Digits::of(state).map_or(0, |digits| digits[digit])
}
