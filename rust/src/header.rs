//! The header alone, iNES or NES 2.0.

use crate::ffi;
use crate::mirroring::Mirroring;
use crate::mode::Mode;
use crate::refusal::{accepted, Refusal};

const FIELDS_LENGTH: usize = 12;
const PRG_BLOCK: usize = 16_384;
const CHR_BLOCK: usize = 8_192;

/// Bytes 4 to 15 of an image, as they stand.
///
/// Reading a header accepts more than [`Board::load`](crate::Board::load) does: any mapper, any counts. Board mode
/// reads a header that is marked NES 2.0 otherwise than house mode: what depends on that asks for the mode.
///
/// ```
/// use biekkarul::{Header, Mirroring, Mode, Refusal};
///
/// let header = Header::read(b"NES\x1A\x02\x01\x41\0\0\0\0\0\0\0\0\0")?;
/// assert_eq!((header.prg_count(), header.chr_count()), (2, 1));
/// assert_eq!((header.mapper(), header.mirroring()), (4, Mirroring::Vertical));
/// assert_eq!(header.total_size_excluding_header(), 2 * 16_384 + 8_192);
/// assert_eq!(Header::read(b"NES\x1A"), Err(Refusal::HeaderTooShort));
///
/// let nes2 = Header::read(b"NES\x1A\x00\x00\x20\x08\0\x01\x00\x07\0\0\0\0")?;
/// assert!(nes2.is_nes2() && nes2.is_nes2_in(Mode::Board) && !nes2.is_nes2_in(Mode::House));
/// assert_eq!((nes2.prg_count_in(Mode::Board), nes2.prg_count_in(Mode::House)), (256, 0));
/// # Ok::<(), Refusal>(())
/// ```
#[derive(Clone, Copy, Debug, PartialEq, Eq, Hash)]
pub struct Header {
    fields: [u8; FIELDS_LENGTH],
}

impl Header {
    /// Reads the header of an image; what follows its 16 bytes is not looked at.
    ///
    /// # Errors
    ///
    /// Refused with 1 for fewer than 16 bytes, with 2 where they do not begin with 4E 45 53 1A.
    pub fn read(image: &[u8]) -> Result<Header, Refusal> {
        let mut fields = [0; FIELDS_LENGTH];
        accepted(ffi::header(image, &mut fields))?;
        Ok(Header { fields })
    }

    /// Bytes 4 to 15.
    #[must_use]
    pub const fn fields(&self) -> &[u8; FIELDS_LENGTH] {
        &self.fields
    }

    /// Byte 4: the count of 16,384-byte PRG blocks; of NES 2.0 its low eight bits.
    #[must_use]
    pub const fn prg_count(&self) -> u16 {
        self.fields[0] as u16
    }

    /// Byte 5: the count of 8,192-byte CHR blocks, where 0 means CHR RAM; of NES 2.0 its low eight bits.
    #[must_use]
    pub const fn chr_count(&self) -> u16 {
        self.fields[1] as u16
    }

    /// Byte 6: flags.
    #[must_use]
    pub const fn flags6(&self) -> u8 {
        self.fields[2]
    }

    /// Byte 7: flags.
    #[must_use]
    pub const fn flags7(&self) -> u8 {
        self.fields[3]
    }

    /// Byte 8, of NES 2.0: what extends the mapper number (low nibble), and the [submapper](Header::submapper).
    #[must_use]
    pub const fn flags8(&self) -> u8 {
        self.fields[4]
    }

    /// Byte 9, of NES 2.0: what extends the PRG count (low nibble) and the CHR count (high nibble).
    #[must_use]
    pub const fn flags9(&self) -> u8 {
        self.fields[5]
    }

    /// Byte 10, of NES 2.0: the shifts of PRG RAM. 00 is none; 07 or 70, 8,192 bytes.
    #[must_use]
    pub const fn flags10(&self) -> u8 {
        self.fields[6]
    }

    /// Byte 11, of NES 2.0: the shifts of CHR RAM. 00 is none; 07 or 70, 8,192 bytes.
    #[must_use]
    pub const fn flags11(&self) -> u8 {
        self.fields[7]
    }

    /// The high nibble of byte 8, of NES 2.0.
    #[must_use]
    pub const fn submapper(&self) -> u8 {
        self.flags8() >> 4
    }

    /// The mapper: the high nibble of byte 7 over the high nibble of byte 6.
    #[must_use]
    pub const fn mapper(&self) -> u16 {
        ((self.flags7() & 0xF0) | (self.flags6() >> 4)) as u16
    }

    /// Byte 6 bit 0: set vertical, clear horizontal.
    #[must_use]
    pub const fn mirroring(&self) -> Mirroring {
        if self.flags6() & 0x01 != 0 {
            Mirroring::Vertical
        } else {
            Mirroring::Horizontal
        }
    }

    /// Byte 6 bit 1: PRG RAM has a battery. Nothing is taken from it, not even that there is PRG RAM.
    #[must_use]
    pub const fn has_battery(&self) -> bool {
        self.flags6() & 0x02 != 0
    }

    /// Byte 6 bit 2: a trainer stands before the PRG data. Such an image is not loaded.
    #[must_use]
    pub const fn has_trainer(&self) -> bool {
        self.flags6() & 0x04 != 0
    }

    /// Byte 6 bit 3: four screens. Such an image is not loaded.
    #[must_use]
    pub const fn has_four_screens(&self) -> bool {
        self.flags6() & 0x08 != 0
    }

    /// Byte 7 marks NES 2.0. House mode records it and reads the header as iNES.
    #[must_use]
    pub const fn is_nes2(&self) -> bool {
        self.flags7() & 0x0C == 0x08
    }

    /// Whether this mode reads the header as NES 2.0: board mode, where it is marked so.
    #[must_use]
    pub const fn is_nes2_in(&self, mode: Mode) -> bool {
        matches!(mode, Mode::Board) && self.is_nes2()
    }

    /// The mapper as this mode reads it: in NES 2.0 with the low nibble of byte 8 above it.
    #[must_use]
    pub const fn mapper_in(&self, mode: Mode) -> u16 {
        self.extended(mode, self.mapper(), self.flags8() & 0x0F)
    }

    /// The PRG count as this mode reads it: in NES 2.0 with the low nibble of byte 9 above it. A nibble of 15
    /// is the exponent form, which no load takes.
    #[must_use]
    pub const fn prg_count_in(&self, mode: Mode) -> u16 {
        self.extended(mode, self.prg_count(), self.flags9() & 0x0F)
    }

    /// The CHR count as this mode reads it: in NES 2.0 with the high nibble of byte 9 above it. A nibble of 15
    /// is the exponent form, which no load takes.
    #[must_use]
    pub const fn chr_count_in(&self, mode: Mode) -> u16 {
        self.extended(mode, self.chr_count(), self.flags9() >> 4)
    }

    /// The bytes that the counts, as this mode reads them, ask for after the header. Where a nibble of byte 9 is
    /// 15, the exponent form, the number means nothing.
    #[must_use]
    pub const fn total_size_excluding_header_in(&self, mode: Mode) -> usize {
        self.prg_count_in(mode) as usize * PRG_BLOCK + self.chr_count_in(mode) as usize * CHR_BLOCK
    }

    const fn extended(&self, mode: Mode, number: u16, nibble: u8) -> u16 {
        if self.is_nes2_in(mode) {
            number + 256 * nibble as u16
        } else {
            number
        }
    }

    /// The bytes that the counts of bytes 4 and 5 ask for after the header.
    #[must_use]
    pub const fn total_size_excluding_header(&self) -> usize {
        self.fields[0] as usize * PRG_BLOCK + self.fields[1] as usize * CHR_BLOCK
    }
}

#[cfg(test)]
mod tests {
    use super::*;
    use alloc::vec::Vec;

    fn image(fields: [u8; 12]) -> Vec<u8> {
        [&b"NES\x1A"[..], &fields[..]].concat()
    }

    #[test]
    fn fields_stand_as_they_are() {
        let fields = [255, 255, 0x5D, 0xA8, 5, 6, 7, 8, 9, 10, 11, 12];
        let header = Header::read(&image(fields)).unwrap();
        assert_eq!(header.fields(), &fields);
        assert_eq!(header.mapper(), 0xA5);
        assert_eq!(header.mirroring(), Mirroring::Vertical);
        assert!(header.has_trainer() && header.has_four_screens() && header.is_nes2());
        assert!(!header.has_battery());
        let battery = [1, 0, 0x02, 0, 0, 0, 0, 0, 0, 0, 0, 0];
        assert!(Header::read(&image(battery)).unwrap().has_battery());
        assert_eq!(header.total_size_excluding_header(), 6_266_880);
    }

    /// Each nibble of bytes 8 and 9 at its own value, so that none is taken for another.
    #[test]
    fn only_board_mode_reads_a_marked_header_as_nes2() {
        let marked = [5, 6, 0x30, 0xA8, 0x21, 0x43, 0x70, 0x07, 0, 0, 0, 0];
        let header = Header::read(&image(marked)).unwrap();
        let numbers = |header: &Header, mode| {
            (
                header.mapper_in(mode),
                header.prg_count_in(mode),
                header.chr_count_in(mode),
                header.total_size_excluding_header_in(mode),
            )
        };
        let ines = (0xA3, 5, 6, 5 * PRG_BLOCK + 6 * CHR_BLOCK);
        let nes2 = (0x1A3, 0x305, 0x406, 0x305 * PRG_BLOCK + 0x406 * CHR_BLOCK);
        assert_eq!(numbers(&header, Mode::House), ines);
        assert_eq!(numbers(&header, Mode::Board), nes2);
        assert_eq!((header.submapper(), header.flags8()), (2, 0x21));
        assert_eq!(
            [header.flags9(), header.flags10(), header.flags11()],
            [0x43, 0x70, 0x07]
        );
        for low in [0x00, 0x04, 0x0C] {
            let mut unmarked = marked;
            unmarked[3] = 0xA0 | low;
            let header = Header::read(&image(unmarked)).unwrap();
            for mode in Mode::ALL {
                assert!(!header.is_nes2_in(mode));
                assert_eq!(numbers(&header, mode), ines);
            }
        }
    }

    #[test]
    fn refusals_1_and_2() {
        let good = image([0; 12]);
        assert_eq!(Header::read(&[]), Err(Refusal::HeaderTooShort));
        assert_eq!(Header::read(&good[..15]), Err(Refusal::HeaderTooShort));
        assert!(Header::read(&good).is_ok());
        for place in 0..4 {
            let mut bad = good.clone();
            bad[place] ^= 0x80;
            assert_eq!(Header::read(&bad), Err(Refusal::HeaderNotInes));
            assert_eq!(Header::read(&bad[..15]), Err(Refusal::HeaderTooShort));
        }
    }
}
