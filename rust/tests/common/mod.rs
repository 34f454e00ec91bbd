//! Images and the parts of a board that a refusal must leave, for all tests.
#![allow(dead_code)] // each test file uses a part

pub mod reading;

use std::cell::Cell;

use biekkarul::{Board, Digit, Digits, Mode, DIGITS, RAM_LENGTH, STATE_LENGTH};

pub const HEADER: usize = 16;
pub const PRG_BLOCK: usize = 16_384;
pub const CHR_BLOCK: usize = 8_192;
pub const BOTH_MODES: [Mode; 2] = [Mode::House, Mode::Board];

pub const NROM: u8 = 0x00;
pub const MMC1: u8 = 0x10;
pub const UXROM: u8 = 0x20;
pub const CNROM: u8 = 0x30;
pub const MMC3: u8 = 0x40;
pub const VERTICAL: u8 = 0x01;

/// An image with this byte 6 and these counts; the data differ from place to place.
pub fn image(byte6: u8, prg: u8, chr: u8) -> Vec<u8> {
    let mut image = vec![0x4E, 0x45, 0x53, 0x1A, prg, chr, byte6];
    image.resize(HEADER, 0);
    let length = usize::from(prg) * PRG_BLOCK + usize::from(chr) * CHR_BLOCK;
    image.extend((0..length).map(data));
    image
}

/// Byte 7 of an image that is marked NES 2.0.
pub const MARK: u8 = 0x08;
/// Bytes 10 and 11, the shifts of PRG RAM and of CHR RAM: none, and 8,192 bytes in both forms.
pub const NO_RAM: u8 = 0x00;
pub const RAM_8K: u8 = 0x07;
pub const BATTERY_RAM_8K: u8 = 0x70;

/// The header of an image that is marked NES 2.0, with counts that may be longer than a byte; byte 11 says of CHR
/// RAM what the CHR count does.
pub fn marked_header(byte6: u8, prg: usize, chr: usize, byte10: u8) -> [u8; HEADER] {
    let byte9 = (chr / 256 * 16 + prg / 256) as u8;
    let byte11 = if chr == 0 { RAM_8K } else { NO_RAM };
    let mut header = [0; HEADER];
    header[..4].copy_from_slice(b"NES\x1A");
    header[4..12].copy_from_slice(&[prg as u8, chr as u8, byte6, MARK, 0, byte9, byte10, byte11]);
    header
}

/// An image with that header, and data as `image` has them.
pub fn marked(byte6: u8, prg: usize, chr: usize, byte10: u8) -> Vec<u8> {
    let length = prg * PRG_BLOCK + chr * CHR_BLOCK;
    let mut image = marked_header(byte6, prg, chr, byte10).to_vec();
    image.extend((0..length).map(data));
    image
}

/// The byte at a place of the data that `image` makes; it differs between any two PRG banks that a register can
/// choose, also between those 256 KB apart.
pub fn data(place: usize) -> u8 {
    (place * 31 + place / 1_024 * 7 + place / 262_144 * 101 + 1) as u8
}

pub fn load(byte6: u8, prg: u8, chr: u8, mode: Mode) -> Board {
    Board::load(image(byte6, prg, chr), mode).expect("a good image")
}

/// Bytes of which a part can be taken away while a board has them.
pub struct Shifting {
    bytes: Vec<u8>,
    pub length: Cell<usize>,
}

impl Shifting {
    pub fn new(bytes: Vec<u8>) -> Shifting {
        Shifting {
            length: Cell::new(bytes.len()),
            bytes,
        }
    }
}

impl AsRef<[u8]> for Shifting {
    fn as_ref(&self) -> &[u8] {
        &self.bytes[..self.length.get()]
    }
}

/// All that a refused call must leave as it was.
#[derive(Clone, PartialEq, Eq)]
pub struct Kept {
    pub state: [u8; STATE_LENGTH],
    pub prg_ram: [u8; RAM_LENGTH],
    pub chr_ram: [u8; RAM_LENGTH],
}

pub fn kept<I>(board: &Board<I>) -> Kept {
    Kept {
        state: board.state(),
        prg_ram: *board.prg_ram(),
        chr_ram: *board.chr_ram(),
    }
}

/// Enters a value into MMC1's serial register, least bit first; the answer of the fifth write.
pub fn serial(
    board: &mut Board,
    address: u16,
    value: u8,
) -> Result<Option<biekkarul::Mirroring>, biekkarul::Refusal> {
    for bit in 0..4 {
        assert_eq!(board.write(address, value >> bit & 1), Ok(None));
    }
    board.write(address, value >> 4 & 1)
}

/// The bits of each digit, word by word: the tests' own copy of docs/ABI.md, to make states with.
const WIDTHS: [&[u32]; 5] = [
    &[8, 8, 1, 1, 2, 2, 2, 12, 12],
    &[64],
    &[8, 2, 3, 2, 2, 3, 5, 2, 1, 5, 5, 4],
    &[8; 8],
    &[8, 8, 3, 1, 1, 1, 1, 1, 1, 1],
];

/// The state that has these digits, each below its size, whether a board could have it or not.
pub fn packed(digits: &[u64; DIGITS]) -> [u8; STATE_LENGTH] {
    let mut state = [0; STATE_LENGTH];
    let mut digits = digits.iter();
    for (widths, bytes) in WIDTHS.iter().zip(state.chunks_mut(8)) {
        let mut from = 0;
        let mut word = 0;
        for (width, digit) in widths.iter().zip(&mut digits) {
            assert!(*width == 64 || *digit < 1 << width);
            word |= digit << from;
            from += width;
        }
        bytes.copy_from_slice(&u64::to_le_bytes(word));
    }
    state
}

/// The digits with one of them at another value.
pub fn with(digits: Digits, digit: Digit, value: u64) -> [u64; DIGITS] {
    let mut changed = *digits.all();
    changed[digit as usize] = value;
    changed
}

/// A fixed sequence of numbers without a pattern that a board would follow.
pub struct Numbers(pub u64);

impl Numbers {
    pub fn next(&mut self) -> u64 {
        self.0 = self
            .0
            .wrapping_mul(6_364_136_223_846_793_005)
            .wrapping_add(1_442_695_040_888_963_407);
        self.0 >> 33
    }
}
