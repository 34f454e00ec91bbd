//! Cartridge images: a header, a length, and a rule that gives every further byte.

use std::sync::Arc;

use crate::random::Random;

pub const HEADER: usize = 16;
pub const PRG_BLOCK: usize = 16_384;
pub const CHR_BLOCK: usize = 8_192;
pub const MAGIC: [u8; 4] = [0x4e, 0x45, 0x53, 0x1a];
pub const MAPPERS: [u8; 5] = [0, 1, 2, 3, 4];
pub const NAMES: [&str; 5] = ["NROM", "MMC1", "UxROM", "CNROM", "MMC3"];

/// The greatest length that any header asks for: 255 blocks of each kind.
pub const GREATEST: usize = 6_266_896;

/// Bytes shared by both sides, of which the first `length` are the image.
#[derive(Clone)]
pub struct Bytes {
    data: Arc<Vec<u8>>,
    length: usize,
}

impl Bytes {
    pub fn new(data: Vec<u8>) -> Bytes {
        let length = data.len();
        Bytes { data: Arc::new(data), length }
    }

    #[inline]
    pub fn get(&self) -> &[u8] {
        &self.data[..self.length]
    }

    /// The same bytes under another header, `length` of them. No copy is made where nobody else holds the bytes.
    pub fn with(mut self, header: &[u8; HEADER], length: usize) -> Bytes {
        Arc::make_mut(&mut self.data)[..HEADER].copy_from_slice(header);
        Bytes { data: self.data, length }
    }
}

impl AsRef<[u8]> for Bytes {
    #[inline]
    fn as_ref(&self) -> &[u8] {
        self.get()
    }
}

/// What stands after the header.
#[derive(Clone, Copy, PartialEq, Eq, Debug)]
pub enum Fill {
    Random(u64),
    /// Every 1 KB bank differs from its neighbours at every offset; see `banked`.
    Banks,
    Zero,
}

/// The byte at `offset` after the header under `Fill::Banks`. 37 is odd, so that 256 neighbouring banks
/// of 1 KB have 256 different bytes at the same offset.
pub fn banked(offset: usize) -> u8 {
    (offset / 1024 * 37 + offset % 1024 % 251) as u8
}

/// An image with all that is needed to build it again.
#[derive(Clone)]
pub struct Image {
    pub header: [u8; HEADER],
    pub length: usize,
    pub fill: Fill,
    pub bytes: Bytes,
}

impl Image {
    pub fn new(header: [u8; HEADER], length: usize, fill: Fill) -> Image {
        let mut data = header[..length.min(HEADER)].to_vec();
        data.resize(length, 0);
        if length > HEADER {
            fill_with(fill, &mut data[HEADER..]);
        }
        Image { header, length, fill, bytes: Bytes::new(data) }
    }

    /// An image of exactly the length that its header asks for.
    pub fn exact(header: [u8; HEADER], fill: Fill) -> Image {
        Image::new(header, needed(&header), fill)
    }

    pub fn mapper(&self) -> u8 {
        mapper(&self.header)
    }

    pub fn prg(&self) -> usize {
        self.header[4] as usize
    }

    pub fn chr(&self) -> usize {
        self.header[5] as usize
    }

    /// PRG data in banks of 8 KB.
    pub fn prg_banks_8k(&self) -> usize {
        2 * self.prg()
    }

    /// CHR data, ROM or RAM, in banks of 1 KB.
    pub fn chr_banks_1k(&self) -> usize {
        8 * self.chr().max(1)
    }
}

fn fill_with(fill: Fill, data: &mut [u8]) {
    match fill {
        Fill::Zero => {}
        Fill::Banks => data.iter_mut().enumerate().for_each(|(offset, byte)| *byte = banked(offset)),
        Fill::Random(seed) => {
            let mut random = Random::new(seed, 0);
            for chunk in data.chunks_mut(8) {
                chunk.copy_from_slice(&random.next().to_le_bytes()[..chunk.len()]);
            }
        }
    }
}

pub fn mapper(header: &[u8; HEADER]) -> u8 {
    header[7] & 0xf0 | header[6] >> 4
}

/// The length that a header asks for, itself included.
pub fn needed(header: &[u8; HEADER]) -> usize {
    HEADER + PRG_BLOCK * header[4] as usize + CHR_BLOCK * header[5] as usize
}

/// A header with good magic and nothing in its last eight bytes.
pub fn header(mapper: u8, prg: u8, chr: u8, flags: u8) -> [u8; HEADER] {
    let [a, b, c, d] = MAGIC;
    [a, b, c, d, prg, chr, mapper << 4 | flags & 0x0f, mapper & 0xf0, 0, 0, 0, 0, 0, 0, 0, 0]
}

/// Counts that a board's arithmetic has its limits at. Some are there twice, to be taken more often.
fn prg_counts(mapper: u8) -> &'static [u8] {
    match mapper {
        0 | 3 => &[1, 2, 2],
        1 => &[1, 2, 2, 3, 4, 4, 5, 7, 8, 8, 9, 15, 16, 16, 17, 18],
        2 => &[1, 2, 2, 3, 4, 5, 8, 8, 9, 16, 17],
        _ => &[1, 2, 2, 3, 4, 4, 5, 8, 16, 31, 32],
    }
}

fn chr_counts(mapper: u8) -> &'static [u8] {
    match mapper {
        0 | 2 => &[0, 0, 1, 1, 2, 3],
        1 => &[0, 0, 1, 2, 4, 8, 15, 16, 16, 17],
        3 => &[0, 1, 2, 3, 4, 4, 5],
        _ => &[0, 1, 2, 4, 8, 16, 31, 32, 32, 33],
    }
}

/// Counts for the few images of any size up to the greatest.
const WIDE: [u8; 12] = [1, 2, 31, 32, 33, 63, 64, 127, 128, 129, 254, 255];

/// A random image that a load accepts: every flag that a load lets pass, and sometimes bytes after the data.
pub fn random_valid(random: &mut Random, mapper: u8) -> Image {
    let wide = random.once_in(150);
    let prg = if wide && mapper != 0 && mapper != 3 { random.pick(&WIDE) } else { random.pick(prg_counts(mapper)) };
    let chr = if wide { random.pick(&WIDE) } else { random.pick(chr_counts(mapper)) };
    let mut header = header(mapper, prg, chr, random.byte() & 0b0011);
    header[7] |= random.byte() & 0x0f;
    for byte in &mut header[8..] {
        *byte = random.byte();
    }
    let extra = if random.once_in(4) { 1 + random.below(600) } else { 0 };
    Image::new(header, needed(&header) + extra, Fill::Random(random.next()))
}
