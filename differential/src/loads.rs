//! Loads and headers of every kind of image, most of them refused.

use biekkarul::{Digit, Digits, DIGITS};

use crate::compare::{Fault, Mismatch};
use crate::events::{Answer, REFUSED};
use crate::images::{self, Bytes, Image, HEADER, MAGIC, PRG_BLOCK};
use crate::original::{self, Facts, NoBoard, Original};
use crate::ours::{self, Ours, HOUSE};
use crate::sabotage::Sabotage;
use crate::tally::Tally;

/// What the buffers hold before a load: a refused one must leave it, an accepted one must not.
const JUNK: u8 = 0xa5;

/// The paper's answer to a house load, with lent buffers of the right lengths.
pub fn by_the_paper(image: &[u8]) -> Answer {
    if image.len() < HEADER + PRG_BLOCK || image[..4] != MAGIC {
        return REFUSED + 3;
    }
    let header: [u8; HEADER] = image[..HEADER].try_into().expect("sixteen bytes");
    let mapper = images::mapper(&header);
    let prg = header[4];
    if mapper > 4 {
        REFUSED + 4
    } else if header[6] & 0b1100 != 0 {
        REFUSED + 5
    } else if prg == 0 || prg > 2 && (mapper == 0 || mapper == 3) {
        REFUSED + 6
    } else if image.len() < images::needed(&header) {
        REFUSED + 7
    } else {
        0
    }
}

/// What the state holds after an accepted house load.
fn start_digits(header: &[u8; HEADER], length: usize) -> [u64; DIGITS] {
    let mapper = images::mapper(header);
    let mirroring = u64::from(header[6] & 1);
    let mut digits = [0; DIGITS];
    let mut set = |digit: Digit, value: u64| digits[digit as usize] = value;
    set(Digit::Version, 1);
    set(Digit::Mapper, mapper.into());
    set(Digit::Mode, HOUSE.into());
    set(Digit::Nes2, u64::from(header[7] & 0x0c == 0x08));
    set(Digit::HeaderMirroring, mirroring);
    set(Digit::Mirroring, mirroring);
    set(Digit::PrgRam, 1);
    set(Digit::PrgCount, header[4].into());
    set(Digit::ChrCount, header[5].into());
    set(Digit::ImageLength, length as u64);
    set(Digit::Mmc1PrgMode, if mapper == 1 { 3 } else { 0 });
    set(Digit::RamEnabled, 1);
    digits
}

/// A load on both sides.
pub fn compare_load(bytes: &Bytes, sabotage: Sabotage, tally: &mut Tally) -> Result<(), Mismatch> {
    let mut ours = Ours::new(sabotage);
    ours.state.fill(JUNK);
    ours.prg_ram.fill(JUNK);
    ours.chr_ram.fill(JUNK);
    let answer = ours.load(bytes);
    tally.count_load(answer);
    let expected = by_the_paper(bytes.get());
    if answer != expected {
        return Err(Fault::Load.found(format!("the load answers {answer}, by the paper {expected}")));
    }
    if answer == 0 { check_accepted(bytes, &ours) } else { check_refused(bytes, answer - REFUSED, &ours) }
        .map_err(|what| Fault::Load.found(what))
}

fn check_accepted(bytes: &Bytes, ours: &Ours) -> Result<(), String> {
    let header: [u8; HEADER] = bytes.get()[..HEADER].try_into().expect("sixteen bytes");
    let digits = Digits::of(&ours.state).map_err(|_| format!("the load leaves no state: {:02x?}", ours.state))?;
    if *digits.all() != start_digits(&header, bytes.get().len()) {
        return Err(format!("the state after the load holds {digits:?}"));
    }
    if ours.prg_ram.iter().chain(ours.chr_ram.iter()).any(|&byte| byte != 0) {
        return Err("a RAM is not all zeros after the load".into());
    }
    let wanted = Facts {
        mapper: digits[Digit::Mapper] as u8,
        mirroring: digits[Digit::HeaderMirroring] as u8,
        nes2: digits[Digit::Nes2] == 1,
        prg_length: digits[Digit::PrgCount] as usize * 16_384,
        chr_length: digits[Digit::ChrCount].max(1) as usize * 8_192,
    };
    let facts = original::facts(bytes);
    if facts.as_ref() != Some(&wanted) {
        return Err(format!("our state says {wanted:?}, the original {facts:?}"));
    }
    Original::load(bytes).map(|_| ()).map_err(|error| format!("we load it, the original does not: {error:?}"))
}

fn check_refused(bytes: &Bytes, number: Answer, ours: &Ours) -> Result<(), String> {
    let rams = ours.prg_ram.iter().chain(ours.chr_ram.iter());
    if rams.chain(&ours.state).any(|&byte| byte != JUNK) {
        return Err(format!("a buffer is not as before after refusal {number} of the load"));
    }
    let outcome = Original::load(bytes);
    match (number, outcome) {
        (3..=5, Err(NoBoard::Error(theirs))) if theirs == REFUSED + number => Ok(()),
        (6 | 7, Err(NoBoard::PanickedAtConstruction)) if panics_at_construction(bytes.get()) => Ok(()),
        (6 | 7, Ok(board)) if !panics_at_construction(bytes.get()) => panics_at_reads(bytes.get(), &board),
        (_, Ok(_)) => Err(format!("we refuse the load with {number}, the original makes a board")),
        (_, Err(error)) => Err(format!("we refuse the load with {number}, the original: {error:?}")),
    }
}

/// For 6 and 7: every board takes its PRG data at construction, and two boards look at its size.
fn panics_at_construction(image: &[u8]) -> bool {
    let mapper = image[7] & 0xf0 | image[6] >> 4;
    let prg = usize::from(image[4]);
    let wrong_size = matches!(mapper, 0 | 3) && !matches!(prg, 1 | 2);
    wrong_size || HEADER + prg * PRG_BLOCK > image.len()
}

/// For 6 and 7 on a board that the original makes: without PRG every PRG read panics, with CHR cut short every PPU
/// read. The other calls are served; they have no counterpart, since we refuse the image at the load.
fn panics_at_reads(image: &[u8], board: &Original) -> Result<(), String> {
    let header: [u8; HEADER] = image[..HEADER].try_into().expect("sixteen bytes");
    let without_prg = header[4] == 0;
    let chr_cut = images::needed(&header) > image.len();
    let prg_reads = [0x8000, 0x9fff, 0xa000, 0xbfff, 0xc000, 0xdfff, 0xe000, 0xffff];
    let ppu_reads = [0x0000, 0x03ff, 0x0fff, 0x1000, 0x17ff, 0x1fff];
    for address in prg_reads.into_iter().filter(|_| without_prg).chain(ppu_reads.into_iter().filter(|_| chr_cut)) {
        if board.read(address) < REFUSED {
            return Err(format!("we refuse the load, the original answers a read of {address:04X}"));
        }
    }
    Ok(())
}

/// The header reader on both sides.
pub fn compare_header(image: &[u8], sabotage: Sabotage, tally: &mut Tally) -> Result<(), Mismatch> {
    tally.headers += 1;
    let (ours, theirs) = (ours::header(image, sabotage), original::read_header(image));
    let ours = ours.map(|fields| (header_text(&fields), data_size(&fields)));
    if ours == theirs {
        return Ok(());
    }
    Err(Fault::Header.found(format!("the header reader; ours: {ours:?}, the original: {theirs:?}")))
}

/// Bytes 4 to 15 as the debug text of the original's header shows them.
fn header_text(fields: &[u8; 12]) -> String {
    let names = ["prg_rom_blocks", "chr_rom_blocks", "flags6", "flags7", "flags8", "flags9", "flags10"];
    let named: Vec<String> = names.iter().zip(fields).map(|(name, byte)| format!("{name}: {byte}")).collect();
    format!("Header {{ magic: {MAGIC:?}, {}, padding: {:?} }}", named.join(", "), &fields[7..])
}

fn data_size(fields: &[u8; 12]) -> usize {
    usize::from(fields[0]) * 16_384 + usize::from(fields[1]) * 8_192
}

/// One image: the header reader, then the load.
pub fn compare_image(image: &Image, sabotage: Sabotage, tally: &mut Tally) -> Result<(), Mismatch> {
    compare_header(image.bytes.get(), sabotage, tally)?;
    compare_load(&image.bytes, sabotage, tally)
}
