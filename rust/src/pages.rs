//! Where the bytes behind a board's addresses are, page by page.
//!
//! Every window of every board is whole pages, so one number for a page says where all of its bytes are, and
//! it holds until a write moves a bank, or locks or unlocks PRG RAM. The library says these numbers. A board
//! keeps them, and then reads and stores bytes without a call.

use alloc::boxed::Box;
use core::array;
use core::ops::Range;
use core::sync::atomic::{AtomicU32, Ordering};

use crate::board::RAM_LENGTH;
use crate::ffi;
use crate::refusal::{accepted, foreign, Refusal};

/// The count of pages in a board's addresses.
pub const PAGES: usize = 64;

/// The length of a page, in bytes.
pub const PAGE_LENGTH: usize = 1_024;

/// Where the bytes of a page are, or what a call at its addresses comes to.
///
/// The byte at an address of the page is `address % 1024` bytes after the place.
/// [`Board::read_pages`](crate::Board::read_pages) and [`Board::write_pages`](crate::Board::write_pages)
/// give the pages of a board.
#[derive(Clone, Copy, Debug, PartialEq, Eq, Hash)]
pub enum Page {
    /// From this place of the image on, header included. For reads only.
    Image(usize),
    /// From this place of PRG RAM on.
    PrgRam(usize),
    /// From this place of CHR RAM on.
    ChrRam(usize),
    /// A read answers 0; a write does nothing.
    Nowhere,
    /// The call is refused with this.
    Refused(Refusal),
    /// A register may change. For writes only.
    Call,
}

const OFFSET_BITS: u32 = 28;
const OFFSETS: u32 = (1 << OFFSET_BITS) - 1;

impl Page {
    /// The page of a number of the library's, whose kind stands above its offset.
    fn of(number: u32) -> Page {
        let offset = number & OFFSETS;
        match number >> OFFSET_BITS {
            0 => Page::Image(offset as usize),
            1 => Page::PrgRam(offset as usize),
            2 => Page::ChrRam(offset as usize),
            3 => Page::Nowhere,
            4 => Page::Refused(refusal(offset).unwrap_or_else(|| foreign(number))),
            5 => Page::Call,
            _ => foreign(number),
        }
    }
}

fn refusal(number: u32) -> Option<Refusal> {
    u16::try_from(number).ok().and_then(Refusal::from_number)
}

/// All pages of a state: those that are read, and those that are written.
pub(crate) fn all(state: &[u8]) -> Result<([Page; PAGES], [Page; PAGES]), Refusal> {
    let (mut reads, mut writes) = ([0; PAGES], [0; PAGES]);
    accepted(ffi::pages(state, 0, &mut reads, &mut writes))?;
    Ok((reads.map(Page::of), writes.map(Page::of)))
}

/// Which pages a write may have moved; [`Board::write_moved`](crate::Board::write_moved) says it.
///
/// A part has moved where a register that it hangs on holds another value than before. A page of it may
/// still be where it was. Pages 8 to 23, the addresses 2000-5FFF, never move.
#[derive(Clone, Copy, Debug, Default, PartialEq, Eq, Hash)]
pub struct Moved {
    /// Pages 0 to 7, the addresses 0000-1FFF, for reads and for writes.
    pub chr: bool,
    /// Pages 32 to 63, the addresses 8000-FFFF, for reads. Its write pages never move.
    pub prg: bool,
    /// Pages 24 to 31, the addresses 6000-7FFF, for reads and for writes: PRG RAM, which only MMC3 in board mode
    /// locks and unlocks.
    pub ram: bool,
}

const CHR_MOVED: u32 = 1 << 16;
const PRG_MOVED: u32 = 1 << 17;
const RAM_MOVED: u32 = 1 << 18;

impl Moved {
    /// Of a write's answer, whose lower 16 bits are the plain write's.
    pub(crate) fn of(answer: u32) -> Moved {
        if answer >= 2 * RAM_MOVED {
            foreign(answer);
        }
        Moved {
            chr: answer & CHR_MOVED != 0,
            prg: answer & PRG_MOVED != 0,
            ram: answer & RAM_MOVED != 0,
        }
    }
}

const PRG_RAM: usize = 0;
const CHR_RAM: usize = PRG_RAM + RAM_LENGTH;
/// A page that stays zeros: with it a read of nowhere is a read as any other.
const ZEROS: usize = CHR_RAM + RAM_LENGTH;
/// A page that is never read: with it a write to nowhere is a store as any other.
const SINK: usize = ZEROS + PAGE_LENGTH;
const MEMORY_LENGTH: usize = SINK + PAGE_LENGTH;

/// Both RAMs of a board, and what stands for nowhere.
#[derive(Clone)]
pub(crate) struct Memory(Box<[u8; MEMORY_LENGTH]>);

impl Memory {
    pub(crate) fn cleared() -> Memory {
        Memory(Box::new([0; MEMORY_LENGTH]))
    }

    pub(crate) fn prg_ram(&self) -> &[u8; RAM_LENGTH] {
        ram(&self.0[PRG_RAM..CHR_RAM])
    }

    pub(crate) fn chr_ram(&self) -> &[u8; RAM_LENGTH] {
        ram(&self.0[CHR_RAM..ZEROS])
    }

    /// PRG RAM and CHR RAM.
    pub(crate) fn rams_mut(&mut self) -> (&mut [u8; RAM_LENGTH], &mut [u8; RAM_LENGTH]) {
        let (prg_ram, chr_ram) = self.0[PRG_RAM..ZEROS].split_at_mut(RAM_LENGTH);
        (ram_mut(prg_ram), ram_mut(chr_ram))
    }
}

fn ram(bytes: &[u8]) -> &[u8; RAM_LENGTH] {
    bytes.try_into().expect("a RAM's length")
}

fn ram_mut(bytes: &mut [u8]) -> &mut [u8; RAM_LENGTH] {
    bytes.try_into().expect("a RAM's length")
}

/// Beside a place in the memory; without it the place is in the image.
const IN_MEMORY: u32 = 1 << OFFSET_BITS;
/// Places past the memory, where a look finds nothing: the call is to be made, or the page is to be learnt.
const CALL: u32 = MEMORY_LENGTH as u32;
const UNKNOWN: u32 = CALL + 1;

/// The pages as places, of which a board learns those that it uses, eight at once.
pub(crate) struct PageMap {
    // Atomic, since a read, which takes `&self`, may be the first of its pages. The state stays while the board
    // is shared, so threads that learn the same at once store the same numbers, and no order matters.
    reads: [AtomicU32; PAGES],
    writes: [u32; PAGES],
}

impl PageMap {
    pub(crate) fn unknown() -> PageMap {
        PageMap {
            reads: array::from_fn(|_| AtomicU32::new(IN_MEMORY | UNKNOWN)),
            writes: [UNKNOWN; PAGES],
        }
    }

    /// The byte at an address, unless the page is unknown or the call has to be made.
    #[inline]
    pub(crate) fn read(&self, image: &[u8], memory: &Memory, address: u16) -> Option<u8> {
        let place = self.reads[page_of(address)].load(Ordering::Relaxed);
        // A choice of one of two slices, not of two loads: pages change too often for a branch to be foreseen.
        let bytes = if place & IN_MEMORY == 0 {
            image
        } else {
            &memory.0[..]
        };
        bytes
            .get((place & OFFSETS) as usize + within_page(address))
            .copied()
    }

    /// Stores a byte; false, and nothing has happened, where the page is unknown or the call has to be made.
    #[inline]
    pub(crate) fn try_store(&self, memory: &mut Memory, address: u16, value: u8) -> bool {
        let place = self.writes[page_of(address)] as usize + within_page(address);
        match memory.0.get_mut(place) {
            Some(byte) => {
                *byte = value;
                true
            }
            None => false,
        }
    }

    /// Learns where the pages about an address are read; false where that was known, or cannot be.
    pub(crate) fn learn_reads(&self, state: &[u8], address: u16) -> bool {
        if self.reads[page_of(address)].load(Ordering::Relaxed) != IN_MEMORY | UNKNOWN {
            return false;
        }
        let (pages, mut numbers) = (learnt_with(address), [0; 8]);
        if accepted(ffi::pages(state, pages.start as u8, &mut numbers, &mut [])).is_err() {
            return false;
        }
        for (place, number) in self.reads[pages].iter().zip(&numbers) {
            place.store(read_place(Page::of(*number)), Ordering::Relaxed);
        }
        true
    }

    /// Learns where the pages about an address are written; false where that was known, or cannot be.
    pub(crate) fn learn_writes(&mut self, state: &[u8], address: u16) -> bool {
        if self.writes[page_of(address)] != UNKNOWN {
            return false;
        }
        let (pages, mut numbers) = (learnt_with(address), [0; 8]);
        if accepted(ffi::pages(state, pages.start as u8, &mut [], &mut numbers)).is_err() {
            return false;
        }
        for (place, number) in self.writes[pages].iter_mut().zip(&numbers) {
            *place = write_place(Page::of(*number));
        }
        true
    }

    /// What has moved is unknown.
    pub(crate) fn forget(&mut self, moved: Moved) {
        if moved.chr {
            self.forget_both(CHR_PAGES);
        }
        if moved.prg {
            self.forget_reads(PRG_PAGES);
        }
        if moved.ram {
            self.forget_both(RAM_PAGES);
        }
    }

    fn forget_both(&mut self, part: Range<usize>) {
        self.writes[part.clone()].fill(UNKNOWN);
        self.forget_reads(part);
    }

    fn forget_reads(&mut self, part: Range<usize>) {
        for place in &mut self.reads[part] {
            *place.get_mut() = IN_MEMORY | UNKNOWN;
        }
    }
}

impl Clone for PageMap {
    fn clone(&self) -> PageMap {
        let place = |page: usize| self.reads[page].load(Ordering::Relaxed);
        PageMap {
            reads: array::from_fn(|page| AtomicU32::new(place(page))),
            writes: self.writes,
        }
    }
}

const CHR_PAGES: Range<usize> = 0..8;
const RAM_PAGES: Range<usize> = 24..32;
const PRG_PAGES: Range<usize> = 32..PAGES;

/// The pages that are learnt at once: the eight that hold this address. To learn all that a write may have moved
/// would take longer where banks move often, to learn one by one where they stay.
fn learnt_with(address: u16) -> Range<usize> {
    let first = page_of(address) / 8 * 8;
    first..first + 8
}

#[inline]
fn page_of(address: u16) -> usize {
    usize::from(address) / PAGE_LENGTH
}

#[inline]
fn within_page(address: u16) -> usize {
    usize::from(address) % PAGE_LENGTH
}

fn read_place(page: Page) -> u32 {
    match page {
        Page::Image(offset) => offset as u32,
        Page::PrgRam(offset) => IN_MEMORY | (PRG_RAM + offset) as u32,
        Page::ChrRam(offset) => IN_MEMORY | (CHR_RAM + offset) as u32,
        Page::Nowhere => IN_MEMORY | ZEROS as u32,
        Page::Refused(_) | Page::Call => IN_MEMORY | CALL,
    }
}

fn write_place(page: Page) -> u32 {
    match page {
        Page::PrgRam(offset) => (PRG_RAM + offset) as u32,
        Page::ChrRam(offset) => (CHR_RAM + offset) as u32,
        Page::Nowhere => SINK as u32,
        Page::Image(_) | Page::Refused(_) | Page::Call => CALL,
    }
}

#[cfg(test)]
mod tests {
    use super::*;
    use crate::{Board, Mode};
    use alloc::vec::Vec;

    #[test]
    fn a_number_is_its_page() {
        for (number, page) in [
            (0x0000_0010, Page::Image(16)),
            (0x0FFF_FFFF, Page::Image(0x0FFF_FFFF)),
            (0x1000_1C00, Page::PrgRam(0x1C00)),
            (0x2000_0400, Page::ChrRam(0x400)),
            (0x3000_0000, Page::Nowhere),
            (0x4000_000C, Page::Refused(Refusal::NoChrRam)),
            (0x5000_0000, Page::Call),
        ] {
            assert_eq!(Page::of(number), page);
        }
    }

    #[test]
    #[should_panic(expected = "it is another one")]
    fn no_other_kind() {
        Page::of(0x6000_0000);
    }

    #[test]
    #[should_panic(expected = "it is another one")]
    fn no_other_refusal() {
        Page::of(0x4001_000C);
    }

    #[test]
    fn what_has_moved_stands_above_the_answer() {
        let moved = |chr, prg, ram| Moved { chr, prg, ram };
        assert_eq!(Moved::of(0x0FFFF), moved(false, false, false));
        assert_eq!(Moved::of(0x10056), moved(true, false, false));
        assert_eq!(Moved::of(0x20000), moved(false, true, false));
        assert_eq!(Moved::of(0x30000), moved(true, true, false));
        assert_eq!(Moved::of(0x40000), moved(false, false, true));
        assert_eq!(Moved::of(0x70000), moved(true, true, true));
    }

    #[test]
    #[should_panic(expected = "it is another one")]
    fn nothing_else_moves() {
        Moved::of(0x80000);
    }

    /// What must not be read or stored directly is past the memory, at every address of its page.
    #[test]
    fn the_marks_are_past_the_memory() {
        let mut memory = Memory::cleared();
        for mark in [CALL, UNKNOWN] {
            let map = PageMap {
                reads: array::from_fn(|_| AtomicU32::new(IN_MEMORY | mark)),
                writes: [mark; PAGES],
            };
            for address in 0..=0xFFFF {
                assert_eq!(map.read(&[1; 16], &memory, address), None);
                assert!(!map.try_store(&mut memory, address, 1));
            }
        }
        assert!(memory.0.iter().all(|&byte| byte == 0));
    }

    /// A state that is none teaches nothing.
    #[test]
    fn nothing_is_learnt_of_a_state_that_is_none() {
        let mut map = PageMap::unknown();
        let mut memory = Memory::cleared();
        for address in [0x0000, 0x2000, 0x8000] {
            assert!(!map.learn_reads(&[0xFF; 40], address));
            assert!(!map.learn_writes(&[0xFF; 40], address));
            assert_eq!(map.read(&[1; 16], &memory, address), None);
            assert!(!map.try_store(&mut memory, address, 1));
        }
    }

    /// Eight pages are learnt at once and are known from then on.
    #[test]
    fn eight_pages_are_learnt_at_once() {
        let state = board(0x40, 2, 1, Mode::Board).state();
        let mut map = PageMap::unknown();
        for address in (0..=0xFFFF).step_by(PAGE_LENGTH) {
            let first_of_eight = address % 0x2000 == 0;
            assert_eq!(map.learn_reads(&state, address + 0x3FF), first_of_eight);
            assert_eq!(map.learn_writes(&state, address + 0x3FF), first_of_eight);
        }
    }

    /// The pages of reads and of writes that have yet to be learnt.
    fn unknown(map: &PageMap) -> (Vec<usize>, Vec<usize>) {
        let read = |page: &usize| map.reads[*page].load(Ordering::Relaxed);
        let reads = (0..PAGES).filter(|page| read(page) == IN_MEMORY | UNKNOWN);
        let writes = (0..PAGES).filter(|page| map.writes[*page] == UNKNOWN);
        (reads.collect(), writes.collect())
    }

    /// A page is known until its part has moved; what is unknown is learnt again.
    #[test]
    fn just_what_has_moved_is_forgotten() {
        let state = board(0x40, 2, 1, Mode::Board).state();
        let mut map = PageMap::unknown();
        let mut forgotten = |chr, prg, ram| {
            for address in (0..=0xFFFF).step_by(PAGE_LENGTH) {
                map.learn_reads(&state, address);
                map.learn_writes(&state, address);
            }
            assert_eq!(unknown(&map), (Vec::new(), Vec::new()));
            map.forget(Moved { chr, prg, ram });
            unknown(&map)
        };
        let pages = |part: Range<usize>| part.collect::<Vec<usize>>();
        assert_eq!(forgotten(true, false, false), (pages(0..8), pages(0..8)));
        assert_eq!(forgotten(false, true, false), (pages(32..64), pages(0..0)));
        assert_eq!(
            forgotten(false, false, true),
            (pages(24..32), pages(24..32))
        );
        assert_eq!(forgotten(false, false, false), (pages(0..0), pages(0..0)));
    }

    fn board(byte6: u8, prg: u8, chr: u8, mode: Mode) -> Board {
        let mut image = [0x4E, 0x45, 0x53, 0x1A, prg, chr, byte6].to_vec();
        image.resize(16, 0);
        let length = usize::from(prg) * 16_384 + usize::from(chr) * 8_192;
        image.extend((0..length).map(|place| (place / 1_024 * 7 + place * 31 + 1) as u8));
        Board::load(image, mode).expect("a good image")
    }

    fn numbers(seed: u64) -> impl FnMut() -> u64 {
        let mut number = seed;
        move || {
            number = number
                .wrapping_mul(6_364_136_223_846_793_005)
                .wrapping_add(1_442_695_040_888_963_407);
            number >> 33
        }
    }

    /// The write of a board beside the library's plain write of copies of all that it holds.
    fn write_both(board: &mut Board, address: u16, value: u8) {
        let (mut state, mut prg_ram, mut chr_ram) =
            (board.state(), *board.prg_ram(), *board.chr_ram());
        let image = board.image();
        let plain = ffi::write(
            &mut state,
            image,
            &mut prg_ram,
            &mut chr_ram,
            address,
            value,
        );
        let wanted = accepted(plain).map(|letter| (letter > 0).then(|| char::from(letter)));
        let notice = board.write(address, value);
        assert_eq!(notice.map(|notice| notice.map(|it| it.letter())), wanted);
        assert_eq!(board.state(), state);
        assert!(board.prg_ram() == &prg_ram && board.chr_ram() == &chr_ram);
    }

    /// Through the pages the same as by the calls that judge all that they are lent.
    #[test]
    fn pages_and_calls_agree() {
        let mut next = numbers(5);
        for (byte6, prg, chr) in [
            (0x00, 1, 0),
            (0x10, 2, 0),
            (0x11, 4, 2),
            (0x20, 2, 0),
            (0x30, 1, 1),
            (0x31, 2, 0),
            (0x40, 2, 0),
            (0x41, 8, 4),
        ] {
            for mode in [Mode::House, Mode::Board] {
                let mut board = board(byte6, prg, chr, mode);
                for _ in 0..300 {
                    let high_half = (next() as u16 & 0x4000) << 1;
                    write_both(&mut board, next() as u16 | high_half, next() as u8 & 0xC7);
                    let within = next() as u16;
                    let wanted = of_each_page(within, |at| board.read_by_call(at));
                    assert_eq!(of_each_page(within, |at| board.read(at)), wanted);
                }
            }
        }
    }

    /// An address at the ends of PRG RAM or within it, one of MMC3's marks for it, one of CHR RAM, or any.
    fn near_the_ram(number: u64) -> u16 {
        let any = (number >> 3) as u16;
        match number % 8 {
            0 | 1 => [0x5FFF, 0x6000, 0x7FFF, 0x8000][usize::from(any) % 4],
            2 | 3 => 0x6000 + any % 0x2000,
            4 | 5 => 0xA000 + any % 0x2000,
            6 => any % 0x2000,
            _ => any,
        }
    }

    /// The same from states with any marks, over locks and unlocks.
    #[test]
    fn pages_and_calls_agree_about_locked_ram() {
        let mut next = numbers(6);
        for marks in 0..4 {
            let fresh = board(0x40, 2, 0, Mode::Board);
            let mut state = fresh.state();
            state[35] = marks; // nothing else is kept in this byte
            let ram = [0x2A; RAM_LENGTH];
            let mut board =
                Board::from_parts(fresh.into_image(), Mode::Board, &state, &ram, &ram).unwrap();
            for _ in 0..2_000 {
                let at = near_the_ram(next());
                assert_eq!(board.read(at), board.read_by_call(at), "{at:04X}");
                write_both(&mut board, near_the_ram(next()), next() as u8);
            }
        }
    }

    /// The answer at one address of each page.
    fn of_each_page<T>(within: u16, answer: impl Fn(u16) -> T) -> Vec<T> {
        (0..PAGES as u16)
            .map(|page| answer(page * 1_024 + within % 1_024))
            .collect()
    }
}
